#!/usr/bin/env python3
"""Respells this repository's own names for today's Rattle: run once, at the top, right after port.py.

Definitions, lemmas and fields are in snake case (`shape-refusal` becomes `shape_refusal`), types and theorems in camel
case (`Writes-parity` becomes `WritesParity`). Names of the library and those that a check makes keep their dashes, and
strings, comments, file names and the functions of src/ keep theirs. OTHER gives the names that would fall together with
another one of the same scope.
"""
import os
import re

# symbol_at is the ring's and a function of src/ too, as class_sum is
OTHER = {
    "symbol-at": "symbol_in_column",
    "symbol-from": "symbol_in_cells",
    "classSum": "class_total",
    "shiftedSum": "shifted_sum",
}
DASHED = r"[A-Za-z][\w']*(?:-[\w']+)+"
NAME = re.compile(rf"(?<![\w'-])(?:classSum|shiftedSum|{DASHED})(?![\w'-])")
DECLARED = re.compile(
    rf"^\s*(?:(?:abbrev|unfoldable|pub|data|record|module)\s+)*({DASHED})\s*(?:\{{[^}}]*\}}|\([^)]*\)|\s)*:(?!\s*goal\.)"
    rf"|^\s*(?:pub\s+)?(?:data|record|module)\s+(?:pub\s+)?({DASHED})",
    re.M,
)
IMPORT = re.compile(r"^(?:ghost )?use .*$", re.M)
ALIAS = re.compile(rf"\bas\s+({DASHED})")
SKIP = {
    ".antt": re.compile(r"--[^\n]*"),
    ".rt": re.compile(r"//[^\n]*|b?\"(?:[^\"\\]|\\.)*\""),
    ".edit": re.compile(r"(?m)^file:.*"),
}


def files():
    for folder, folders, names in os.walk("crates"):
        folders[:] = sorted(name for name in folders if name not in ("out", "data"))
        for name in sorted(names):
            ending = os.path.splitext(name)[1]
            if ending in SKIP:
                path = os.path.join(folder, name)
                with open(path, encoding="utf-8") as file:
                    yield path, ending, file.read()


def own_names():
    own = set(OTHER)
    for _, ending, text in files():
        if ending == ".antt":
            for found in DECLARED.finditer(SKIP[ending].sub("", text)):
                own.add(found[1] or found[2])
        for line in IMPORT.findall(text):
            own.update(ALIAS.findall(line))
    return own


def turned(name):
    if name in OTHER:
        return OTHER[name]
    parts = name.split("-")
    if name[0].isupper():
        return "".join(part[0].upper() + part[1:] for part in parts)
    return "_".join(parts)


def respelled(text, skip, own):
    turn = lambda part: NAME.sub(lambda m: turned(m[0]) if m[0] in own else m[0], part)
    out, at = [], 0
    for kept in skip.finditer(text):
        out += [turn(text[at : kept.start()]), kept[0]]
        at = kept.end()
    return "".join(out) + turn(text[at:])


def main():
    own = own_names()
    for path, ending, old in list(files()):
        new = respelled(old, SKIP[ending], own)
        if new != old:
            with open(path, "w", encoding="utf-8") as file:
                file.write(new)


if __name__ == "__main__":
    main()
