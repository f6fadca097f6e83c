#!/usr/bin/env python3
"""Lists the places that docs/DESIGN-PASS.md counts, in the sources below a folder: places.py [FOLDER] [POINT].

A place is only one to look at. What became of each is on that page."""
import glob
import os
import re
import sys
from collections import defaultdict

WORDS = {'fn', 'let', 'mut', 'for', 'in', 'if', 'else', 'match', 'return', 'self', 'Self', 'true', 'false', 'as', 'Ok', 'Err', 'Some', 'None'}


class Function:
    def __init__(self, path, line, name, parameters, clauses, body):
        self.path, self.line, self.name = path, line, name
        self.parameters, self.clauses, self.body = parameters, clauses, body

    def place(self):
        return f'{self.path}:{self.line} {self.name}'


def read(path):
    with open(path, encoding='utf-8') as file:
        return file.read()


def plain(text):
    """Without comments and contents of strings, at the same length."""
    blank = lambda m: re.sub(r'[^\n]', ' ', m[0])
    text = re.sub(r'//[^\n]*', blank, text)
    return re.sub(r'"(\\.|[^"\\])*"', blank, text)


def closing(text, at):
    """Where the bracket at a place is closed."""
    depth = 0
    for i in range(at, len(text)):
        depth += text[i] in '([{'
        depth -= text[i] in ')]}'
        if depth == 0:
            return i
    return len(text)


def functions(path):
    text = plain(read(path))
    for m in re.finditer(r'\bfn (\w+)', text):
        opening = text.find('(', m.end())
        angle = text.find('<', m.end(), opening)
        while angle >= 0 and text[m.end():angle].strip() == '':
            # the parameters of types may have brackets of their own
            depth, i = 0, angle
            while True:
                depth += text[i] == '<'
                depth -= text[i] == '>' and text[i - 1] != '-'
                i += 1
                if depth == 0:
                    break
            opening = text.find('(', i)
            angle = -1
        end = closing(text, opening)
        parameters = text[opening + 1:end]
        at, clauses = end + 1, ''
        while at < len(text) and text[at] not in ';{':
            clause = re.match(r'\s*(requires|ensures)\b[^{]*', text[at:])
            if clause:
                start = at + clause.end()
                stop = closing(text, start)
                clauses += text[at:stop + 1]
                at = stop + 1
            else:
                at += 1
        body = text[at:closing(text, at) + 1] if at < len(text) and text[at] == '{' else ''
        yield Function(path, text.count('\n', 0, m.start()) + 1, m[1], parameters, clauses, body)


def split(parameters):
    parts, depth, part = [], 0, ''
    for c in parameters:
        depth += c in '([<'
        depth -= c in ')]>'
        if c == ',' and depth == 0:
            parts.append(part)
            part = ''
        else:
            part += c
    parts.append(part)
    return [re.sub(r'\s+', ' ', p).strip() for p in parts if p.strip() and 'self' not in p]


def matches(paths, pattern):
    found = []
    for path in paths:
        for number, line in enumerate(plain(read(path)).split('\n'), 1):
            if re.search(pattern, line) and '≡' not in line:
                found.append(f'{path}:{number} {line.strip()}')
    return found


def shape(function):
    """The body with its own names, numbers and fields taken out."""
    words = re.findall(r"[A-Za-z_]\w*|\d\w*|[^\s\w]", function.body)
    return ' '.join(w if w in WORDS or not re.match(r'\w', w) else '_' for w in words)


def twins(paths):
    same = defaultdict(list)
    for path in paths:
        for function in functions(path):
            form = shape(function)
            if len(form.split()) >= 24:
                same[form].append(function)
    return [' ~ '.join(f.place() for f in group) for group in same.values() if len(group) > 1]


def loops(paths):
    """Loops over a range in which the index reaches into a slice, and loops that are no `for`."""
    found = matches(paths, r'^\s*(while|loop)\b')
    for path in paths:
        text = plain(read(path))
        for m in re.finditer(r'\bfor (\w+) in ([^\n{]*\.\.[^\n{]*)\{', text):
            body = text[m.end() - 1:closing(text, m.end() - 1)]
            if re.search(r'\[[^\];]*\b' + m[1] + r'\b', body):
                found.append(f'{path}:{text.count(chr(10), 0, m.start()) + 1} {m[0].strip()}')
    return found


def ranges(paths):
    return matches(paths, r'^\s*for \w+ in [^{]*\.\.')


def facts(paths):
    same = defaultdict(list)
    for path in paths:
        for function in functions(path):
            for clause in re.findall(r'requires\b[^{]*(\{.*\})', function.clauses):
                same[clause].append(function.place())
    return [f'{len(places)} times {fact}' for fact, places in same.items() if len(places) > 2]


def pairs(paths):
    """Parameters of three functions or more of which one never comes without the other."""
    each, both = defaultdict(set), defaultdict(set)
    for path in paths:
        for function in functions(path):
            parts = split(function.parameters)
            for i, one in enumerate(parts):
                each[one].add(function.place())
                for other in parts[i + 1:]:
                    both[one, other].add(function.place())
    return [f'{len(places)} times {one}, {other}' for (one, other), places in both.items()
            if len(places) > 2 and len(places) == min(len(each[one]), len(each[other]))]


def proofs(folder):
    paths = glob.glob(f'{folder}/crates/*/proofs/**/*.antt', recursive=True)
    answers = [p for p in paths if os.path.basename(p) == 'Answers.antt']
    lines = sum(read(p).count('\n') for p in paths)
    return [f'{lines} lines, {len(answers)} files of answers']


def main():
    folder = sys.argv[1] if len(sys.argv) > 1 else '.'
    paths = sorted(glob.glob(f'{folder}/crates/*/src/**/*.rt', recursive=True))
    code = [p for p in paths if '/examples/' not in p]
    points = {
        '1 enums of its own': matches(paths, r'^\s*(pub(\(crate\))? )?enum '),
        '1 success as a bool': matches(paths, r'fn (read|write)_(hex|bytes|digits)\b.*-> bool'),
        '1 a flag or a number for a kind': matches(paths, r'\b(what|mark|number): u(8|32)\b|\b(wanted|first_half|in_text|stands_are): bool|(stands_are|in_text) =|letter: &str|width == 1'),
        '1 a value made up for None or Err': matches(paths, r'(None|Err\(_\)) => (X::zero\(\)|0|false|true|\[0; 12\]|unreachable\(\))|^\s*unreachable\(\)$'),
        '2 bodies of one shape': twins(paths),
        '3 an index that reaches into a slice': loops(paths),
        '3 ranges in all': ranges(paths),
        '4 equality, conversion and printing by hand': matches(paths, r'\bfn (same|eq|cmp|fmt)\b|\* (256|65536|16777216)|/ (256|65536|16777216)|unwrap_or\(|byte == b|b == b.P'),
        '5 a fact in three contracts or more': facts(paths),
        '5 two parameters in three functions or more': pairs(paths),
        '6 an array of fixed size': matches(code, r'\[[^\[\];]*; ?\d+\]'),
        '6 a place in a slice beside it': matches(paths, r'\b(start|from|at|offset|size): usize'),
        '7 a switch on a step': matches(paths, r'match (call|what|letter|self\.what)\b'),
        '8 proofs': proofs(folder),
    }
    for point, found in points.items():
        if len(sys.argv) < 3:
            print(f'{len(found):4} {point}')
        elif point.startswith(sys.argv[2]):
            print(f'{point}: {len(found)}')
            for place in found:
                print('   ', place)


if __name__ == '__main__':
    main()
