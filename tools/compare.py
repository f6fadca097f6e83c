#!/usr/bin/env python3
"""Runs the program rebuild beside tools/reference.py on drawn inputs, and compares what they write, byte by byte.

    tools/compare.py [COUNT [SEED]]      after `rt run < stdin` in crates/rebuild; 5000 inputs of seed 1 if nothing is said

It prints how many inputs there were of each kind, how many answers of each kind, and the number of differences; the
first inputs that differ are left in files. The status is 0 if there is none.
"""
import collections
import pathlib
import random
import subprocess
import sys

import reference

PROGRAM = pathlib.Path(__file__).resolve().parent.parent / "crates/rebuild/out/rebuild"
LIMIT = 61440
ALL = [
    (k, q, p)
    for k in range(4, 13)
    for q in (2, 3, 4)
    for p in reference.PRIMES
    if reference.Shape.refusal(k, q, p) is None
]
SIZE = {numbers: reference.Shape(*numbers).n * reference.Shape(*numbers).rows for numbers in ALL}
FITTING = [numbers for numbers in ALL if SIZE[numbers] * 13 <= LIMIT]
TOO_LARGE = [numbers for numbers in ALL if SIZE[numbers] * 13 > LIMIT]
# small shapes come more often, so that a run is quick
WEIGHTS = [SIZE[numbers] ** -0.5 for numbers in FITTING]


def head(numbers):
    return b"H %02X %02X %02X\n" % tuple(numbers)


def drawn(rng, numbers, founded, lost):
    """An array's text: founded or of any symbols; in lost columns some symbols are spoilt, some not."""
    shape = reference.Shape(*numbers)
    column = lambda: list(rng.randbytes(shape.rows))
    columns = [column() for _ in range(shape.k if founded else shape.n)]
    if founded:
        columns += reference.parities(shape, columns)
    for c in lost:
        if rng.random() < 0.7:
            columns[c - 1] = column()
    return bytearray(reference.text_of(shape, columns, lost, 1).encode())


def some_columns(rng, numbers, least, most):
    n = reference.Shape(*numbers).n
    return set(rng.sample(range(1, n + 1), rng.randint(least, min(most, n))))


def fitting(rng):
    return rng.choices(FITTING, WEIGHTS)[0]


def one_lost(rng):
    numbers = fitting(rng)
    return head(numbers) + drawn(rng, numbers, True, some_columns(rng, numbers, 1, 1))


def several_lost(rng):
    numbers = fitting(rng)
    return head(numbers) + drawn(rng, numbers, True, some_columns(rng, numbers, 2, 4))


def parities_lost(rng):
    """Lost columns that are not each other's helpers."""
    numbers = fitting(rng)
    shape = reference.Shape(*numbers)
    lost = set(rng.sample(range(shape.k + 1, shape.n + 1), rng.randint(1, shape.r)))
    if rng.random() < 0.5:
        f = rng.randint(1, shape.k)
        lost = lost - reference.listed(*numbers, f)[1] | {f}
    return head(numbers) + drawn(rng, numbers, True, lost)


def unfounded(rng):
    numbers = fitting(rng)
    return head(numbers) + drawn(rng, numbers, False, some_columns(rng, numbers, 1, 2))


def none_lost(rng):
    numbers = fitting(rng)
    return head(numbers) + drawn(rng, numbers, rng.random() < 0.5, set())


def bad_head(rng):
    whole = bytearray(one_lost(rng))
    what = rng.randrange(5)
    if what == 0:
        whole[rng.randrange(11)] = rng.randrange(256)
    elif what == 1:
        whole[rng.randrange(11)] = rng.choice(b"hHabcfgGZ@/:0 \t\r\n")
    elif what == 2:
        del whole[rng.randrange(11)]
    elif what == 3:
        whole.insert(rng.randrange(12), rng.choice(b" 0H\n"))
    else:
        del whole[rng.randrange(12) :]
    return bytes(whole)


def other_length(rng):
    numbers = fitting(rng)
    text = drawn(rng, numbers, False, some_columns(rng, numbers, 0, 1))
    what = rng.randrange(4)
    if what == 0:
        del text[rng.randrange(len(text)) :]
    elif what == 1:
        del text[len(text) - 13 :]
    elif what == 2:
        text += rng.choice((b"\n", b"P 01 0000 00\n", b" ", bytes(text[:13])))
    else:
        numbers = fitting(rng)
    return head(numbers) + text


def too_long(rng):
    if rng.random() < 0.5:
        numbers = rng.choice(FITTING)
        return head(numbers) + b"P 01 0000 00\n" * rng.choice((4726, 4727, 4728, 6000)) + b"\n" * rng.randrange(3)
    near = [numbers for numbers in TOO_LARGE if SIZE[numbers] < 9000]
    numbers = rng.choice(near)
    return head(numbers) + drawn(rng, numbers, False, some_columns(rng, numbers, 0, 1))


def bad_byte(rng):
    numbers = fitting(rng)
    text = drawn(rng, numbers, False, some_columns(rng, numbers, 0, 2))
    for _ in range(rng.choice((1, 1, 1, 2))):
        place = rng.randrange(len(text))
        text[place] = rng.choice((rng.randrange(256), ord(chr(text[place]).lower()), *b"PLpl0AFafGg /:@`\n"))
    return head(numbers) + text


def bad_order(rng):
    numbers = fitting(rng)
    text = drawn(rng, numbers, False, some_columns(rng, numbers, 0, 2))
    lines = [text[i : i + 13] for i in range(0, len(text), 13)]
    a, b = rng.randrange(len(lines)), rng.randrange(len(lines))
    if rng.random() < 0.5:
        b = min(a + 1, len(lines) - 1)
    lines[a], lines[b] = lines[b], lines[a]
    return head(numbers) + b"".join(lines)


def bad_mark(rng):
    numbers = fitting(rng)
    text = drawn(rng, numbers, False, some_columns(rng, numbers, 0, 2))
    for _ in range(rng.choice((1, 1, 2, 5))):
        text[13 * rng.randrange(len(text) // 13)] = rng.choice(b"PL")
    return head(numbers) + text


def bad_shape(rng):
    rule = rng.randrange(1, 7)
    numbers = list(fitting(rng))
    if rule == 1:
        numbers[0] = rng.choice((0, 1, 3, 13, 14, 255, rng.randrange(256)))
    elif rule == 2:
        numbers[1] = rng.choice((0, 1, 5, 255, rng.randrange(256)))
    elif rule == 3:
        numbers[2] = rng.choice((0, 1, 2, 4, 6, 7, 9, 17, 23, 100, 102, 107, 255, rng.randrange(256)))
    elif rule == 4:
        numbers[1:] = [4, 3]
    elif rule == 5:
        numbers = [rng.randint(4, 12), rng.randint(2, 4), rng.choice(reference.PRIMES)]
    else:
        numbers = [rng.randrange(256) for _ in range(3)]
    return head(numbers) + (b"" if rng.random() < 0.5 else b"P 01 0000 00\n" * rng.randrange(60))


def noise(rng):
    return rng.randbytes(rng.randrange(40)) if rng.random() < 0.5 else b"H 04 02 03\n" + rng.randbytes(728)


# how often each kind comes
KINDS = {
    one_lost: 8,
    several_lost: 5,
    parities_lost: 6,
    unfounded: 6,
    none_lost: 2,
    bad_head: 5,
    other_length: 4,
    too_long: 2,
    bad_byte: 5,
    bad_order: 3,
    bad_mark: 4,
    bad_shape: 5,
    noise: 1,
}


def kind_of(told):
    last = told.splitlines()[-1].decode()
    return last if last.startswith("E ") or last == "R 00 0000" else "a rebuilt column"


def main(count=5000, seed=1):
    rng = random.Random(seed)
    inputs, answers, different = collections.Counter(), collections.Counter(), 0
    for i in range(count):
        kind = rng.choices(list(KINDS), KINDS.values())[0]
        given = bytes(kind(rng))
        wanted = reference.answer(given)
        run = subprocess.run([PROGRAM], input=given, capture_output=True)
        inputs[kind.__name__] += 1
        answers[kind_of(wanted)] += 1
        if run.stdout != wanted or run.returncode != 0 or run.stderr:
            different += 1
            if different <= 5:
                path = f"/tmp/rebuild-differs-{seed}-{i}"
                pathlib.Path(path).write_bytes(given)
                print(f"input {i} ({kind.__name__}) differs: {path}")
    for name, table in (("inputs", inputs), ("answers", answers)):
        print(f"{name}:")
        for key, times in sorted(table.items()):
            print(f"  {times:6} {key}")
    print(f"{count} inputs of seed {seed}, {different} differences")
    return 1 if different else 0


if __name__ == "__main__":
    sys.exit(main(*map(int, sys.argv[1:])))
