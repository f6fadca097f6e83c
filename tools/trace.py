#!/usr/bin/env python3
"""Runs of calls on an array, worked out independently of the library.

    tools/trace.py < crates/trace/stdin            prints what crates/trace must print
    tools/trace.py draw COUNT CALLS SEED           draws COUNT runs of CALLS calls each, for crates/trace/stdin
    tools/trace.py compare COUNT CALLS SEED        draws such runs, plays them by crates/trace/out/trace and here, and
                                                   compares the answers call by call; after `rt run < stdin` in crates/trace

The rules are those of docs/CODE.md and docs/REFUSALS.md; the lines are told in crates/trace/src/main.rt.
"""
import pathlib
import random
import subprocess
import sys

import reference

PROGRAM = pathlib.Path(__file__).resolve().parent.parent / "crates/trace/out/trace"
SLOTS = 4
WIDTH = {"byte": 1, "stand": 6}


class Refused(Exception):
    def __init__(self, number, a, b=0):
        self.told = f"refused {number} {a} {b}"


class Array:
    def __init__(self, shape, width, seed):
        drawn = reference.Random(seed)
        self.shape, self.width = shape, width
        self.columns = [[drawn.symbol(width) for _ in range(shape.rows)] for _ in range(shape.k)]
        self.columns += [[0] * shape.rows for _ in range(shape.r)]
        self.lost, self.meter = set(), 0
        self.hand = [None] * SLOTS

    def count(self, f):
        return reference.listed(self.shape.k, self.shape.q, self.shape.p, f)[0]

    def check_present(self, columns):
        lost = self.lost & set(columns)
        if lost:
            raise Refused(11, min(lost))

    def check_quote(self, c):
        if not 1 <= c <= self.shape.n:
            raise Refused(10, c)
        if c not in self.lost:
            raise Refused(12, c)
        self.check_present(reference.listed(self.shape.k, self.shape.q, self.shape.p, c)[1])

    def check_place(self, c, row):
        if not (1 <= c <= self.shape.k and row < self.shape.rows):
            raise Refused(10, c, row)
        self.check_present([c])

    def read(self, count):
        self.meter += count
        return f"reads {count}"

    def F(self):
        shape = self.shape
        self.check_present(range(1, shape.k + 1))
        self.columns[shape.k :] = reference.parities(shape, self.columns[: shape.k])
        self.lost -= set(range(shape.k + 1, shape.n + 1))
        return self.read(shape.k * shape.rows)

    def P(self, c, row, digits):
        c, row, symbol, shape = int(c), int(row), int(digits, 16), self.shape
        self.check_place(c, row)
        change = self.columns[c - 1][row] ^ symbol
        self.columns[c - 1][row] = symbol
        reads = 1
        for j in range(1, shape.r + 1):
            if shape.k + j in self.lost:
                continue
            for position in (row, shape.rows + row % shape.t):
                target = (position + shape.shift(j, c)) % shape.ring
                if target < shape.rows:
                    self.columns[shape.k + j - 1][target] ^= change
                    reads += 1
        return self.read(reads)

    def G(self, c, row):
        c, row = int(c), int(row)
        self.check_place(c, row)
        self.meter += 1
        return f"symbol {self.columns[c - 1][row]:0{2 * self.width}X}"

    def L(self, c):
        c = int(c)
        if not 1 <= c <= self.shape.n:
            raise Refused(10, c)
        self.lost.add(c)
        return "lost"

    def Q(self, c, slot):
        c, slot = int(c), int(slot)
        if slot >= SLOTS:
            return "unmade"
        self.check_quote(c)
        self.hand[slot] = (c, self.count(c))
        return f"quoted {c} {self.count(c)}"

    def B(self, slot):
        slot = int(slot)
        if slot >= SLOTS or self.hand[slot] is None:
            return "unmade"
        c, count = self.hand[slot]
        self.check_quote(c)
        if count != self.count(c):
            raise Refused(13, self.count(c))
        self.columns[c - 1] = reference.rebuilt(self.shape, self.columns, c)
        self.lost.remove(c)
        self.hand[slot] = None
        return self.read(count)

    def A(self):
        shape = self.shape
        self.check_present(range(1, shape.n + 1))
        self.read(shape.n * shape.rows)
        right = self.columns[shape.k :] == reference.parities(shape, self.columns[: shape.k])
        return "audit yes" if right else "audit no"

    def question(self):
        return f"lowest {min(self.lost)}" if self.lost else "lowest none"

    def foreign(self, k, q, p, c, slot):
        self.hand[int(slot)] = (int(c), reference.listed(int(k), int(q), int(p), int(c))[0])

    def call(self, text):
        letter, *words = text.split()
        try:
            return {"?": self.question}.get(letter, getattr(self, letter, None))(*words)
        except Refused as refused:
            return refused.told

    def store(self):
        told = ["lost" if c in self.lost else f"{reference.fnv(column, self.width):08X}" for c, column in enumerate(self.columns, 1)]
        return " ".join([f"meter {self.meter}", *told])


def play(line):
    """What is printed of one line of the input."""
    head, *calls = line.strip().split(";")
    kind, _, k, q, p, seed = head.split()
    array = Array(reference.Shape(int(k), int(q), int(p)), WIDTH[kind], int(seed))
    out = [head]
    for call in calls:
        if call.startswith("X "):
            array.foreign(*call.split()[1:])
        else:
            out.append(" " + array.call(call))
    return out + [" " + array.store()]


SHAPES = [(4, 2, 3), (4, 2, 5), (5, 2, 3), (4, 3, 3), (4, 3, 5), (5, 3, 3), (4, 4, 5), (6, 2, 3), (5, 2, 5), (4, 2, 11)]


def drawn_call(rng, array):
    """Mostly calls that are accepted in the array's state, and every way to be refused now and then."""
    shape, width, lost = array.shape, array.width, sorted(array.lost)
    held = [slot for slot, quote in enumerate(array.hand) if quote]
    column = lambda: rng.choice((0, shape.n + 1)) if rng.random() < 0.03 else rng.randint(1, shape.n)
    data = lambda: column() if rng.random() < 0.05 else rng.randint(1, shape.k)
    row = lambda: shape.rows + rng.randint(0, 3) if rng.random() < 0.02 else rng.randrange(shape.rows)
    slot = lambda: SLOTS if rng.random() < 0.03 else rng.randrange(SLOTS)
    kind = rng.choices("FPGLQBA?", (1, 10, 6, 4 if not lost else 0.02, 5 if lost else 1, 6 if held else 0.5, 1, 2))[0]
    if kind == "P":
        return f"P {data()} {row()} {rng.getrandbits(8 * width):0{2 * width}X}"
    if kind == "G":
        return f"G {data()} {row()}"
    if kind == "L":
        return f"L {column()}"
    if kind == "Q":
        return f"Q {rng.choice(lost) if lost and rng.random() < 0.9 else column()} {slot()}"
    if kind == "B":
        return f"B {rng.choice(held) if held and rng.random() < 0.9 else slot()}"
    return kind


def drawn_run(rng, calls):
    numbers = rng.choice(SHAPES)
    shape = reference.Shape(*numbers)
    kind, store = rng.choice(("byte", "stand")), rng.choice(("table", "text"))
    seed = rng.getrandbits(31)
    array = Array(shape, WIDTH[kind], seed)
    line = [f"{kind} {store} {shape.k} {shape.q} {shape.p} {seed}"]
    if rng.random() < 0.5:
        other = rng.choice(SHAPES)
        column, slot = rng.randint(1, reference.Shape(*other).n), rng.randrange(SLOTS)
        line.append(f"X {other[0]} {other[1]} {other[2]} {column} {slot}")
        array.foreign(*other, column, slot)
    for i in range(calls):
        call = "F" if i == 3 else drawn_call(rng, array)
        array.call(call)
        line.append(call)
    return ";".join(line)


def compare(lines):
    given = subprocess.run([PROGRAM], input="\n".join(lines) + "\n", capture_output=True, text=True, check=True).stdout.splitlines()
    wanted = [told for line in lines for told in play(line)]
    differences = sum(a != b for a, b in zip(given, wanted)) + abs(len(given) - len(wanted))
    kinds = {}
    for told in wanted:
        if told.startswith(" ") and not told.startswith(" meter"):
            words = told.split()
            kind = " ".join(words[:2]) if words[0] in ("refused", "audit") else words[0]
            kinds[kind] = kinds.get(kind, 0) + 1
    for kind in sorted(kinds):
        print(f"{kinds[kind]:8} {kind}")
    print(f"{sum(kinds.values())} calls in {len(lines)} runs, {differences} differences")
    return differences


if __name__ == "__main__":
    if len(sys.argv) == 5 and sys.argv[1] in ("draw", "compare"):
        count, calls, seed = map(int, sys.argv[2:])
        rng = random.Random(seed)
        lines = [drawn_run(rng, calls) for _ in range(count)]
        if sys.argv[1] == "draw":
            print("\n".join(lines))
        else:
            sys.exit(1 if compare(lines) else 0)
    elif len(sys.argv) == 1:
        for line in sys.stdin:
            print("\n".join(play(line)))
    else:
        sys.exit(__doc__)
