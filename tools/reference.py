#!/usr/bin/env python3
"""The code worked out independently of the library, for stored vectors.

    tools/reference.py vectors < crates/vectors/stdin   prints what crates/vectors must print
    tools/reference.py damages                          prints the damaged texts of crates/vectors/stdin
    tools/reference.py demo                             prints what crates/demo must print
    tools/reference.py sales                            prints what crates/sales must print
    tools/reference.py rebuild < INPUT                  writes what the program rebuild must write (docs/PROGRAM.md)

A symbol is an integer here (stock in the high 16 bits of a stand, cash in the low 32), a column is a list of them, and
sums are exclusive ors. Nothing is shared with the library but the rules in docs/CODE.md.
"""
import functools
import re
import sys

PRIMES = (3, 5, 11, 13, 19, 29, 37, 53, 59, 61, 67, 83, 101)


class Shape:
    def __init__(self, k, q, p):
        self.k, self.q, self.p = k, q, p
        self.r = 2 * q - 1
        self.n = k + self.r
        self.d = k + q - 1
        self.t = q ** (k - 2)
        self.rows = (p - 1) * self.t
        self.ring = p * self.t

    @staticmethod
    def refusal(k, q, p):
        """The number of the first rule that is broken with its text, or None."""
        if not 4 <= k <= 12:
            return f"1: {k} data columns, and 4 to 12 are allowed"
        if not 2 <= q <= 4:
            return f"2: {q} helping parities, and 2 to 4 are allowed"
        if p not in PRIMES:
            return f"3: {p} is not a listed prime"
        if p < q:
            return f"4: the prime {p} is below the helping parities"
        rows = (p - 1) * q ** (k - 2)
        if rows > 4096:
            return f"5: {rows} rows, and 4096 are allowed"
        return None

    def shift(self, j, i):
        if j <= self.q:
            return 0 if i == self.k else (j - 1) * self.q ** (i - 1)
        return 0 if i == 1 else (2 * self.q - j) * self.q ** (self.k - i)


def extended(shape, column):
    """The column on the whole ring: its rows, then one extra symbol for each class."""
    extra = [0] * shape.t
    for row, symbol in enumerate(column):
        extra[row % shape.t] ^= symbol
    return column + extra


def parities(shape, data):
    """The parity columns of the data columns."""
    rings = [extended(shape, column) for column in data]
    columns = []
    for j in range(1, shape.r + 1):
        sums = [0] * shape.ring
        for i, ring in enumerate(rings, start=1):
            a = shape.shift(j, i)
            # position x of the column goes to position x + a of the parity
            for x, symbol in enumerate(ring):
                sums[(x + a) % shape.ring] ^= symbol
        rows = sums[: shape.rows]
        assert extended(shape, rows) == sums, "the extra symbols of a parity are its class sums"
        columns.append(rows)
    return columns


def reading_list(shape, f):
    """The places that a rebuild of column f reads, found from the sums: every stored symbol that a row's sum takes in."""
    if f > shape.k:
        return {(c, row) for c in range(1, shape.k + 1) for row in range(shape.rows)}
    k, q = shape.k, shape.q
    g = min(f, k + 1 - f)
    first = f <= (k + 1) // 2
    places = set()

    def take(column, position):
        if position < shape.rows:
            places.add((column, position))
        else:
            places.update((column, a * shape.t + position - shape.rows) for a in range(shape.p - 1))

    for row in range(shape.rows):
        u = row % q**g // q ** (g - 1)
        j = 1 if u == 0 else q - u + 1 if first else q + u
        position = (row + shape.shift(j, f)) % shape.ring
        take(k + j, position)
        for i in range(1, k + 1):
            if i != f:
                take(i, (position - shape.shift(j, i)) % shape.ring)
    return places


@functools.cache
def listed(k, q, p, f):
    """How many symbols a rebuild of column f reads, and of which columns."""
    places = reading_list(Shape(k, q, p), f)
    return len(places), {c for c, _ in places}


def rebuilt(shape, columns, f):
    """Column f from the others: each row is what its parity's sum lacks, once all other columns are summed."""
    k, q = shape.k, shape.q
    lacking = [column if c != f else [0] * shape.rows for c, column in enumerate(columns[:k], start=1)]
    sums = parities(shape, lacking)
    if f > k:
        return sums[f - k - 1]
    lacks = [
        [a ^ b for a, b in zip(extended(shape, parity), extended(shape, others))]
        for parity, others in zip(columns[k:], sums)
    ]
    g = min(f, k + 1 - f)
    rows = []
    for row in range(shape.rows):
        u = row % q**g // q ** (g - 1)
        j = 1 if u == 0 else q - u + 1 if f <= (k + 1) // 2 else q + u
        rows.append(lacks[j - 1][(row + shape.shift(j, f)) % shape.ring])
    return rows


def answer(given):
    """What the program rebuild writes of an input."""
    refused = lambda number: b"E %02X\n" % number
    head = re.match(rb"H ([0-9A-F]{2}) ([0-9A-F]{2}) ([0-9A-F]{2})\n", given)
    if not head:
        return refused(8)
    numbers = [int(n, 16) for n in head.groups()]
    broken = Shape.refusal(*numbers)
    if broken:
        return refused(int(broken.split(":")[0]))
    shape, text = Shape(*numbers), given[11:]
    if len(text) > 61440:
        return refused(7)
    told = check(shape, text, 1)
    if told.startswith("refused, "):
        return refused(int(told[len("refused, ") :].split(":")[0]))
    size = shape.rows * 13
    lost = {c for c in range(1, shape.n + 1) if text[(c - 1) * size] == ord("L")}
    if not lost:
        return b"R 00 0000\n"
    f = min(lost)
    count, helpers = listed(*numbers, f)
    if lost & helpers:
        return refused(11)
    symbols = [int(line[10:12], 16) for line in text.splitlines()]
    columns = [symbols[c * shape.rows : (c + 1) * shape.rows] for c in range(shape.n)]
    frames = "".join(f"P {f:02X} {row:04X} {x:02X}\n" for row, x in enumerate(rebuilt(shape, columns, f)))
    return frames.encode() + b"R %02X %04X\n" % (f, count)


class Random:
    def __init__(self, seed):
        self.state = seed

    def byte(self):
        self.state = (self.state * 1664525 + 1013904223) % 2**32
        return self.state >> 24

    def symbol(self, width):
        drawn = [self.byte() for _ in range(16)]
        return int.from_bytes(bytes(drawn[:width]), "big")


def fnv(column, width):
    return fnv_bytes(b for symbol in column for b in symbol.to_bytes(width, "big"))


def text_of(shape, columns, lost, width):
    """The frames of an array: one line for each symbol, by column and row."""
    return "".join(
        f"{'L' if c in lost else 'P'} {c:02X} {row:04X} {symbol:0{2 * width}X}\n"
        for c, column in enumerate(columns, start=1)
        for row, symbol in enumerate(column)
    )


def fnv_bytes(data):
    total = 2166136261
    for b in data:
        total = (total ^ b) * 16777619 % 2**32
    return total


def check(shape, text, width):
    """What the check of a text says."""
    stride = 11 + 2 * width
    needed = shape.n * shape.rows * stride
    if len(text) != needed:
        return f"refused, 7: the text needs {needed} bytes"
    frame = re.compile(b"([PL]) ([0-9A-F]{2}) ([0-9A-F]{4}) ([0-9A-F]{%d})\n" % (2 * width))
    for i in range(shape.n * shape.rows):
        found = frame.fullmatch(text, i * stride, (i + 1) * stride)
        if not found or (int(found[2], 16), int(found[3], 16)) != (i // shape.rows + 1, i % shape.rows):
            return f"refused, 8: line {i + 1} is no frame of its place"
        if text[i * stride] != text[i // shape.rows * shape.rows * stride]:
            return f"refused, 9: line {i + 1} has another mark than its column"
    lost = [c for c in range(1, shape.n + 1) if text[(c - 1) * shape.rows * stride] == ord("L")]
    return f"passes, column {lost[0]} is lost" if lost else "passes, nothing is lost"


def damaged(width, what, a, b):
    shape = Shape(4, 2, 3)
    stride = 11 + 2 * width
    random = Random(77)
    columns = [[random.symbol(width) for _ in range(shape.rows)] for _ in range(shape.k)]
    columns += [[0] * shape.rows for _ in range(shape.r)]
    text = bytearray(text_of(shape, columns, (), width).encode())
    if what == 0:
        text[a] = b
    elif what == 1:
        del text[a:]
    elif what == 2:
        text += b"\n" * a
    elif what == 3:
        lines = [text[i * stride : (i + 1) * stride] for i in range(shape.n * shape.rows)]
        lines[a], lines[b] = lines[b], lines[a]
        text = b"".join(lines)
    else:
        for row in range(shape.rows):
            text[((a - 1) * shape.rows + row) * stride] = ord("L")
    print(width, what, a, b)
    print("", check(shape, bytes(text), width))


def damages():
    """The damages that are tried: lengths, every byte of the first, an inner and the last line, order, marks."""
    for width in (1, 6):
        stride = 11 + 2 * width
        whole = 56 * stride
        cases = [(0, 0, ord("P")), (1, 0, 0), (1, whole - 1, 0), (1, whole - stride, 0), (2, 1, 0), (2, stride, 0)]
        for line in (0, 27, 55):
            for place in range(stride):
                for byte in "Xa1" if place < 10 else "af" if place < stride - 1 else " ":
                    cases.append((0, line * stride + place, ord(byte)))
        for place in (0, 1, 10, stride - 1):
            cases += [(0, place, b) for b in (0, 47, 58, 64, 71, 96, 103, 255)]
        cases += [(0, 10 + i, ord(b)) for i in range(2 * width) for b in "0F"]
        cases += [(3, a, b) for a, b in ((0, 1), (7, 8), (54, 55), (0, 55), (0, 8))]
        cases += [(0, line * stride, ord("L")) for line in (0, 1, 7, 8, 15, 48, 55)]
        cases += [(4, column, 0) for column in (1, 4, 7)]
        for case in cases:
            print("text", width, *case)


def vectors(lines):
    for line in lines:
        if line.startswith("text "):
            damaged(*map(int, line.split()[1:]))
            continue
        k, q, p, seed = map(int, line.split())
        print(k, q, p)
        refused = Shape.refusal(k, q, p)
        if refused:
            print(" refused,", refused)
            continue
        shape = Shape(k, q, p)
        for width in (1, 6):
            random = Random(seed)
            data = [[random.symbol(width) for _ in range(shape.rows)] for _ in range(k)]
            print(f" {k * shape.rows} reads")
            columns = data + parities(shape, data)
            for column in columns[k:]:
                print(f"  {fnv(column, width):08X} {column[0]:0{2 * width}X}")
            for number, column in enumerate(columns, start=1):
                print(f"  {number} {len(reading_list(shape, number))} {fnv(column, width):08X}")
            print(f"  text {fnv_bytes(text_of(shape, columns, (), width).encode()):08X}")


def stand(symbol):
    return f"{symbol >> 32:5} {symbol % 2**32:6}"


def tell_column(shape, data, number):
    """The first rows of a column; the parity columns are worked out from the data columns."""
    column = (data + parities(shape, data))[number - 1]
    print(f"column {number:2}:" + "".join("  " + stand(symbol) for symbol in column[:4]))


def founded_route():
    """The route of both demos, as it is founded: its shape and its data columns."""
    shape = Shape(4, 2, 5)
    print(f"A route of {shape.n} boards: {shape.k} carry data, {shape.r} carry parity.")
    print(
        f"Shape k {shape.k}, q {shape.q}, p {shape.p}: {shape.rows} rows in {shape.t} classes, "
        f"a ring of {shape.ring} positions."
    )
    print(f"A lost data column has {shape.d} helpers.")
    seed = lambda column, row: column * 37 + row * 11
    data = [
        [(seed(c, r) % 60) << 32 | seed(c, r) * 25 for r in range(shape.rows)] for c in range(1, shape.k + 1)
    ]
    print(f"Founded with {shape.k * shape.rows} reads; the meter stands at {shape.k * shape.rows}.")
    print("Stock and cash of rows 0 to 3:")
    for number in range(1, shape.n + 1):
        tell_column(shape, data, number)
    return shape, data


def demo():
    shape, data = founded_route()
    for lost in (2, 7):
        count = len(reading_list(shape, lost))
        print(
            f"Board {lost} dies. Its column is quoted at {count} reads; "
            f"whole columns would take {shape.k * shape.rows}."
        )
        print(f"Rebuilt; the meter moved by {count}.")
        tell_column(shape, data, lost)


def sales():
    """A day on the route, told from the data columns alone."""
    shape, data = founded_route()
    sold, lost = 3 << 32 | 4400, set()

    def sell(c, row):
        if c in lost:
            return print(f"Column {c}, row {row} sells, but 11: column {c} is lost.")
        data[c - 1][row] = sold
        # the parity rows whose sums take the place in
        touched = sum(
            (position + shape.shift(j, c)) % shape.ring < shape.rows
            for j in range(1, shape.r + 1)
            if shape.k + j not in lost
            for position in (row, shape.rows + row % shape.t)
        )
        print(f"Column {c}, row {row} sells down to 3 4400, with {1 + touched} reads.")

    def audit():
        print(f"The audit is refused, 11: column {min(lost)} is lost." if lost else "The audit says yes.")

    def marks():
        print("Marks, store and book:", *("LL" if c in lost else "PP" for c in range(1, shape.n + 1)))

    def place(c, row):
        s = data[c - 1][row]
        told = f"11: column {c} is lost" if c in lost else stand(s)
        print(f"column {c}, row {row}: book {stand(s)}, array {told}")

    def lose(c):
        lost.add(c)
        print(f"Board {c} dies.")
        marks()

    def rebuild():
        c = min(lost)
        count = len(reading_list(shape, c))
        print(f"Column {c} is quoted at {count} reads; whole columns would take {shape.k * shape.rows}.")
        print(f"Rebuilt; the meter moved by {count}.")
        lost.remove(c)
        tell_column(shape, data, c)

    sell(3, 5)
    sell(3, 13)
    audit()
    lose(3)
    sell(3, 0)
    sell(2, 0)
    audit()
    for c, row in ((3, 5), (2, 0), (1, 1)):
        place(c, row)
    rebuild()
    marks()
    for c, row in ((3, 5), (3, 13), (3, 0), (2, 0)):
        place(c, row)
    audit()
    lose(7)
    rebuild()


if __name__ == "__main__":
    if sys.argv[1:] == ["vectors"]:
        vectors(sys.stdin)
    elif sys.argv[1:] == ["damages"]:
        damages()
    elif sys.argv[1:] == ["demo"]:
        demo()
    elif sys.argv[1:] == ["sales"]:
        sales()
    elif sys.argv[1:] == ["rebuild"]:
        sys.stdout.buffer.write(answer(sys.stdin.buffer.read()))
    else:
        sys.exit(__doc__)
