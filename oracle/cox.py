"""Matrices, mirrors, generators, reflections and families from document 01's words alone, and the walls and their generator from ticket K7's; the
Rust's, which has no walls, beside them; and what the program `replay_cox` answers to each line of its input.

`cox.py`                  the Rust and the model say the same; crates/replay_cox holds the lines of cox_corpus.py, and as its answers the
                          Rust's, or the model's where the Rust has none
`cox.py write`            stores them
`cox.py stress N [SEED]`  N texts by chance, with each kind of line

Texts are read with ticket K6's wish. Each DOUBLE is its bits as sixteen lower-case hexadecimal digits, or `nan`. Matrices go column by
column.

    m TEXT            ok NODES DOUBLE..           the matrix; or the text's refusal, as in all these
    n TEXT            ok NODES DOUBLE..           the mirrors; or `no 15 COLUMN`
    g TEXT            ok NODES DOUBLE.. DOUBLE    the generator's coordinates and its circumradius; or 15; or `no 16 NODE`
    r TEXT            ok NODES DOUBLE..           the reflections, mirror by mirror; or 15
    M LETTER SIZE     ok SIZE DOUBLE..            a family's matrix; or `no 17`
    N LETTER SIZE     ok SIZE DOUBLE..            its mirrors; or 17 or 15

    w TEXT            ok NODES DOUBLE..           the walls, which are the mirrors with each cosine negated; or 15
    t TEXT            ok NODES DOUBLE.. DOUBLE    the generator over them, at its true distances, and its circumradius; or 15; or 16
    W LETTER SIZE     ok SIZE DOUBLE..            a family's walls; or 17 or 15

Exit status: 0 nothing differs, 1 something does.
"""

import collections
import math
import operator
import pathlib
import struct
import subprocess
import sys

import answers
import model
import stored
from model import Refusal

TOP = pathlib.Path(__file__).parent.parent
BUILD = TOP / "oracle/build"
COX = TOP / "target/rust/release/cox"
STORED = TOP / "crates/replay_cox"

PI = 3.141592653589793
# "s ≥ 1 − 1e-7 is refused"
TOO_LONG = 1 - 1e-7
# "Least sizes A 1, B 2, H 2, D 3, E 4; greatest 9."
LEAST, GREATEST = {"A": 1, "B": 2, "H": 2, "D": 3, "E": 4}, 9
# The kinds of lines that ticket K7 adds; the Rust is not asked them.
OF_WALLS = "wtW"


def rising(terms):
    """Python's own `sum` makes up for rounding from 3.12 on."""
    total = 0.0
    for term in terms:
        total += term
    return total


def dot(a, b):
    return rising(x * y for x, y in zip(a, b))


def cosine(a):
    t, h = a * a, 1.0
    for k in range(13, 0, -1):
        h = 1 - (t / ((2 * k - 1) * (2 * k))) * h
    return h


# A matrix is the list of its columns: row r of column c is [c][r].

def matrix(diagram):
    """K2: "both quotients round the same fraction": here it is the reduced one, in the Rust the one typed."""
    nodes, edges = diagram
    columns = unjoined(len(nodes))
    for a, b, (num, den) in edges:
        if a != b:
            link(columns, a, b, float(num) / float(den))
    return columns


def unjoined(count):
    return [[1.0 if row == column else 2.0 for row in range(count)] for column in range(count)]


def link(columns, a, b, entry):
    """ "The mirrored entries change alike." """
    columns[a][b] = columns[b][a] = entry


def family(letter, size):
    if letter not in LEAST or not LEAST[letter] <= size <= GREATEST:
        raise Refusal(17)
    columns = unjoined(size)
    for i in range(size - 1):
        link(columns, i, i + 1, 3.0)
    if letter in "BH":
        link(columns, 0, 1, {"B": 4.0, "H": 5.0}[letter])
    if letter in "DE":
        link(columns, 0, 1, 2.0)
        link(columns, 0, {"D": 2, "E": 3}[letter], 3.0)
    return columns


def mirrors(entry, sign=operator.pos, too_long=TOO_LONG):
    """The sign is that of each cosine."""
    columns = [[0.0] * len(entry) for _ in entry]
    for i, column in enumerate(columns):
        for j in range(i):
            known = dot(column[:j + 1], columns[j][:j + 1])
            column[j] = (sign(cosine(PI / entry[i][j])) - known) / columns[j][j]
        s = dot(column, column)
        if s >= too_long:
            raise Refusal(15, i)
        column[i] = math.sqrt(1 - s)
    return columns


def walls(entry):
    """K7: "a second set of mirrors with each cosine negated, 01's steps and tolerance otherwise"."""
    return mirrors(entry, operator.neg)


def values(nodes):
    """Of each node; 16 if one is infinite."""
    b = [0.0 if kind == "o" else value for kind, value in nodes]
    for node, value in enumerate(b):
        if math.isinf(value):
            raise Refusal(16, node)
    return b


def generator(diagram):
    """The coordinates and the circumradius."""
    columns = mirrors(matrix(diagram))
    b = values(diagram[0])
    for i in reversed(range(len(b))):
        b[i] /= columns[i][i]
        for r in range(i):
            b[r] -= b[i] * columns[i][r]
    return b, math.sqrt(dot(b, b))


def wall_generator(diagram):
    """K7: "coordinates come by rising i: half the node's value, less each earlier coordinate k < i times row k of column i, taken off by rising k,
    the rest divided by row i of column i. Circumradius and the refusals 15 and 16 follow as in 01." """
    columns = walls(matrix(diagram))
    coordinates = []
    for column, value in zip(columns, values(diagram[0])):
        rest = value / 2
        for earlier, row in zip(coordinates, column):
            rest -= earlier * row
        coordinates.append(rest / column[len(coordinates)])
    return coordinates, math.sqrt(dot(coordinates, coordinates))


def reflection(n):
    columns = []
    for i in range(len(n)):
        e = [1.0 if row == i else 0.0 for row in range(len(n))]
        times = 2 * dot(e, n) / dot(n, n)
        columns.append([x - y * times for x, y in zip(e, n)])
    return columns


def answer(line):
    kind, rest = chr(line[0]), line[2:]
    try:
        if kind in "MNW":
            letter, size = rest[:1].decode(), int(rest[2:])
            return ok(size, *of_matrix(kind.lower(), family(letter, size)))
        diagram = model.read(rest, wish=True)
        count = len(diagram[0])
        if kind in "gt":
            coordinates, radius = (generator if kind == "g" else wall_generator)(diagram)
            return ok(count, coordinates, [radius])
        return ok(count, *of_matrix(kind, matrix(diagram)))
    except Refusal as refusal:
        return " ".join(["no", *map(str, refusal.args)])


def of_matrix(kind, entry):
    """The columns that answer a line of the kind; a family's is its lower-case one."""
    if kind == "m":
        return entry
    columns = walls(entry) if kind == "w" else mirrors(entry)
    return [column for n in columns for column in reflection(n)] if kind == "r" else columns


def ok(count, *rows):
    return " ".join(["ok", str(count), *(digits(value) for row in rows for value in row)])


def digits(value):
    return "nan" if math.isnan(value) else struct.pack(">d", value).hex()


def main(mode="check", *numbers):
    import cox_corpus                                                       # imports this file

    expected = cox_corpus.stress(*map(int, numbers)) if mode == "stress" else cox_corpus.corpus()
    replies, tally = compare(expected)
    if mode != "stress":
        stored.settle(STORED, mode, expected, replies, tally)
    stored.close(tally)


def compare(expected):
    """The answers to the lines, and how many there are of each sort."""
    replies, tally = [], collections.Counter({"lines": len(expected), "differ": 0})
    rusts = of_the_rust(list(expected))
    for (line, beginning), rust in zip(expected.items(), rusts or ["?"] * len(expected)):
        ours = answer(line)
        by_rust = rust != "?"
        if not ours.startswith(beginning):
            tally["differ"] += 1
            print(f"{line!r}\n    expected {beginning}\n    model    {ours}")
        if rusts and (ours != rust if by_rust else not may_be_silent(line, ours)):
            tally["differ"] += 1
            print(f"{line!r}\n    Rust  {rust}\n    model {ours}")
        tally["of the Rust" if by_rust else "of the model"] += 1
        tally[f"of {chr(line[0])}: {sort(ours)}"] += 1
        replies.append((rust if by_rust else ours).encode())
    return replies, tally


def sort(answer):
    """`ok`, or `no` and the number; the text's refusals as one."""
    of_number = answers.sort(answer)
    return of_number if of_number in ("ok", "no 15", "no 16", "no 17") else "no, the text's"


def of_the_rust(lines):
    """Its answers, or none at all where it can't be built, which oracle/build says."""
    if subprocess.run([BUILD]).returncode != 0:
        return []
    asked = [line for line in lines if not of_walls(line)]
    out = subprocess.run([COX], input=stored.ended(asked), stdout=subprocess.PIPE, check=True).stdout.decode().splitlines()
    assert len(out) == len(asked)
    replies = iter(out)
    return ["?" if of_walls(line) else next(replies) for line in lines]


def of_walls(line):
    return chr(line[0]) in OF_WALLS


def may_be_silent(line, answer):
    """The Rust has no walls. It has no refusals 16 and 17: in place of 16 it hands out a circumradius that is infinite or nan, which `cox` tells; of
    the families it panics below the least sizes."""
    return of_walls(line) or answers.sort(answer) in ("no 16", "no 17") or answers.may_be_silent(line[2:], answer)


if __name__ == "__main__":
    main(*sys.argv[1:])
