"""The lines of ticket K7's walls and of the generator over them; cox.py has their forms.

In a diagram without an odd cycle, negating every cosine turns walls around and changes nothing but signs: mirrors and walls are refused alike. So
lines of cox_corpus.py are asked again, with the beginnings that they have there; odd cycles have lines of their own.
"""

import fractions
import itertools
import math
import operator

import chance
import corpus as reading
import cox
import cox_corpus
import model
from cox_corpus import ONE, accepted, as_of, of

KINDS = "wt"
AGAIN = {"n": "w", "g": "t", "N": "W"}                                     # kinds of the mirrors, and which of the walls stand for them
ZERO, MINUS_ZERO, HALF = map(cox.digits, (0.0, -0.0, 0.5))

# Fractions whose cosines, negated, are small enough for nine walls, each at such an angle to each other.
WIDE = [(num, num - den) for num, den in cox_corpus.WIDE]


def lines():
    """From lines to the beginnings of their answers."""
    dice = chance.Dice(7)
    return itertools.chain(
        ticket(), again(cox_corpus.families()), again(cox_corpus.no_family()), again(cox_corpus.columns_of_15()), again(cox_corpus.infinite_groups()),
        again(cox_corpus.edge_of_15(), "g"), again(cox_corpus.infinite_lengths()), again(cox_corpus.lengths(dice, 12)),
        again(cox_corpus.refused_texts()), true_radii(), published(), odd_cycles(), last_bits(), infinite_lengths(), loops(), apart(), unreduced(),
        dense(dice), other_steps(dice))


def ticket():
    """What it says, or what follows at once: `x`, `o3o3o3*a`, no nodes, half the value; -0.0 where nothing joins two nodes."""
    yield from of("w", ["*a", "*z", "*-a2*b"], "ok 0")
    yield from of("t", ["*a", "*z", "*-a2*b"], f"ok 0 {ZERO}")
    yield from of("w", ["x", "o", "s", "(-1.5)"], f"ok 1 {ONE}")
    yield from of("t", ["x", "s", "(1)", "(1e0)"], f"ok 1 {HALF} {HALF}")
    for text, value in {"o": 0.0, "(0)": 0.0, "(-0)": -0.0, "u": 2.0, "d": 3.0, "q": model.R2, "(-1.5)": -1.5, "(1e22)": 1e22, "(1e-22)": 1e-22,
                        "(999999999999999e22)": 999999999999999 * 1e22, "(-3e-22)": -3 / 1e22}.items():
        yield from of("t", [text], f"ok 1 {cox.digits(value / 2)} {cox.digits(abs(value / 2))}")
    yield from of(KINDS, ["o3o3o3*a", "x3x3x3*a"], "no 15 2")
    for count in range(2, 10):
        rows = [ONE if row == column else MINUS_ZERO if row < column else ZERO for column in range(count) for row in range(count)]
        yield from of("w", ["xo" * (count // 2) + "s" * (count % 2)], " ".join(["ok", str(count), *rows]))
    for count, radius in {4: 1.0, 9: 1.5}.items():
        yield from of("t", ["x" * count, "s" * count], " ".join(["ok", str(count), *[HALF] * count, cox.digits(radius)]))
    yield from of("t", ["o" * 9], " ".join(["ok 9", *[ZERO] * 10]))


def again(lines, kinds="".join(AGAIN)):
    """Lines of the mirrors asked of the walls, where a diagram has no odd cycle or a text is refused."""
    for line, expected in lines:
        kind, text = chr(line[0]), line[2:]
        if kind in kinds and (kind == "N" or not accepted(text) or not odd_cycle(*model.read(text, wish=True))):
            yield AGAIN[kind].encode() + line[1:], expected


def odd_cycle(nodes, edges):
    """Whether no two colours fit: each node starts in its own component, and edges join components with their colours, or show that they can't."""
    of_node = [(i, 0) for i in range(len(nodes))]
    for a, b, _ in edges:
        (one, colour), (other, others) = of_node[a], of_node[b]
        if a != b and one == other and colour == others:
            return True
        if one != other:
            of_node = [(one, mine ^ colour ^ others ^ 1) if component == other else (component, mine) for component, mine in of_node]
    return False


def true_radii():
    """Circumradii that are known in closed form, most of figures of edge 1, and snub nodes, which count as ringed."""
    root, golden = math.sqrt, (1 + math.sqrt(5)) / 2
    polygon = {p: 1 / (2 * math.sin(math.pi / p)) for p in (5, 5 / 2, 100)}
    for text, radius in {
            "x3o": root(1 / 3), "o3x": root(1 / 3), "x3x": 1, "x4o": root(1 / 2), "x4x": root(1 + root(1 / 2)), "x5o": polygon[5],
            "x5/2o": polygon[5 / 2], "x6o": 1, "x100o": polygon[100], "v5o": (golden - 1) * polygon[5], "(-1)3(-1)": 1, "(3)3(3)": 3,
            "x x": root(1 / 2), "x3o3o": root(3 / 8), "o3o3x": root(3 / 8), "x3o4o": root(1 / 2), "o4o3x": root(1 / 2), "x4o3o": root(3 / 4),
            "o3o4x": root(3 / 4), "x3o5o": root(golden + 2) / 2, "x5o3o": root(3) / 2 * golden, "x5/2o5o": root((5 - root(5)) / 8),
            "x4o3x": root(5 + 2 * root(2)) / 2, "x4x3x": root(13 + 6 * root(2)) / 2, "x3x4o": root(5 / 2), "s3s4o": root(5 / 2),
            "x5x3x": root(31 + 12 * root(5)) / 2, "o3x5o": golden, "x3o3o3o": root(2 / 5), "x4o3o3o": 1, "x3o3o4o": root(1 / 2),
            "x3o4o3o": 1, "x3o3o5o": golden, "x5o3o3o": golden ** 2 * root(2), "x3o3o *b3o": root(1 / 2), "x3o3o3o3o *c3o": root(2 / 3),
            "o3o3o3o3o3x *c3o": root(3 / 4), "o3o3o3o3o3o3x *c3o": 1, "x3o3o3o3o3o3o3o3o": root(9 / 20), "x4o3o3o3o3o3o3o3o": 3 / 2,
            "x3o x": root(1 / 3 + 1 / 4), "x3o x4o x5o x": root(1 / 3 + 1 / 2 + polygon[5] ** 2 + 1 / 4)}.items():
        _, ours = cox.wall_generator(model.read(text.encode(), wish=True))
        assert math.isclose(ours, radius, rel_tol=1e-13), (text, ours, radius)
        yield from of("t", [text], "ok ")


def published():
    """Of the published diagrams of corpus.py, texts that are refused among them, generators, all of the small ones and every fifth of the others; of
    each matrix that is not a large family's the walls."""
    large = [cox.family(letter, size) for letter in cox.LEAST for size in range(5, cox.GREATEST + 1)]
    for i, text in enumerate([*reading.families(), *reading.stars(), *reading.snubs(), *reading.references(), *reading.letters()]):
        if i % 5 == 0 or len(text) < 5:
            yield from of("t", [text])
        if accepted(text) and (matrix := cox.matrix(model.read(text.encode(), wish=True))) not in large:
            large.append(matrix)
            yield from of("w", [text])


def odd_cycles():
    """The Rust hands out mirrors for the first; their groups are infinite. Those that follow are finite, or have an angle that is obtuse."""
    for text, column in {
            "x4o4o4*a": 2, "x3o3o3o3o3*a": 4, "x3o3o3o3o3o3o3*a": 6, "x3o3o3o3o3o3o3o3o3*a": 8, "x3o3o3*a3o": 2, "x7o3o3*a": 2, "x3o3o3*a3o3*b": 2,
            "x3o3o3o3o *a3*c3*e3*a": 2, "x100o100o100*a": 2, "x5o5o5*a": 2, "x4o4o3*a": 2, "o3x3o3o3*b": 3, "o3o3x4o5o3*c": 4, "x3o3o3*a6o": 2,
            "x3o4o3*a": 2, "x3/2o3/2o3*a": 2, "x5o5/2o5*a": 2, "x3o3o3*a x3o3o3*d": 2, "x3o x4o x3o3o3*e": 6}.items():
        yield from of(KINDS, [text], f"no 15 {column}")
    for before in range(7):
        first = chr(ord("a") + before)
        yield from of(KINDS, ["s" * before + f"x3o3o3*{first}" + "x" * (6 - before)], f"no 15 {before + 2}")
    yield from of(KINDS, ["x3o3o5/2*a", "x5/2o5/2o5/2*a", "x3o3o5/3*a", "s3s5/2s3/2*a", "x3o5o5/4*a", "x3x4x4/3*a", "o3/2o3/2o3/2*a", "x3o3o3/2*a",
                          "x3/2o3o3*a", "x3x3x3/2*a", "q3(-1)3s3/2*a", "x3o3o3/2*a o3x", "x7/3o9/4o11/6*a", "x5/2o5/2o3/2*a"], "ok ")


def last_bits():
    """Both sides of 15: entries next to each other, of which one has walls and the other none; then s just below 1 − 1e-7, and s exactly that."""
    for shape in ["x3o3o{}*a", "x3o4o{}*a", "x{}o3o3*a", "x3o3o3o3o{}*a", "x3o3o3o3o3o3o3o3o{}*a", "x4o3o{}*a3o", "o x3/2o{}o3/2*b x"]:
        fine, none = next_to_15(shape)
        yield from of(KINDS, [spelled(shape, fine)], "ok ")
        yield from of(KINDS, [spelled(shape, none)], "no 15 ")
    below, above = math.nextafter(cox.TOO_LONG, 0), math.nextafter(cox.TOO_LONG, 1)
    for form in ["x{}o{}o{{}}*a", "xo{}o{}o{{}}*b3o"]:
        just, exact = [], []
        for edges in itertools.product(["3", "5/2", "7/3", "8/3", "7/2", "4", "9/4"], repeat=2):
            shape = form.format(*edges)
            for m in neighbours(next_to_15(shape)[0]):
                if has_walls(shape, m) and not has_walls(shape, m, below):
                    just.append(spelled(shape, m))
                if has_walls(shape, m, above) and not has_walls(shape, m):
                    exact.append(spelled(shape, m))
        assert len(just) >= 3 and len(exact) >= 3
        yield from of(KINDS, just[:3], "ok ")
        yield from of(KINDS, exact[:3], "no 15 ")


def next_to_15(shape):
    """Two doubles next to each other in the place of the shape's fraction, with walls and without."""
    fine = next((m for m in (2.0, 1.5, 1.75, 1.9, 2.1) if has_walls(shape, m)), 2.0)
    none = 3.5
    while math.nextafter(fine, none) != none:
        middle = (fine + none) / 2
        fine, none = (middle, none) if has_walls(shape, middle) else (fine, middle)
    return fine, none


def neighbours(m):
    near = [m]
    for _ in range(3):
        near = [math.nextafter(near[0], 0), *near, math.nextafter(near[-1], 9)]
    return near


def has_walls(shape, m, too_long=cox.TOO_LONG):
    marker = (7919, 7907)
    entry = cox.matrix(model.read(shape.format("{}/{}".format(*marker)).encode(), wish=True))
    columns = [[m if value == marker[0] / marker[1] else value for value in column] for column in entry]
    try:
        return bool(cox.mirrors(columns, operator.neg, too_long))
    except model.Refusal:
        return False


def spelled(shape, m):
    """With a fraction that has this double for its quotient."""
    fraction = fractions.Fraction(m).limit_denominator(int((2 ** 32 - 1) / m))
    assert fraction.numerator / fraction.denominator == m
    return shape.format(f"{fraction.numerator}/{fraction.denominator}")


def infinite_lengths():
    """Where the mirrors' generator would be 16, an odd cycle makes it 15; the first infinite node, wherever it stands."""
    yield from of(KINDS, ["(inf)3o3o3*a", "x3o3(-inf)3*a", "(inf)3(inf)3(inf)3*a"], "no 15 2")
    for text, node in {"s3o3(inf)3/2*a": 2, "(-inf)3(inf)3x3/2*a": 0, "o o o o o o o (-inf) (inf)": 7, "x3*a(inf)": 1}.items():
        yield from of("t", [text], f"no 16 {node}")
        yield from of("w", [text], "ok ")


def loops():
    """A loop on any node changes nothing."""
    for text, other in {
            "x3*a": "x", "x3*a4o": "x4o", "x3o3*b": "x3o", "x5*a3o5/2*b": "x3o", "*a3*a x4o": "x4o", "s3s5/2s3/2*a5/2*a": "s3s5/2s3/2*a",
            "x3o3o3*a *a4*a*b4*b*c4*c": "x3o3o3*a", "x3o4*-a": "x3o", "*i9935*i oxoxoxoxo": "oxoxoxoxo", "(-0)3*a x4294967295*b": "(-0)x"}.items():
        yield from as_of(KINDS, text, other)


def apart():
    """Several components, and references that join any two nodes in any order."""
    texts = ["xo", "x3o x", "x x3o", "o3xo4x", "x o o5x", "x3o x4o x5o", "x3o x4o x5o x6o x", "xo3ox", "x3*c ox", "x3*i oooooooo", "o*b3*d*a4*c xos",
             "*c5*a *b4*d xoxo", "*d3*c3*b3*a xooo", "*i3*a xoooxooox", "x3oo3x5/2*b *a9/4*c", "(-1)x(-0)o(-0)", "x(-0)", "(-0)x", "s(-0)3(-0)s"]
    yield from of(KINDS, texts, "ok ")


def unreduced():
    """K2, as in cox_corpus.py."""
    for text, lowest in cox_corpus.UNREDUCED.items():
        yield from as_of(KINDS, text, lowest)


def dense(dice):
    """Five to nine walls, most pairs at an angle: sums of many terms."""
    for count in [5, 6, 7, 8, 9]:
        yield from of(KINDS, [cox_corpus.dense_text(dice, count, count, WIDE, operator.neg)], f"ok {count} ")


def other_steps(dice):
    """Texts by chance, each kept because some other order of the steps, of which each must show six times, has other bits."""
    found = {}
    while len(found) < 14 or min(found.values()) < 6:
        text = dice.pick([cox_corpus.mild_text, few_walls])(dice)
        if text is None or len(text) > 60 or not cox.answer(b"t " + text).startswith("ok"):
            continue
        diagram = model.read(text, wish=True)
        differ = [*differing("w", other_walls(cox.matrix(diagram)), cox.walls(cox.matrix(diagram))),
                  *differing("t", other_generators(diagram), [cox.wall_generator(diagram)[0]])]
        if any(found.get(key, 0) < 6 for key in differ):
            found.update((key, found.get(key, 0) + 1) for key in differ)
            yield from of(KINDS, [text], "ok ")


def few_walls(dice):
    return cox_corpus.dense_text(dice, 3, 5, WIDE + cox_corpus.WIDE, operator.neg)


def differing(kind, others, ours):
    """The kind and the place of each of the others that has other bits."""
    return [(kind, i) for i, other in enumerate(others) if cox.ok(0, *other) != cox.ok(0, *ours)]


def other_walls(entry):
    """Subtraction from 0.0 for the negation; the mirrors; the mirrors turned around; the cosine of the angle that is left to a half turn; sums by
    falling index; products taken off one by one."""
    yield cox.mirrors(entry, lambda cosine: 0.0 - cosine)
    yield unless_refused(cox.mirrors, entry)
    yield [[-value if row != i else value for row, value in enumerate(column)] for i, column in enumerate(unless_refused(cox.mirrors, entry))]
    yield unless_refused(cox.mirrors, [[1 / (1 - 1 / m) if m != 1 else m for m in column] for column in entry])
    yield stepped(entry, lambda start, products: start - cox.rising(reversed(products)))
    yield stepped(entry, less_each)


def unless_refused(function, *arguments):
    try:
        return function(*arguments)
    except model.Refusal:
        return []


def stepped(entry, less):
    """The walls, but with another way to take the products off the cosine."""
    columns = [[0.0] * len(entry) for _ in entry]
    for i, column in enumerate(columns):
        for j in range(i):
            products = [a * b for a, b in zip(column[:j], columns[j])]
            column[j] = less(-cox.cosine(cox.PI / entry[i][j]), products) / columns[j][j]
        column[i] = math.sqrt(max(0.0, 1 - cox.dot(column, column)))
    return columns


def less_each(start, products):
    for product in products:
        start -= product
    return start


def other_generators(diagram):
    """Products taken off by falling k; their sum taken off; division first; the value whole; the root's inverse multiplied; a product and its
    subtraction rounded once; and the walls made with 0.0 − cosine. The Rust's order, over the walls, is the last."""
    walls, values = cox.walls(cox.matrix(diagram)), cox.values(diagram[0])
    half = [value / 2 for value in values]

    def solved(starts, step, columns=walls):
        coordinates = []
        for i, start in enumerate(starts):
            coordinates.append(step(start, list(zip(coordinates, columns[i])), columns[i][i]))
        return [coordinates]

    yield solved(half, lambda start, pairs, root: less_each(start, [a * b for a, b in reversed(pairs)]) / root)
    yield solved(half, lambda start, pairs, root: (start - cox.rising(a * b for a, b in pairs)) / root)
    yield solved(half, lambda start, pairs, root: less_each(start / root, [a * b / root for a, b in pairs]))
    yield solved(values, lambda start, pairs, root: less_each(start, [a * b for a, b in pairs]) / root)
    yield solved(half, lambda start, pairs, root: less_each(start, [a * b for a, b in pairs]) * (1 / root))
    yield solved(half, lambda start, pairs, root: fused(start, pairs) / root)
    yield solved(half, lambda start, pairs, root: less_each(start, [a * b for a, b in pairs]) / root,
                 cox.mirrors(cox.matrix(diagram), lambda cosine: 0.0 - cosine))
    yield [falling(half, walls)]


def fused(start, pairs):
    for a, b in pairs:
        start = float(fractions.Fraction(start) - fractions.Fraction(a) * fractions.Fraction(b))
    return start


def falling(b, columns):
    b = list(b)
    for i in reversed(range(len(b))):
        b[i] /= columns[i][i]
        for r in range(i):
            b[r] -= b[i] * columns[i][r]
    return b
