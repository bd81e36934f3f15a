"""The lines for crates/replay_cox, small enough for one run of a program that reads 65,536 bytes; cox.py has their forms. Those of ticket K7's walls
are made in wall_corpus.py and stand behind all others.

Where it is known beforehand how an answer begins, the line comes with that beginning.
"""

import itertools
import operator
import re

import chance
import corpus as reading
import cox
import figures
import model

MOST = 65500
OF_TEXTS = "mngr"
ONE = cox.digits(1.0)

# Fractions whose cosines are small enough for nine mirrors, each at such an angle to each other.
WIDE = [(3, 1), (3, 1), (5, 2), (5, 2), (7, 3), (7, 3), (8, 3), (9, 4), (11, 5), (11, 4), (11, 6), (9, 5)]

# Texts with fractions that are not in lowest terms, and the same texts in lowest terms.
UNREDUCED = {
    "x6/2o": "x3o", "x9/3o": "x3o", "x8/2o6/2o": "x4o3o", "x10/4o10/2o": "x5/2o5o", "x6/2o10/4o": "x3o5/2o", "x14/6o": "x7/3o",
    "x3221225472/1073741824o": "x3o", "x4294967295/1431655765o": "x3o", "x4294967295/2863311530o": "x3/2o",
    "x4294967295/1717986918o3o": "x5/2o3o", "x7/4294967292/1840700268o": "x7/3o", "x4237481062/2618907323o": "x63245986/39088169o",
    "x4294956175/2654428896o": "x75025/46368o", "x4292870399/4291428937o": "x65519/65497o",
    "x2147483650/2147483648o": "x1073741825/1073741824o", "x4294964900/432350o": "x9934o", "x4294960110/432306o": "x9935o",
    "x3973835236/400000o": "x993458809/100000o", "x3973835238/400000o": "x1986917619/200000o", "x8/2o8/2o": "x4o4o",
    "x6/2o9/3o12/4*a": "x3o3o3*a", "x6/2*a8/2o": "x4o", "*b6/2*a xo": "x3o", "x4294967294/2147483647o6/2x": "x o3x",
    "(-1.5)6/2(2)": "(-1.5)3(2)", "(inf)6/2o": "(inf)3o"}


def corpus():
    """From each line to the beginning of its answer."""
    import wall_corpus                                                      # imports this file

    dice = chance.Dice(5)
    lines = {}
    for line, expected in itertools.chain(
            families(), no_family(), document_01(), published(), cosines(dice), quotients(dice), dense(dice), edge_of_15(), columns_of_15(),
            infinite_groups(), lengths(dice), infinite_lengths(), loops_and_lone_nodes(), small_reflections(), by_chance(dice), refused_texts(),
            unreduced(dice), wall_corpus.lines()):
        lines[line] = max(lines.get(line, ""), expected, key=len)
    assert not any(b"\n" in line for line in lines)
    assert sum(len(line) + 1 for line in lines) <= MOST
    return lines


def stress(count, seed=1):
    dice = chance.Dice(seed)
    texts = (dice.pick([chance.accepted, chance.hurt, chance.unreduced, dense_text, dense_text, mild_text])(dice) for _ in range(count))
    return dict(of(OF_TEXTS, texts))


def of(kinds, texts, expected=""):
    """A line of each kind for each text."""
    for text, kind in itertools.product(texts, kinds):
        yield kind.encode() + b" " + (text if isinstance(text, bytes) else text.encode()), expected


def families():
    """The finite ones have mirrors; E9, and H from 5 on, stop at their ninth and fifth."""
    for letter, least in cox.LEAST.items():
        for size in range(least, cox.GREATEST + 1):
            yield f"M {letter} {size}".encode(), f"ok {size} {ONE}"
            stops = {"E": 8, "H": 4}.get(letter, 9)
            yield f"N {letter} {size}".encode(), f"ok {size} {ONE}" if size <= stops else f"no 15 {stops}"


def no_family():
    for kind in "MN":
        for letter, least in cox.LEAST.items():
            sizes = [*range(least), cox.GREATEST + 1, cox.GREATEST + 2, 19, 90, 100, 255, 256, 256 + least, 265]
            yield from ((f"{kind} {letter} {size}".encode(), "no 17") for size in sizes)
        for letter in "abdehCFGI@Zoxz 3*":
            yield from ((f"{kind} {letter} {size}".encode(), "no 17") for size in [0, 1, 4, 9, 10])


def document_01():
    """What it says, or what follows at once: the matrix's 1 and 2, a lone mirror, a generator without nodes."""
    yield from of("mnr", ["*a", "*z", "*-a2*b"], "ok 0")
    yield from of("g", ["*a", "*z", "*-a2*b"], "ok 0 " + cox.digits(0.0))
    yield from of("mn", ["x", "o", "s", "x3*a", "(-1.5)"], f"ok 1 {ONE}")
    yield from of("r", ["x", "o", "s", "x3*a", "(-1.5)"], "ok 1 " + cox.digits(-1.0))
    yield from of("g", ["x", "s", "x3*a"], f"ok 1 {ONE} {ONE}")
    yield from of("m", ["x4/2o", "xo", "x2o", "x o"], f"ok 2 {ONE} {cox.digits(2.0)} {cox.digits(2.0)} {ONE}")
    yield from of("m", ["x6/2o", "x3o", "o3o3*b"], f"ok 2 {ONE} {cox.digits(3.0)} {cox.digits(3.0)} {ONE}")
    yield from of("m", ["x5/3/2o"], f"ok 2 {ONE} {cox.digits(1.5)} {cox.digits(1.5)} {ONE}")
    yield from of("mngr", ["x4o3o"], "ok 3")
    yield from of("mng", ["o" * 9], "ok 9")
    yield from of("g", ["x" * 9, "s" * 9], f"ok 9 {ONE} {ONE}")


def published():
    """The published diagrams of corpus.py, texts that are refused among them: of each its generator; of each matrix that is not a large
    family's, the matrix and its mirrors once, since rings make no difference to them."""
    known = [cox.family(letter, size) for letter in cox.LEAST for size in range(6, cox.GREATEST + 1)]
    for text in [*reading.families(), *reading.stars(), *reading.snubs(), *reading.references(), *reading.letters()]:
        yield from of("g", [text])
        if accepted(text):
            matrix = cox.matrix(model.read(text.encode(), wish=True))
            if matrix not in known:
                known.append(matrix)
                yield from of("mn", [text])


def accepted(text):
    return model.answer(text if isinstance(text, bytes) else text.encode(), wish=True).startswith("ok")


def cosines(dice):
    """Two mirrors at many angles."""
    yield from of("n", [f"x{p}o" for p in range(2, 41)])
    yield from of("n", [f"x{p}o" for p in [50, 64, 99, 128, 180, 255, 256, 360, 512, 999, 1000, 1024, 2025, 4096, 5000, 8191, 9000]])
    yield from of("n", [f"o{num}/{den}x" for num in range(3, 14) for den in range(2, num)])
    for _ in range(50):
        num = 2 + dice.below(2 ** (4 + dice.below(28)) - 2)
        yield from of("n", [f"x{num}/{1 + dice.below(num - 1)}o"])
    found = [0] * len(list(other_cosines(0.0)))
    while min(found) < 8:
        den = 2 + dice.below(9998)
        num = den + 1 + dice.below(den)
        angle = cox.PI / (num / den)
        differs = [other != cox.cosine(angle) for other in other_cosines(angle)]
        if any(differs[i] and found[i] < 8 for i in range(len(found))):
            found = [count + differs[i] for i, count in enumerate(found)]
            yield from of("n", [f"x{num}/{den}o"])


def other_cosines(angle):
    """A step fewer, a step more, two divisions for one, the product first, h divided first."""
    t = angle * angle
    yield horner(12, lambda a, b, h: 1 - (t / (a * b)) * h)
    yield horner(14, lambda a, b, h: 1 - (t / (a * b)) * h)
    yield horner(13, lambda a, b, h: 1 - (t / a / b) * h)
    yield horner(13, lambda a, b, h: 1 - t * h / (a * b))
    yield horner(13, lambda a, b, h: 1 - t * (h / (a * b)))


def horner(first, step):
    h = 1.0
    for k in range(first, 0, -1):
        h = step(2 * k - 1, 2 * k, h)
    return h


def quotients(dice):
    """Matrices whose entries are rounded, and fractions next to each other that share one."""
    yield from of("m", ["x4294967295o", "x4294967295/4294967294o", "x4294967294/4294967293o", "x4294967295/2147483647o",
                        "x4294967295/2147483648o", "x4294967294/2147483647o", "x2147483649/2147483648o", "x4294967295/1431655765o",
                        "x1000000007/3o", "x16777217/16777216o", "x4294967291/7o"])
    for _ in range(40):
        num = 2 ** 32 - 1 - dice.below(2 ** (31 - dice.below(24)))
        yield from of("m", [f"x{num}/{1 + dice.below(num - 1)}o"])


def dense(dice):
    """Five to nine mirrors, most pairs at an angle: sums of many terms."""
    for count in [5, 6, 7, 8, 9] * 4:
        text = dense_text(dice, count, count)
        yield from of("ng", [text], f"ok {count} ")
        if count in (6, 9):
            yield from of("m", [text], f"ok {count} ")
    for count in [4, 4, 5, 5, 6, 9]:
        yield from of("r", [dense_text(dice, count, count)], f"ok {count} ")


def dense_text(dice, least=3, most=9, fractions=WIDE, sign=operator.pos):
    """A text with mirrors, or walls, of about that many nodes, few pairs unjoined."""
    while True:
        count = least + dice.below(most - least + 1)
        nodes = [dice.pick([dice.pick(list(model.LETTERS.values())), ("x", dice.pick([1.5, -1.0, 0.1, -0.0, 1e9, 12345.678]))])
                 for _ in range(count)]
        edges = [(a, b, dice.pick(fractions)) for a, b in itertools.combinations(range(count), 2) if dice.below(8)]
        if has_mirrors(nodes, edges, sign) and (text := figures.respelled(dice, (nodes, edges))):
            return text


def has_mirrors(nodes, edges, sign=operator.pos):
    """With each cosine's sign changed so."""
    try:
        return bool(cox.mirrors(cox.matrix((nodes, edges)), sign))
    except model.Refusal:
        return False


def edge_of_15():
    """The last text with mirrors and the first without, between two that are known. Of `x3973835238/400000o` s is 1 − 1e-7 exactly; the shapes
    that have 3973835237 in them come as near on both sides, by a second term of about 1e-16."""
    yield from of(OF_TEXTS[1:], ["x9934o", "x9934/9933o", "x3973835237/400000o", "o x9934o", "x9934o3*b x9934/9933o"], "ok ")
    yield from of(OF_TEXTS[1:], ["x9935o", "x9935/9934o", "x3973835238/400000o", "x10000o", "x4294967295o", "x4294967295/4294967294o"], "no 15 1")
    for shape, fine, none in [
            ("x{}/400000o", 9934, 9935), ("o{}/400000x", 1.0002, 1.0001), ("x{}/700000000o3o", 5, 6), ("x3o{}/700000000o", 5, 6),
            ("x{}/900000000o4o", 3, 4.5), ("x3o{}/900000000o3o", 3, 4.5), ("x3o3o{}/2000000000*a", 2, 1.1), ("x3o4o{}/2000000000*a", 2, 1.1),
            ("x5/2o5/3o{}/400000000*a", 3, 10), ("x4o3o{}/900000000o", 3, 4), ("x3o3o3o3o3o3o{}/1000000000o *c3o", 2.5, 3.5),
            ("x{}/1000000000o3o3o3o3o3o3o *c3o", 2.5, 3.5), ("x3o3o{}/900000000o3o", 3, 4), ("x4o3o3o3o3o3o3o{}/900000000o", 3, 4),
            ("x3o3o3o3*a3*c3o{}/900000000*d", 3, 1.1), ("xo{}/150000000o3973835237/400000*a", 2.00000001, 2.0001),
            ("ooooooxo{}/150000000o3973835237/400000*g", 2.00000001, 2.0001)]:
        with_mirrors, without = between(shape, fine, none)
        yield from of("ngr" if shape.count("o") < 4 else "ng", [with_mirrors], "ok ")
        yield from of("ngr", [without], "no 15 ")


def between(shape, fine, none):
    """Two texts of the shape, of next numerators, with mirrors and without."""
    den = int(re.search(r"{}/(\d+)", shape)[1])
    fine, none = int(fine * den), int(none * den)
    while abs(fine - none) > 1:
        middle = (fine + none) // 2
        if has_mirrors(*model.read(shape.format(middle).encode(), wish=True)):
            fine = middle
        else:
            none = middle
    return shape.format(fine), shape.format(none)


def columns_of_15():
    """Each column but the first, which can't be refused: lone nodes before the refused ones, and after them."""
    for before in range(7):
        yield from of("ngr", ["o" * before + "x4o4o", "x" * before + "o4x4o" + "o" * (6 - before)], f"no 15 {before + 2}")
        yield from of("ng", ["o" * before + "x9935o" + "x4o4o"[:2 * (7 - before) - 1]], f"no 15 {before + 1}")


def infinite_groups():
    """Affine and hyperbolic ones, each stopped at the node that makes it infinite; those with an odd cycle, where the Rust hands out mirrors."""
    for text, column in {
            "x4o4o": 2, "o4o4x": 2, "x6o3o": 2, "x3o6o": 2, "x7o3o": 2, "x5o4o": 2, "x100o100o": 2, "x4o3o4o": 3, "x5o3o5o": 3, "x5o3o4o": 3,
            "x3o5o3o": 3, "x6o3o3o": 2, "x3o3o6o": 3, "x3o3o *b4o": 3, "x3o3o *b3o *b3o": 4, "x3o3o *b3o3o *b3o": 5, "o3o4o3o3o": 4,
            "x3o3o4o3o": 4, "x5o3o3o3o": 4, "x3o3o3o5o": 4, "x4o3o3o4o": 4, "x3o3o3o3o *c3o3o": 6, "x3o3o3o3o3o3o *d3o": 7,
            "x3o3o3o3o3o3o3o *c3o": 8, "o3x3o3o3o3o3o *d3o3o": 7, "x3o3o3o3o3o3o *c3o3o": 8, "x3o3o3o *b3o3o3o3o3o": 8, "x3o3o3o3o *b3o *d3o": 6,
            "o4o3o3o3o3o3o3o4x": 8, "x3o *a3o *a3o *a3o": 4, "x5/3o10o": 2, "x3o3o4o3o *b3o3o": 4, "x4o4o x4o4o": 2, "x3o x6o3o x3o": 4}.items():
        yield from of("ngr", [text], f"no 15 {column}")
    for text, column in {"x3o3o3o3*a": 3, "x3o4o3o4*a": 3, "o3x3o3o3o3o3*a": 5, "x3o3o3o3o3o3o3o3*a": 7, "x3o3o3*a6o": 3, "x3o3o3/2*a": 2}.items():
        yield from of("ngr", [text], f"no 15 {column}")
    yield from of("mngr", ["x3o3o3*a", "o3o3o3*a", "x4o4o4*a"], "ok 3")
    yield from of("mng", ["x3o3o3o3o3*a", "x3o3o3o3o3o3o3o3o3*a", "x3o3o3*a3o", "x7o3o3*a", "x3o3o3*a3o3*b", "x3o3o3*a3o3*b *c3*d",
                          "x3o3o3o3o *a3*c3*e3*a", "x100o100o100*a", "x5o5o5*a", "x4o4o3*a"], "ok ")


def lengths(dice, count=50):
    """Generators of other lengths, zeros of both signs, and the greatest and the smallest: squares stay far from the doubles' ends."""
    zeros = ["(-0)", "(0)", "(-0)3o", "o3(-0)", "(-0)3(-0)", "(-0)3x", "x3(-0)", "(-0)5/3(-0)", "(-0)5/3x", "o5/3(-0)", "(-0)(-0)", "(-0)o(-0)",
             "(-0)3(-1)", "(0)4(-0)3(0)", "(-0)3/2(0)", "(-0)3/2(-0)", "(-0)4o4o", "(-0)3*a", "(-0)3o3o3o3o3o3o3o3(-0)"]
    signs = ["(-1.5)", "(-1.5)3x", "x3(-1.5)", "(-1.5)3(-1.5)", "(1.5)3o3(2e1)4x", "(-1)3(1)3(-1)", "(-2)4x4/3(-3)", "(-1.5)9934(2)", "(1)9934(-1)",
             "x5/3(-1)", "(+2.5)5(-.5)3s", "v3f5/2F", "q4w4/3U", "u3d3B *b3h", "A5X5/2V", "k8k", "e6h", "Q4w3x", "f5x3v5/3F", "(0.1)3(0.2)3(0.3)"]
    ends = ["(1e22)", "(1e22)3(1e22)", "(1e22)9934(-1e22)", "(-1e22)9934(1e-22)", "(1e-22)", "(1e-22)3(1e-22)", "(1e-22)9934o", "o9934(1e-22)",
            "3".join(["(1e22)"] * 9), "4".join(["(1e22)"] * 2) + "3(1e22)" * 7, "3".join(["(999999999999999e22)"] * 9), "(1e22)" * 9,
            "(999999999999999e22)", "(999999999999999e22)9934(-999999999999999e22)", "9934".join(["(999999999999999e22)o"] * 4),
            "(1e22)3(1)3(1e-22)", "(1)3(1e15)3(1)", "(1e-22)" * 9, "(1e22)5(1e11)3o3(1e-11)", "(1e22)3/2(1e22)3(-1e22)"]
    yield from of("g", zeros + signs + ends)
    yield from of("mnr", ["(-1.5)3x", "(1e22)3(1e22)", "(-0)3(-0)"], "ok 2")
    chains = ["3", "4", "5/2", "2", "3 4", "5 3", "3 5/3", "9/4 8/3", "3 3 3", "7/2 3 5/3", "3 3 3 3 3 3 3 3"]
    for _ in range(count):
        edges = dice.pick(chains).split()
        yield from of("g", [finite_length(dice) + "".join(edge + finite_length(dice) for edge in edges)], "ok ")


def finite_length(dice):
    while True:
        text = "(" + chance.literal(dice) + ")"
        if accepted(text) and "n" not in text.lower():
            return text


def infinite_lengths():
    """16 has the first infinite node, and comes after 15, which comes after the text's refusals; infinity is no matter to the mirrors."""
    for text, node in {"(inf)": 0, "(-inf)": 0, "(inf)3o": 0, "o3(-inf)": 1, "(inf)3(-inf)": 0, "x3(inf)3(inf)": 1, "(INFINITY)x": 0, "x(+inf)": 1,
                       "o3o3o3o3o3o3o3o3(inf)": 8, "ooooo(-Infinity)oo(inf)": 5, "(inf)5/2(-0)": 0, "(-inf)3(1e22)": 0, "(0)4(1)3(inf)3x": 2,
                       "(inf)9934o": 0, "(inf)3*a": 0, "x3o3(inf)3*a": 2, "s3(inf)": 1, "x2(inf)": 1}.items():
        yield from of("g", [text], f"no 16 {node}")
    yield from of("mnr", ["(inf)3o", "o3(-inf)", "(inf)", "x3o3(inf)3*a"], "ok ")
    for text, column in {"(inf)4o4o": 2, "x4(inf)4o": 2, "o4o4(-inf)": 2, "(inf)9935o": 1, "x9935o(inf)": 1, "(inf)4294967295(inf)": 1,
                         "(inf)3o3o3o3o3o3o3o *c3o": 8, "(inf) x6o3o": 3, "x7o3o(-inf)": 2}.items():
        yield from of("ngr", [text], f"no 15 {column}")
    for text, refusal in {"(inf)4o4o_": "no 6 9", "(inf)3": "no 4 6", "(inf)3(nan)": "no 6 9", "(inf)3o3*a": "no 8 1 0", "(inf)3*c": "no 11 0",
                          "(inf)1o": "no 7 1 1 5", "(inf)oooooooooo": "no 10 13", "(inf)(1e23)": "no 9 9"}.items():
        yield from of(OF_TEXTS, [text], refusal)


def loops_and_lone_nodes():
    """A loop leaves the diagonal; an unjoined pair has a 2; references may join any two nodes, in any order."""
    yield from of("mng", ["x3*a4o", "x3o3*b", "x5*a3o5/2*b", "*a3*a x4o", "x3o5/2o3*a5/2*a o3*b", "xo", "xxo", "x3o x", "x x3o", "o3xo4x", "x o o5x",
                          "x3o x4o x5o", "x3o x4o x5o x6o x", "xo3ox", "x3*c ox", "x4*-a o s", "x3*i oooooooo", "o*b3*d*a4*c xos", "x2o3x2s4o",
                          "*c5*a *b4*d xoxo", "*d3*c3*b3*a xooo", "*i3*a xoooxooox", "x*a3*i4*b3*h5/2*c3*gooooosox", "x3oo3x5/2*b *a9/4*c",
                          "x5/2o8/3o7/2o *a5/2*c *b12/5*d9/4*a", "s3s5/2s3/2*a"], "ok ")
    yield from of("r", ["x3*a4o", "x3o3*b", "xo", "xxo", "x3o x", "x x3o", "*c5*a *b4*d xoxo"], "ok ")


def small_reflections():
    yield from of("r", ["x3o", "o3x", "x4o", "x5o", "x6o", "x7o", "x12o", "x100o", "x5000o", "x5/2o", "x7/3o", "x8/3o", "x3/2o", "x5/4o",
                        "x1000/999o", "x2147483648/1073741825o", "x3o3o", "x3o4o", "x4o3o", "x5o3o", "x3o5/2o", "x5/2o5o", "x3/2o5o",
                        "x3o3o5/3*a", "x5/3o5/2o3*a", "x7/3o9/4o11/5*a", "xoo", "s4s3s", "x3o3o3o", "x3o4o3o", "x5o3o3o", "x3o3o *b3o",
                        "x5/2o5o5/2o"], "ok ")


def by_chance(dice):
    """Texts of any shape, most of them without mirrors, then those of few edges."""
    texts = []
    while len(texts) < 60:
        text = chance.accepted(dice, 3, 40)
        if accepted(text):
            texts.append(text)
    yield from of("g", texts)
    yield from of("n", texts[:20])
    yield from of("g", [mild_text(dice) for _ in range(60)])


def mild_text(dice):
    """A text of up to nine nodes in which about each second pair of neighbours is joined, and any other pair seldom."""
    nodes = [dice.pick(list(model.LETTERS.values())) for _ in range(1 + dice.below(9))]
    edges = [(a, b, dice.pick(WIDE + [(4, 1), (5, 1), (5, 3), (3, 2)])) for a, b in itertools.combinations(range(len(nodes)), 2)
             if dice.below(2 if b == a + 1 else 8) == 0]
    return figures.respelled(dice, (nodes, edges))


def refused_texts():
    """Each of the text's refusals, in each call."""
    for number, texts in {
            1: ["x3" + " " * 253 + "o"], 2: [b"x\x80", b"x4o4o\xff"], 3: ["(", "x3(1.5", "x4o4(inf"],
            4: ["", "x3", "x ", "*", "x4o4", "x9935o "], 5: ["()", "x3/o", "x4294967296o", "x4o4o3/x"], 6: ["z", "x3\to", "(nan)", "*A", "x4o4o_"],
            7: ["x1o", "x3/3o", "x4o4o1x"], 8: ["x3o3*a", "x4o4o4*b", "x3*a3*a"], 9: ["(1e23)", "x4o4(1234567890123456)", "(1e0001)"],
            10: ["o" * 10, "x4o4o" + "x" * 7], 11: ["x3*c", "x4o4o3*-d", "*a3*a", "x2*z3*z"]}.items():
        yield from of(OF_TEXTS, texts, f"no {number} ")


def unreduced(dice):
    """K2: "Matrix bits don't change, since both quotients round the same fraction": a text has the answers of the one in lowest terms."""
    for text, lowest in UNREDUCED.items():
        yield from as_of(OF_TEXTS, text, lowest)
    for _ in range(40):
        num, den = chance.multiplied(dice)
        yield from as_of("mn", f"x{num}/{den}o", "x{}/{}o".format(*figures.lowest(num, den)))
    yield from of(OF_TEXTS, ["x4/6o"], "no 7 4 6 3")
    yield from of(OF_TEXTS, ["x8/2o8/2o2147483648/3221225472o"], "no 7 2147483648 3221225472 29")


def as_of(kinds, text, other):
    """A line of each kind for the text, whose answer is the other text's."""
    return ((line, cox.answer(line[:2] + other.encode())) for line, _ in of(kinds, [text]))
