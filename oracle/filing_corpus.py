"""The lines for crates/replay_filing, small enough for one run of a program that reads 131,072 bytes; filing.py has their forms.

Where it is known beforehand how an answer begins, the line comes with that beginning.
"""

import collections
import itertools
import math
import sys

import chance
import corpus as reading
import figures
import filing
import model

MOST = 131000
SAME, SAME_BY_CHANCE, SAME_LARGE, NEAR, NEAR_LARGE, SWITCHED = 150, 16, 70, 150, 54, 35
MISPLACED, MISPLACED_LARGE, RELABELLED, RELABELLED_LARGE, DAMAGED, RENUMBERED_LARGE = 20, 15, 25, 45, 223, 16
X = ("x", 1.0)
NINE = "x3" * 8 + "x"

# "`x4o` and `o4x` file as 02, 01 and eight 00, 02 3F F0 and six 00, 63 zeros, 00 00 00 04 00 00 00 01, 280 zeros."
X4O = "02" + "01" + "00" * 8 + "023ff0" + "00" * 6 + "00" * 63 + "0000000400000001" + "00" * 280

# First numberings by hand: unringed nodes come before ringed ones and these before snubs, and of pairs the unjoined first.
BY_HAND = {"*a": "", "xxo": "201", "oxs oxs oxs": "036147258", "x" * 9: "012345678", "x3x3x": "021", "x3x3x3x": "0321",
           "x3x3x3x3*a": "0213", "x3x x3x": "0231", "x3o3x": "102", "o3x4x3o": "0321", "x3o x3o": "1320"}


def corpus():
    """The lines, each with the beginning of its answer."""
    dice = chance.Dice(3)
    lines = [*document_01(), *texts(dice), *shared_doubles(dice), *same(dice), *near(dice), *graphs(dice), *trees(dice),
             *buffers(), *lengths(), *fields_out_of_range(), *fields_in_range(), *misplaced(dice), *relabelled(dice), *damaged(dice),
             *symmetric_texts(dice), *unreduced(), *renumberings(), *odd_lengths(), *moved(), *renumbered_large(dice),
             *misnumbered_and_damaged()]
    lines = {line if isinstance(line, bytes) else line.encode(): expected for line, expected in lines}
    assert not any(b"\n" in line or line.count(b"|") > 1 for line in lines)
    assert sum(len(line) + 1 for line in lines) <= MOST
    return lines.items()


def twice():
    """What a figure is, and two records that must be equal: as document 01 spells one out, by both ways of filing.py, renumbered."""
    dice = chance.Dice(4)
    yield "x4o", filing.record_of(b"x4o"), bytes.fromhex(X4O)
    for _ in range(600):
        figure = figures.by_chance(dice, 0, 6)
        yield figure, filing.record(figure), filing.record_by_all(figure)
    for _ in range(400):
        figure = figures.by_chance(dice, 7, 9)
        order = figures.shuffled(dice, range(len(figure[0])))
        yield figure, filing.record(figure), filing.record(figures.renumbered(*figure, order))


def numbered_twice():
    """What a figure is, and two numberings that must be equal: as found by hand, by both ways of filing.py."""
    dice = chance.Dice(6)
    for text, numbering in BY_HAND.items():
        yield text, filing.first(model.read(text.encode(), wish=True)), tuple(map(int, numbering))
    for _ in range(600):
        figure = figures.by_chance(dice, 0, 6)
        yield figure, filing.first(figure), filing.first_by_all(figure)
    drawn = [complete(count, X, (3, 1)) for count in range(4, 10)] + [figures.by_chance(dice, 7, 9) for _ in range(40)]
    for figure in [*symmetric(), *drawn]:
        # Only the last seven nodes leave the record's own order: then one of the first 5,040 numberings gives the record.
        nodes, edges = filing.spelled(filing.record(figure))
        few = max(len(nodes) - 7, 0)
        figure = figures.renumbered(nodes, edges, [*range(few), *figures.shuffled(dice, range(few, len(nodes)))])
        yield figure, filing.first(figure), filing.first_by_all(figure)


def read_twice():
    """What bytes are, and two answers to them that must be equal: by reading back and by the second ways of filing.py. They are all layouts
    of small figures, then layouts in any order with a byte or two changed, of which both ways say whether they are 14."""
    dice = chance.Dice(7)
    for _ in range(150):
        for data, expected in filing.read_back_by_all(figures.by_chance(dice, 0, 5)).items():
            yield data.hex(), filing.counted(filing.read_back(data)), expected
    for _ in range(3000):
        nodes, edges = figures.by_chance(dice, 0, 9)
        data = bytearray(filing.laid_out(nodes, edges, figures.shuffled(dice, range(len(nodes)))))
        for _ in range(1 + dice.below(2)):
            at, value = damage(dice, data)
            data[at] = value
        yield data.hex(), filing.read_back(bytes(data)) == 14, filing.bad_field(data) is not None


def begins(data):
    """How the answer to 370 bytes begins, by the second ways of filing.py. Of seven nodes and more, well laid out, that it is not 14."""
    if filing.bad_field(data):
        return "no 14"
    return filing.read_back_by_all(filing.spelled(data))[data] if data[0] <= 6 else ("ok ", "no 22")


def document_01():
    """Its records, and what stands next to them."""
    for line in ["x4o|o4x", "x6/2o|x3o", "x3o4o|o4o3x", "x3*a|x", "x3o3*b|x3o", "x3o3*b|o3x3*b", "x3o3*b|o3*a3x", "x5/3/2o|x3/2o",
                 "x4/2o|xo", "x2*c|x", "*a|*z", "*a|*-a2*b", "ooooooooo|o o o o o o o o o", "x4o3o|x4o3o", "x|(1)", "x|(1.0)",
                 "x|(10e-1)", "u|(2)", "(0)|(+0e5)", "(-0)|(-0.0)", "(inf)|(+INFINITY)", "V|(3.23606797749979)",
                 "B|(4.23606797749979)", "x3o5/2o3*a|o5/2o3x3*a", "x 2 o 3 o|o3o4/2x", "x4294967295/1431655765o|x3o",
                 "x4294967294/2147483647o|o x"]:
        yield line, "same"
    for line in ["(0)|(-0)", "x|o", "x|s", "o|s", "x|(-1)", "(inf)|(-inf)", "*a|o", "x|xx", "x3o|xo", "x3o|x4o", "x3o|x3/2o",
                 "x5/2o|x5/3o", "x3o4o|o3x4o", "x3o4o|x4o3o", "x3o x|x3x o", "x3o3o *b3o|x3o3o3o", "v|(.618033988749895)",
                 "Q|(2.82842712474619)", "X|(3.82842712474619)", "x|(.999999999999999)", "x|(1.00000000000001)"]:
        yield line, "apart"


def texts(dice):
    """Texts alone: accepted, then each refusal."""
    yield from ((text, "") for text in reading.document_01())
    for text in ["x" * 9, "s" * 9, "x3" * 8 + "x", "o3" * 8 + "x", "(inf)(-inf)(0)(-0)(1e22)(1e-22)s", "x4294967295o",
                 "x4294967295/4294967294o", *some(dice, published(), 110)]:
        yield text, "ok"
    for count in range(3, 10):
        yield figures.respelled(dice, complete(count, X, (3, 1))), "ok"
    yield figures.respelled(dice, complete(9, ("s", 1.0), (5, 2))), "ok"

    for number, refused in {
            1: ["x3" + " " * 253 + "o"], 2: [b"x\x80", b"x3o\xff"], 3: ["(", "x3(1.5"], 4: ["", "x3", "x ", "*", "*-", " "],
            5: ["()", "x3/o", "x4294967296o", "(1e)"], 6: ["z", "x3\to", "(nan)", "*A", "x3_"],
            7: ["x1o", "x0o", "x3/3o", "x3/0o", "x2/3o"], 8: ["x3o3*a", "x3o4*a", "x3*a3*a"],
            9: ["(1e23)", "(1234567890123456)", "(1e0001)"], 10: ["o" * 10, "x3" * 9 + "x"],
            11: ["x3*c", "x3*-b", "*a3*a", "x3o2*z3*z"]}.items():
        yield from ((text, f"no {number} ") for text in refused)


def published():
    """The published diagrams of corpus.py that have nodes, each once."""
    listed = [*reading.families(), *reading.stars(), *reading.snubs(), *reading.references(), *reading.spaces(), *reading.letters()]
    return [text for text in (text.encode() for text in dict.fromkeys(listed)) if accepted(text) and model.read(text, wish=True)[0]]


def accepted(text):
    return model.answer(text, wish=True).startswith("ok")


def some(dice, things, count):
    return figures.shuffled(dice, things)[:count]


def complete(count, node, fraction):
    return [node] * count, [(a, b, fraction) for a, b in itertools.combinations(range(count), 2)]


def shared_doubles(dice):
    """Edges whose fractions differ and whose quotients, as doubles, do not."""
    yield "x4294967295/4294967294o|o4294967294/4294967293x", "apart"
    for about in [1.001, 1.2, 1.5, 1.999, 2.001, 2.5, 5, 12]:
        while True:
            num = 2 ** 32 - 1 - dice.below(2 ** 20)
            num, den = figures.lowest(num, int(num / about))
            n, d = figures.neighbour(num, den)
            if n / d == num / den:
                break
        assert n * den != num * d
        yield f"x{num}/{den}o3o|o3o{n}/{d}x", "apart"


def unreduced():
    """Fractions not in lowest terms, of 32 bits, and neighbours among them that differ."""
    for line in ["x6/2o3o|o3o3x", "x10/4o9/3o|o3o5/2x", "x4294967295/2863311530o6/2o|o3o3/2x", "x2971215073/1836311903o|o02971215073/1836311903x",
                 "x3672623806/2269806340o|o1836311903/1134903170x", "x3221225472/1073741824o4o|o4o4294967295/1431655765x",
                 "x4294967292/2147483646o3o|o3o x", "x6/2*a8/2o|o4x"]:
        yield line, "same"
    for line in ["x6/2o|x6/4o", "x4294967294/4294967292o|x4294967295/4294967294o", "x4294967294/1431655765o|x3o"]:
        yield line, "apart"


def large(dice, least=8):
    """A figure by chance of eight or nine nodes, or fewer at least, much alike; few edges keep its texts short."""
    while True:
        nodes, edges = figures.by_chance(dice, least, 9)
        if len(edges) < 12:
            return nodes, edges


def same(dice):
    """Two texts for one figure: of published diagrams, then of figures by chance, with cycles and lone nodes."""
    drawn = [figures.figure(model.read(text, wish=True)) for text in some(dice, published(), SAME)]
    drawn += [figures.by_chance(dice, 4, 9) for _ in range(SAME_BY_CHANCE)]
    drawn += [large(dice) for _ in range(SAME_LARGE)]
    for figure in drawn:
        yield pair(dice, figure, figure), "same"


def pair(dice, left, right):
    """Two different texts."""
    one = other = figures.respelled(dice, left)
    while one == other:
        other = figures.respelled(dice, right)
    return one + b"|" + other


def near(dice):
    """A published diagram, or a large figure, beside itself with one thing changed, each change in turn."""
    known, found = published(), 0
    while found < NEAR + NEAR_LARGE:
        figure = figures.figure(model.read(dice.pick(known), wish=True)) if found < NEAR else large(dice)
        other = figures.CHANGES[found % len(figures.CHANGES)](dice, *figure)
        if other and filing.record(figure) != filing.record(other):
            found += 1
            yield pair(dice, figure, other), "apart"


def graphs(dice):
    """Alike nodes and alike edges: graphs of equal degrees or of equal spectra."""
    for count, left, right in [
            (5, "ab ac ad ae", ring("abcd")),                                               # equal spectra
            (6, "ab ac ad ae af be cd", "ac ad af bc bd be cd"),
            (8, "ab ac ad ae af bg gh", "ab ac ad ae bf bg bh"),
            (9, "ab ac ad ae bf bg ch hi", "ab ac ad ae bf bg fh gi"),
            (9, "ab ac ad ae bf cg fh gi", "ab ac ad be bf cg ch di"),
            (9, "ab ac ad ae bf cg fh hi", "ab ac ad be bf cg ch ei"),
            (9, "ab ac ad ae bf fg gh hi", "ab ac ad be bf cg gh gi"),
            (9, "ab ac ad be bf cg gh hi", "ab ac ad be cf dg eh ei"),
            *regular()]:
        yield pair(dice, figures.alike(count, left), figures.alike(count, right)), "apart"

    found = 0
    while found < SWITCHED:
        nodes, edges = large(dice)
        figure = [nodes[0]] * len(nodes), [(a, b, (3, 1)) for a, b, _ in edges]
        other = figures.switched(dice, *figure)
        if other and filing.record(figure) != filing.record(other):
            found += 1
            yield pair(dice, figure, other), "apart"


def regular():
    """Two graphs each of so many nodes, all of one degree."""
    cycle, cube = ring("abcdefgh"), ring("abcd") + ring("efgh")
    return [(6, ring("abcdef"), ring("abc") + ring("def")),                                 # cycles
            (7, ring("abcdefg"), ring("abc") + ring("defg")),
            (8, cycle, ring("abcd") + ring("efgh")),
            (8, cycle, ring("abc") + ring("defgh")),
            (9, ring("abcdefghi"), ring("abc") + ring("def") + ring("ghi")),
            (9, ring("abcdefghi"), ring("abcd") + ring("efghi")),
            (6, ring("abc") + ring("def") + "ad be cf", "ad ae af bd be bf cd ce cf"),      # the prism, K3,3
            (8, cube + "ae bf cg dh", cycle + "ae bf cg dh"),                               # the cube, the Wagner graph
            (8, cube + "ae bf cg dh", "ab ac ad bc bd cd ef eg eh fg fh gh"),               # two K4
            (9, "".join(map(ring, ["abc", "def", "ghi", "adg", "beh", "cfi"])), ring("abcdefghi") + ring("acegibdfh"))]


def ring(names):
    return "".join(a + b + " " for a, b in zip(names, names[1:] + names[:1]))


def symmetric_texts(dice):
    """A text of each symmetric figure: of nine one that is not long, and whose first numbering is not the plain order if one's is not."""
    for figure in symmetric():
        plain = tuple(range(len(figure[0])))
        texts = [figures.respelled(dice, figure) for _ in range(9)]
        yield min(texts, key=lambda text: (filing.first(model.read(text, wish=True)) == plain, max(45, len(text)))), "ok"


def symmetric():
    """Figures of which several numberings give the record, and E7 to E9, of which one does."""
    texts = ["xxo", "xoxoxoxox", "oxs oxs oxs", "o3x3o", "x3o3o3o3x", "s5/2x4x5/2s", "x3o3o3o3o3o3o *e3o"]
    texts += ["x3o x3o", "x3x x3x x3x", "x3x3x x3x3x", "o3x3s o3x3s o3x3s", "x3x3x3x x3x3x3x x"]        # alike components
    texts += ["x" + "3x" * (n - 1) for n in range(3, 10)]                                               # A
    texts += ["x3x3x *b" + "3x" * (n - 3) for n in range(4, 10)]                                        # D
    texts += ["x" + "3x" * (n - 2) + " *c3x" for n in range(6, 10)]                                     # E
    yield from (figures.figure(model.read(text.encode(), wish=True)) for text in texts)

    drawn = [(9, ""), (9, "ab cd ef gh"), (9, "ab ac ad ae af ag ah ai")]                               # the last is a star
    drawn += [(count, ring("abcde"[:count])) for count in (3, 4, 5)]
    drawn += dict.fromkeys((count, ends) for count, *two in regular() for ends in two)
    yield from (figures.alike(count, ends) for count, ends in drawn)


def trees(dice):
    """Trees of six to nine nodes: each beside one of equal degrees. A tree is a smaller one and a leaf."""
    known = [([X], [])]
    for count in range(2, 10):
        grown = [([X] * count, edges + [(a, count - 1, (3, 1))]) for _, edges in known for a in range(count - 1)]
        known = list({filing.record(tree): tree for tree in grown}.values())
        by_degrees = collections.defaultdict(list)
        for tree in known:
            by_degrees[tuple(sorted(degrees(tree)))].append(tree)
        for like in by_degrees.values():
            yield from ((pair(dice, *two), "apart") for two in zip(like, like[1:]))


def degrees(figure):
    nodes, edges = figure
    return [sum(i in (a, b) for a, b, _ in edges) for i in range(len(nodes))]


def buffers():
    for length in [0, 1, 2, 81, 82, 367, 368, 369, 370, 371, 372, 399, 400]:
        fits = "no 12 " if length < filing.LENGTH else "ok "
        for text, expected in {"x4o3o": fits, "x3" * 8 + "x": fits, "*a": fits, "x1o": "no 7 1 1 1 ", "": "no 4 0 "}.items():
            yield f"{text}|^{length:03x}", expected
    for text, expected in {"(": "no 3 1 ", "x3/o": "no 5 2 ", "z": "no 6 0 ", "x3o3*a": "no 8 1 0 ", "(1e23)": "no 9 4 ",
                           "o" * 10: "no 10 9 ", "x3*c": "no 11 0 "}.items():
        yield from ((f"{text}|^{length:03x}", expected) for length in [0, 369, 370, 400])


def lengths():
    for text in ["x4o3o", "*a", "x3" * 8 + "x"]:
        for length in [0, 1, 82, 369, 370, 371, 400]:
            yield f"{text}|~{length:03x}", "ok " if length == filing.LENGTH else "no 13"


def put(text, *fields):
    """The line that changes the text's record, for each offset and hexadecimal digits, from there on; bytes that it has are left out."""
    data = filing.record_of(text.encode())
    wanted = bytearray(data)
    for at, digits in fields:
        wanted[at:at + len(digits) // 2] = bytes.fromhex(digits)
    groups = "".join(f"{at:03x}{byte:02x}" for at, byte in enumerate(wanted) if byte != data[at])
    assert groups
    return f"{text}|!{groups}"


def terms(num, den):
    """A fraction's digits."""
    return f"{num:08x}{den:08x}"


def fields_out_of_range():
    """One field of a record changed so that no diagram has it in any numbering: "a bad count, kind, bits, fraction or filler"."""
    for text, *field in dict.fromkeys([*bad_counts(), *bad_kinds(), *bad_bits(), *bad_fractions(), *bad_fillers()]):
        yield put(text, field), "no 14"


def bad_counts():
    """Above nine, and others than the nodes that follow."""
    for text, nodes in {"*a": 0, "x": 1, "x4o": 2, "x3o5s": 3, NINE[2:]: 8, NINE: 9}.items():
        counts = {10, 16, 127, 128, 255, nodes + 1} | ({nodes - 1} if nodes else set())
        yield from ((text, 0, f"{count:02x}") for count in sorted(counts))
    yield from [("x4o", 0, "00"), ("x4o", 0, "09"), ("*a", 0, "09")]


def bad_kinds():
    """None of 1, 2, 3."""
    places = [("x", 0), ("o", 0), ("s", 0), ("x4o", 0), ("x4o", 1), ("x3o5s", 1), (NINE, 8)]
    yield from ((text, filing.node_at(i), kind) for text, i in places for kind in ["00", "04", "05", "82", "ff"])
    yield from (("x" * 9, filing.node_at(i), kind) for i in range(9) for kind in ["00", "04"])


def bad_bits():
    """Unringed with bits, each byte alone among them; nan, each bit alone that makes one among them."""
    alone = ["00" * at + "01" for at in range(8)]
    for text, i in [("o", 0), ("x4o", 0), ("ooo", 1), ("o" * 9, 8)]:
        yield from ((text, filing.node_at(i) + 1, bits) for bits in ["80", "3ff0", "7ff8", *alone])
    yield from ((text, filing.node_at(i), "01") for text, i in [("x", 0), ("s", 0), (NINE, 8)])

    for text, infinite in {"x": filing.INFINITE, "s": filing.INFINITE | 1 << 63}.items():
        yield from ((text, 2, f"{infinite | 1 << bit:016x}") for bit in range(52))
    places = [("x", 0), ("s", 0), ("x4o", 1), ("xx", 0), ("xx", 1), ("s3s4s", 1)]
    nans = ["7ff8000000000000", "fff8000000000000", "7ff8000000000001", "fff8000000000001", "7ff0000000000001", "fff0000000000001",
            "7ff4000000000000", "7ff7ffffffffffff", "fff7ffffffffffff", "7fffffffffffffff", "ffffffffffffffff", "7ff0000100000000"]
    yield from ((text, filing.node_at(i) + 1, nan) for text, i in places for nan in nans)
    yield from (("x" * 9, filing.node_at(i) + 1, nan) for i in range(9) for nan in ["7ff8000000000000", "fff0000000000001"])


def bad_fractions():
    """Not in lowest terms, 4/2 for 2/1 among them; num not above den; zeros. Of joined and unjoined nodes, then of every pair of nine."""
    for num, den in [(4, 0), (4, 4), (4, 5), (4, 2 ** 32 - 1), (6, 2), (4, 2), (9, 3), (6, 4), (0, 1), (0, 0), (1, 1), (1, 0), (2, 2),
                     (2, 0), (2 ** 32 - 1, 2 ** 32 - 1), (2 ** 32 - 2, 2 ** 31 - 1), (2 ** 32 - 1, (2 ** 32 - 1) // 3),
                     (2 ** 31, 2 ** 30), (2 ** 32 - 2, 2), (3, 4), (2, 4), (10, 4), (15, 10), (25, 10), (14, 4), (49, 21), (6, 3), (3, 3),
                     (1, 2), (0, 2), (0, 2 ** 32 - 1), (2 ** 32 - 1, 0), (3 * 2 ** 30, 2 ** 30), (3 * 65537, 65537), (65535 ** 2, 65535)]:
        yield from ((text, filing.pair_at(*pair), terms(num, den)) for text, pair in [("x4o", (0, 1)), ("xooo", (2, 3))])
    several = itertools.cycle([(0, 0), (2, 0), (0, 1), (2, 2), (6, 2)])
    for pair, bad in zip(itertools.combinations(range(9), 2), several):
        yield from (("x" * 9, filing.pair_at(*pair), terms(*fraction)) for fraction in [(4, 2), bad])


def bad_fillers():
    """Where there are no nodes every byte but the count. Else, of the first and the last unused place of nodes and of pairs, each field's
    first and last byte; and what an unused place would hold if it were used."""
    yield from (("*a", at, "01") for at in range(1, filing.LENGTH))
    for text, count in {"x": 1, "x4o": 2, "x3o5s": 3, NINE[2:]: 8}.items():
        nodes, pairs = {filing.node_at(count), filing.node_at(8)}, {filing.pair_at(0, count), filing.pair_at(7, 8)}
        yield from ((text, node + at, "01") for node in sorted(nodes) for at in [0, 1, 8])
        yield from ((text, pair + at, "01") for pair in sorted(pairs) for at in [0, 3, 4, 7])
    yield from (("x4o", at, value) for at in [19, 20, 27, 28, 50, 81, 90, 93, 97, 98, 200, 362, 369] for value in ["01", "80"])
    yield from ((NINE[2:], at, "ff") for at in [73, 74, 81, 306, 309, 313, 369])
    yield from [("x", filing.pair_at(0, 1), terms(2, 1)), ("x4o", filing.pair_at(0, 2), terms(2, 1))]


def fields_in_range():
    """Fields that stay in range: lengths and kinds of a lone node, edges, and two like nodes that keep or lose their order."""
    doubles = ["7ff0000000000000", "fff0000000000000", "0000000000000000", "8000000000000000", "0000000000000001", "800fffffffffffff",
               "7fefffffffffffff", "3ff0000000000001", "bff0000000000000", "0010000000000000"]
    for double in doubles:
        yield from ((put(text, (2, double)), "ok 1 0") for text in ["x", "s"])
        yield put("x4o", (filing.node_at(1) + 1, double)), "ok 2 1"
        above = double > "3ff0000000000000"
        yield put("x3x", (filing.node_at(0) + 1, double)), "no 22" if above else "ok 2 1"
        yield put("x3x", (filing.node_at(1) + 1, double)), "ok 2 1" if above else "no 22"
    for text, kind in [("o", "02"), ("o", "03"), ("x", "03"), ("s", "02"), ("x", "010000"), ("s", "010000")]:
        yield put(text, (1, kind)), "ok 1 0"
    for num, den in [(3, 1), (3, 2), (5, 2), (5, 3), (4, 3), (2 ** 32 - 1, 1), (2 ** 32 - 1, 2 ** 32 - 2), (2 ** 31, 1),
                     (2 ** 31 + 1, 2 ** 31), (2 ** 31 - 1, 2), (2 ** 32 - 1, 2 ** 31), (256, 255)]:
        yield put("x4o", (filing.pair_at(0, 1), terms(num, den))), "ok 2 1"
        yield put("xooo", (filing.pair_at(2, 3), terms(num, den))), "ok 4 1"              # the x is last, and the o that it is joined to
        yield put("xooo", (filing.pair_at(0, 1), terms(num, den))), "no 22"               # two joined o of three come after the third
    yield put("x4o", (filing.pair_at(0, 1), terms(2, 1))), "ok 2 0"
    yield put("x", (0, "02"), (filing.node_at(1), "023ff0"), (filing.pair_at(0, 1), terms(2, 1))), "ok 2 0"
    yield put("x4o", (0, "01"), (filing.node_at(1), "000000"), (filing.pair_at(0, 1), terms(0, 0))), "ok 1 0"


def misplaced(dice):
    """Records but for two exchanged places: well laid out, and not the smallest."""
    listed = [b"x4o", b"x3o", b"s3x", b"xs", b"x3o4o", b"x3x4x", b"x3x5x", b"o3o4o", b"x3xx", b"x3xxx", b"xxx3x", b"o3o3o3o3o",
              b"x3x3x x", b"o3o4o3o", b"x3x3x4x", b"(0)3(-0)", b"x3(1.5)", b"x5/2x5/3x"]
    drawn = [figures.by_chance(dice, 2, 6) for _ in range(MISPLACED)] + [large(dice) for _ in range(MISPLACED_LARGE)]
    for text in listed + [figures.respelled(dice, figure) for figure in drawn]:
        count = filing.record_of(text)[0]
        for i, j in some(dice, itertools.combinations(range(count), 2), 2):
            order = list(range(count))
            order[i], order[j] = j, i
            yield from laid_otherwise(text, order)


def laid_otherwise(text, order):
    """The line that lays the diagram of a text's record out in another order, unless that is the record."""
    data = filing.record_of(text)
    other = filing.laid_out(*filing.spelled(data), order)
    if other != data:
        yield put(text.decode(), (0, other.hex())), "no 22"


def renumbered_large(dice):
    """Figures of seven to nine nodes in any order."""
    lines = []
    while len(lines) < RENUMBERED_LARGE:
        nodes, edges = large(dice, 7)
        lines += laid_otherwise(figures.respelled(dice, (nodes, edges)), figures.shuffled(dice, range(len(nodes))))
    return lines


def renumberings():
    """Every layout of small figures: chains, forks, cycles, unjoined nodes, alike and different ones."""
    for text in ["x3o", "x5/2s", "o(-0)", "(-1)3x",
                 "oxs", "x3xx", "x3o3x", "x3x4x", "x4o3o", "s3x5/2o", "x3x4x5*a", "x3o5/2o3*a", "(0)3(-0)4(inf)",
                 "x3xxx", "x3xx3x", "x3xx4x", "x3x3x3x", "x3x4x3x", "x5/2x5/3x5x", "s3x3x3s", "o3o3o5o", "x3x3x *b3x", "x3x4x *b5s",
                 "x3x3x3x3*a", "x3x4x5x6*a", "x3x3x3*a3x", "xs3os", "x3s4x4s3*a", "(0)3(-0)s4x",
                 "x3x3x3x4x", "x3s3x4x5/2s"]:
        yield from readings(text, model.read(text.encode(), wish=True))


def readings(text, figure):
    """The lines that make of a text's record each layout of the figure, but for the record itself."""
    data = filing.record_of(text.encode())
    for other, expected in filing.read_back_by_all(figure).items():
        if other != data:
            yield put(text, (0, other.hex())), expected


def odd_lengths():
    """-0.0, infinities and the ends of the subnormals, few of which a text can spell: sound, in the order of their bits and in others."""
    most, least = sys.float_info.max, sys.float_info.min
    below = least - 5e-324
    rising = [0.0, 5e-324, below, least, most, math.inf, -0.0, -5e-324, -below, -least, -most, -math.inf]
    for two in zip(rising, rising[1:]):
        yield from readings("(0)3(0)", ([("x", length) for length in two], [(0, 1, (3, 1))]))
    yield from readings("s4s", ([("s", -0.0), ("s", math.inf)], [(0, 1, (4, 1))]))
    yield from readings("(0)5/2s", ([("x", -math.inf), ("s", 0.0)], [(0, 1, (5, 2))]))
    for three in [(-0.0, 0.0, 5e-324), (math.inf, -math.inf, -5e-324), (0.0, -0.0, 0.0)]:
        yield from readings("(0)3(0)4(0)", ([("x", length) for length in three], [(0, 1, (3, 1)), (1, 2, (4, 1))]))


def moved():
    """Of nine nodes one is a snub, or two are joined: the record has these last, and here they stand at each other place."""
    for i in range(8):
        yield put("x" * 8 + "s", (filing.node_at(8), "02"), (filing.node_at(i), "03")), "no 22"
    for pair in itertools.combinations(range(9), 2):
        if pair != (7, 8):
            yield put("x" * 8 + "3x", (filing.pair_at(7, 8), terms(2, 1)), (filing.pair_at(*pair), terms(3, 1))), "no 22"


def misnumbered_and_damaged():
    """Layouts in reverse with one field damaged: 14, since 22 is "tested after 14"."""
    for text in ["x3o", "xs", "x3x4x", "s5/2xo", "x3x4x *b5s", "o3o3o5o", "x3x3o3x3x *b3o", "x3" * 8 + "s"]:
        data = filing.record_of(text.encode())
        reverse = filing.laid_out(*filing.spelled(data), range(data[0])[::-1])
        assert reverse != data
        yield from ((put(text, (0, reverse.hex()), field), "no 14") for field in damages(reverse))


def damages(data):
    """Fields of a layout of two nodes and more, each made a bad one: its offset and digits."""
    count, last = data[0], data[0] - 1
    yield from ((0, f"{bad:02x}") for bad in [last, count + 1, 255])
    yield from [(filing.node_at(0), "00"), (filing.node_at(last), "04")]
    yield filing.node_at(0) + 1, "0000000000000001" if data[1] == filing.KINDS["o"] else "7ff8000000000000"
    yield from ((filing.pair_at(0, 1), terms(*bad)) for bad in [(4, 2), (3, 0)])
    yield from ((filing.pair_at(last - 1, last), terms(*bad)) for bad in [(6, 2), (0, 0)])
    if count < model.MOST_NODES:
        yield from ((at, "01") for at in [filing.node_at(count), 81, filing.pair_at(0, count), 369])


def relabelled(dice):
    """Records with another fraction between two nodes: well laid out, and the smallest or not."""
    drawn = [figures.by_chance(dice, 3, 6) for _ in range(RELABELLED)] + [large(dice) for _ in range(RELABELLED_LARGE)]
    for nodes, edges in drawn:
        text = figures.respelled(dice, (nodes, edges)).decode()
        i, j = dice.pick(list(itertools.combinations(range(len(nodes)), 2)))
        at = filing.pair_at(i, j)
        data = filing.record_of(text.encode())
        labels = [terms(2, 1), terms(3, 1), terms(5, 3)]
        label = dice.pick([label for label in labels if label != data[at:at + 8].hex()])
        yield put(text, (at, label)), begins(data[:at] + bytes.fromhex(label) + data[at + 8:])


def damaged(dice):
    """Records of texts by chance with one byte changed, mostly where a node or a pair has its place."""
    found = 0
    while found < DAMAGED:
        text = chance.accepted(dice, 1, 16)
        if not accepted(text):
            continue
        data = filing.record_of(text)
        at, value = damage(dice, data)
        if value != data[at]:
            found += 1
            yield text + f"|!{at:03x}{value:02x}".encode(), begins(data[:at] + bytes([value]) + data[at + 1:])


def damage(dice, data):
    """An offset, mostly where a node or a pair has its place, and a byte for it, at times the one that it has."""
    count = min(data[0], model.MOST_NODES)
    used = [0, *range(1, filing.node_at(count)), *range(82, filing.pair_at(0, count))]
    at = dice.pick(used) if dice.below(4) else dice.below(filing.LENGTH)
    return at, dice.pick([data[at] + 1, data[at] - 1, data[at] ^ 1 << dice.below(8), dice.below(256)]) % 256
