"""The texts for crates/replay_names, small enough for one run of a program that reads 131,072 bytes; names.py has their form.

Each text comes with its answer where that is known beforehand, else with None. Families are written here as they are published.
"""

import functools
import itertools

import chance
import figures
import model

MOST = 100_000

ORDERS = {
    "A1": 2, "A2": 6, "A3": 24, "A4": 120, "A5": 720, "A6": 5040, "A7": 40320, "A8": 362880, "A9": 3628800,
    "B2": 8, "B3": 48, "B4": 384, "B5": 3840, "B6": 46080, "B7": 645120, "B8": 10321920, "B9": 185794560,
    "D4": 192, "D5": 1920, "D6": 23040, "D7": 322560, "D8": 5160960, "D9": 92897280,
    "E6": 51840, "E7": 2903040, "E8": 696729600, "F4": 1152, "H3": 120, "H4": 14400}
DIHEDRAL = ["I2(5)", "I2(6)", "I2(7)", "I2(8)", "I2(4294967295)"]

# Of two nodes: edges and their names.
NAMED = {
    "3": "A2", "4": "B2", **{str(p): f"I2({p})" for p in range(5, 21)},
    "6/2": "A2", "9/3": "A2", "12/4": "A2", "4294967295/1431655765": "A2", "8/2": "B2", "12/3": "B2", "4294967292/1073741823": "B2",
    "10/2": "I2(5)", "15/3": "I2(5)", "4294967295/858993459": "I2(5)", "12/2": "I2(6)", "4294967294/2": "I2(2147483647)",
    "03": "A2", "3/1": "A2", "5/1": "I2(5)", "7/8/2": "B2", "4/2/10/2": "I2(5)", "0/4294967295/1": "I2(4294967295)",
    # Where mirrors begin to be refused with 15; what 16 and 32 bits hold, and twice of which they don't.
    **{str(p): f"I2({p})" for p in [100, 1000, 9933, 9934, 9935, 9936, 2 ** 15 - 1, 2 ** 15, 2 ** 16 - 1, 2 ** 16, 2 ** 31 - 1, 2 ** 31,
                                    2 ** 32 - 2, 2 ** 32 - 1]}}
NAMELESS = [
    "3/2", "4/3", "5/2", "5/3", "5/4", "6/5", "7/2", "7/3", "8/3", "9/2", "9/4", "10/3", "10/4", "11/2", "11/3", "14/4", "15/2", "16/3", "99/20",
    "101/20", "4294967295/2", "4294967295/4", "4294967295/4294967294", "4294967294/4294967293", "4294967295/2147483647", "4294967295/2147483648",
    # Next to 3, 4 and 5.
    "4294967295/1431655764", "4294967294/1431655765", "4294967293/1431655764", "4294967295/1073741823", "4294967293/1073741823",
    "4294967295/858993458", "4294967294/858993459",
    # 3, 4 and 5 times den are num if no more than 32 bits are kept.
    "3205032707/2500000001", "3705032708/2000000001", "3205032709/1500000001"]
TWOS = ["2", "4/2", "6/3", "02", "2/1", "5/4/2", "4294967294/2147483647"]

RINGS = ["o", "o", "x", "x", "s", "q", "F", "(1.5)", "(-2)", "(inf)", "(-0)"]

# Connected diagrams that no name fits.
NO_GROUPS = ["o5/2o", "o3/2o", "o7/3o", "o3o3o3*a", "o4o4o", "o3o6o", "o5o3/2o", "o3o3o3o3*a", "o3o4o4o", "o3o3o *b3o *b3o"]

# The text's own refusals, some of them before a 21 that would be due.
REFUSED = {
    " " * 255 + "o": "1 255", "o" + "3o" * 128: "1 255", "\x80" * 256: "1 255", "\x80": "2 0", "o3o\xff": "2 3", "o5/2o\xe9": "2 5", "(\xe9": "2 1",
    "(": "3 1", "o3(1": "3 4", "o5/2o(inf": "3 9", "": "4 0", "o3": "4 2", "o ": "4 2", "o5/2": "4 4", "o5/2o ": "4 6", "o3*": "4 3", "o3*-": "4 4",
    "()": "5 1", "o3/o": "5 2", "o4294967296o": "5 10", "o5/2o3//2o": "5 6", "(1x)": "5 2", "z": "6 0", "o3_": "6 2", "(nan)": "6 3",
    "o5/2o)": "6 5", "o3\to": "6 2", "*A": "6 1", "o1o": "7 1 1 1", "o5/2o2/3o": "7 2 3 7", "o0o": "7 0 1 1", "o6/6o": "7 6 6 3",
    "o5/0o": "7 5 0 3", "o4294967295/4294967295o": "7 4294967295 4294967295 21", "o3o3*a": "8 1 0", "o5/2o5/2*a": "8 1 0", "o3*a3*a": "8 0 0",
    "o3o3o3*b": "8 2 1", "o5/2o*a3*b": "8 0 1", "o6/2o3*a": "8 1 0", "(1e99)": "9 4", "o5/2(0e23)": "9 8", "(9999999999999999)": "9 16",
    "o" * 10: "10 9", "o5/2o" + "o" * 8: "10 12", "o" * 9 + "(inf)": "10 9", "o3" * 9 + "o": "10 18", "o3*c": "11 0", "o5/2o3*d": "11 1",
    "*z3*y": "11 0", "oo*-c3*a": "11 0", "o3o3o3*a o3*i": "11 3"}


def corpus():
    """The texts, each once, with the answers that are known."""
    dice = chance.Dice(4)
    texts = gathered(itertools.chain(
        families(), fine_print(), two_nodes(), chains(), arms(), branched(), cycles(), affine(), loops(), lengths(), apart(), refused(),
        renumberings(), samples(dice, 6), small(dice), together(dice), near(dice, 130), by_chance(dice, 40)))
    assert not any(b"\n" in text for text in texts)
    assert sum(len(text) + 1 for text in texts) <= MOST
    return texts


def stress(count, seed=1):
    """So many, and a few more."""
    dice, texts = chance.Dice(seed), {}
    while len(texts) < count:
        texts |= gathered(itertools.chain(samples(dice, 2), near(dice, 100), by_chance(dice, 10)))
    return texts


def gathered(pairs):
    texts = {}
    for text, known in pairs:
        text = text if isinstance(text, bytes) else text.encode("latin-1")
        assert known in (None, texts.get(text, known) or known), text
        texts[text] = known or texts.get(text)
    return texts


def ok(named):
    """The answer, from the lowest nodes to the names."""
    return " ".join(["ok", str(len(named)), *(f"{node} {name} {order(name)}" for node, name in sorted(named.items()))])


def order(name):
    return 2 * int(name[3:-1]) if name[0] == "I" else ORDERS[name]


def alone(name):
    """The answer to one component with this name, or with none."""
    return ok({0: name}) if name else "no 21 0"


# ---- one component

def published(name):
    if name[0] == "I":
        return f"o{name[3:-1]}o"
    n = int(name[1:])
    return {"A": "o" + "3o" * (n - 1), "B": "o4o" + "3o" * (n - 2), "D": "o3o3o *b" + "3o" * (n - 3), "E": "o" + "3o" * (n - 2) + " *c3o",
            "F": "o3o4o3o", "H": "o5o" + "3o" * (n - 2)}[name[0]]


def families():
    return ((published(name), alone(name)) for name in [*ORDERS, *DIHEDRAL])


def fine_print():
    """Families of document 01 that have another name or none: D3, E4, E5 and E9 in its numbering, H2, H5 and H9."""
    known = {"ooo*a3*c3*b": "A3", "oooo*a3*d3*c3*b": "A4", "ooooo*a3*d3*c3*b*d3*e": "D5", "o3o3o3o *c3o": "D5", "o5o": "I2(5)", "o5o3o3o3o": None,
             "ooooooooo*b3*c3*d3*e3*f3*g3*h3*i*a3*d": None, "o3o3o3o3o3o3o3o *c3o": None, "o5o3o3o3o3o3o3o3o": None}
    return ((text, alone(name)) for text, name in known.items())


def two_nodes():
    for edge, name in [*NAMED.items(), *((edge, None) for edge in NAMELESS)]:
        yield f"o{edge}o", alone(name)
        if len(edge) < 5 or edge == "4294967295":
            yield f"ss*b{edge}*a", alone(name)
            yield f"o{edge}o3o", None
    yield from ((f"o{two}o", ok({0: "A1", 1: "A1"})) for two in TWOS)


def chains():
    """All of up to five nodes of 3, 4, 5 and 6; longer ones of 3s but for one edge, or two that are 4 or 5."""
    for count in range(1, 5):
        for edges in itertools.product("3456", repeat=count):
            yield "o" + "".join(edge + "o" for edge in edges), alone(of_chain("".join(edges)))
    for count in range(5, 9):
        changes = [{place: edge} for place in range(count) for edge in "456"]
        changes += [{0: one, place: other} for place in (1, count // 2, count - 1) for one, other in ("44", "45", "54", "55")]
        for change in changes:
            edges = [change.get(place, "3") for place in range(count)]
            yield "o" + "".join(edge + "o" for edge in edges), alone(of_chain("".join(edges)))


def of_chain(edges):
    """Its name, the edges being digits."""
    n = len(edges) + 1
    names = {"3" * (n - 1): f"A{n}", "4" + "3" * (n - 2): f"B{n}", "5": "I2(5)", "6": "I2(6)", "53": "H3", "533": "H4", "343": "F4"}
    return names.get(edges) or names.get(edges[::-1])


def arms():
    """3s from one node outwards: of three arms all lengths and orders, then stars and others of more."""
    for lengths in itertools.product(range(1, 7), repeat=3):
        n = 1 + sum(lengths)
        if n <= model.MOST_NODES:
            name = {(1, 1): f"D{n}", (1, 2): f"E{n}" if n <= 8 else None}.get(tuple(sorted(lengths))[:2])
            yield outwards(lengths), alone(name)
    for count in range(4, 9):
        yield outwards([1] * count), alone(None)
    for lengths in [(2, 1, 1, 1), (1, 1, 1, 5), (2, 2, 2, 2), (1, 1, 2, 1, 1)]:
        yield outwards(lengths), alone(None)


def outwards(lengths):
    return "o" + "*a".join("3o" * length for length in lengths)


def branched():
    """D and E with any one edge made another: no name has both a branch and an edge that is not 3."""
    for name in ["D4", "D5", "D6", "E6", "E7", "E8"]:
        nodes, edges = read(published(name))
        for changed in edges:
            for fraction in [(4, 1), (5, 1), (5, 2)]:
                others = [(a, b, fraction if (a, b, was) == changed else was) for a, b, was in edges]
                yield typed("o" * len(nodes), others), alone(None)


def cycles():
    """Of 3s, of 3 to 9 nodes, alone, with one other edge, and with a tail; complete graphs; two cycles."""
    for n in range(3, 10):
        chain = "o" + "3o" * (n - 1)
        texts = [chain + edge + "*a" for edge in ["3", "4", "5/2", "3/2", "6/2"]] + [chain + "3*b", chain + "3*-c"]
        yield from ((text, alone(None)) for text in texts if n > 3 or not text.endswith("*b"))
        pairs = [(a, b, (3, 1)) for a, b in itertools.combinations(range(n), 2)]
        yield typed("o" * n, pairs), alone(None)
        yield typed("o" * n, pairs[1:]), alone(None) if n > 3 else alone("A3")
    yield from ((text, alone(None)) for text in ["o4o4o4*a", "o5/2o5/2o5/2*a", "o3o3o3*a3o3o3*a", "o3o3o3*a3o3o3o3*d", "o3o3o3o3*a3*c"])


def affine():
    """B~, C~, D~, E~, F~ and G~, then groups that are infinite otherwise."""
    for n in range(3, 9):
        yield "o3o3o *b" + "3o" * (n - 3) + "4o", alone(None)
        yield "o4o" + "3o" * (n - 3) + "4o", alone(None)
    for n in range(5, 9):
        yield "o3o3o *b" + "3o" * (n - 3) + " *-c3o", alone(None)
    for text in ["o3o3o *b3o *b3o", "o3o3o3o3o *c3o3o", "o3o3o3o3o3o3o *d3o", "o3o3o3o3o3o3o3o *c3o", "o3o4o3o3o", "o3o6o", "o4o3o3o3o3o3o3o4o",
                 "o3o7o", "o5o4o", "o5o5o", "o7o3o", "o3o5o3o", "o5o3o5o", "o4o3o5o", "o5o3o3o5o", "o5o3o *b3o", "o3o3o3o3o *b4o", "o3o1000000o"]:
        yield text, alone(None)


def loops():
    """On each node and on all of them, of any fraction; nodes that nothing but loops joins."""
    for name in ["A1", "A2", "B2", "I2(7)", "A3", "B3", "H3", "D4", "F4", "H4", "D5", "E6", None]:
        text = published(name) if name else "o3o3o3*a"
        count = text.count("o")
        one = [f"*{figures.letter(i)}{edge}*{figures.letter(i)}" for i, edge in zip(range(count), ["4", "3", "5/2", "6/2", "3/2", "5", "7"])]
        yield from ((text + loop, alone(name)) for loop in [*one, "".join(one)])
    yield from {"o3*a3o": alone("A2"), "*b3*b oo": ok({0: "A1", 1: "A1"}), "ooo*a3*a*b4*b*c5/2*c": ok(dict.fromkeys(range(3), "A1")),
                "o3*ao4*b": ok({0: "A1", 1: "A1"}), "o4294967295*a": alone("A1"), "o5/2*a5o5/2*b3o": alone("H3"), "o4*a5/2o": alone(None),
                "o o5/2*b5/2o": "no 21 1"}.items()
    yield "o3*a" + "".join(f"o3*{letter}" for letter in "bcdefghi"), ok(dict.fromkeys(range(9), "A1"))


def lengths():
    """Nodes of every sort."""
    yield from ((f"{node}{edge}{node}", alone(NAMED.get(edge)))
                for node, edge in zip([*chance.LETTERS, *RINGS, "(1e22)", "(-Infinity)", "(0)"], itertools.cycle(["3", "4", "5", "5/2", "8"])))
    for text, name in {"x": "A1", "s": "A1", "(inf)": "A1", "(-1e-22)": "A1", "x4o3o": "B3", "s3s4s": "B3", "x3o5o": "H3", "s5s3s": "H3",
                       "(inf)3(-inf)4(INF)3(-Infinity)": "F4", "x3o3o *b3x": "D4", "s3s3s *b3s": "D4", "x3o3o3o3o *c3o": "E6", "q3f3h": "A3",
                       "x5/2o": None, "x3o5/2o": None, "s5/2s5s": None, "x3o3o3o3o3o3o *e3o": "E8", "x3o3x3o3o3o3x *c3s": "E8",
                       "(0)3(-0)3(0)3(-0)3(0)": "A5", " " * 252 + "x3o": "A2", "x  3  o\t\t4 o": "B3"}.items():
        yield text, alone(name)


# ---- several components

def apart():
    """Nodes that nothing joins, or a two; no nodes; components that stand in line or don't; the first without a name."""
    yield from ((text, "ok 0") for text in ["*a", "*z", "*-a", "*a*b", "*-a2*b", "*c4/2*c"])
    yield from (("o" * n, ok(dict.fromkeys(range(n), "A1"))) for n in range(1, 10))
    yield from (("2".join("xosxosxos"[:n]), ok(dict.fromkeys(range(n), "A1"))) for n in range(2, 10))
    for text, named in {
            "x2x3o": {0: "A1", 1: "A2"}, "x3o2x": {0: "A2", 2: "A1"}, "o4/2o3o": {0: "A1", 1: "A2"}, "ooo*a2*b3*c": {0: "A1", 1: "A2"},
            "ooo*a3*c": {0: "A2", 1: "A1"}, "o3o o4o o5o": {0: "A2", 2: "B2", 4: "I2(5)"}, "oooo*a3*d*b4*c": {0: "A2", 1: "B2"},
            "oooo*b3*d*a4*c": {0: "B2", 1: "A2"}, "o3o3o2*a2o7o": {0: "A3", 3: "I2(7)"}, "o3o3o o7o": {0: "A3", 3: "I2(7)"}, "x2*c": {0: "A1"},
            "o3o3o *b3o o3o4o3o o": {0: "D4", 4: "F4", 8: "A1"}, "o5o3o3o o5o3o o12o": {0: "H4", 4: "H3", 7: "I2(12)"},
            "o4294967295o o4294967294o o2147483648o": {0: "I2(4294967295)", 2: "I2(4294967294)", 4: "I2(2147483648)"},
            "o4294967295o o4294967295o o4294967295o o4294967295o o": {**dict.fromkeys(range(0, 8, 2), "I2(4294967295)"), 8: "A1"}}.items():
        yield text, ok(named)
    for text, node in {
            "o5/2o o": 0, "o o5/2o": 1, "o3o o5/2o": 2, "o5/2o o3o3o3*c": 0, "oo5/2oo": 1, "oooo*a3*c*b5/2*d": 1, "oooo*a5/2*d*b3*c": 0,
            "o5/2o5/2o oo": 0, "ooooooooo*h5/2*i": 7, "ooooooooo*i5/2*a": 0, "o3o3o3*a o3o3o3*d o3o3o3*g": 0, "o3o3o o3o3o3*d o3o3o3*g": 3,
            "o3o3o o3o3o o3o3o3*g": 6, "o3o3o3*a2o5o": 0, "o2o5/2o2o": 1}.items():
        yield text, f"no 21 {node}"


def together(dice):
    """Two to nine components, of which none is without a name, or the first, the second or the last is the first such."""
    for count in range(2, 10):
        for rank in [None] if count == 9 else [None, *sorted({0, 1, count - 1})]:
            for _ in range(6):
                yield interleaved(dice, count, rank)


def interleaved(dice, count, rank):
    """Components whose nodes stand in any order, of which the one of this rank is the first without a name; and the answer."""
    while True:
        parts = fitting(dice, count, rank is not None)
        owners = figures.shuffled(dice, [i for i, (_, (nodes, _)) in enumerate(parts) for _ in nodes])
        by_lowest = sorted(range(count), key=owners.index)
        nameless = [place for place, i in enumerate(by_lowest) if parts[i][0] is None]
        if nameless[:1] == [rank][:rank is not None]:
            break
    edges = []
    for i, (_, (_, inside)) in enumerate(parts):
        places = figures.shuffled(dice, [place for place, owner in enumerate(owners) if owner == i])
        edges += [(places[a], places[b], fraction) for a, b, fraction in inside]
    text = dressed(dice, len(owners), edges)
    if nameless:
        return text, f"no 21 {owners.index(by_lowest[rank])}"
    return text, ok({owners.index(i): name for i, (name, _) in enumerate(parts)})


def fitting(dice, count, nameless):
    """So many names or None, each with a diagram, on nine nodes or fewer."""
    parts, room = [], model.MOST_NODES
    while len(parts) < count:
        named = dice.pick([*ORDERS, *DIHEDRAL])
        part = (None, read(dice.pick(NO_GROUPS))) if nameless and dice.below(3) == 0 else (named, read(published(named)))
        size = len(part[1][0])
        if size <= room - (count - 1 - len(parts)):
            parts.append(part)
            room -= size
    return parts


def refused():
    return ((text, "no " + answer) for text, answer in REFUSED.items())


# ---- numberings

@functools.cache
def read(text):
    return model.read(text.encode(), wish=True)


def typed(nodes, edges):
    """The nodes, then the edges by references: one that goes on from the last, else one of a node with the fewest left."""
    left = sorted((*sorted((a, b)), fraction) for a, b, fraction in edges)
    text, here = "".join(nodes), None
    while left:
        ends = [end for way in left for end in set(way[:2])]
        if here not in ends:
            here = min(ends, key=lambda end: (ends.count(end), end))
            text += "*" + figures.letter(here)
        a, b, fraction = way = next(way for way in left if here in way[:2])
        left.remove(way)
        here = a + b - here
        text += spelled(*fraction) + "*" + figures.letter(here)
    return text


def spelled(num, den):
    return str(num) if den == 1 else f"{num}/{den}"


def renumberings():
    """Every family of up to six nodes in all renumberings. A text is typed from the sorted edges alone: renumberings that carry the family onto
    the same edges, one of its symmetries apart, give the same text, which stands here once."""
    for name in [*ORDERS, *DIHEDRAL]:
        nodes, edges = read(published(name))
        if len(nodes) <= 6:
            orders = itertools.permutations(range(len(nodes)))
            texts = {typed("o" * len(nodes), figures.renumbered(nodes, edges, order)[1]) for order in orders}
            yield from ((text, alone(name)) for text in sorted(texts))


def samples(dice, count):
    """Every family in renumberings by chance, with nodes, spellings, loops and twos by chance; more of those above six nodes."""
    for name in [*ORDERS, *DIHEDRAL]:
        nodes, edges = read(published(name))
        for _ in range(2 * count if len(nodes) > 6 else count):
            if dice.below(3):
                yield figures.respelled(dice, ringed(dice, published(name))), alone(name)
            else:
                order = figures.shuffled(dice, range(len(nodes)))
                yield dressed(dice, len(nodes), figures.renumbered(nodes, edges, order)[1]), alone(name)


def ringed(dice, text):
    """The text's edges, with nodes by chance."""
    nodes, edges = read(text)
    return read("".join(dice.pick(RINGS) for _ in nodes))[0], edges


def dressed(dice, count, edges):
    """A text that keeps this numbering, with nodes, loops and fractions that are not in lowest terms by chance."""
    times = [dice.pick([1, 1, 1, 2, 4, 10 ** 8]) for _ in edges]
    edges = [(a, b, (num * k, den * k) if num * k <= chance.LARGEST else (num, den)) for k, (a, b, (num, den)) in zip(times, edges)]
    loops = [(i, i, dice.pick([(3, 1), (4, 1), (5, 2), (6, 2)])) for i in range(count) if dice.below(8) == 0]
    return typed([dice.pick(RINGS) for _ in range(count)], edges + loops)


# ---- what is next to a family, and what is not

def near(dice, count):
    """Families one step off, or two: an edge's fraction changed, an end moved, two edges switched, an edge more, or a node more."""
    changes = [figures.other_fraction, figures.moved_edge, figures.switched, one_edge_more, one_node_more]
    for _ in range(count):
        nodes, edges = ringed(dice, published(dice.pick([*ORDERS, *DIHEDRAL])))
        for _ in range(dice.pick([1, 1, 2])):
            nodes, edges = dice.pick(changes)(dice, nodes, edges) or (nodes, edges)
        yield figures.respelled(dice, (nodes, edges)), None


def one_edge_more(dice, nodes, edges):
    joined = [{a, b} for a, b, _ in edges]
    free = [pair for pair in itertools.combinations(range(len(nodes)), 2) if set(pair) not in joined]
    return (nodes, [*edges, (*dice.pick(free), dice.pick([(3, 1), (4, 1)]))]) if free else None


def one_node_more(dice, nodes, edges):
    """Joined to any one."""
    if len(nodes) == model.MOST_NODES:
        return None
    return [*nodes, ("o", None)], [*edges, (dice.below(len(nodes)), len(nodes), dice.pick([(3, 1), (3, 1), (4, 1), (5, 1)]))]


def small(dice):
    """All diagrams of three nodes of six sorts of pairs; of four nodes of 3s and 4s one of each that are alike, in a numbering by chance."""
    for fractions in itertools.product([None, (3, 1), (4, 1), (5, 1), (6, 1), (5, 2)], repeat=3):
        yield typed("ooo", pairs_of(3, fractions)), None
    alike = set()
    for fractions in itertools.product([None, (3, 1), (4, 1)], repeat=6):
        texts = {typed("oooo", figures.renumbered("oooo", pairs_of(4, fractions), order)[1]) for order in itertools.permutations(range(4))}
        if min(texts) not in alike:
            alike.add(min(texts))
            yield dice.pick(sorted(texts)), None


def pairs_of(count, fractions):
    return [(a, b, fraction) for (a, b), fraction in zip(itertools.combinations(range(count), 2), fractions) if fraction]


def by_chance(dice, count):
    for make in [chance.accepted, chance.hurt, chance.unreduced]:
        yield from ((make(dice, 3, 40), None) for _ in range(count))
