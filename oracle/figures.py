"""Figures by chance: other texts for a figure, and figures next to it.

A figure is a diagram as model.py reads it, nodes and edges, with no loops and with fractions in lowest terms.
"""

import decimal
import itertools
import math
import struct

import model

TWOS = ["2", "2", "4/2", "6/3", "02", "2/1"]
FIFTEEN = decimal.Context(prec=model.MOST_DIGITS)


def figure(diagram):
    nodes, edges = diagram
    return nodes, [(a, b, lowest(*fraction)) for a, b, fraction in edges if a != b]


def lowest(num, den):
    divisor = math.gcd(num, den)
    return num // divisor, den // divisor


def alike(count, ends, node=("x", 1.0), fraction=(3, 1)):
    """A figure of alike nodes and alike edges, its ends given as "ab bc"."""
    return [node] * count, [(ord(end[0]) - ord("a"), ord(end[1]) - ord("a"), fraction) for end in ends.split()]


def by_chance(dice, least, most):
    """A figure of few sorts of nodes and edges, so that much in it is alike."""
    count = least + dice.below(most - least + 1)
    sorts = [dice.pick([("o", None), ("x", 1.0), ("s", 1.0), ("x", -0.0), ("x", 1.5)]) for _ in range(1 + dice.below(2))]
    labels = [dice.pick([(3, 1), (4, 1), (5, 2), (5, 3)]) for _ in range(1 + dice.below(2))]
    dense = dice.random()
    edges = [(a, b, dice.pick(labels)) for a, b in itertools.combinations(range(count), 2) if dice.random() < dense]
    return [dice.pick(sorts) for _ in range(count)], edges


def renumbered(nodes, edges, order):
    """The figure whose node i is the given one's order[i]."""
    place = {old: new for new, old in enumerate(order)}
    return [nodes[old] for old in order], [(place[a], place[b], fraction) for a, b, fraction in edges]


def shuffled(dice, things):
    return sorted(things, key=lambda _: dice.random())


def stroll(dice, nodes, edges):
    """All nodes, from neighbour to neighbour where one is left: so numbered, a chain can be written as one."""
    near = {i: {a + b - i for a, b, _ in edges if i in (a, b)} for i in range(len(nodes))}
    order = []
    while len(order) < len(nodes):
        left = [i for i in shuffled(dice, near) if i not in order]
        beside = [i for i in left if order and i in near[order[-1]]]
        order.append(beside[0] if beside else min(left, key=lambda i: len(near[i])))
    return order


def respelled(dice, figure):
    """Another text for the figure, the shortest of three; None if time and again it is too long to be read."""
    for _ in range(100):
        text = min((walked(dice, *figure) for _ in range(3)), key=len)
        if len(text) <= model.MOST_BYTES:
            return text.encode()
    return None


def walked(dice, nodes, edges):
    """A text that makes the nodes, renumbered, by rising index and goes over every edge once, in any order and direction. A reference
    may stand before the node that it means; a loop or a two changes nothing."""
    seldom = dice.pick([3, 8, 1000])

    def odd():
        """Whether to do something odd here."""
        return dice.below(seldom) == 0

    order = dice.pick([stroll(dice, nodes, edges), shuffled(dice, range(len(nodes)))])
    nodes, edges = renumbered(nodes, edges, order)
    left = {(a, b): fraction for a, b, fraction in edges}
    left.update(((a, a), (3, 1)) for a in range(len(nodes)) if odd() and odd())
    text, made, here = "", 0, None
    while made < len(nodes) or left:
        ways = [ends for ends in left if here in ends]
        edge = ""
        if ways and not odd():
            ends = dice.pick(ways)
            there, edge = sum(ends) - here, spelled_fraction(dice, *left.pop(ends), odd)
        elif made < len(nodes) and (dice.below(2) or not left):
            there = made
        else:
            there = dice.pick(dice.pick(list(left)))
        if text and not edge and odd():
            edge = dice.pick(TWOS)
        text += spaces(dice, odd) + edge + (" " if edge and odd() else "")
        if there == made and not odd():
            text, made = text + spelled_node(dice, *nodes[made], odd), made + 1
        else:
            text += dice.pick(["*" + letter(there), "*-" + letter(len(nodes) - 1 - there)])
        here = there
    return text


def letter(index):
    return chr(ord("a") + index)


def spaces(dice, odd):
    return dice.pick([" ", " ", "\t", "  "]) if odd() else ""


def spelled_fraction(dice, num, den, odd):
    times = dice.pick([2, 3, 4, 5, 6, 7, 11, (2 ** 32 - 1) // num]) if odd() else 1
    if num * times >= 2 ** 32:
        times = 1
    num, den = num * times, den * times
    if den == 1 and not odd():
        return ("0" if odd() else "") + str(num)
    return ("1/" if odd() else "") + f"{num}/{den}"


def spelled_node(dice, kind, value, odd):
    if kind != "x":
        return kind
    letters = [name for name, node in model.LETTERS.items() if node[0] == "x" and bits(node[1]) == bits(value)]
    return dice.pick(letters if letters and not odd() else list(literals(value)) or letters)


def literals(value):
    """Some literals of exactly this value, none if it takes more than the port's digits."""
    if math.isinf(value):
        sign, words = "-" if value < 0 else "", ["inf", "Inf", "infinity", "INFINITY"]
        yield from (f"({sign}{word})" for word in words)
        return
    sign, digits, power = decimal.Decimal(repr(value)).normalize().as_tuple()
    digits = "".join(map(str, digits))
    for before, behind, after in itertools.product(["", "0"], ["", "0", "00"], range(len(digits) + 2)):
        w = before + digits + behind
        exponent = power - len(behind) + after
        point = "." + w[len(w) - after:] if after else ""
        text = "-" * sign + w[:len(w) - after] + point + (f"e{exponent}" if exponent else "")
        if after <= len(w) and reads(text, value):
            yield f"({text})"


def reads(text, value):
    try:
        return bits(model.literal(text.encode(), 0, len(text), wish=True)) == bits(value)
    except model.Refusal:
        return False


def bits(value):
    return struct.pack(">d", value)


# Changes of a figure in one place, or None if it has no such place. The figure may come out the same.

def other_fraction(dice, nodes, edges):
    """Another fraction on one edge, at times 2/1, which is none."""
    if not edges:
        return None
    a, b, (num, den) = edge = dice.pick(edges)
    near = [(2, 1), (num + 1, den), (num - 1, den), (num, den + 1), (num, num - den), (num, num - den), neighbour(num, den)]
    fraction = dice.pick([(n, d) for n, d in near if 0 < d < n < 2 ** 32 and (n, d) != (num, den)])
    rest = [other for other in edges if other != edge]
    return nodes, rest if lowest(*fraction) == (2, 1) else rest + [(a, b, lowest(*fraction))]


def neighbour(num, den):
    """The fraction before it among those of smaller num: num × d - n × den = 1. Large ones have the same quotient as doubles."""
    if den == 1:
        return 2, 1
    d = pow(num, -1, den)
    return (num * d - 1) // den, d


def other_length(dice, nodes, edges):
    """The next lengths that 15 digits can write, or the other sign."""
    ringed = [i for i, (kind, _) in enumerate(nodes) if kind == "x"]
    if not ringed:
        return None
    i = dice.pick(ringed)
    value = nodes[i][1]
    near = FIFTEEN.create_decimal(repr(value))
    lengths = [float(length) for length in (near, FIFTEEN.next_plus(near), FIFTEEN.next_minus(near), -near)]
    lengths = [length for length in lengths if bits(length) != bits(value) and any(literals(length))]
    return (replaced(nodes, i, ("x", dice.pick(lengths))), edges) if lengths else None


def other_kind(dice, nodes, edges):
    """Snub for ringed, of value 1, or unringed for one that is not."""
    i = dice.below(len(nodes))
    sorts = [("o", None), ("x", 1.0), ("s", 1.0)]
    return replaced(nodes, i, dice.pick([node for node in sorts if node != nodes[i]])), edges


def moved_edge(dice, nodes, edges):
    """One end of an edge goes to another node."""
    joined = {frozenset((a, b)) for a, b, _ in edges}
    moves = [(edge, c) for edge in edges for c in range(len(nodes)) if c not in edge[:2] and frozenset((edge[0], c)) not in joined]
    if not moves:
        return None
    edge, c = dice.pick(moves)
    return nodes, [(edge[0], c, edge[2]) if other == edge else other for other in edges]


def exchanged_nodes(dice, nodes, edges):
    pairs = [(i, j) for i, j in itertools.combinations(range(len(nodes)), 2) if nodes[i] != nodes[j]]
    if not pairs:
        return None
    i, j = dice.pick(pairs)
    return replaced(replaced(nodes, i, nodes[j]), j, nodes[i]), edges


def exchanged_fractions(dice, nodes, edges):
    pairs = [(e, f) for e, f in itertools.combinations(edges, 2) if e[2] != f[2]]
    if not pairs:
        return None
    e, f = dice.pick(pairs)
    return nodes, [edge for edge in edges if edge not in (e, f)] + [(*e[:2], f[2]), (*f[:2], e[2])]


def switched(dice, nodes, edges):
    """Edges ab and cd become ac and bd: every node keeps its degree."""
    joined = {frozenset((a, b)) for a, b, _ in edges}
    pairs = [(e, f) for e, f in itertools.permutations(edges, 2) if len({*e[:2], *f[:2]}) == 4
             and not {frozenset((e[0], f[0])), frozenset((e[1], f[1]))} & joined]
    if not pairs:
        return None
    e, f = dice.pick(pairs)
    return nodes, [edge for edge in edges if edge not in (e, f)] + [(e[0], f[0], e[2]), (e[1], f[1], f[2])]


def replaced(things, i, thing):
    return things[:i] + [thing] + things[i + 1:]


CHANGES = [other_fraction, other_length, other_kind, moved_edge, exchanged_nodes, exchanged_fractions]
