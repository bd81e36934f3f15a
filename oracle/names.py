"""The names of finite groups and their orders, from ticket K4's words alone, and what the program `replay_names` answers to each line of
its input.

`names.py`                  the names are those of finite groups, and the orders are theirs, as found in another way; crates/replay_names
                            holds the texts of names_corpus.py, and as its answers the model's
`names.py write`            stores them
`names.py stress N [SEED]`  N texts by chance

A line is a text, which is read with ticket K6's wish.

    ok COUNT{ NODE NAME ORDER}    how many components the diagram has, then of each, by rising lowest node, that node, its name as the ticket
                                  writes it, A3 or I2(7), and its group's order
    no NUMBER{ FIELD}             the text's refusal, or `no 21 NODE`: the lowest node of the first component that no name fits

Exit status: 0 nothing differs, 1 something does.
"""

import collections
import math
import pathlib
import sys
from fractions import Fraction

import cox
import model
import names_corpus
import stored
from model import Refusal

STORED = pathlib.Path(__file__).parent.parent / "crates/replay_names"

UNJOINED = 2                                                                # the entry of two nodes that nothing joins
ORDERS_OF_E = {6: 51_840, 7: 2_903_040, 8: 696_729_600}
ORDERS_OF_H = {3: 120, 4: 14_400}

# Entries up to this one have walls of their own, far from the tolerance of 15.
MOST_WITH_WALLS = 1000


# ---- the ticket's names

def chain(n):
    """The entries of places i < j that are not `UNJOINED`: A's, to which the other families make changes."""
    return {(i, i + 1): 3 for i in range(n - 1)}


def families(n, p):
    """The name, the order and the entries of every family of n nodes; p is the entry of the two nodes where n is 2. Document 01: "A, B, H are
    chains of 3s, the first edge being 4 for B, 5 for H. D is A with entry 0,1 made 2 and 0,2 made 3; E is A with 0,1 made 2 and 0,3 made 3"."""
    yield f"A{n}", math.factorial(n + 1), chain(n)
    if n >= 2:
        yield f"B{n}", 2 ** n * math.factorial(n), {**chain(n), (0, 1): 4}
    if n >= 4:
        yield f"D{n}", 2 ** (n - 1) * math.factorial(n), {**chain(n), (0, 1): UNJOINED, (0, 2): 3}
    if n in ORDERS_OF_E:
        yield f"E{n}", ORDERS_OF_E[n], {**chain(n), (0, 1): UNJOINED, (0, 3): 3}
    if n == 4:
        yield "F4", 1_152, {(0, 1): 3, (1, 2): 4, (2, 3): 3}
    if n in ORDERS_OF_H:
        yield f"H{n}", ORDERS_OF_H[n], {**chain(n), (0, 1): 5}
    if n == 2 and whole(p) and p >= 5:
        yield f"I2({p})", 2 * p, {(0, 1): p}


def whole(p):
    return Fraction(p).denominator == 1


def name(component, entry):
    """The name and the order of the first family onto whose entries some renumbering carries those of the component, or None."""
    p = entry(*component) if len(component) == 2 else None
    for found, order, family in families(len(component), p):
        if carried(component, entry, family):
            return found, order
    return None


def carried(component, entry, family, begun=()):
    """Whether the nodes left can be given the places left: each two nodes must have the entry that the family has at their places."""
    place = len(begun)
    return place == len(component) or any(
        all(entry(begun[i], node) == family.get((i, place), UNJOINED) for i in range(place))
        and carried(component, entry, family, (*begun, node))
        for node in component if node not in begun)


def components(count, edges):
    """The nodes of each, over stored edges, rising; by rising lowest node."""
    lowest = list(range(count))
    for a, b, _ in edges:
        low, other = sorted((lowest[a], lowest[b]))
        lowest = [low if node == other else node for node in lowest]
    return [[node for node in range(count) if lowest[node] == low] for low in sorted(set(lowest))]


def entries(edges):
    """The entry of every two different nodes: "loops play no part"."""
    joined = {frozenset((a, b)): Fraction(*fraction) for a, b, fraction in edges if a != b}
    return lambda a, b: joined.get(frozenset((a, b)), UNJOINED)


def names(diagram):
    """Of every component its lowest node, and its name and order or None."""
    nodes, edges = diagram
    return [(component[0], name(component, entries(edges))) for component in components(len(nodes), edges)]


def answer(text):
    try:
        found = names(model.read(text, wish=True))
        for node, named in found:
            if named is None:
                raise Refusal(21, node)
    except Refusal as refusal:
        return " ".join(["no", *map(str, refusal.args)])
    return " ".join(["ok", str(len(found)), *(f"{node} {letter} {order}" for node, (letter, order) in found)])


# ---- the same in another way

def nameable(component, entry):
    """Whether the classification has a name: all entries are whole, and the group is finite, which it is exactly if its walls exist. None where
    an entry is too large for 01's tolerance."""
    values = [entry(a, b) for a in component for b in component if a < b]
    if not all(map(whole, values)):
        return False
    if any(value > MOST_WITH_WALLS for value in values):
        return None
    columns = [[1.0 if a == b else float(entry(a, b)) for a in component] for b in component]
    try:
        return bool(cox.walls(columns))
    except Refusal:
        return False


def counted(n, family):
    """The order of a family's group, from its entries alone: by rising k, how many images a point on the walls before k, and not on k, has under
    the reflections in the walls 0 to k, for those in the walls before k are all that leave it in place."""
    cosines = [[2 * math.cos(math.pi / family.get((min(i, j), max(i, j)), UNJOINED)) for j in range(n)] for i in range(n)]
    return math.prod(images(cosines, k) for k in range(n))


def images(cosines, k):
    """How many. A point is told by its distances from the walls: a reflection negates one, and adds it to the others times twice the cosine."""
    point = (0.0,) * k + (1.0,)
    seen, left = {point}, [point]
    while left:
        point = left.pop()
        for i in range(k + 1):
            image = tuple(-point[i] if j == i else point[j] + cosines[i][j] * point[i] for j in range(k + 1))
            rounded = tuple(round(distance, 6) for distance in image)
            if rounded not in seen:
                seen.add(rounded)
                left.append(image)
    return len(seen)


def main(mode="check", *numbers):
    texts = names_corpus.stress(*map(int, numbers)) if mode == "stress" else names_corpus.corpus()
    tally = collections.Counter(texts=len(texts), differ=0)
    answers = [answer(text) for text in texts]
    for (text, known), ours in zip(texts.items(), answers):
        tally[" ".join(ours.split()[:2 if ours.startswith("no") else 1])] += 1
        if known is not None:
            compare(tally, "answers known beforehand", text, ours, known)
        for component, is_named, due in in_two_ways(text, tally):
            compare(tally, "components named or not in two ways", (text, component), is_named, due)
    for n in range(1, model.MOST_NODES + 1):
        for p in [5, 6, 7, 12, 100] if n == 2 else [None]:
            for found, order, family in families(n, p):
                compare(tally, "orders counted", found, order, counted(n, family))

    if mode != "stress":
        stored.settle(STORED, mode, list(texts), answers, tally)
    stored.close(tally)


def in_two_ways(text, tally):
    """Of each component of a text whether it has a name, and whether one is due; names are counted on the way."""
    try:
        nodes, edges = diagram = model.read(text, wish=True)
    except Refusal:
        return
    for component, (_, named) in zip(components(len(nodes), edges), names(diagram)):
        tally["named " + named[0].split("(")[0] if named else "without a name"] += 1
        due = nameable(component, entries(edges))
        if due is not None:
            yield component, named is not None, due


def compare(tally, things, what, ours, due):
    tally[things] += 1
    if ours != due:
        tally["differ"] += 1
        print(f"{what!r}\n    {ours}\n    {due}")


if __name__ == "__main__":
    main(*sys.argv[1:])
