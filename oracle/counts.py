"""How many numberings the search for a record carries to the end, from ticket K3's words alone: what `replay_search` answers to each text.

`counts.py`        what the ticket says of counts holds; crates/replay_search holds the texts listed here, and as its answers their counts
`counts.py write`  stores them

    TEXT    COUNT    or `no`, where reading with ticket K6's wish refuses the text

The ticket leaves free which candidate for a place comes first, and the count depends on it: for nine `x` in a chain of 3s it is 499 in the
order of exchanges, taken here, and 842 by rising number of the node.

Exit status: 0 nothing differs, 1 something does.
"""

import collections
import math
import pathlib
import sys

import chance
import figures
import filing
import filing_corpus
import model
import stored

STORED = pathlib.Path(__file__).parent.parent / "crates/replay_search"

# The first is the ticket's number; it wants the second below it. bench/filing.c has the six after the first too.
KNOWN = {"x" * 9: 362880, "x3x3x3x3x3x3x3x3x": 499, "x3x3x3x3x3x3x3x3x3*a": 223, "x3o3o3o3o3o3o *e3o": 68, "x3x3x3x3x3x": 28,
         "x4o3o": 2, "x3q3f3h3k3u3w3F3e": 1, "*a": 1}


class Search:
    """`count`, and `best`: the nodes of the smallest layout by their places, and the bytes of its pairs."""

    def __init__(self, diagram):
        nodes, edges = diagram
        fraction = filing.fractions(edges)
        self.nodes = [filing.node_bytes(*node) for node in nodes]
        self.pairs = [[fraction(a, b) for b in range(len(nodes))] for a in range(len(nodes))]
        self.places = self.sorted()
        self.ends = self.group_ends()
        self.best = self.places[:], b"".join(self.column(j) for j in range(len(nodes)))
        self.count = 0
        self.go_on(0, b"")

    def sorted(self):
        """The nodes sorted "by their nine bytes": at each place the first of the smallest left is exchanged with the one there."""
        places = list(range(len(self.nodes)))
        for j in range(len(places)):
            m = min(range(j, len(places)), key=lambda k: self.nodes[places[k]])
            places[j], places[m] = places[m], places[j]
        return places

    def group_ends(self):
        """For each place the end of its group, "groups of equal nodes"."""
        last = {self.nodes[node]: place for place, node in enumerate(self.places)}
        return [last[self.nodes[node]] + 1 for node in self.places]

    def column(self, j):
        """The bytes of place j's pairs with the places before it."""
        row = self.pairs[self.places[j]]
        return b"".join([row[node] for node in self.places[:j]])

    def go_on(self, j, begun):
        """From j places numbered, whose pairs have these bytes. The nodes' bytes are the best's whatever the numbering."""
        if j == len(self.places):
            # "rises by one at each numbering carried to the end"
            self.count += 1
            if begun < self.best[1]:
                self.best = self.places[:], begun
            return
        for k in range(j, self.ends[j]):
            self.exchange(j, k)
            longer = begun + self.column(j)
            # "drop a partial numbering once its bytes exceed the best"
            if longer <= self.best[1][:len(longer)]:
                self.go_on(j + 1, longer)
            self.exchange(j, k)

    def exchange(self, j, k):
        self.places[j], self.places[k] = self.places[k], self.places[j]


def corpus():
    """The texts, each once."""
    dice = chance.Dice(5)
    drawn = [*alike(), *groups(), *(figures.by_chance(dice, least, 9) for least in (1, 8) for _ in range(35))]
    texts = [*KNOWN, *listed(), *(figures.respelled(dice, figure) for figure in drawn)]
    texts = list(dict.fromkeys(text if isinstance(text, bytes) else text.encode() for text in texts))
    assert not any(b"\n" in text for text in texts) and sum(len(text) + 1 for text in texts) <= filing_corpus.MOST
    return texts


def listed():
    """Chains and branches with one ring and with all; snubs, fractions, lengths, cycles, lone nodes, a loop; refusals."""
    for n in range(1, 10):
        yield from ["x" + "3o" * (n - 1), "x" + "3x" * (n - 1)]
    for n in range(4, 10):
        yield from ["x3o3o *b" + "3o" * (n - 3), "x3x3x *b" + "3x" * (n - 3)]
    for n in range(6, 10):
        yield from ["x" + "3o" * (n - 2) + " *c3o", "x" + "3x" * (n - 2) + " *c3x"]
    yield from ["x4x3x3x3x3x3x3x3x", "x3x3x3x4x3x3x3x3x", "s3s3s3s3s3s3s3s3s", "s3s4s3s x3x", "oxs oxs oxs", "o3x3s o3x3s o3x3s"]
    yield from ["x5/2x5x5/2x", "x5/2x5/3x5/4x7/2x7/3x8/3x9/4x", "x4294967295/4294967294x4294967294/4294967293x", "x6/2x3x9/3x"]
    yield from ["(1)3x3(1.0)3(10e-1)3x", "(0)3(-0)3(0)3(-0)", "(inf)3(-inf)3(inf)x"]
    yield from ["x3x3x3*a x3x3x3*d x3x3x3*g", "s2x2o2q", "x3*a3x3x", "*z2*y"]
    yield from ["", "x3", "x1o", "x3*c", "o" * 10]


def alike():
    """Alike nodes: each joined to each, cycles, and other graphs."""
    ring = filing_corpus.ring
    for count in range(3, 9):
        yield filing_corpus.complete(count, filing_corpus.X, (5, 2))
        yield figures.alike(count, ring("abcdefgh"[:count]))
    for count, ends in [
            (8, ring("abcd") + ring("efgh") + "ae bf cg dh"), (8, ring("abcdefgh") + "ae bf cg dh"),       # the cube, the Wagner graph
            (9, "".join(map(ring, ["abc", "def", "ghi", "adg", "beh", "cfi"]))), (9, ring("abcd") + ring("efghi")),
            (9, "ab ac ad ae af ag ah ai"), (9, "ab ac ad be bf cg gh hi")]:                               # a star, a tree
        yield figures.alike(count, ends)


def groups():
    """Two groups, unjoined, of each size; three; and three of which only two nodes of a group are joined."""
    o, x, s = ("o", None), ("x", 1.0), ("s", 1.0)
    for count in range(1, 9):
        yield [o] * count + [x] * (9 - count), []
    yield [o, x, s] * 3, []
    yield [s, x, x, o, o, o, o, x, s], [(2, 7, (3, 1)), (3, 4, (5, 2))]


def main(mode="check"):
    tally = collections.Counter(differ=0)
    texts, answers = corpus(), []
    for text in texts:
        try:
            diagram = model.read(text, wish=True)
        except model.Refusal:
            tally["texts refused"] += 1
            answers.append("no")
            continue
        search = Search(diagram)
        tally["texts counted"] += 1
        answers.append(str(search.count))
        for fault in faults(text, diagram, search):
            tally["differ"] += 1
            print(f"{text!r}: {search.count}, {fault}")

    stored.settle(STORED, mode, texts, answers, tally)
    stored.close(tally)


def faults(text, diagram, search):
    """What the ticket says and the search does not show."""
    nodes, edges = diagram
    most = math.prod(map(math.factorial, collections.Counter(search.nodes).values()))
    fractions = {search.pairs[a][b] for a in range(len(nodes)) for b in range(a)}
    if not 1 <= search.count <= most:
        yield f"not between 1 and {most}, \"the product of the groups' factorials\""
    if len(fractions) < 2 and search.count != most:
        yield f"not {most}, though \"nothing can be dropped\""
    if search.count != KNOWN.get(text.decode(), search.count):
        yield f"not {KNOWN[text.decode()]}"
    if filing.laid_out(nodes, edges, search.best[0]) != filing.record(diagram):
        yield "\"Records stay byte for byte what they were\", and this one does not"


if __name__ == "__main__":
    main(*sys.argv[1:])
