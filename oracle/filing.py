"""The filing record, its numbering and its reading back, from the words of document 01 and of tickets K9 and K5 alone, and what the program
`replay_filing` answers to each line of its input.

`filing.py`        the two ways to a record agree, those to its numbering and those to what reading bytes back comes to;
                   crates/replay_filing holds the lines of filing_corpus.py, and as its answers the model's
`filing.py write`  stores them

Texts are read with ticket K6's wish. A line's text ends at the `|`, which no text holds. OOO, VV, LLL and digests are lower-case
hexadecimal. A numbering has a digit for each place, the number of the text's node there; it is `-` where there are no nodes.

    TEXT            ok DIGEST NODES EDGES NUMBERING    the text's record, the counts of the diagram that it is read back to, and the first
                                                       numbering that gives the record; or the text's refusal
    TEXT|TEXT       same DIGEST NUMBERING NUMBERING    the records of two accepted texts; nodes at the same place correspond
                    apart DIGEST DIGEST
    TEXT|!OOOVV..   ok NODES EDGES                     the record read back after its byte OOO became VV, for each five digits
                    no 13, no 14, no 22                not 370 bytes; no layout of any diagram; one that is not the smallest
    TEXT|~LLL       the same                           the first LLL bytes of the record and 30 zeros, read back
    TEXT|^LLL       ok DIGEST                          the record written to the first LLL of 400 bytes a5; the digest is of all 400
                    no .. DIGEST                       12, or the text's refusal

Exit status: 0 nothing differs, 1 something does.
"""

import collections
import itertools
import math
import pathlib
import struct
import sys

import model
import stored

STORED = pathlib.Path(__file__).parent.parent / "crates/replay_filing"

LENGTH, BUFFER = 370, 400
KINDS = {"o": 1, "x": 2, "s": 3}
KIND_NAMES = {number: kind for kind, number in KINDS.items()}
UNJOINED = struct.pack(">II", 2, 1)
INFINITE = 0x7ff << 52                                                      # the bits of infinity


def node_at(i):
    return 1 + 9 * i


def pair_at(i, j):
    return 82 + 8 * (j * (j - 1) // 2 + i)


def node_bytes(kind, value):
    return struct.pack(">BQ", KINDS[kind], 0) if kind == "o" else struct.pack(">Bd", KINDS[kind], value)


def fractions(edges):
    """From two nodes, in either order, to the bytes of their fraction. "Loops are disregarded": no one asks for theirs."""
    lowest = {}
    for a, b, (num, den) in edges:
        divisor = math.gcd(num, den)
        lowest[a, b] = lowest[b, a] = struct.pack(">II", num // divisor, den // divisor)
    return lambda a, b: lowest.get((a, b), UNJOINED)


def record(diagram):
    """The nodes' bytes come first, so they stand sorted. Node by node the columns of pairs follow: of the numberings begun, only those
    with the smallest column go on."""
    nodes, edges = diagram
    keys, fraction = [node_bytes(*node) for node in nodes], fractions(edges)
    twin = twins(keys, fraction)
    begun, pairs = [()], b""
    for key in sorted(keys):
        found = collections.defaultdict(list)
        for numbering in begun:
            # A twin would lead to the same records as its twin.
            free = {twin[node]: node for node in range(len(keys)) if keys[node] == key and node not in numbering}
            for node in free.values():
                column = b"".join(fraction(earlier, node) for earlier in numbering)
                found[column].append(numbering + (node,))
        smallest = min(found)
        begun, pairs = found[smallest], pairs + smallest
    return bytes([len(nodes)]) + b"".join(sorted(keys)).ljust(81, b"\0") + pairs.ljust(288, b"\0")


def twins(keys, fraction):
    """For each node the first that may change places with it, all others staying: equal bytes, and equal fractions to all others."""
    def exchange(a, b):
        return keys[a] == keys[b] and all(fraction(a, c) == fraction(b, c) for c in range(len(keys)) if c not in (a, b))
    return [next(a for a in range(b + 1) if exchange(a, b)) for b in range(len(keys))]


def record_by_all(diagram):
    """The smallest of all renumberings' bytes, each laid out by document 01's offsets: slow beyond six nodes."""
    nodes, edges = diagram
    return min(laid_out(nodes, edges, numbering) for numbering in itertools.permutations(range(len(nodes))))


def laid_out(nodes, edges, numbering):
    """The bytes of a diagram whose place i goes to the node numbering[i]."""
    data = bytearray(LENGTH)
    data[0] = len(nodes)
    fraction = fractions(edges)
    for j, node in enumerate(numbering):
        data[node_at(j):node_at(j + 1)] = node_bytes(*nodes[node])
        for i in range(j):
            data[pair_at(i, j):pair_at(i + 1, j)] = fraction(numbering[i], node)
    return bytes(data)


def first(diagram):
    """K9: "Of all numberings that give the record, return the first, comparing the list of old nodes in new order as numbers from the
    left." Place by place the nodes are tried by rising number, and only those are gone on with whose bytes are the record's."""
    nodes, edges = diagram
    data, keys, fraction = record(diagram), [node_bytes(*node) for node in nodes], fractions(edges)

    def fits(begun, node):
        j = len(begun)
        return (node not in begun and keys[node] == data[node_at(j):node_at(j + 1)]
                and all(fraction(earlier, node) == data[pair_at(i, j):pair_at(i + 1, j)] for i, earlier in enumerate(begun)))

    def whole(begun):
        """The numberings that go on from there, in rising order."""
        if len(begun) == len(nodes):
            yield begun
        for node in range(len(nodes)):
            if fits(begun, node):
                yield from whole(begun + (node,))

    return next(whole(()))


def first_by_all(diagram):
    """The same from all numberings in rising order, each laid out by document 01's offsets: slow beyond six nodes unless it comes early."""
    nodes, edges = diagram
    data = record(diagram)
    return next(numbering for numbering in itertools.permutations(range(len(nodes))) if laid_out(nodes, edges, numbering) == data)


def read_back(data):
    """The diagram that the record is read back to, or 13, 14 or 22.

    K5: "14 means that the bytes are not what the filing section lays out for any diagram in any numbering". If a diagram in some numbering
    has them for its layout, so has the one that they spell, in its own order: only that one is tried. "It refuses a well laid out record
    that isn't the smallest of its renumberings with 22, tested after 14"."""
    if len(data) != LENGTH:
        return 13
    diagram = spelled(data)
    if not diagram or laid_out(*diagram, range(data[0])) != data:
        return 14
    if record(diagram) != data:
        return 22
    return diagram


def read_back_by_all(diagram):
    """Each layout of the diagram with the answer to it. All of them are "well laid out": 22 for each that "isn't the smallest of its
    renumberings". Slow beyond six nodes."""
    nodes, edges = diagram
    layouts = dict.fromkeys(laid_out(nodes, edges, order) for order in itertools.permutations(range(len(nodes))))
    smallest = min(layouts)
    return {data: counted(diagram if data == smallest else 22) for data in layouts}


def bad_field(data):
    """K5's list of what 14 means, field by field: "a bad count, kind, bits, fraction or filler". The first that 370 bytes have, or None."""
    count = data[0]
    if count > model.MOST_NODES:
        return "count"
    for i in range(count):
        kind, bits = struct.unpack_from(">BQ", data, node_at(i))
        if kind not in KIND_NAMES:
            return "kind"
        if bits % 2 ** 63 > INFINITE or kind == KINDS["o"] and bits != 0:       # without its sign a nan lies above infinity
            return "bits"
    for i, j in itertools.combinations(range(count), 2):
        num, den = struct.unpack_from(">II", data, pair_at(i, j))
        if not 0 < den < num or math.gcd(num, den) != 1:
            return "fraction"
    if any(data[node_at(count):node_at(model.MOST_NODES)]) or any(data[pair_at(0, count):]):
        return "filler"
    return None


def spelled(data):
    """The diagram of the bytes' fields, whatever else they hold, or None if a field is out of range."""
    count = data[0]
    if count > model.MOST_NODES:
        return None
    nodes, edges = [], []
    for i in range(count):
        number, value = struct.unpack_from(">Bd", data, node_at(i))
        if number not in KIND_NAMES or math.isnan(value):
            return None
        kind = KIND_NAMES[number]
        nodes.append((kind, None if kind == "o" else value))
    for i, j in itertools.combinations(range(count), 2):
        num, den = struct.unpack_from(">II", data, pair_at(i, j))
        if not (num > 1 and den != 0 and den < num):
            return None
        if num != 2 * den:
            edges.append((i, j, (num, den)))
    return nodes, edges


def digest(data):
    h = 0
    for byte in data:
        h = (h * 65599 + byte) % 4294967291
    return f"{h:08x}"


def answer(line):
    text, bar, rest = line.partition(b"|")
    sign, digits = rest[:1], rest[1:].decode()
    if not bar:
        return filed(text)
    if sign == b"!":
        return counted(read_back(changed(record_of(text), digits)))
    if sign == b"~":
        return counted(read_back(record_of(text).ljust(BUFFER, b"\0")[:int(digits, 16)]))
    if sign == b"^":
        return written(text, int(digits, 16))
    return compared(text, rest)


def record_of(text):
    return record(model.read(text, wish=True))


def numbering_of(text):
    return "".join(map(str, first(model.read(text, wish=True)))) or "-"


def filed(text):
    try:
        data = record_of(text)
    except model.Refusal:
        return model.answer(text, wish=True)
    nodes, edges = read_back(data)
    return f"ok {digest(data)} {len(nodes)} {len(edges)} {numbering_of(text)}"


def compared(one, other):
    left, right = record_of(one), record_of(other)
    if left != right:
        return f"apart {digest(left)} {digest(right)}"
    return f"same {digest(left)} {numbering_of(one)} {numbering_of(other)}"


def changed(data, digits):
    data = bytearray(data)
    for at in range(0, len(digits), 5):
        data[int(digits[at:at + 3], 16)] = int(digits[at + 3:at + 5], 16)
    return bytes(data)


def counted(back):
    if isinstance(back, int):
        return f"no {back}"
    nodes, edges = back
    return f"ok {len(nodes)} {len(edges)}"


def written(text, length):
    """A refusal "leaves an output buffer untouched"; "an output buffer keeps its bytes past what was written"."""
    buffer = b"\xa5" * BUFFER
    try:
        data = record_of(text)
    except model.Refusal:
        return f"{model.answer(text, wish=True)} {digest(buffer)}"
    if length < LENGTH:
        return f"no 12 {digest(buffer)}"
    return f"ok {digest(data + buffer[LENGTH:])}"


def main(mode="check"):
    import filing_corpus                                                    # imports this file

    tally = collections.Counter(differ=0)
    ways = {"records": filing_corpus.twice(), "numberings": filing_corpus.numbered_twice(), "readings": filing_corpus.read_twice()}
    for things, found in ways.items():
        for what, left, right in found:
            tally[f"{things} found in two ways"] += 1
            if left != right:
                tally["differ"] += 1
                print(f"{what!r}\n    {shown(left)}\n    {shown(right)}")

    lines, answers = [], []
    for line, expected in filing_corpus.corpus():
        ours = answer(line)
        if not ours.startswith(expected):
            tally["differ"] += 1
            print(f"{line!r}\n    expected {expected}\n    model    {ours}")
        tally["lines"] += 1
        tally[sort(line, ours)] += 1
        lines.append(line)
        answers.append(ours)

    stored.settle(STORED, mode, lines, answers, tally)
    stored.close(tally)


def shown(found):
    return found.hex() if isinstance(found, bytes) else found


def sort(line, answer):
    """The line's kind and its answer's first word, of refusals the number too."""
    _, bar, rest = line.partition(b"|")
    kind = bar.decode() + (chr(rest[0]) if rest[:1] in (b"!", b"~", b"^") else "TEXT" if bar else "")
    return f"of TEXT{kind}: " + " ".join(answer.split()[:2 if answer.startswith("no") else 1])


if __name__ == "__main__":
    main(*sys.argv[1:])
