"""The lines of crates/replay_shelf about rescue, behind those of shelf_corpus.py; shelf.py has their form.

Each line comes with what is told and with the marks, where they are known beforehand, None where they are not.
"""

import itertools

import chance
import figures
import filing
import filing_corpus
import model
import shelf
import shelf_corpus

MOST = 44000                                                                # with shelf_corpus.py's lines fewer than 130,000 bytes
BY_CHANCE, FURTHER = 110, 3000
PLACE, LONGEST = shelf_corpus.PLACE, shelf_corpus.LONGEST
RISING, SHELF, BETWEEN, UNLIKE = shelf_corpus.RISING, shelf_corpus.SHELF, shelf_corpus.BETWEEN, shelf_corpus.UNLIKE

# Damage that makes a place of one to eight nodes 14: greater than any record, a little greater than it was, less than any with nodes.
FIRST, LAST, LOW = shelf_corpus.FIRST, shelf_corpus.LAST, "!00000"
BADLY = shelf_corpus.layouts("xs")[0]                                       # numbered badly, and greater than `xs`: 22
GREAT = "vxqfhkuws"                                                         # greater than any place of SHELF, and nodes unlike: read fast

UNKNOWN = None, None
SHORT = "no 12", None


def corpus():
    """The lines, each once, with what is known of it where it stands first."""
    parts = [no_file(), lengths(), shelves(), falling(), all_bad(), equal(), less(), bad_between(), last_copied(), outgrown(), each_byte(),
             each_field(), tails(), rooms(), marks_rooms(), small(), permuted(), deciding_bytes(),
             by_chance(chance.Dice(10), BY_CHANCE, 12)]
    lines = {}
    for line, known in itertools.chain(*parts):
        lines.setdefault(line.encode(), known)
    assert not any(b"\n" in line or b"|" in line for line in lines)
    assert sum(len(line) + 1 for line in lines) <= MOST
    return lines


def further():
    """More lines, to be answered in two ways alone."""
    return [line.encode() for line, _ in by_chance(chance.Dice(11), FURTHER, 30)]


def line(held, room=None, marks=None, length=None):
    """The line of a file's places and of the lengths of both buffers, where one is not given that which is just enough; the file's length,
    where it is another than its places'."""
    file = ",".join(held) + ("" if length is None else f"#{length:03x}")
    length = PLACE * len(held) if length is None else length
    room, marks = length if room is None else room, length // PLACE if marks is None else marks
    return f"{file}>{min(room, LONGEST):03x}>{min(marks, LONGEST):03x}"


def told(*marks, tail=0):
    return f"ok {marks.count(0)} {tail}", list(marks)


# ---- lengths, shelves

def no_file():
    yield from ((line([], room, marks), told()) for room in [0, 1, PLACE, LONGEST] for marks in [0, 1, LONGEST])


def lengths():
    """Files cut off, or filled up with zeros, which are the record without nodes: kept where it is the first, else out of order."""
    for count in range(4):
        for length in [0, 1, 369, 370, 371, 739, 740, 741, 1109, 1110, 1481, 4070, 4095]:
            whole, tail = divmod(length, PLACE)
            kept = min(whole, max(count, 1))
            yield line(SHELF[:count], length=length), told(*[0] * kept, *[1] * (whole - kept), tail=tail)


def shelves():
    """Unchanged, every place kept."""
    yield from ((line(SHELF[:count]), told(*[0] * count)) for count in range(12))
    yield from ((line(RISING[at:at + 11]), told(*[0] * 11)) for at in [0, 6, 12])
    yield from ((line([text]), told(0)) for text in RISING[2::4])
    yield line(["o3x", "o4x", "x6/2x"]), told(0, 0, 0)                      # the places may be spelled in another way


def falling():
    for count in range(2, 12):
        yield line(SHELF[:count][::-1]), told(0, *[1] * (count - 1))
    yield line(RISING[:11][::-1]), told(0, *[1] * 10)


# ---- places that are lost

def all_bad():
    for count in [1, 2, 3, 7, 11]:
        for bad, number in [("x" + FIRST, 14), ("x" + LAST, 14), ("x" + LOW, 14), (BADLY, 22)]:
            yield line([bad] * count), told(*[number] * count)
    yield line([BADLY, "o" + FIRST] * 4), told(*[22, 14] * 4)
    yield line([text + LAST for text in SHELF[:9]]), told(*[14] * 9)
    yield line(shelf_corpus.layouts("x3xx")), told(22, 22)


def equal():
    """Equal neighbours, spelled alike or not."""
    for count in [2, 3, 5, 8]:
        for i in range(1, count):
            yield line(figures.replaced(SHELF[:count], i, SHELF[i - 1])), told(*figures.replaced([0] * count, i, 1))
    yield from ((line(["x3o"] * count), told(0, *[1] * (count - 1))) for count in [4, 8, 11])
    yield line(["x3o", "o3x"]), told(0, 1)
    yield line(["x", "x3o", "x6/2o", "x3x"]), told(0, 0, 1, 0)
    yield line(["*a", "*z", "o"]), told(0, 1, 0)


def less():
    """One that can be read and is less than the place before it: a little, or the least."""
    for count in [2, 3, 5, 7]:
        for i in range(1, count):
            yield line(figures.replaced(SHELF[:count], i, BETWEEN[i - 1])), told(*figures.replaced([0] * count, i, 1))
            yield line(figures.replaced(SHELF[:count], i, "*a")), told(*figures.replaced([0] * count, i, 1))


def bad_between():
    """One place that can't be read, whether it is great or small: every other is kept."""
    for count in [1, 2, 3, 4, 7]:
        for i in range(count):
            for damage in [FIRST, LAST, LOW]:
                yield line(figures.replaced(SHELF[:count], i, SHELF[i] + damage)), told(*figures.replaced([0] * count, i, 14))
            yield line(figures.replaced(SHELF[:count], i, BADLY)), told(*figures.replaced([0] * count, i, 22))


def last_copied():
    """By hand. A place is compared with the last one copied, not with the one before it, nor with one that can't be read."""
    high, low = "xs" + FIRST, "xs" + LOW
    for held, marks in [
            (["s", "o", "x"], [0, 1, 1]), (["s", "o", "x", "(inf)", "oo"], [0, 1, 1, 1, 0]), (["x", "o", "s"], [0, 1, 0]),
            (["s", "x", "s", "x", "ss"], [0, 1, 1, 1, 0]), (["x3o", "o", "x3o", "x4o"], [0, 1, 1, 0]),
            (["x3o", high, "x"], [0, 14, 1]), (["x3o", low, "x"], [0, 14, 1]), (["x", high, "x3o"], [0, 14, 0]),
            (["x", low, "x"], [0, 14, 1]), (["x", low, "o"], [0, 14, 1]), (["o", low, "x"], [0, 14, 0]),
            (["x", high, low, "x", "x3o"], [0, 14, 14, 1, 0]), (["x3o", low, "x", high, "ss"], [0, 14, 1, 14, 0]),
            (["xs", BADLY, "xs"], [0, 22, 1]), (["x", BADLY, "xs"], [0, 22, 0]), (["ss", BADLY, "xs"], [0, 22, 1]),
            ([BADLY, "xs"], [22, 0]), ([high, "x", "o"], [14, 0, 1]), ([low, high, BADLY, "x"], [14, 14, 22, 0]),
            (["x", BADLY, high, low], [0, 22, 14, 14]),
            (["*a"], [0]), ([high, "*a"], [14, 0]), ([BADLY, "*a", "*a"], [22, 0, 1]), (["*a", low, "*a", "o"], [0, 14, 1, 0]),
            (["*a" + LAST, "*a", "o"], [14, 0, 0]), (["o", "*a", "x"], [0, 1, 0]), ([GREAT, "o", "x"], [0, 1, 1])]:
        yield line(held), told(*marks)


def outgrown():
    """A place that is damaged and can still be read: greater than it was, some behind it fall out of order; less, it does so itself."""
    for count in [2, 3, 5, 8]:
        for i in range(count):
            yield line(figures.replaced(SHELF[:count], i, GREAT)), told(*[0] * (i + 1), *[1] * (count - i - 1))
    for held, marks in [
            (["o", "x!00103", "(-1)", "oo"], [0, 0, 1, 0]),                 # snub 1
            (["o", "x!002bf", "(-1)", "s"], [0, 0, 1, 0]),                  # the length -1
            (["o!00102", "x", "(-1)", "oo"], [0, 0, 0, 0]),                 # the length 0
            (["o!00103", "x", "(-1)", "s", "oo"], [0, 1, 1, 0, 0]),         # snub 0
            (["o", "x", "(-1)!0023f", "oo"], [0, 0, 1, 0]),                 # the length 1
            (["o", "oo!00a03", "o3/2o", "x3o", "x3x"], [0, 0, 1, 1, 0]),    # one of two snub
            (["oo", "o3o!055ff", "o3/2o", "x3o"], [0, 0, 1, 0]),            # the edge 255
            (["oo", "o3o!05902", "o3/2o", "x3o"], [0, 0, 1, 0]),            # the edge 3/2
            (["oo", "o3o!05502", "o3/2o", "x3o"], [0, 1, 0, 0]),            # the edge 2, which is none
            (["x!00103", "x", "s", "oo"], [0, 1, 1, 0])]:                   # snub 1, which is there again
        yield line(held), told(*marks)


def each_byte():
    """Each byte of the second of three places made one greater. Its nine nodes are unlike and rise, and nothing joins them."""
    for at in range(PLACE):
        yield damaged_middle("o", UNLIKE, at, GREAT), told(0, mark_of_unlike(at), 0)


def damaged_middle(before, text, at, behind):
    byte = (shelf.record_of(text.encode())[at] + 1) % 256
    return line([before, f"{text}!{at:03x}{byte:02x}", behind])


def mark_of_unlike(at):
    """Of the bytes of `each_byte`: a count of ten; then node by node, and pair by pair, 2 and 1."""
    if at == 0:
        return 14
    if at < filing.pair_at(0, 1):
        return mark_of_node(*divmod(at - 1, 9))
    return 0 if (at - filing.pair_at(0, 1)) % 8 < 4 else 14                 # a greater num; a den that is not less than its num


def mark_of_node(i, k):
    """The unringed node becomes ringed, and still comes first, or gets bits; the snub one gets a kind that is none, or other bits, and
    still comes last. A ringed one comes behind the next one if it becomes snub, or if the first byte of its length grows, but for the last
    of them; its other bytes change too little."""
    if i == 0:
        return 0 if k == 0 else 14
    if i == 8:
        return 14 if k == 0 else 0
    return 22 if k == 0 or k == 1 and i < 7 else 0


def each_field():
    """The same of a place of two nodes that 3 joins: an unused byte is 14, wherever it lies."""
    unused = [19, 20, 50, 80, 81, 90, 91, 97, 98, 200, 368, 369]
    readable = [1, *range(10, 19), *range(82, 86), 89]                      # a kind, a kind and its bits, num, the last byte of den: 3/2
    for at in [*range(19), *range(82, 90), *unused]:
        yield damaged_middle("o", "x3o", at, "ss"), told(0, 0 if at in readable else 14, 0)


# ---- tails, buffers

def tails():
    """Zeros behind the places, or the beginning of a place, a good one or not: none of it is read."""
    for count, tail in itertools.product(range(5), [1, 2, 185, 368, 369]):
        length = PLACE * count + tail
        yield line(SHELF[:count], length=length), told(*[0] * count, tail=tail)
        yield line(SHELF[:count + 1], length=length), told(*[0] * count, tail=tail)
    for tail in [1, 10, 369]:
        yield line(["x", "o"], length=PLACE + tail), told(0, tail=tail)
        yield line(["x", "x3o" + FIRST], length=PLACE + tail), told(0, tail=tail)
        yield line(["x" + FIRST, "o"], length=PLACE + tail), told(14, tail=tail)
        yield line(["x", "x", BADLY, "ss"], length=3 * PLACE + tail), told(0, 1, 22, tail=tail)
    yield line(SHELF, length=LONGEST), told(*[0] * 11, tail=25)


def lent_to():
    """Files, each with its marks and the length of its tail."""
    return [(["o", "x", "x3o"], [0, 0, 0], 0), (["o", "x", "x3o"], [0, 0, 0], 7), (["o", "x" + FIRST, "x3o", "x"], [0, 14, 0, 1], 0),
            (["o", "x" + FIRST, "x3o", "x"], [0, 14, 0, 1], 369), (["o" + FIRST], [14], 0), (["x3o", BADLY, "o"], [0, 22, 1], 1),
            ([], [], 1), ([], [], 369)]


def rooms():
    """The second buffer: "shorter than the file", it gets 12, though what is kept would fit in, and though only the tail would not."""
    for held, marks, tail in lent_to():
        length, kept = PLACE * len(held) + tail, PLACE * marks.count(0)
        for room in sorted({0, 1, kept, kept + 1, length - tail, length - 1, length, length + 1, length + PLACE, LONGEST}):
            due = told(*marks, tail=tail) if room >= length else SHORT
            yield line(held, room, length=length), due


def marks_rooms():
    """The third buffer: "with fewer bytes than places", it gets 12; a tail is no place. Then both."""
    for held, marks, tail in lent_to():
        length, count = PLACE * len(held) + tail, len(held)
        for room in sorted({max(0, count - 1), count, count + 1, LONGEST}):
            due = told(*marks, tail=tail) if room >= count else SHORT
            yield line(held, marks=room, length=length), due
        if held:
            both = [(0, 0), (length - 1, count - 1), (length - 1, count + 1), (length + 1, count - 1), (LONGEST, 0)]
            yield from ((line(held, *lent, length=length), SHORT) for lent in both)
        yield line(held, LONGEST, LONGEST, length), told(*marks, tail=tail)


# ---- order

def small():
    """Every file of up to three places that are one of two records, damaged or numbered badly."""
    for count in range(4):
        yield from ((line(held), UNKNOWN) for held in itertools.product(["x", "x3o", "xs" + LAST, BADLY], repeat=count))


def permuted():
    """Every order of four places, every seventh one of five."""
    orders = [*itertools.permutations(SHELF[:4]), *list(itertools.permutations(SHELF[:5]))[1::7]]
    yield from ((line(held), UNKNOWN) for held in orders)


def deciding_bytes():
    """The first byte of a field, or the last, decides whether a place is greater: the second place is, the third, which is the first again,
    is not."""
    fields = {0, *(filing.node_at(i) + k for i in range(model.MOST_NODES) for k in (0, 1, 8)),
              *(filing.pair_at(i, i + 1) + k for i in range(model.MOST_NODES - 1) for k in (0, 7))}
    yield from ((line([less, greater, less]), told(0, 0, 1)) for at, less, greater in shelf_corpus.unequal() if at in fields)


# ---- by chance

def by_chance(dice, number, longest):
    """Files of up to ten places, of texts up to this length, with up to six things wrong; buffers, half of them too short or too long."""
    pool = [text for text in shelf_corpus.drawn(dice) if len(text) <= longest]
    pool.sort(key=lambda text: shelf.record_of(text.encode()))
    for _ in range(number):
        chosen = sorted(filing_corpus.some(dice, range(len(pool)), 1 + dice.below(10)))
        held, length = [pool[i] for i in chosen], None
        for _ in range(dice.pick([0, 1, 1, 2, 3, 4, 6])):
            held, length = dice.pick(shelf_corpus.WRONGS)(dice, held, length)
        due = PLACE * len(held) if length is None else length
        room = due + dice.pick([0, 0, 0, 0, 1, PLACE, -1, -PLACE, -dice.below(due + 1)])
        marks = due // PLACE + dice.pick([0, 0, 0, 0, 1, 5, -1])
        yield line(held, max(0, room), max(0, marks), length), UNKNOWN
