"""The lines for crates/replay_shelf, small enough for one run of a program that reads 131,072 bytes; shelf.py has their form.

Each line comes with the answers of `check`, `find`, `bisect` and `add` that are known beforehand, None for the others.
"""

import itertools
import struct

import chance
import figures
import filing
import filing_corpus
import model
import shelf

MOST = 131000
BY_CHANCE, FURTHER, FIGURES = 320, 3000, 110
PLACE, LONGEST = shelf.LENGTH, shelf.BUFFER - 1

# Texts by rising records. Files take every other one, so that a record lies before, between and behind any two of their places.
RISING = ["*a", "o", "(0)", "x", "(inf)", "(-1)", "s", "oo", "o3o", "o3/2o", "o5/2o", "x3o", "x4o", "x3x", "xs", "ss", "ooo", "x4o3o",
          "x3o4o", "oooooooo5/2o", "oooooooo5/3o", "x3o3o3o3o3o3o3o3o", "sssssssss"]
SHELF, BETWEEN = RISING[1::2], RISING[::2]

# Nine nodes in the order of their bytes, no two alike: whatever fractions join them, no other numbering gives smaller bytes.
UNLIKE = "ovxqfhkus"

UNKNOWN = None, None, None, None
FIRST, LAST = "!000ff", "!17101"                                            # a place's first byte and its last one damaged


def corpus():
    """The lines, each once, with the answers that are known of it where it stands first."""
    parts = [on_shelves(), rooms(), searched(), lengths(), damaged(), misnumbered(), two_wrong(), equal(), descending(), refused_records(),
             together(), deciding_bytes(), absent_by_a_byte(), small(), permuted(), by_chance(chance.Dice(8), BY_CHANCE)]
    lines = {}
    for line, known in itertools.chain(*parts):
        lines.setdefault(line.encode(), known)
    assert rising(RISING) and rising(UNLIKE)
    assert not any(b"\n" in line for line in lines)
    assert sum(len(line) + 1 for line in lines) <= MOST
    return lines


def further():
    """More lines, to be answered in two ways alone."""
    return [line.encode() for line, _ in by_chance(chance.Dice(9), FURTHER)]


def rising(texts):
    records = [shelf.record_of(text.encode()) for text in texts]
    return all(one < other for one, other in zip(records, records[1:]))


def line(held, one, room=None, length=None):
    """The line of a file's places, a record and the length of the buffer, where none is given the one that is just enough for a record
    more; the file's length, where it is another than its places'."""
    file = ",".join(held) + ("" if length is None else f"#{length:03x}")
    if room is None:
        room = PLACE + (PLACE * len(held) if length is None else length)
    return f"{file}|{one}|{min(room, LONGEST):03x}"


def present(count, place):
    return f"ok {count}", f"ok 1 {place}", f"ok 1 {place}", f"no 20 {place}"


def absent(count, place):
    return f"ok {count}", f"ok 0 {place}", f"ok 0 {place}", f"ok {place}"


def short(count, place):
    return f"ok {count}", f"ok 0 {place}", f"ok 0 {place}", "no 12"


def no_multiple():
    return "no 18", "no 18", "no 18", "no 18"


def wrong(place, bisected=None):
    return f"no 19 {place}", f"no 19 {place}", bisected, f"no 19 {place}"


def unread(checked, number):
    return checked, f"no {number}", f"no {number}", f"no {number}"


def spelling(text, data):
    """The place that makes these bytes of the text's record."""
    groups = (f"{at:03x}{new:02x}" for at, (old, new) in enumerate(zip(shelf.record_of(text.encode()), data)) if new != old)
    return text + "!" + "".join(groups)


def renumbered(text, order):
    """The bytes of the text's figure, the record's nodes taken in this order."""
    return filing.laid_out(*filing.spelled(shelf.record_of(text.encode())), order)


def layouts(text):
    """The figure laid out in each order that does not give the record: to be read with 22."""
    data = shelf.record_of(text.encode())
    others = dict.fromkeys(renumbered(text, order) for order in itertools.permutations(range(data[0])))
    return [spelling(text, other) for other in others if other != data]


# ---- shelves

def on_shelves():
    """Shelves of up to ten places: the record before all, between any two, behind all, and at each place; then one with no room left."""
    for count in range(11):
        held = SHELF[:count]
        yield from ((line(held, SHELF[i]), present(count, i)) for i in range(count))
        yield from ((line(held, BETWEEN[i]), absent(count, i)) for i in range(count + 1))
    yield line(SHELF, BETWEEN[-1]), short(11, 11)
    yield line(SHELF, SHELF[10]), present(11, 10)
    # The place and the record may be spelled in another way.
    yield line(["x3o", "x4o"], "o3x"), present(2, 0)
    yield line(["o3x", "o4x"], "x4o"), present(2, 1)
    yield line(["o3x"], "x6/2o"), present(1, 0)


def rooms():
    """Buffers too short, one byte short, exact and longer. A record on the shelf is 20 whatever the buffer."""
    for count in [0, 1, 2, 4]:
        held, due = SHELF[:count], PLACE * (count + 1)
        lengths = {0, 1, 369, 370, 371, due - PLACE, due - 1, due, due + 1, due + 2, due + PLACE, LONGEST}
        for room in sorted(lengths):
            fits = absent if room >= due else short
            yield from ((line(held, BETWEEN[i], room), fits(count, i)) for i in sorted({0, count // 2, count}))
            yield from ((line(held, SHELF[i], room), present(count, i)) for i in sorted({0, count - 1} if count else set()))


# ---- files that are no shelves

def lengths():
    """Files cut off, or filled up with zeros, which are the record without nodes: less than any place before it, or equal to it."""
    for count in range(4):
        held = SHELF[:count]
        for length in [0, 1, 369, 370, 371, 739, 740, 741, 1109, 1110, 1111, 1479, 1480, 1481, 4070, 4095]:
            whole, tail = divmod(length, PLACE)
            if tail:
                known = no_multiple()
            elif whole <= count:
                known = absent(whole, whole)
            elif count == 0 and whole == 1:
                known = absent(1, 1)
            else:
                known = wrong(max(count, 1))
            yield line(held, "sss", length=length), known
    for length in [1, 369, 371, 739, 741]:
        yield line(["o", "x"], "x", length=length), no_multiple()           # one of its places
        yield line(["o", "x"], "s", room=0, length=length), no_multiple()
    yield line(["*a"], "*a", length=740), wrong(1, "ok 1 0")


def damaged():
    """Each place damaged at its first byte and at its last one, and the record before it, at it, behind it, at another place."""
    for count in [1, 2, 3, 5, 8]:
        for i, damage in itertools.product(range(count), [FIRST, LAST]):
            held = SHELF[:count]
            held[i] += damage
            others = {BETWEEN[0], BETWEEN[i], BETWEEN[i + 1], BETWEEN[count], SHELF[i], SHELF[i - 1], SHELF[(i + 1) % count]}
            chosen = sorted(others, key=RISING.index) if count < 4 else [SHELF[i], SHELF[(i + 1) % count]]
            yield from ((line(held, one), wrong(i)) for one in chosen)


def misnumbered():
    """Places that are laid out well and numbered badly, where their bytes are in order: 22 to reading, so 19."""
    for text in ["xs", "x3o", "x3(1.5)", "x3xx"]:
        for other in layouts(text):
            yield line([other], text), wrong(0)
            yield line([other, "sss", "x3o3o3o3o"], "sss"), wrong(0)
            yield line(["o", "(-1)", other, "x3o3o3o3o"], "o"), wrong(2)
            yield line(["o", "(-1)", other, "x3o3o3o3o"], text), wrong(2)
            yield line(["o", "(-1)", other], "(-1)"), wrong(2)
            yield line(["o", "(-1)", text, other], text), wrong(3)
    # Behind its own record, before it, and twice.
    other = layouts("xs")[0]
    yield line(["xs", other], "o"), wrong(1)
    yield line([other, "xs"], "xs"), wrong(0)
    yield line([other, other], "o"), wrong(0)


def two_wrong():
    """Two of four places damaged, equal to the one before or less: the first counts, whatever is wrong with it."""
    for i, j in itertools.combinations(range(4), 2):
        for one, other in itertools.product([FIRST, LAST, "equal", "less"], repeat=2):
            if i == 0 and one in ("equal", "less"):
                continue
            held = SHELF[2:6]
            for at, how in [(i, one), (j, other)]:
                held[at] = {"equal": held[at - 1], "less": RISING[at]}.get(how, held[at] + how)
            yield line(held, "sss"), wrong(i)


def equal():
    """Equal neighbours, spelled alike or not; the record is that of them, or another."""
    for count in [2, 3, 5, 8]:
        for i in range(1, count):
            held = SHELF[:count]
            held[i] = held[i - 1]
            yield line(held, held[i]), wrong(i)
            yield line(held, SHELF[0] if i > 1 else BETWEEN[count]), wrong(i)
    yield line(["x3o", "o3x"], "x3o"), wrong(1, "ok 1 0")
    yield line(["x", "x3o", "x6/2o", "x3x"], "x3x"), wrong(2)
    yield line(["*a", "*z"], "*a"), wrong(1, "ok 1 0")


def descending():
    """Two neighbours exchanged: one of them looked up, or another."""
    for count in [2, 3, 4, 6, 8]:
        for i in range(1, count):
            held = SHELF[:count]
            held[i - 1], held[i] = held[i], held[i - 1]
            yield from ((line(held, one), wrong(i)) for one in [SHELF[i - 1], SHELF[i], BETWEEN[i]])
    # A place may be greater than the one before the one before it.
    yield line(["o", "s", "x", "oo"], "oo"), wrong(2)
    yield line(["o", "s", "x", "(inf)"], "s"), wrong(2)


def small():
    """Every file of up to three places that are one of two records or damaged, with a record before, at, between and behind the two."""
    for count in range(4):
        for held in itertools.product(["x", "x3o", "xs" + LAST], repeat=count):
            yield from ((line(held, one), UNKNOWN) for one in ["o", "x", "s", "x3o", "ss"])


# ---- records

def bad_records():
    """Spellings of records, and the number that refuses each."""
    lengths = {"": 13, "x#000": 13, "x#001": 13, "x#171": 13, "x#173": 13, "x#2e4": 13, "x,x": 13, "#2e4": 13, "x,x3o,ss": 13, "xs#171": 13}
    fields = {"x" + FIRST: 14, "x" + LAST: 14, "x!00002": 14, "x3o!05900": 14, "*a" + FIRST: 14, "*a" + LAST: 14, "x!00104": 14}
    numbered = {layouts(text)[0]: 22 for text in ["xs", "x3o", "x3(1.5)", "x3xx"]}
    two = {layouts("xs")[0] + "#171": 13, layouts("xs")[0] + LAST[1:]: 14, "x" + FIRST + "#173": 13}
    return {**lengths, **fields, **numbered, **two}


def refused_records():
    """The record's refusal comes before the file's, and before 12."""
    bad = layouts("xs")[0]
    files = [("ok 0", [], None), ("ok 3", ["x", "x3o", "xs"], None), ("no 18", ["x"], 1), ("no 18", ["x", "xs"], 739), ("no 18", [], 371),
             ("no 19 0", ["x" + FIRST], None), ("no 19 1", ["x", "x"], None), ("no 19 2", ["o", "x", bad], None),
             ("no 18", ["x" + LAST, "x"], 741)]
    for one, number in bad_records().items():
        for k, (checked, held, length) in enumerate(files):
            room = [None, 0, 370][(k + len(one)) % 3]
            yield line(held, one, room, length), unread(checked, number)


def together():
    """Several refusals are due: the ticket's order decides. 18 before 19, both before 20 and 12, 20 before 12."""
    for room in [0, PLACE * 3 - 1, PLACE * 4]:
        for held in [["x" + FIRST, "x3o"], ["x3o", "x"], ["x", "x"]]:
            for length in [739, 741]:
                yield from ((line(held, one, room, length), no_multiple()) for one in ["x", "x3o", "s"])
        for place in [FIRST, LAST]:
            yield line(["o" + place, "x", "x3o"], "x", room), wrong(0)      # wrong before the place where the record is
            yield line(["o", "x", "x3o" + place], "x", room), wrong(2)      # and behind it
            yield line(["o", "x" + place, "x3o"], "x", room), wrong(1)
        yield line(["x", "o", "x3o"], "x", room), wrong(1)
        yield line(["x", "x3o", "s"], "x", room), wrong(2)
        yield line(["o", "x", "x"], "x", room), wrong(2)
        yield line(["x", "x", "x3o"], "x3o", room), wrong(1)
        yield line(["o", "x", "x3o"], "x", room), present(3, 1)
        yield line(["o", "x", "x3o"], "s", room), short(3, 2) if room < PLACE * 4 else absent(3, 2)


# ---- bisection in files that are no shelves

def searched():
    """By hand. The middle of two is the second, of four the third."""
    bad = "xs" + FIRST                                                      # greater than any record, its first byte being ff
    low = "xs!00000"                                                        # less than any record but the one without nodes
    for held, one, at, bisected in [
            (["x3o", "x"], "x3o", 1, "ok 0 2"), (["x3o", "x"], "x", 1, "ok 0 0"), (["x3o", "x"], "s", 1, "ok 0 2"),
            (["x", "x", "x"], "x", 1, "ok 1 0"), (["x", "x", "x"], "o", 1, "ok 0 0"), (["x", "x", "x"], "s", 1, "ok 0 3"),
            (["o", "x", "x", "s"], "x", 2, "ok 1 1"), (["x", "x", "x", "x"], "x", 1, "ok 1 0"),
            (["s", "o", "x"], "s", 1, "ok 0 3"), (["s", "o", "x"], "o", 1, "ok 0 0"), (["s", "o", "x"], "x", 1, "ok 1 2"),
            (["x", "s", "o"], "o", 2, "ok 0 0"), (["x", "s", "o"], "s", 2, "ok 1 1"), (["x", "s", "o"], "x", 2, "ok 1 0"),
            ([bad], "x", 0, "ok 0 0"), ([low], "x", 0, "ok 0 1"), (["x", bad], "x", 1, "ok 1 0"), ([bad, "x"], "x", 0, "ok 0 0"),
            ([low, "x"], "x", 0, "ok 1 1"), (["x", low], "x", 1, "ok 0 2"), ([low], "*a", 0, "ok 0 0"), (["x" + LAST], "x", 0, "ok 0 0"),
            (["x" + LAST, "x"], "x", 0, "ok 0 0"), (["x", "x" + LAST], "x", 1, "ok 1 0"), ([layouts("xs")[0]], "xs", 0, "ok 0 0"),
            ([layouts("xs")[0]], "ss", 0, "ok 0 1"), (["xs", layouts("xs")[0]], "xs", 1, "ok 1 0"),
            (["o", bad, "x"], "x", 1, "ok 0 1"), (["o", low, "x"], "o", 1, "ok 0 2"), (["o", low, "x"], "x", 1, "ok 1 2")]:
        yield line(held, one), wrong(at, bisected)


def permuted():
    """Every order of four places, each looked up, and one that is not there; every fifth order of five."""
    for held in itertools.permutations(SHELF[:4]):
        yield from ((line(held, one), UNKNOWN) for one in [*SHELF[:4], BETWEEN[2]])
    for held in list(itertools.permutations(SHELF[:5]))[1::5]:
        yield line(held, held[len(held[0]) % 5]), UNKNOWN


# ---- byte order

def unequal():
    """For each byte of a record two places that differ in that byte first, the second one greater."""
    yield 0, "s", "oo"
    for i in range(model.MOST_NODES):
        before, at = UNLIKE[:i], filing.node_at(i)
        yield at, before + "B", before + "s"
        for k, byte in enumerate(["40", "f1", *["01"] * 6], 1):
            yield at + k, before + "s", before + f"s!{at + k:03x}{byte}"
    for j in range(1, model.MOST_NODES):
        nodes = UNLIKE[:j + 1]
        for i in range(j):
            at = filing.pair_at(i, j)
            for k, num in enumerate([0x80000002, 0x800002, 0x8002, 3]):
                yield at + k, nodes, put(nodes, at, num, 1)
            for k, den in enumerate([0x80000000, 0x800000, 0x8000, 2]):
                yield at + 4 + k, put(nodes, at, 2 ** 32 - 1, 1), put(nodes, at, 2 ** 32 - 1, den)


def put(text, at, num, den):
    data = shelf.record_of(text.encode())
    return spelling(text, data[:at] + struct.pack(">II", num, den) + data[at + 8:])


def deciding_bytes():
    """Each byte decides whether a place is greater: the second place is, the third, which is the first again, is not."""
    for at, less, greater in unequal():
        one, other = (shelf.place_of(place.encode()) for place in (less, greater))
        assert one[:at] == other[:at] and one[at] < other[at]
        yield line([less, greater, less], greater), wrong(2, "ok 1 1")


def absent_by_a_byte():
    """The record differs from the one place in one byte first, and is less: the first and the last byte of each field."""
    fields = {0, *(filing.node_at(i) + k for i in range(9) for k in (0, 1, 8)),
              *(filing.pair_at(i, j) + k for i, j in itertools.combinations(range(9), 2) for k in (0, 7))}
    yield from ((line([greater], less), absent(1, 0)) for at, less, greater in unequal() if at in fields)


# ---- by chance

def by_chance(dice, number):
    """Files of up to nine places, half of them shelves, the others with one or two things wrong; records, a quarter of them bad."""
    pool = sorted(drawn(dice), key=lambda text: shelf.record_of(text.encode()))
    for _ in range(number):
        chosen = sorted(filing_corpus.some(dice, range(len(pool)), dice.below(10)))
        held, length = [pool[i] for i in chosen], None
        known = dice.pick(held) if held and dice.below(2) else dice.pick(pool)
        for _ in range(dice.pick([0, 0, 1, 2])):
            held, length = dice.pick(WRONGS)(dice, held, length)
        one = dice.pick(SPOILS)(dice, known) if dice.below(4) == 0 else known
        due = PLACE + (PLACE * len(held) if length is None else length)
        room = max(0, due + dice.pick([0, 0, 0, 0, 1, -1, -PLACE, PLACE, dice.below(900)]))
        yield line(held, one, room, length), UNKNOWN


def drawn(dice):
    """Texts of figures, no two of which are the same."""
    texts = [*RISING, *UNLIKE, *(text.decode() for text in filing_corpus.some(dice, filing_corpus.published(), FIGURES) if len(text) < 20)]
    texts += [figures.respelled(dice, figures.by_chance(dice, 1, 6)).decode() for _ in range(FIGURES)]
    texts += [figures.respelled(dice, filing_corpus.large(dice)).decode() for _ in range(FIGURES // 3)]
    return {shelf.record_of(text.encode()): text for text in texts if len(text) < 30}.values()


def exchange(dice, held, length):
    if len(held) < 2:
        return held, length
    i, j = filing_corpus.some(dice, range(len(held)), 2)
    return figures.replaced(figures.replaced(held, i, held[j]), j, held[i]), length


def repeat(dice, held, length):
    if len(held) < 2:
        return held, length
    i = dice.below(len(held) - 1)
    return figures.replaced(held, i + 1, held[i]), length


def damage(dice, held, length):
    if not held:
        return held, length
    i = dice.below(len(held))
    return figures.replaced(held, i, change(dice, held[i])), length


def relength(dice, held, length):
    whole = PLACE * len(held)
    return held, max(0, min(LONGEST - PLACE, dice.pick([whole - 1, whole + 1, whole - PLACE, whole + PLACE, dice.below(LONGEST)])))


def change(dice, place):
    """The place with a byte changed, or numbered badly if it can be and is short; what was changed before is lost."""
    text = place.partition("!")[0]
    data = shelf.record_of(text.encode())
    other = renumbered(text, figures.shuffled(dice, range(data[0])))
    if dice.below(2) and other != data and len(spelling(text, other)) < 70:
        return spelling(text, other)
    at, value = filing_corpus.damage(dice, data)
    return f"{text}!{at:03x}{value:02x}"


def cut(dice, place):
    return f"{place}#{dice.pick([0, 1, 369, 371, 740, dice.below(800)]):03x}"


def double(dice, place):
    return f"{place},{place}"


WRONGS = [exchange, exchange, repeat, damage, damage, relength]
SPOILS = [change, change, change, cut, double]
