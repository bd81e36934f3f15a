"""Shelf files checked, searched and added to, from the words of ticket K1 and of K5's 22 alone, and what the program `replay_shelf`
answers to each line of its input. Ticket K12's rescue is rescue.py's.

`shelf.py`        the two ways to each answer agree, and what is due after adding and after a rescue holds; crates/replay_shelf holds the
                  lines of shelf_corpus.py, those of rescue_corpus.py behind them, and as its answers the models'
`shelf.py write`  stores them

A line spells a file, a record and the length of a buffer, and is answered with what four calls tell; or it spells a file and the lengths of
two buffers, and is answered with what rescue tells. OOO, VV, LLL and DIGEST are lower-case hexadecimal, other numbers decimal. Texts are
read with ticket K6's wish.

    FILE|RECORD|LLL          FILE and RECORD are SPELLED or SPELLED#LLL: cut off at that length, or followed by zeros up to it
    SPELLED                  nothing, or TEXT or TEXT!OOOVV.., one or more with commas between them: records of texts, each after its byte
                             OOO became VV, for each five digits
    CHECK|FIND|BISECT|ADD    each as below, or `no`, number, fields, and after ADD the DIGEST all the same
    CHECK                    ok PLACES
    FIND, BISECT             ok 1 PLACE, where the record is; ok 0 PLACE, where it would stand
    ADD                      ok PLACE DIGEST: the call is lent the first LLL of 4,096 bytes a5, and the digest is of all of them

    FILE>LLL>LLL             FILE as above; of the second buffer and of the third the call is lent the first LLL of 4,096 bytes a5
    RESCUE                   ok KEPT TAIL DIGEST DIGEST, or no 12 DIGEST DIGEST: of all bytes of the second, and of the third

Exit status: 0 nothing differs, 1 something does.
"""

import collections
import functools
import pathlib
import sys

import filing
import stored

STORED = pathlib.Path(__file__).parent.parent / "crates/replay_shelf"

LENGTH, BUFFER = filing.LENGTH, 4096
UNWRITTEN = b"\xa5" * BUFFER
DIGITS = len(" 01234567")                                                   # of a digest, with the space before it

record_of = functools.cache(filing.record_of)
read_back = functools.cache(filing.read_back)
digest = functools.cache(filing.digest)


class Refusal(Exception):
    """Its number, then its fields."""


# ---- the calls, as the ticket tells them

def places(file):
    """By 370 bytes; "no header"."""
    return [file[at:at + LENGTH] for at in range(0, len(file), LENGTH)]


def read(data):
    """"A record to be found or added is read first, with 13 and 14", and by K5 with 22, "wherever a record is read"."""
    back = read_back(data)
    if isinstance(back, int):
        raise Refusal(back)


def readable(place):
    return not isinstance(read_back(place), int)


def check(file):
    """How many places. "Each call refuses a file whose length is no multiple of 370 (18), then the first place that can't be read or isn't
    greater than the place before it (19, that place)"."""
    if len(file) % LENGTH != 0:
        raise Refusal(18)
    before = None
    for i, place in enumerate(places(file)):
        if not readable(place) or before is not None and not place > before:
            raise Refusal(19, i)
        before = place
    return (len(file) // LENGTH,)


def find(file, data):
    """"whether a record is on the shelf and at which place (from 0)"; of one that is not, how many are less."""
    read(data)
    check(file)
    return int(data in places(file)), sum(place < data for place in places(file))


def bisect(file, data):
    """What bisection finds in any file of whole places."""
    read(data)
    if len(file) % LENGTH != 0:
        raise Refusal(18)
    held = places(file)
    low, high = 0, len(held)
    while low < high:
        middle = low + (high - low) // 2
        if data <= held[middle]:
            high = middle
        else:
            low = middle + 1
    return int(low < len(held) and held[low] == data), low


def add(file, data, room):
    """The new record's place, and "the file with one record added". "adding then refuses a record already on the shelf (20, its place)";
    "A buffer too short is 12 here too, last of all." """
    present, place = find(file, data)
    if present:
        raise Refusal(20, place)
    if room < len(file) + LENGTH:
        raise Refusal(12)
    return place, file[:place * LENGTH] + data + file[place * LENGTH:]


# ---- the same in another way: by sorting, and bisection by halves

def is_shelf(held):
    """Whether places are records, and stand as sorting puts them, each once."""
    return all(map(is_record, held)) and held == sorted(set(held))


@functools.cache
def is_record(place):
    """By K5's list of bad fields, and by filing again what the bytes spell."""
    return filing.bad_field(place) is None and filing.record(filing.spelled(place)) == place


def check_by_sorting(file):
    """The first wrong place is the one behind the longest beginning that is a shelf."""
    count, tail = divmod(len(file), LENGTH)
    if tail:
        raise Refusal(18)
    held = places(file)
    longest = max(n for n in range(count + 1) if is_shelf(held[:n]))
    if longest < count:
        raise Refusal(19, longest)
    return (count,)


def find_by_sorting(file, data):
    """Where the record stands once it is added to the set of records."""
    read(data)
    check_by_sorting(file)
    held = set(places(file))
    return int(len(held | {data}) == len(held)), sorted(held | {data}).index(data)


def bisect_by_halves(file, data):
    read(data)
    if len(file) // LENGTH * LENGTH != len(file):
        raise Refusal(18)
    place = end_by_halves(places(file), data)
    return int(places(file)[place:place + 1] == [data]), place


def end_by_halves(held, data):
    """The middle of those left is at half their number: the search goes on before it or behind it."""
    if not held:
        return 0
    half = len(held) // 2
    if data > held[half]:
        return half + 1 + end_by_halves(held[half + 1:], data)
    return end_by_halves(held[:half], data)


def add_by_sorting(file, data, room):
    """The new file is the records sorted, each once: as long as the old one if the record was there."""
    read(data)
    check_by_sorting(file)
    new = b"".join(sorted({*places(file), data}))
    place = places(new).index(data)
    if len(new) == len(file):
        raise Refusal(20, place)
    if len(new) > room:
        raise Refusal(12)
    return place, new


IN_WORDS = check, find, bisect, add
BY_SORTING = check_by_sorting, find_by_sorting, bisect_by_halves, add_by_sorting


# ---- lines

def answer(line, calls=IN_WORDS):
    check, find, bisect, add = calls
    file, data, room = given(line)
    told = [said(check, file), said(find, file, data), said(bisect, file, data), written(add, file, data, room)]
    return "|".join(" ".join(map(str, words)) for words in told)


def given(line):
    """The file, the record and the length of the buffer."""
    file, data, room = line.split(b"|")
    return spelled(file), spelled(data), int(room, 16)


def spelled(spelling):
    listed, changed, length = spelling.partition(b"#")
    data = b"".join(map(place_of, listed.split(b","))) if listed else b""
    length = int(length, 16) if changed else len(data)
    return data.ljust(length, b"\0")[:length]


def place_of(spelling):
    text, _, digits = spelling.partition(b"!")
    return filing.changed(record_of(text), digits.decode())


def said(call, *given):
    try:
        return "ok", *call(*given)
    except Refusal as refusal:
        return "no", *refusal.args


def written(add, file, data, room):
    """A refusal "leaves an output buffer untouched"; "an output buffer keeps its bytes past what was written"."""
    try:
        place, new = add(file, data, room)
    except Refusal as refusal:
        return "no", *refusal.args, digest(UNWRITTEN)
    return "ok", place, digest(new + UNWRITTEN[len(new):])


def after_adding(line):
    """What is due, if the line's record can be added: "An editor who adds an article should find every old record there, in order, and the
    new one in its only possible place." What each is, then how it is and how it should be."""
    file, data, _ = given(line)
    if said(find, file, data)[:2] != ("ok", 0):
        return
    place, new = add(file, data, len(file) + LENGTH)
    old, held = places(file), places(new)
    yield "places", check(new), (len(old) + 1,)
    yield "old records", held[:place] + held[place + 1:], old
    yield "the new one", find(new, data), (1, place)
    for i, one in enumerate(old):
        yield f"place {i}", find(new, one), (1, i + (i >= place))
    shelves = [i for i in range(len(old) + 1) if said(check, b"".join(old[:i] + [data] + old[i:]))[0] == "ok"]
    yield "possible places", shelves, [place]


# ---- the comparison

def main(mode="check"):
    import rescue                                                           # imports this file
    import shelf_corpus                                                     # likewise

    tally = collections.Counter(differ=0)
    lines = shelf_corpus.corpus()
    answers = [answer(line) for line in lines]
    for (line, expected), ours in zip(lines.items(), answers):
        count(tally, ours)
        for due, told in zip(expected, ours[:-DIGITS].split("|")):
            if due is not None:
                compare(tally, "answers known beforehand", line, told, due)
    for line in [*lines, *shelf_corpus.further()]:
        compare(tally, "lines answered in two ways", line, answer(line), answer(line, BY_SORTING))
        for what, is_so, due in after_adding(line):
            compare(tally, "things due after adding", (line, what), is_so, due)

    rescued, told = rescue.compared(tally)
    stored.settle(STORED, mode, [*lines, *rescued], answers + told, tally)
    stored.close(tally)


def compare(tally, things, what, left, right):
    tally[things] += 1
    if left != right:
        tally["differ"] += 1
        print(f"{what!r}\n    {left}\n    {right}")


def count(tally, ours):
    """Each call's first word, of refusals the number too, of searches whether the record is there."""
    tally["lines"] += 1
    told = ours.split("|")
    for call, said in zip(["check", "find", "bisect", "add"], told):
        words = said.split()
        tally[f"of {call}: " + " ".join(words[:2 if words[0] == "no" or call in ("find", "bisect") else 1])] += 1
    tally["of bisect: not what find says"] += told[1] != told[2]


if __name__ == "__main__":
    main(*sys.argv[1:])
