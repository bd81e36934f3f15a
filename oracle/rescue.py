"""Shelf files rescued, from the words of ticket K12 alone. shelf.py has the form of the lines, runs the comparison of this file behind its
own, and stores the lines of rescue_corpus.py behind those of shelf_corpus.py."""

import functools
import itertools

import filing
import shelf

LENGTH, UNWRITTEN = shelf.LENGTH, shelf.UNWRITTEN
KEPT, OUT_OF_ORDER = 0, 1
MARKS = {KEPT, OUT_OF_ORDER, 14, 22}                                        # no 13: a place always has 370 bytes


# ---- the call, as the ticket tells it

def rescue(file, out, marks):
    """"The result gives the places kept and the length of a tail of fewer than 370 bytes." "A second buffer shorter than the file, or a
    third with fewer bytes than places, gets 12." """
    held, tail = whole_places(file), len(file) % LENGTH
    if len(out) < len(file) or len(marks) < len(held):
        raise shelf.Refusal(12)
    copied = []
    for i, place in enumerate(held):
        marks[i] = mark(place, copied)
        if marks[i] == KEPT:
            copied.append(place)
    out[:len(copied) * LENGTH] = b"".join(copied)
    return len(copied), tail


def whole_places(file):
    """"goes through the file by 370-byte places": a tail is none."""
    return [place for place in shelf.places(file) if len(place) == LENGTH]


def mark(place, copied):
    """"copies to a second buffer each record that can be read and is greater than the last one copied"; "0 for kept, 1 for readable but out
    of order, else the number with which reading refuses it"."""
    back = shelf.read_back(place)
    if isinstance(back, int):
        return back
    return KEPT if not copied or place > copied[-1] else OUT_OF_ORDER


# ---- the same in another way: every place is read before any is copied

def rescue_by_maxima(file, out, marks):
    """Kept is each readable place that is greater than all readable ones before it, since the greatest of them is the last one copied."""
    count = len(file) // LENGTH
    held = shelf.places(file[:count * LENGTH])
    if file[:len(out)] != file or held[:len(marks)] != held:                # cut off at what is lent, something is missing
        raise shelf.Refusal(12)
    numbers = list(map(refusal, held))
    readable = [place for place, number in zip(held, numbers) if number is None]
    kept = list(dict.fromkeys(itertools.accumulate(readable, max)))
    for i in range(count):
        marks[i] = numbers[i] or int(held[i] not in kept or held[i] in held[:i])
    for k, place in enumerate(kept):
        out[k * LENGTH:(k + 1) * LENGTH] = place
    return len(kept), len(file) - count * LENGTH


@functools.cache
def refusal(place):
    """By K5's list of bad fields, and by filing again what the bytes spell."""
    if filing.bad_field(place) is not None:
        return 14
    return None if shelf.is_record(place) else 22


# ---- lines

def answer(line, call=rescue):
    told, out, marks = rescued(*given(line), call)
    return " ".join([*map(str, told), shelf.digest(out), shelf.digest(marks)])


def given(line):
    """The file, and the lengths of what is lent of the second and of the third buffer."""
    file, room, marks_room = line.split(b">")
    return shelf.spelled(file), int(room, 16), int(marks_room, 16)


def rescued(file, room, marks_room, call=rescue):
    """What is told, and both buffers afterwards, of which the call is lent the first bytes."""
    out, marks = bytearray(UNWRITTEN), bytearray(UNWRITTEN)
    told = shelf.said(call, file, memoryview(out)[:room], memoryview(marks)[:marks_room])
    return told, bytes(out), bytes(marks)


def marks_of(file):
    """The marks, where both buffers are long enough."""
    count = len(file) // LENGTH
    return list(rescued(file, len(file), count)[2][:count])


def after_rescue(line):
    """What is due: what each is, then how it is and how it should be."""
    file, room, marks_room = given(line)
    told, out, marks = rescued(file, room, marks_room)
    if told[0] == "no":
        yield "buffers", (out, marks), (UNWRITTEN, UNWRITTEN)
        return
    _, kept, tail = told
    held, end = whole_places(file), kept * LENGTH
    numbers = list(marks[:len(held)])
    yield "the length", len(held) * LENGTH + tail, len(file)
    yield "marks that are none", set(numbers) - MARKS, set()
    yield "places kept", numbers.count(KEPT), kept
    yield "what is copied", shelf.places(out[:end]), [place for place, number in zip(held, numbers) if number == KEPT]
    yield "the rest", out[end:] + marks[len(held):], UNWRITTEN[end:] + UNWRITTEN[len(held):]
    yield "the result passes the shelf check", shelf.check(out[:end]), (kept,)
    if shelf.said(shelf.check, file)[0] == "ok":
        yield "a file that already passed", (out[:end], numbers, tail), (file, [KEPT] * len(held), 0)
    for i in range(len(held)):
        yield from beside(file, i)


def beside(file, i):
    """"Bytes damaged inside one place must never make its neighbours unreadable, although they may fall out of order." Those before it do
    not even that."""
    at, marks = i * LENGTH, marks_of(file)
    for what, new in damages(file[at:at + LENGTH]).items():
        again = marks_of(file[:at] + new + file[at + LENGTH:])
        yield f"places before place {i} with {what}", again[:i], marks[:i]
        yield f"places behind place {i} with {what}", unread(again[i + 1:]), unread(marks[i + 1:])


def damages(place):
    """The place with bytes changed: two that can hardly be read, the least record and a great one."""
    return {"another first byte": bytes([place[0] ^ 0xff]) + place[1:], "another last byte": place[:-1] + bytes([place[-1] ^ 1]),
            "zeros": bytes(LENGTH), "nine snubs": shelf.record_of(b"sssssssss")}


def unread(marks):
    """The marks, readable places being alike."""
    return [None if number in (KEPT, OUT_OF_ORDER) else number for number in marks]


# ---- the comparison

def compared(tally):
    """The lines and their answers, counted and compared."""
    import rescue_corpus                                                    # imports this file

    lines = rescue_corpus.corpus()
    for line, (told, marks) in lines.items():
        count(tally, line)
        if told is not None:
            shelf.compare(tally, "answers known beforehand", line, answer(line).rsplit(" ", 2)[0], told)
        if marks is not None:
            shelf.compare(tally, "marks known beforehand", line, marks_of(given(line)[0]), marks)
    for line in [*lines, *rescue_corpus.further()]:
        shelf.compare(tally, "lines answered in two ways", line, answer(line), answer(line, rescue_by_maxima))
        for what, is_so, due in after_rescue(line):
            shelf.compare(tally, "things due after a rescue", (line, what), is_so, due)
    return list(lines), list(map(answer, lines))


def count(tally, line):
    """The answer, and where it is one the marks and whether there is a tail."""
    file = given(line)[0]
    told = answer(line).split()
    tally["lines"] += 1
    tally["of rescue: " + " ".join(told[:2 if told[0] == "no" else 1])] += 1
    if told[0] == "ok":
        tally["of rescue: ok with a tail"] += told[2] != "0"
        for number in marks_of(file):
            tally[f"of rescue: places marked {number}"] += 1
