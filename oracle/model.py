"""Document 01's reading of a text, ticket K2's edges and ticket K6's wish, from their words alone: the oracle where the Rust has no answer.

`answer(text, wish=True)` gives the line that oracle/rust's `reading` prints; without the wish the Rust has no answer of its own to an
infinite literal. Python's floats are IEEE binary64.
"""

import math
import re
import struct

DIGITS = b"0123456789"
SPACES = bytes(range(9, 14)) + b" "
# "until `(`, `*`, byte 32, or a byte from `A` to `z`"
ENDS_RUN = b"(* " + bytes(range(ord("A"), ord("z") + 1))

# "The port takes at most 15 digits before the exponent, at most 3 exponent digits, and p from -22 to 22"
MOST_BYTES, MOST_NODES = 255, 9
MOST_DIGITS, MOST_EXPONENT_DIGITS, MOST_POWER = 15, 3, 22

R2, R3, R5 = 1.4142135623730951, 1.7320508075688772, 2.23606797749979
LETTERS = {
    "o": ("o", None), "s": ("s", 1.0),
    **{letter: ("x", value) for letter, value in {
        "v": (R5 - 1) / 2, "x": 1.0, "q": R2, "f": (R5 + 1) / 2, "h": R3, "k": math.sqrt(R2 + 2), "u": 2.0,
        "w": R2 + 1, "F": (R5 + 3) / 2, "e": R3 + 1, "Q": R2 * 2, "d": 3.0, "V": R5 + 1, "U": R2 + 2,
        "A": (R5 + 1) / 4 + 1, "X": R2 * 2 + 1, "B": R5 + 2}.items()},
}

LITERAL = re.compile(
    rb"(?P<sign>[+-]?)(?:(?P<word>(?i:inf|infinity|nan))"
    rb"|(?P<whole>[0-9]*)(?:\.(?P<after>[0-9]*))?(?:[eE](?P<exponent>[+-]?[0-9]+))?)")


class Refusal(Exception):
    """Document 01's number, then its fields."""


def answer(text, wish):
    try:
        nodes, edges = read(text, wish)
    except Refusal as refusal:
        return " ".join(["no", *map(str, refusal.args)])
    words = ["ok", len(nodes), len(edges), int(minimal(nodes, edges))]
    words += [kind + ("" if value is None else struct.pack(">d", value).hex()) for kind, value in nodes]
    words += [f"{min(a, b)}-{max(a, b)}:{num}/{den}" for a, b, (num, den) in edges]
    return " ".join(map(str, words))


def read(text, wish):
    """The nodes, as pairs of kind and value, and the stored edges, as ends and fraction. The wish is K6's, for infinite lengths."""
    if len(text) > MOST_BYTES:
        raise Refusal(1, MOST_BYTES)
    for at, byte in enumerate(text):
        if byte >= 128:
            raise Refusal(2, at)

    # "A text is a node, then, while bytes remain, an optional edge and a node."
    nodes, queue = [], []
    previous, at = read_node(text, 0, nodes, wish)
    while at < len(text):
        edge, at = read_edge(text, at)
        here, at = read_node(text, at, nodes, wish)
        if edge:
            queue.append((previous, here, edge))
        previous = here
    return nodes, stored(len(nodes), queue)


def skip_spaces(text, at):
    while at < len(text) and text[at] in SPACES:
        at += 1
    return at


def byte_at(text, at):
    """Refusal 4, "the text ends where a node, a reference's letter or the end of an edge is due"."""
    if at == len(text):
        raise Refusal(4, len(text))
    return text[at]


def read_node(text, at, nodes, wish):
    """A reference, as a function from the count of nodes to an index, and where reading goes on."""
    start = skip_spaces(text, at)
    byte = byte_at(text, start)
    if byte == ord("*"):
        return read_reference(text, start + 1)
    if byte == ord("("):
        close = text.find(b")", start)
        if close < 0:
            raise Refusal(3, len(text))
        node, at = ("x", literal(text, start + 1, close, wish)), close + 1
    elif chr(byte) in LETTERS:
        node, at = LETTERS[chr(byte)], start + 1
    else:
        raise Refusal(6, start)
    if len(nodes) == MOST_NODES:
        raise Refusal(10, start)
    nodes.append(node)
    index = len(nodes) - 1
    return (lambda count: index), at


def read_reference(text, at):
    from_end = byte_at(text, at) == ord("-")
    if from_end:
        at += 1
    letter = byte_at(text, at)
    if not ord("a") <= letter <= ord("z"):
        raise Refusal(6, at)
    k = letter - ord("a")
    return (lambda count: count - 1 - k if from_end else k), at + 1


def literal(text, start, close, wish):
    # "its last byte; for `()` the `)`"
    last = max(start, close - 1)
    parts = LITERAL.fullmatch(text, start, close)
    if not parts or not (parts["word"] or parts["whole"] or parts["after"]):
        raise Refusal(5, last)

    if parts["word"]:
        if parts["word"].lower() == b"nan":
            raise Refusal(6, last)
        # K6: "It refuses an infinite literal read without the wish (23, its last byte)"
        if not wish:
            raise Refusal(23, last)
        value = math.inf
    else:
        after, exponent = parts["after"] or b"", parts["exponent"] or b"0"
        digits = parts["whole"] + after
        power = int(exponent) - len(after)
        if (len(digits) > MOST_DIGITS or len(exponent.lstrip(b"+-")) > MOST_EXPONENT_DIGITS
                or not -MOST_POWER <= power <= MOST_POWER):
            raise Refusal(9, last)
        # "one double operation on exact powers": 15 digits and 10^22 are exact doubles.
        ten = float(10 ** abs(power))
        value = float(int(digits)) * ten if power >= 0 else float(int(digits)) / ten
    # "a minus is applied last"
    return -value if parts["sign"] == b"-" else value


def read_edge(text, at):
    """A fraction, or None if there is no edge, and where reading goes on."""
    at = skip_spaces(text, at)
    if byte_at(text, at) not in DIGITS:
        return None, at
    parts, start = [], at
    while (byte := byte_at(text, at)) not in ENDS_RUN:
        if byte == ord("/"):
            parts.append(part(text, start, at))
            start = at + 1
        elif byte not in DIGITS:
            raise Refusal(6, at)
        at += 1
    parts.append(part(text, start, at))

    # "only the last two count"
    num, den = parts[-2:] if len(parts) > 1 else (parts[0], 1)
    if not (num > 1 and den != 0 and den < num):
        raise Refusal(7, num, den, at - 1)
    return (num, den), at


def part(text, start, end):
    """A 32-bit number. Where an empty part would end, the byte before is the slash."""
    digits = text[start:end]
    if not digits or int(digits) >= 2 ** 32:
        raise Refusal(5, end - 1)
    return int(digits)


def stored(count, queue):
    """The edges kept. 7 was tested before, on the numbers as typed."""
    edges, pairs = [], set()
    for place, (first, other, (num, den)) in enumerate(queue):
        if num == 2 * den:
            continue
        a, b = first(count), other(count)
        if not (0 <= a < count and 0 <= b < count):
            raise Refusal(11, place)
        if frozenset((a, b)) in pairs:
            raise Refusal(8, a, b)
        pairs.add(frozenset((a, b)))
        # K2: "The edge kept after reading should carry num and den divided by their greatest common divisor"
        divisor = math.gcd(num, den)
        edges.append((a, b, (num // divisor, den // divisor)))
    return edges


def minimal(nodes, edges):
    """Whether "each component, over stored edges, has a ringed node": ringed nodes are spread along the edges."""
    lit = {i for i, (kind, _) in enumerate(nodes) if kind == "x"}
    for _ in nodes:
        for a, b, _ in edges:
            if a in lit or b in lit:
                lit |= {a, b}
    return len(lit) == len(nodes)
