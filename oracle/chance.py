"""Texts by chance, the same on every machine: of `random`, Python promises never to change only `random()`."""

import random

DIGITS = "0123456789"
LETTERS = "osvxqfhkuwFeQdVUAXB"
EDGES = ["3", "4", "5", "6", "7", "8", "12", "5/2", "5/3", "5/4", "7/2", "7/3", "8/3", "10/3", "3/2", "6/2", "1/5/3",
         "1000000007"]
TWOS = ["2", "4/2", "6/3", "02"]
LARGEST = 2 ** 32 - 1
SIGNS = ["", "", "", "+", "-"]


class Dice(random.Random):
    def below(self, n):
        return int(self.random() * n)

    def pick(self, things):
        return things[self.below(len(things))]

    def several(self, things, least, most):
        return "".join(self.pick(things) for _ in range(least + self.below(most - least + 1)))


def literal(dice):
    """A length, at times outside the port's range."""
    if dice.below(8) == 0:
        return dice.pick(SIGNS) + dice.pick(["inf", "INF", "Infinity", "iNfInItY"])
    after = dice.pick(["", ".", "." + dice.several(DIGITS, 1, 7)])
    power = dice.pick(SIGNS) + dice.pick([dice.pick(DIGITS), "22", "015"])
    return dice.pick(SIGNS) + dice.several(DIGITS, 1, 9) + after + dice.pick(["", "", dice.pick("eE") + power])


def accepted(dice, least=3, most=60, edges=EDGES):
    """A text of about `least` to `most` bytes that reading accepts unless a length is outside the port's range: every
    reference exists, and an edge that would repeat is a two."""
    length = least + dice.below(most - least + 1)
    count = 1 + dice.below(9)
    text, made, pairs, previous = "", 0, set(), None
    while True:
        if made < count and dice.below(3):
            here, made = made, made + 1
            node = dice.pick([dice.pick(LETTERS), dice.pick("xo"), "(" + literal(dice) + ")"])
        else:
            here = dice.below(count)
            node = "*" + dice.pick([chr(ord("a") + here), "-" + chr(ord("a") + count - 1 - here)])
        edge = ""
        if previous is not None and dice.below(5):
            pair = frozenset((previous, here))
            edge = dice.pick(TWOS if pair in pairs else edges)
            if edge not in TWOS:
                pairs.add(pair)
        token = dice.pick(["", "", "", " ", "\t"]) + edge + dice.pick(["", "", "", " "]) + node
        if len(text + token) + count - made > length and text:
            # The token is left out, but not the nodes that references have counted on.
            missing = count - made + (not node.startswith("*"))
            return (text + "o" * missing).encode()
        text, previous = text + token, here


def multiplied(dice):
    """The terms of a fraction, twos among them, both times the same number, at times the largest that 32 bits allow."""
    num = 2 + dice.below(2 ** (1 + dice.below(16)))
    den = 1 + dice.below(num - 1)
    most = LARGEST // num
    times = dice.pick([2 + dice.below(9), 1 + dice.below(most), most])
    return num * times, den * times


def unreduced(dice, least=20, most=90):
    """An accepted text with fractions that are not in lowest terms."""
    edges = [dice.pick(["", "", "0", "7/"]) + "{}/{}".format(*multiplied(dice)) for _ in range(6)]
    while b"/" not in (text := accepted(dice, least, most, edges)):
        pass
    return text


def upside_down(dice):
    """Terms with a common divisor that are no edge's: 7 has them as typed."""
    num, den = multiplied(dice)
    return f"x{dice.pick(['', '3o', '6/2o'])}{den}/{dice.pick([num, num, den])}o".encode()


def damaged(dice, text):
    """The text with a byte deleted, doubled, changed, or swapped with the next."""
    at = dice.below(len(text) or 1)
    byte, rest = text[at:at + 1], text[at + 1:]
    changed = dice.pick("xo3/*a-() _\t1.~").encode()
    return text[:at] + dice.pick([rest, byte + byte + rest, changed + rest, rest[:1] + byte + rest[1:]])


def soup(dice, most=10):
    """Bytes that a reader tells apart, and pieces that are long to come by byte for byte."""
    pieces = list("xos3214/*-ab(). \t_ze+~0") + ["x3o", "*a", "*-a", "(1)", "(1.5)", "(1e", "(-", "inf", "nan", "e-2", "5/2",
                                                 "4294967295", "4294967296", "00000000", "ooo"]
    return dice.several(pieces, 0, most).encode()


def number(dice):
    """What may stand between parentheses."""
    pieces = list("019.eE+-") + ["1234567", "12345678", "00000000", "e2", "e-2", "e02", "inf", "INITY", "nAn", "x", " "]
    return (dice.pick(["", "x3", "o "]) + "(" + dice.several(pieces, 0, 6) + dice.pick([")", ")", ")3o", ""])).encode()


def run(dice):
    """What may stand between two nodes."""
    pieces = list("0123459/") + ["//", "/2", "4294967295", "4294967296", "2147483647", "2147483648", "0000000000", " ", "\t"]
    end = chr(dice.below(128)).replace("\n", "\t")
    return ("x" + dice.several(pieces, 1, 5) + end + dice.pick(["", "o", "*a", "a"])).encode()


def queue(dice):
    """Few nodes, many edges between references, not all of which exist."""
    nodes = ["x", "o", "s"] + [minus + letter for minus in ("*", "*-") for letter in "abcd"]
    return dice.several([edge + node for edge in ["2", "3", "3", "4/2", ""] for node in nodes], 1, 7).lstrip("234/").encode()


def crowd(dice):
    """About nine nodes, then anything."""
    return dice.several(["o", "x3", "s ", "*a", "(1)"], 8, 12).encode() + soup(dice, 4)


def raw(dice):
    return bytes(dice.below(256) for _ in range(dice.below(6))).replace(b"\n", b"\r")


def hurt(dice, least=3, most=60):
    text = dice.pick([accepted, accepted, unreduced])(dice, least, most)
    for _ in range(1 + dice.below(3)):
        text = damaged(dice, text)
    return text


def long(dice):
    return dice.pick([accepted, hurt])(dice, 240, 262)


def any_text(dice):
    return dice.pick([soup, number, run, queue, crowd, raw, accepted, hurt, hurt, long, unreduced, upside_down])(dice)
