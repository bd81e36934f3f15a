"""The corpus, small enough for one run of a program that reads 65,536 bytes.

`corpus.py` writes it, a text a line; `corpus.py long` writes the 1,000 long accepted texts that the readers are timed with.
"""

import itertools
import math
import sys

import chance
import model

SHORT = "xs320/*a-() \t_"
MOST = 65500


def main(which="corpus"):
    texts = long_texts() if which == "long" else corpus()
    sys.stdout.buffer.write(b"".join(text + b"\n" for text in texts))


def corpus():
    dice = chance.Dice(1)
    published = [*families(), *stars(), *snubs(), *references(), *spaces(), *letters()]
    listed = [*document_01(), *published, *fine_print(), *faults(), *limits(), *lengths(dice), *swept(), *words(SHORT, 3)]
    whole = [text.encode() for text in published if len(text) > 6]
    whole += [chance.accepted(dice, 8, 40) for _ in range(150)]
    texts = [text.encode() for text in listed] + beyond_ascii() + whole
    texts += [chance.damaged(dice, dice.pick(whole)) for _ in range(1200)]
    texts += [part(dice) for part in (chance.soup, chance.number, chance.run, chance.queue, chance.crowd) for _ in range(90)]
    texts += [text.encode() for text in [*unreduced(), *unreduced_beside()]]
    texts += [chance.unreduced(dice, 40, 75) for _ in range(16)] + [chance.upside_down(dice) for _ in range(10)]

    texts = list(dict.fromkeys(texts))
    assert not any(b"\n" in text for text in texts)
    assert len(texts) >= 3000 and sum(len(text) + 1 for text in texts) <= MOST
    return texts


def long_texts():
    dice, texts = chance.Dice(2), []
    while len(texts) < 1000:
        text = chance.accepted(dice, 100, 255)
        if len(text) >= 100 and model.answer(text, wish=False).startswith("ok"):
            texts.append(text)
    return texts


def words(alphabet, longest):
    for length in range(longest + 1):
        yield from map("".join, itertools.product(alphabet, repeat=length))


def document_01():
    """Texts to try, and the example of `cdlist`."""
    return ["", "*a", "x5/3/2o", "x4/2o", "x2*c", "x3*c", "x3/o", "x3", "x ", "(", "()", "(nan)", "x3_", "x4294967296o",
            "o" * 9, "o" * 10, "x4294967296", "x4o", "o4x", "x6/2o", "x3o", "(0)", "(-0)", "x", "o",
            "x4o3o", "x3*a", "x1o", "x3o3*a"]


def chain(*edges):
    return "." + "".join(edge + "." for edge in edges)


def ringings(shape):
    """The shape with its dots ringed or not, at least one ringed."""
    for rings in itertools.product("xo", repeat=shape.count(".")):
        if "x" in rings:
            yield "".join(part + ring for part, ring in zip(shape.split("."), rings + ("",)))


def one_ringed(shape):
    return (text for text in ringings(shape) if text.count("x") == 1)


def families():
    for first in "345":                                                     # A, B, H
        for n in range(2, 10):
            yield from (ringings if n < 5 else one_ringed)(chain(first, *"3" * (n - 2)))
    for n in range(4, 8):                                                   # D, both ways to write it
        yield from one_ringed(chain(*"3" * (n - 2)) + " *b3.")
        yield from one_ringed(chain("3", "3") + " *b" + "3." * (n - 3))
    for n in range(6, 10):                                                  # E
        yield from one_ringed(chain(*"3" * (n - 2)) + " *c3.")
    yield from ringings(chain("3", "4", "3"))                               # F4
    for p in [*map(str, range(2, 13)), "100"]:                              # I2(p)
        yield from ringings(chain(p))
    yield from ["x4o4o", "x3o6o", "x4o3o4o", "x3o4o3o3o", "x3o3o *b4o", "x7o3o", "x5o3o5o", "x3o3o3*a", "x3o3o3o3*a",
                "x3o3o *b3o *b3o", "x3o3o *b3o3o *b3o"]                     # no finite group


def stars():
    for p in ["5/2", "7/2", "7/3", "8/3", "9/2", "9/4", "10/3", "12/5", "5/4"]:
        yield from ringings(chain(p))
    for row in ["5/2 5", "5/2 3", "3 5/3", "3/2 5", "4 4/3"]:
        yield from ringings(chain(*row.split()))
    for row in ["5/2 5 3", "5 5/2 5", "5/2 3 5", "5/2 5 5/2", "5 5/2 3", "3 3 5/2"]:
        yield from one_ringed(chain(*row.split()))
    for row in ["3/2 3 3", "3/2 4 4", "4/3 3 4", "3/2 5 5", "5/4 3 5", "5/2 3 3", "5/3 3 5", "5/3 5/2 3"]:
        yield from ringings(".{}.{}.{}*a".format(*row.split()))             # Schwarz triangles


def snubs():
    return ["s3s3s", "s3s4s", "s3s5s", "s4s3s", "s3s4o", "s4o3o", "s3s4o3o", "s2s2s", "s2s8o", "s3s3s *b3s", "s5/2s5s",
            "s3/2s3/2s5/2s", "s5/3s3s5/2*a", "s3s3s3s", "s", "s s", "s3s", "s x", "x2s3s", "o3s", "s3x", "s4x3o", "x3o s"]


def references():
    return ["x3*a", "x3*-a", "o3*a", "x2*a", "x3o3*b", "x3o3*-b", "x3o3*-a", "*a3x", "*b3x3o", "*-a3x3o", "x3o*a3o",
            "x3o3o*b3o", "x3o3o *-b3o", "x3o *a3o *a3o", "x3o3o3*a3*c", "*a*b*c", "*a *b x", "x*a", "*z", "*-z", "*z2*y"]


def spaces():
    """Prisms, lone nodes, and notation that reading does not know."""
    return ["x x3o", "x2x3o", "x x4o3o", "x3o x3o", "x5o2x5o", "x x x", "x2x2x", "xxx", "xo3ox", "x3o o", "o o3x", "o3o",
            "x3x s", "x3o 3o", "x 3 o 3 o", " x3o", "x3o x", "x\t3 o", "x\r3 o\x0bx\x0c5/2 o", "xo3ox&#x", "ox3oo&#xt",
            "xx3oo&#q", "x3o3o,", "{3,4}"]


def letters():
    for letter in chance.LETTERS:
        yield from [letter, letter + "3o", "x4" + letter, "o3" + letter + "5/2s", "*" + letter, "x3*" + letter]


def fine_print():
    """What is easy to miss in document 01, and the texts next to it."""
    return ["x1", "x3/", "x1_", "x1 ", "x1/", "x3//o", "x1/5/3o", "x3/1/5/3o", "x5/3/1o", "x5/3/4o", "x3/2*z", "x3/2/1*z",
            "x4/2*z", "x4/2x", "x2o", "x2x",
            "x\t3o", "x3\to", "x 3o", "x3 o", "x3 \to", "x3\x0bo", "x3\ro", "x\x0b3o", "  ", "\t", "\t \r\x0b\x0c", " x",
            "(((1)", "((1)", "(1)(", "(1()", "(1e005)", "(1e0005)", "(0e22)", "(0e23)", "(0e-22)", "(0e-23)",
            "(1234567890123456z)",
            "x2*c3*c", "x2*c2*c", "x3*a3*a", "x3*a2*a", "x2*a3*a", "x3o3*a3*b", "x3o2*a", "x2o3*a", "x3o3*-a3*-b",
            "*-a", "*a*a", "*a2*a", "*a3*a", "*-a3*-a", "*a3*ax", "*-b3x", "*b3x", "*-b2x", "x3*b3o", "x3*b3*c", "x3*-b",
            "x3*a3*b", "x3*b3*a", "x3o4*a3*c", "x3o4*c3*a",
            "x3*-", "x*", "x*-", "*-3", "*--a", "*A", "* a", "*a ", "*a3", "x3*a3"]


def faults():
    """Each refusal in several places; what follows it, another fault included, makes no difference."""
    while_reading = ["(", "(1", "(1.5x", "*", "*-", "3", "3/", "15/2", " ", "\t ", "()", "(1e)", "(+)", "(1.2.3)", "4/x",
                     "4//2o", "4294967296o", "9/4294967296o", "z", "*A", "*-1", "&", "(NaN)", "(-nan)", "3\to", "3.o",
                     "3-o", "3)o", "1o", "0o", "2/3o", "5/5o", "5/0o", "1/1/1o", "(1e23)", "(1e0001)",
                     "(1234567890123456)"]
    in_the_queue = ["3*z", "3*-z", "2*z3*z", "3*-i3*q", "3o3*-b", "3x3*-a3*-b", "3*a3*a", "o3*-a3*-a"]
    for head in ["x", "o4x", "(1.5)3o 5/2s*a ", "x3x3x3x3x2*a3x"]:
        yield from (head + tail for tail in while_reading + in_the_queue)
    yield from ("x3o" + tail + "z(1e99)4294967296" for tail in while_reading)


def limits():
    for length in [253, 254, 255, 256, 257]:                                # bytes
        yield "x3" + " " * (length - 3) + "o"
    yield from ["x" + "2*a" * 84 + "2o", "x" + "2*a" * 84 + "2ox", "x3o" + " " * 252, "z" * 256]

    nine = "x3o4o3o5/2ooooo"
    for tail in ["", "x", "3x", " 3 x", " (1.5)", "*a", "3*b", "2*z", "3*z", "3*a3x", "(", "(1", "()", "(nan)", "(1e23)",
                 "(1e)", "z", "*", "*1", "3", "3_", "1x", "xz", "x ", "x(", "x3*z", "x3*a3*a", "xx", "(1)(1e23)", "*a*b*cx"]:
        yield nine + tail
    yield from ["o " * 8 + "o", "o " * 10, "*a" * 30, "x3" * 8 + "o", "x3" * 9 + "o"]

    yield from ["x4294967295o", "x4294967295/4294967294o", "x4294967296/2o", "x5/4294967295o", "x5/4294967296o",
                "x4294967294/2147483647o", "x4294967295/2147483647o", "x4294967295/2147483648o", "x2/2147483649o",
                "x4294967296/3/2o", "x3/4294967296/2o", "x4294967296/", "x18446744073709551619o", "x" + "0" * 30 + "3o",
                "x3/" + "0" * 30 + "o", "x" + "9" * 40 + "o", "x" + "9" * 40, "x3/1o", "x3/2o", "x3/3o", "x10/5o", "x10/5*z"]


def lengths(dice):
    fifteen = "123456789012345"
    for digits in [fifteen, "1" + fifteen, fifteen[:7] + "." + fifteen[7:], "." + fifteen, "1." + fifteen, fifteen + ".",
                   "0" * 15, "0" * 16, "0" * 14 + ".1", "0" * 15 + ".1", "9" * 15, "9" * 16 + "x", "0." + "0" * 13 + "1"]:
        yield from (f"({digits}{exponent})" for exponent in ["", "e7", "e-7"])
    for power in range(20, 26):                                             # p, and p with digits after the point
        for digits in ["1", "0", "-9.75", "123456789.012345"]:
            yield from [f"({digits}e{power})", f"({digits}E-{power})"]
    for exponent in ["005", "0005", "022", "0022", "023", "000", "0000", "999", "1000", "", "+", "-", "1.0", "e1", "9" * 20]:
        yield from [f"(1e{exponent})", f"(2.5e-{exponent})", f"(+1.E+{exponent})"]
    for word in ["inf", "infinity", "nan", "infinit", "infinityy", "in", "na", "nane", "INF", "iNfInItY", "NAN", "inf1",
                 "infe1", "1inf", " inf", "inf "]:
        yield from [f"({word})", f"(-{word})3o", f"x3(+{word})"]
    yield from ["(1.5)3o", "(1.5)3o3(2e1)4x", "x3(-3.5)", "(1.0)", "(+0)", "(0.0)3o", "(-0e5)", "(.5)", "(5.)", "(.)", "(-)",
                "(+)", "(-.5)", "(-.)", "(e5)", "(.e5)", "(1 )", "( 1)", "(1_0)", "(1,5)", "(0x10)", "(--1)", "(+-1)",
                "(1.5", "1.5)", "(1.5))", "((1.5))", "(1.5)(2.5)", "(0.1)(0.2)(0.3)", "(1e1)(1e-1)", "(1f)", "(1e5.)",
                "(1.e)", "(1 5)", "(1)e5", "(\t)"]
    yield from ("(" + chance.literal(dice) + ")" for _ in range(150))


def unreduced():
    """Fractions that ticket K2 divides by their greatest common divisor, and some of large terms that have none."""
    yield from (f"x{num}/{den}o" for num in range(4, 13) for den in range(2, num) if math.gcd(num, den) > 1)
    for num, den in [(3, 1), (3, 2), (4, 1), (4, 3), (5, 1), (5, 2), (5, 3), (5, 4), (7, 2), (12, 5),
                     (65535, 65534), (65537, 2)]:
        times = chance.LARGEST // num                                       # the largest that 32 bits allow
        yield from [f"x{num * times}/{den * times}o", f"x{num * times - 1}/{den * times}o"]
    # Every power of two as the divisor, and every divisor of 2^32 - 1 = 3 × 5 × 17 × 257 × 65537.
    yield from (f"o{2 ** 32 - 2 ** k}/{2 ** k}x" for k in range(1, 31))
    yield from ["x3221225472/2147483648o", "x3758096384/1610612736o", "x2147483650/2147483648o"]
    for count in range(1, 5):
        for primes in itertools.combinations([3, 5, 17, 257, 65537], count):
            yield f"x{chance.LARGEST}/{math.prod(primes)}o"
    # Primes, and products of two.
    yield from ["x4294967291/4294967279o", "x4294967291/2147483647o", "x4294967279/2147483629o", "x4294967291/65521o",
                "x4294967279/2o", "x4292870399/65521o", "x4292870399/65519o", "x4292870399/4291428937o",
                "x4294967290/4294967285o", "x4294967258/2147483587o"]
    # Neighbouring Fibonacci numbers take Euclid's algorithm the most steps.
    a, b = 2, 3
    while b <= chance.LARGEST:
        times = chance.LARGEST // b
        yield f"x{b * times}/{a * times}o"
        a, b = b, a + b


def unreduced_beside():
    """Such fractions beside other parts, zeros, spaces, references, loops and twos; repeated; refused, as typed."""
    return ["x5/3221225472/1073741824o", "x0/6/2o", "x4294967295/6/2o", "x6/2/1o", "x6/3/2o", "x12/6/4o", "x4294967296/6/2o",
            "x6/2/o", "x006/002o", "x06/2o", "x6/02o", "x000000000012/00000000004o", "x6/2 o", "x 6/2 o", "x6/2\to",
            "x6/2(1.5)", "s6/2s", "x8/2o6/2o", "x10/4o10/2o", "x6/2o10/4o9/3o *b12/9o", "x6/2o8/2o10/2*a", "*c6/2*a xoo",
            "x6/2*-a o", "x6/2*a", "o6/4*a", "x6/2*a6/4*a", "x3*a6/2*a", "x3o6/2*a", "x6/2o3*a", "x6/2o12/4*-b", "x6/4o3/2*a",
            "x6/2o4/2*a", "x4/2o6/2*a", "x4294967294/2147483647*z", "x2147483648/1073741824*z", "x4294967292/2147483646*z",
            "x6/2*z", "x4/2*z6/2*z", "x3221225472/1073741824*-z", "x4294967294/2147483647*a6/2*a",
            "x4/6o", "x6/6o", "x6/0o", "x0/6o", "x2/2o", "x2/4o", "x3/6/9o", "x6/4/6o", "x004/06 o", "x3o4/6o", "x6/2o4/6o",
            "x4/6*z", "x4/6", "x2147483648/3221225472o", "x1431655765/4294967295o", "x4294967295/4294967295o",
            "x2147483648/2147483648o", "x4294967294/0o"]


def swept():
    """Every byte of ASCII where a byte of each kind is due."""
    for byte in map(chr, range(128)):
        if byte != "\n":
            yield from [byte, f"x3{byte}o", f"x1{byte}", f"x{byte}o", f"*{byte}", f"*-{byte}", f"({byte})", f"(1{byte})"]


def beyond_ascii():
    almost = b"x3" + b" " * 252
    texts = [b"\x7f", b"\x80", b"\xff", b"x\x7f", b"x\x80", b"x3\x80", b"x3o\xff", b"z\x80", b"(\x80", b"(1\x80)", b"*\x80",
             b" \xc2\xa0x", b"x\xc2\x85", b"x\x00o", b"x3\x00", b"\xc3", b"o" * 12 + b"\x80", b"(1e99)\x80",
             almost + b"\x7f", almost + b"\x80", almost + b"o\x80", b"\x80" + almost + b"o"]
    return texts + [text.encode() for text in ["x∞o", "β3o3o", "(½)"]]


if __name__ == "__main__":
    main(*sys.argv[1:])
