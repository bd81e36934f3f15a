"""Ticket K6's wish for infinite lengths: what the program `replay_wishes` answers to each text, without the wish and with it.

`wishes.py`                  the Rust and the model say the same; crates/replay_wishes holds the texts listed here, and as its answers the model's
`wishes.py write`            stores them
`wishes.py stress N [SEED]`  the texts of `answers.py stress`, read both ways

    TEXT    ANSWER | ANSWER    without the wish and with it, as `cdlist` writes them: `ok NODES EDGES MINIMAL`, or `no`, number, fields

The Rust has no wish. Without it the Rust is asked about the text with `nan` for the first infinite word, "where nan gives 6".

Exit status: 0 nothing differs, 1 something does.
"""

import collections
import itertools
import pathlib
import re
import sys

import answers
import corpus
import model
import stored

STORED = pathlib.Path(__file__).parent.parent / "crates/replay_wishes"
MOST = 65536
SIGNS = ["", "+", "-"]
FORMS = ["inf", "INF", "-inf", "Infinity", "+iNfInItY", "-INFINITY"]
LITERAL = re.compile(rb"\([+-]?(?P<word>[^)]*)\)")

# By hand. A character is a byte.
KNOWN = {
    "(inf)": "no 23 3 | ok 1 0 1", "(-Infinity)": "no 23 9 | ok 1 0 1", "(+INF)": "no 23 4 | ok 1 0 1", "x(inf)": "no 23 4 | ok 2 0 1",
    "x3(inf)": "no 23 5 | ok 2 1 1", "s(inf)": "no 23 4 | ok 2 0 0", "o3(inf)3o3*a": "no 23 5 | ok 3 3 1",
    # A tenth node counts only if it is read without fault.
    "oooooooo(inf)": "no 23 11 | ok 9 0 0", "ooooooooo(inf)": "no 23 12 | no 10 9", "oooooooooo(inf)": "no 10 9 | no 10 9",
    "(inf)ooooooooo": "no 23 3 | no 10 13",
    # Faults before it.
    "_(inf)": "no 6 0 | no 6 0", "*(inf)": "no 6 1 | no 6 1", "x1(inf)": "no 7 1 1 1 | no 7 1 1 1", "x3/(inf)": "no 5 2 | no 5 2",
    "()(inf)": "no 5 1 | no 5 1", "(nan)(inf)": "no 6 3 | no 6 3", "(1e99)(inf)": "no 9 4 | no 9 4",
    # What the queue refuses, after all is read.
    "x3*c(inf)": "no 23 7 | no 11 0", "x3o3*a(inf)": "no 23 9 | no 8 1 0", "(inf)3*c": "no 23 3 | no 11 0",
    "(inf)3o3*a": "no 23 3 | no 8 1 0",
    # Faults behind it.
    "(inf)(": "no 23 3 | no 3 6", "(inf)_": "no 23 3 | no 6 5", "(inf)3": "no 23 3 | no 4 6", "(inf) ": "no 23 3 | no 4 6",
    "(inf)x1o": "no 23 3 | no 7 1 1 6", "(inf)(nan)": "no 23 3 | no 6 8", "(inf)(1e99)": "no 23 3 | no 9 9",
    # 1 and 2 come first.
    "(inf)" + " " * 249 + "x": "no 23 3 | ok 2 0 1", "(inf)" + " " * 250 + "x": "no 1 255 | no 1 255",
    "(inf)\x80": "no 2 5 | no 2 5", "(inf\x80)": "no 2 4 | no 2 4",
    # The first of several.
    "(Infinity)(inf)": "no 23 8 | ok 2 0 1", "(inf)3(-Infinity)": "no 23 3 | ok 2 1 1",
    # No infinite literal.
    "(nan)": "no 6 3 | no 6 3", "(-NaN)": "no 6 4 | no 6 4", "(in)": "no 5 2 | no 5 2", "(infinit)": "no 5 7 | no 5 7",
    "(infinityy)": "no 5 9 | no 5 9", "((inf)": "no 5 4 | no 5 4", "(+ inf)": "no 5 5 | no 5 5", "(inf": "no 3 4 | no 3 4",
    "inf": "no 6 0 | no 6 0", "(1e999)": "no 9 5 | no 9 5", "(999999999999999e22)": "ok 1 0 1 | ok 1 0 1",
    "(999999999999999e23)": "no 9 18 | no 9 18", "x4o3o": "ok 3 2 1 | ok 3 2 1", "": "no 4 0 | no 4 0",
}


def all_texts():
    words = [*alone("inf"), *alone("infinity"), *alone("nan")]
    listed = [*KNOWN, *words, *placed(), *before(), *behind(), *several(), *near(), *decimals(), *ordinary()]
    texts = [text.encode("latin-1") for text in dict.fromkeys(listed)]
    assert not any(b"\n" in text for text in texts) and len(stored.ended(texts)) <= MOST
    return texts


def alone(word):
    """Every mixture of case and every sign."""
    for letters in itertools.product(*zip(word.lower(), word.upper())):
        yield from (f"({sign}{''.join(letters)})" for sign in SIGNS)


def placed():
    """From the first node to the eleventh: apart, in a chain, with references and lengths between, and with more behind."""
    for count in range(11):
        for form in FORMS:
            yield from ["o" * count + f"({form})", "x3" * count + f"({form})", f"({form})" + "3o" * count]
        for node in ["(1)", "s *a ", "x3*a ", "o2", "(-inf)", "*a3"]:
            yield from [node * count + "(inf)", node * count + "(-Infinity)3*-a", node * count + "(infinit)", node * count + "(NaN)"]


def before():
    """Faults before it, and edges that are none while reading."""
    faults = ["_", "z", "*", "*-", "*_", "()", "(x)", "(nan)", "(-NAN)", "(1e99)", "(0e23)", "(9999999999999999)", "(1", "(", ")", "\x80", "\xff",
              "x1", "x0", "x2/3", "x3/", "x3//2", "x4294967296", "x3_", "x3\t", "x3*", "x3*-", "x3*A", "x6/6", "o" * 9 + "1", "o" * 9 + "3/"]
    queued = ["x3*c", "x3*-c", "*z3*y", "x3o3*a", "x3*a3*a", "x3o3*a3*b", "x6/2o3*a", "*c3x", "x2*c", "x4/2*z", "x3*z3*a", "o" * 9 + "3*z"]
    for start in [*faults, *queued]:
        yield from (start + middle + f"({form})" for middle in ["", "3", " "] for form in ["inf", "-Infinity"])


def behind():
    faults = ["_", "(", "(1", "()", "(nan)", "(infinit)", "(1e99)", " ", "\t", "3", "3/", "3/o", "x1o", "1o", "0", "4294967296o", "*", "*-", "*_",
              "3*c", "3*-c", "2*c", "3*z3*y", "3o3*a", "3*a3*a", "6/2o3*a", "o" * 8, "o" * 9, "o" * 9 + "_", "3o" * 9, "\x80", "\xff",
              " " * 247 + "x", " " * 248 + "o", " " * 260 + "o"]
    for end in faults:
        yield from (f"({form}){end}" for form in ["inf", "+INFINITY"])


def several():
    yield from ["(inf)" * count for count in range(2, 12)]
    yield from ["(-Infinity)3" * count + "x" for count in range(1, 11)]
    yield from ["x(inf)o(inf)", "(nan)(inf)(nan)", "(inf)(nan)(inf)", "(infinit)(inf)", "(inf)(infinit)", "((inf)(inf)", "(inf)((inf)",
                "(1e99)(inf)(1e99)", "(1)(2)(Inf)(3)(Infinity)", "(inf)3(inf)3(inf)3*a", "(inf)3(inf)3*a", "(inf)3*c(inf)", "(-inf)2(+inf)"]


def near():
    """Words that are nearly one of the two, alone and as a tenth node; and words outside parentheses."""
    words = ["i", "in", "infi", "infin", "infini", "infinit", "infinityy", "inff", "infinf", "iinf", "nf", "fni", "nanf", "infnan", "na", "nann",
             "(inf", "(infinity", "inf(", "infinity ", "inf ", " inf", "\tinf", "in f", "inf inity", "+ inf", "- infinity", "++inf", "+-inf", "--inf",
             "inf+", "inf-", "1inf", "inf1", "0inf", "inf0", "infe5", "inf.", ".inf", "1e", "einf", "1einf", "#inf", "1.#INF", "infinite", "infty",
             "oo", "\xe2\x88\x9e", "\xc4\xb1nf", "in\x80", "inf\x00", "1nf", "lnf", "INFINlTY", "+", "-", "inf/1", "*inf"]
    for word in words:
        yield from [f"({word})", "o" * 9 + f"({word})"]
    yield from ["inf)", "infinity", "xinf", "x3inf", "(inf))", "(inf)inf", "x3 inf", "*inf", "*-inf", "x3*-inf", "x3/inf", "(inf]", "[inf)", "{inf}"]


def decimals():
    """The largest in range and those over it, which are 9 and never 23, though the Rust reads some of them as infinite."""
    for sign in SIGNS:
        for number in ["999999999999999e22", "999999999999999e23", "9999999999999999", "9999999999999999e22", "1e22", "1e23", "1e99", "1e308",
                       "1.7976931348623157e308", "1e309", "1e999", "9e999", "1e9999", "1e-999", "0e999", "999999999999999.0e22"]:
            yield from [f"({sign}{number})", f"x3({sign}{number})3(inf)"]


def ordinary():
    """Texts to which the wish makes no difference."""
    return [*corpus.document_01(), *corpus.snubs(), *corpus.references(), *corpus.spaces(), *corpus.letters()]


def asked(text):
    """The text with `nan` for its first infinite word, and the 23 that its 6 there stands for. 1 is of the text as typed."""
    for literal in LITERAL.finditer(text):
        if literal["word"].lower() in (b"inf", b"infinity") and len(text) <= model.MOST_BYTES:
            start, end = literal.span("word")
            return text[:start] + b"nan" + text[end:], {f"no 6 {start + 2}": f"no 23 {end - 1}"}
    return text, {}


def compare(texts, wish, tally):
    """The model's answers, compared with the Rust's where it has one."""
    questions = [(text, {}) if wish else asked(text) for text in texts]
    rusts = answers.of_the_rust([question for question, _ in questions])
    for text, (_, means), rust in zip(texts, questions, rusts):
        ours, due = model.answer(text, wish), means.get(rust, rust)
        if ours != due if due != "?" else not answers.may_be_silent(text, ours):
            tally["differ"] += 1
            print(f"{text!r}, wish {wish}\n    Rust  {due}\n    model {ours}")
        way = "with the wish" if wish else "without the wish"
        tally[f"{way}, of the {'model' if due == '?' else 'Rust'}"] += 1
        tally[f"{way}: {answers.sort(ours)}"] += 1
        yield listed(ours)


def listed(answer):
    """What `cdlist` writes of it: nodes and edges themselves are left out."""
    return " ".join(answer.split()[:4]) if answer.startswith("ok") else answer


def main(mode="check", *numbers):
    texts = list(answers.stress(*map(int, numbers)) if mode == "stress" else all_texts())
    tally = collections.Counter({"texts": len(texts), "differ": 0})
    lines = [f"{without} | {wished}" for without, wished in zip(compare(texts, False, tally), compare(texts, True, tally))]
    for text, line in zip(texts, lines):
        if line != KNOWN.get(text.decode("latin-1"), line):
            tally["differ"] += 1
            print(f"{text!r}\n    by hand {KNOWN[text.decode('latin-1')]}\n    model   {line}")
    if mode != "stress":
        stored.settle(STORED, mode, texts, lines, tally)
    stored.close(tally)


if __name__ == "__main__":
    main(*sys.argv[1:])
