"""Compares the Rust with the model of document 01, and both with the answers that crates/replay_reading holds, all of them with ticket K6's
wish: "so must any comparison with the Rust that contains such a text".

`answers.py`                  the stored texts are the corpus, and the stored answers the Rust's, or the model's where the Rust has none
`answers.py write`            stores them
`answers.py stress N [SEED]`  all texts of up to four bytes of a small alphabet, then N texts by chance

Exit status: 0 nothing differs, 1 something does.
"""

import collections
import pathlib
import subprocess
import sys

import chance
import corpus
import model
import stored

TOP = pathlib.Path(__file__).parent.parent
READING = TOP / "target/rust/release/reading"
STORED = TOP / "crates/replay_reading"


def main(mode="check", *numbers):
    texts = list(stress(*map(int, numbers)) if mode == "stress" else corpus.corpus())
    answers, tally = compare(texts)
    if mode != "stress":
        stored.settle(STORED, mode, texts, answers, tally)
    stored.close(tally)


def stress(count, seed=1):
    yield from (text.encode() for text in corpus.words(corpus.SHORT, 4))
    dice = chance.Dice(seed)
    yield from (chance.any_text(dice) for _ in range(count))


def compare(texts):
    """The answers, and how many there are of each sort."""
    rusts = of_the_rust(texts)
    answers, tally = [], collections.Counter({"texts": len(texts), "different texts": len(set(texts)), "differ": 0})
    for text, rust in zip(texts, rusts):
        ours = model.answer(text, wish=True)
        by_rust = rust != "?"
        if ours != rust if by_rust else not may_be_silent(text, ours):
            tally["differ"] += 1
            print(f"{text!r}\n    Rust  {rust}\n    model {ours}")
        tally["of the Rust" if by_rust else "of the model"] += 1
        tally[f"of the {'Rust' if by_rust else 'model'}: {sort(ours)}"] += 1
        answers.append(rust if by_rust else ours)
    return answers, tally


def of_the_rust(texts):
    out = subprocess.run([READING], input=stored.ended(texts), stdout=subprocess.PIPE, check=True).stdout.decode().splitlines()
    assert len(out) == len(texts)
    return out


def sort(answer):
    """`ok`, or `no` and the number."""
    return " ".join(answer.split()[:2 if answer.startswith("no") else 1])


def may_be_silent(text, answer):
    """The Rust has no refusals 1, 2, 9, 10 and 11, and panics on an opening parenthesis or spaces at the end."""
    panics = {"no 3": text.endswith(b"("), "no 4": text != text.rstrip(model.SPACES)}
    return panics.get(sort(answer), sort(answer) in ("no 1", "no 2", "no 9", "no 10", "no 11"))


if __name__ == "__main__":
    main(*sys.argv[1:])
