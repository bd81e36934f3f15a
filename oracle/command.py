"""The editor's command beside the library.

`command.py [TEXTS [SEED]]`   with as many texts by chance, 100,000 if none are told

The texts are those of crates/replay_reading and texts by chance, of which one in ten spells one of a thousand figures; all are read with
ticket K6's wish. `lexicon record` must write on each what target/filed writes, which calls the library for C. On the replayed texts it must tell the refusal
that is stored there, or lay out the diagram that is stored there by the numbering that it tells. `lexicon check` must tell each refusal, and each group of
lines to which target/filed gives one record, with the nodes that stand at the same places.

Exit status: 0 nothing differs, 1 something does.
"""

import collections
import json
import pathlib
import struct
import subprocess
import sys

import chance
import figures
import filing
import stored

TOP = pathlib.Path(__file__).parent.parent
STORED = TOP / "crates/replay_reading"
COMMAND, FILED = TOP / "target/cli/release/lexicon", TOP / "target/filed"


def main(count="100000", seed="1"):
    tally = collections.Counter(differ=0)
    replayed = (STORED / "stdin").read_bytes().split(b"\n")[:-1]
    texts = replayed + by_chance(int(count), int(seed))
    lines = stored.ended(texts)
    answers = told(lines, FILED)
    check_records(texts, answers, told(lines, COMMAND, "record", "--infinite"), tally)
    diagrams = (STORED / "stdout").read_text().splitlines()
    for text, diagram, answer in zip(replayed, diagrams, answers):
        count_fault(laid_out(diagram, answer) != answer, text, diagram, answer, tally)
    # A CR at the end of a line is a space to `lexicon record`, and part of the line's end to `lexicon check`.
    pairs = [(text, answer) for text, answer in zip(texts, answers) if not text.endswith(b"\r")]
    findings = told(stored.ended(text for text, _ in pairs), COMMAND, "check", "--infinite", "--format", "json", "-")
    check_findings([answer for _, answer in pairs], findings, tally)
    tally["texts"], tally["findings"] = len(texts), len(findings)
    stored.close(tally)


def by_chance(count, seed):
    """Texts without LF, which ends a line."""
    dice, texts = chance.Dice(seed), []
    known = [figures.by_chance(dice, 1, 7) for _ in range(1000)]
    while len(texts) < count:
        text = chance.any_text(dice) if dice.below(10) else figures.respelled(dice, dice.pick(known))
        if text is not None and b"\n" not in text:
            texts.append(text)
    return texts


def told(lines, *command):
    return subprocess.run(command, input=lines, stdout=subprocess.PIPE).stdout.decode().split("\n")[:-1]


def check_records(texts, answers, records, tally):
    tally["differ"] += len(answers) != len(texts) or len(records) != len(texts)
    for text, answer, record in zip(texts, answers, records):
        tally[answer.split(" ")[0]] += 1
        count_fault(answer != record, text, answer, record, tally)


def count_fault(fault, *what_and_tally):
    *what, tally = what_and_tally
    tally["differ"] += fault
    if fault and tally["differ"] < 20:
        print(*what, sep="\n    ")


def laid_out(diagram, answer):
    """What the answer should be by a stored line: a refusal as it stands, or the diagram laid out by the numbering of the answer."""
    words = diagram.split(" ")
    if words[0] == "no":
        return diagram
    count = int(words[1])
    nodes = [(word[0], struct.unpack(">d", bytes.fromhex(word[1:]))[0] if word[1:] else None) for word in words[4:4 + count]]
    numbering = [int(digit) for digit in answer.split(" ")[2]]
    if sorted(numbering) != list(range(count)):
        return "no numbering"
    layout = filing.laid_out(nodes, [edge(word) for word in words[4 + count:]], numbering)
    return f"ok {layout.hex()} {answer.split(' ')[2]}"


def edge(word):
    ends, fraction = word.split(":")
    num, _, den = fraction.partition("/")
    return (*map(int, ends.split("-")), (int(num), int(den or 1)))


def check_findings(answers, findings, tally):
    """Compares all that `lexicon check` tells with what is due by the answers."""
    due, groups = [], collections.defaultdict(list)
    for line, answer in enumerate(answers, 1):
        verdict, *rest = answer.split(" ")
        if verdict == "no":
            due.append(("refused", line, *map(int, rest)))
        else:
            groups[rest[0]].append((line, rest[1]))
    repeated = [group for group in groups.values() if len(group) > 1]
    due += [("one figure", *corresponding(group)) for group in repeated]
    refused = sum(answer.startswith("no") for answer in answers)
    due.append(("totals", len(answers), len(answers) - refused, refused, len(groups), len(repeated)))
    tally["differ"] += len(due) != len(findings)
    for expected, finding in zip(due, map(json.loads, findings)):
        count_fault(shape(finding) != expected, expected, finding, tally)


def corresponding(group):
    """Of each line of a group the nodes that stand at the places of the first one's."""
    place = {int(node): i for i, node in enumerate(group[0][1])}
    return [(line, [int(numbering[place[node]]) for node in sorted(place)]) for line, numbering in group]


def shape(finding):
    if finding["finding"] == "refused":
        fields = finding["fields"]
        column = 1 if finding["refusal"] in (8, 11) else fields[-1] + 1
        return "refused", finding["line"] if finding["column"] == column else "column", finding["refusal"], *fields
    if finding["finding"] == "totals":
        return "totals", *(finding[what] for what in ("lines", "accepted", "refused", "figures", "repeated"))
    return "one figure", *((headword["line"], headword["nodes"]) for headword in finding["headwords"])


main(*sys.argv[1:])
