#!/usr/bin/env python3
"""Spells the repository's own definitions, fields and lemmas in snake case, as today's Rattle does: `rootOf` becomes `root_of`, `skip-at-space` `skip_at_space`.

usage: tools/spell_names.py [FOLDER]      once, after /opt/rattle/port/port.py; FOLDER is a checkout, this one by default

What turns: names that the files of specs/ and proofs/ declare (answers of one function's proof aside), wherever these files and the clauses of src/ have them,
in the pages between backquotes, and in comments there or where they are spelled in camel case. Rust's own names and the labels that Rattle makes stay.
A lemma that would fall together with a definition gets `_lem` after its name.
"""
import collections
import os
import re
import sys

NAME = r'[^\s(){}.;,@"«»`]+'
DECLARED = re.compile(r"^(\s*)((?:unfoldable |abbrev |pub |data |record )*)(%s)(?: \{[^{}]*\}| \([^()]*\))* :(?: |$)" % NAME)
CLAUSE = re.compile(r"(?:requires|ensures)\s*\*?\s*(?:\w+\s*)?\{|ghost use\b")
# Rattle's own labels, which a field of ours may be called too
STEPS = {"loop-test"}


def files(top):
    for folder, dirs, names in os.walk(os.path.join(top, "crates")):
        dirs[:] = sorted(d for d in dirs if d not in ("out", "must-fail"))
        for name in sorted(names):
            if name.endswith((".rt", ".antt")):
                yield os.path.join(folder, name)


def pages(top):
    yield os.path.join(top, "README.md")
    for folder, dirs, names in os.walk(os.path.join(top, "docs")):
        yield from (os.path.join(folder, n) for n in sorted(names) if n.endswith(".md"))


def read(path):
    with open(path, encoding="utf-8") as f:
        return f.read()


def is_camel(name):
    return re.match(r"[a-z][\w']*[a-z0-9][A-Z]", name) is not None


def is_dashed(name):
    return re.search(r"[\w'≼≺]-\w", name) is not None


def snake(name):
    if is_camel(name):
        name = re.sub(r"(?<=[a-z0-9])([A-Z])", lambda m: "_" + m[1].lower(), name.replace("getD", "get_or"))
    return re.sub(r"(?<=[\w'≼≺])-(?=\w)", "_", name)


def table(top):
    """Old names to new ones, and which of them are labels: they stand behind a dot."""
    where, functions = collections.defaultdict(set), set()
    for path in files(top):
        text = read(path)
        if path.endswith(".rt"):
            functions |= set(re.findall(r"\bfn (\w+)", text))
            continue
        if path.endswith("/Proof.antt"):
            continue
        for line in text.split("\n"):
            m = DECLARED.match(line)
            if m and not line.lstrip().startswith("--"):
                where[m[3]].add(("label" if m[1] else "item", "specs" if "/specs/" in path else "proofs"))
    said = collections.defaultdict(set)
    for name in where:
        said[snake(name) if is_camel(name) or is_dashed(name) else name].add(name)
    turned, labels = {}, set()
    for new, olds in said.items():
        for old in olds:
            if not (is_camel(old) or is_dashed(old)):
                continue
            turned[old] = new + "_lem" if len(olds) > 1 and is_dashed(old) else new
            if any(k == "label" for k, _ in where[old]) and new not in functions and old not in STEPS:
                labels.add(old)
        if len(olds) > 1:
            print("fall together:", ", ".join(f"{o} -> {turned.get(o, o)}" for o in sorted(olds)))
    return turned, labels, {turned.get(n, n) for n in where}


def turned_here(text, turned):
    """With the names that this file gives what it takes, and without those that it takes from a library."""
    theirs = set()
    for m in re.finditer(r"\buse ([^\s;{]+)\.\{([^}]*)\}", text):
        if not m[1].startswith("Rattle.") or m[1].split(".")[1] in ("std", "core"):
            theirs |= set(re.findall(NAME, m[2]))
    given = re.findall(r" as (%s)" % NAME, " ".join(m[0] for m in re.finditer(r"\buse [^;{\n]*(?:\{[^}]*\})?", text)))
    own = {a: snake(a) for a in given if (is_camel(a) or is_dashed(a)) and snake(a) not in re.findall(NAME, text)}
    return {a: b for a, b in turned.items() if a not in theirs} | own


def turn(text, turned, labels):
    def one(m):
        dotted = text[m.start() - 1 : m.start()] == "."
        if m[0] not in turned or dotted and is_dashed(m[0]) and m[0] not in labels:
            return m[0]
        return turned[m[0]]

    return re.sub(NAME, one, text)


def comment(text, turned):
    text = re.sub(r"`[^`\n]*`", lambda m: "`" + turn(m[0][1:-1], turned, set(turned)) + "`", text)
    return re.sub(r"(?<![\w.])[a-z]\w*[A-Z]\w*", lambda m: turned.get(m[0], m[0]), text)


def antt(text, turned, labels):
    out = []
    for line in text.split("\n"):
        m = re.search(r"(?:^|(?<=\s))--(?:\s|$)", line)
        at = m.start() if m else len(line)
        out.append(turn(line[:at], turned, labels) + comment(line[at:], turned))
    return "\n".join(out)


def close(text, at):
    depth = 1
    while depth:
        depth += {"{": 1, "}": -1}.get(text[at], 0)
        at += 1
    return at


def rt(text, turned, labels):
    out, at = [], 0
    while True:
        m = re.compile(r"//[^\n]*|" + CLAUSE.pattern).search(text, at)
        if not m:
            return "".join(out) + text[at:]
        out.append(text[at : m.start()])
        if m[0].startswith("//"):
            out.append(comment(m[0], turned))
            at = m.end()
            continue
        at = text.index(";", m.end()) if m[0].startswith("ghost") else close(text, m.end())
        out.append(turn(text[m.start() : at], turned, labels))


def main():
    top = sys.argv[1] if len(sys.argv) > 1 else os.path.join(os.path.dirname(os.path.abspath(__file__)), "..")
    turned, labels, declared = table(top)
    for path in files(top):
        text = read(path)
        new = (rt if path.endswith(".rt") else antt)(text, turned_here(text, turned), labels)
        if new != text:
            with open(path, "w", encoding="utf-8") as f:
                f.write(new)
    for path in pages(top):
        text = read(path)
        # some names were turned by port.py
        words = {w for span in re.findall(r"`[^`\n]*`", text) for w in re.findall(NAME, span)}
        here = turned | {w: snake(w) for w in words - declared if (is_camel(w) or is_dashed(w)) and snake(w) in declared}
        new = re.sub(r"`[^`\n]*`", lambda m: "`" + turn(m[0][1:-1], here, set(here)) + "`", text)
        if new != text:
            with open(path, "w", encoding="utf-8") as f:
                f.write(new)
    print(len(turned), "names turned")


main()
