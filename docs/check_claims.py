#!/usr/bin/env python3
"""Tests docs/CLAIMS.md, docs/DECISIONS.md and the comments of specs/ against the crates. Prints counts, or each fault on a line.

What promises lean on. PUBLIC and PROGRAMS name the promises: of a library the contract (`requires`, `ensures`, the types of the signature) of each
`pub fn`; of a program the contracts of the functions that its `main` calls; of a theorem its statement. Their names are followed through the `use`
lines to definitions of crates/*/specs and to types of crates/*/src (`declared.NAME`, then the types of its fields), and so on. Proofs and the kit end
the walk. Constants in the types of arrays are not followed: in the logic an array is a list. A bound name that its file also imports counts as a use.
A line of specs/ that this script can't read is a fault. A file is leaned on when one of its definitions is.

Reading lists. In CLAIMS.md a reading list is the numbered items between a line that ends in "in reading order" and the next heading. Items name files
as `crate/specs/File.antt, Other.antt` and types as "crate/src/lib.rt: `A`, `B`". Together the lists name what the public promises lean on, no more and
no less; a list whose title begins with "Programs" names what the programs lean on besides. Between a line that begins with "The other files of
specs/" and the next heading stand all other files of specs/.

Citations, in CLAIMS.md and DECISIONS.md. A path exists, below crates/ or the top; a bare `Other.antt` is in the folder of the path before it. Names in
backticks right after "path: " are declared there, after "crate: " in that crate. A column "must-fail edits" holds, between semicolons,
"crate, crate: `label`, `label_*`" or "crate: all", or words without backticks; parentheses hold remarks. Any other word that stands alone in backticks
occurs in the sources or in their paths.

Edits. The text that a must-fail edit replaces stands once in its file, or in what its earlier replacements made of it.

Quotations. What stands between `"` in a comment of specs/ are words of one paragraph of document 01, or of document 02 if the comment or the file's
first comment names that document or a ticket. `..` stands for words left out. Emphasis and line breaks do not count.

Lines to believe are those of the definitions and types leaned on, without comments, blank lines, `use`, `unfolding` and `module`.

Exit status: 0 no fault, 1 faults.
"""

import re
import sys
from collections import Counter, namedtuple
from functools import lru_cache
from pathlib import Path

PUBLIC = ("lexicon", "geometry", "lexicon_names", "lexicon_c", "group_names/proofs/OneName.antt: one_name",
          "lexicon/proofs/Demand3.antt: demand_3", "lexicon/proofs/Demand3.antt: nodes_correspond",
          "lexicon/proofs/OneAnswer.antt: one_answer", "lexicon/proofs/OneAnswer.antt: one_filing", "lexicon/proofs/Wishes.antt: read_alike",
          "lexicon/proofs/Wishes.antt: accepted_unwished", "lexicon_c/proofs/Demand3.antt: demand_3",
          "lexicon_c/proofs/Demand3.antt: nodes_correspond", "lexicon_c/proofs/Demand3.antt: one_answer", "lexicon_c/proofs/Demand3.antt: one_filing",
          "lexicon_articles/proofs/EqualRecords.antt: equal_articles", "lexicon_articles/proofs/EqualRecords.antt: same_edges",
          "lexicon_c/proofs/Articles.antt: equal_articles")
PROGRAMS = ("cdlist", "cdlist/proofs/Whole.antt: blocks_list")

TOP = Path(__file__).resolve().parent.parent
CRATES = TOP / "crates"
SHARED = TOP.parent / "shared" / "docs"
DOCUMENT_01 = "01-scope.md"
DOCUMENT_02 = "02-change-requests.md"
KIT = ("std", "core", "io", "arrayvec", "Prim", "lib", "mathlib", "native", "borrow", "mir")
SOURCES = ("crates", "bindings", "cli", "include", "oracle", "bench")

# A definition of a spec file or a type of a source file, the path below crates/; a heading, paragraph, item of a list or cell of a table.
Node = namedtuple("Node", "path name")
Block = namedtuple("Block", "line text column")

faults = {}
counts = Counter()


def fault(where, what):
    faults[f"{where}: {what}"] = None


@lru_cache(None)
def read(file):
    return file.read_text("utf-8")


def files_of(folder):
    """The files below a folder, but for what `rt` makes of crates."""
    made = {CRATES / crate.name / "out" for crate in CRATES.iterdir()}
    return [file for file in folder.rglob("*") if file.is_file() and not made & set(file.parents)]


def text_of(path):
    """The text of a file below crates/."""
    if not (CRATES / path).is_file():
        fault(f"crates/{path}", "does not exist")
        return ""
    return read(CRATES / path)


# ---- spec files

DEFINITION = re.compile(r"(?:(?:unfoldable|abbrev|pub) )*(?:(?:record|data) (\S+)|(\S+)(?: \{[^}]*\})* :(?: |$))")
FIELD = re.compile(r"^  (?:pub )?(\S+) :")
COMMENT = re.compile(r"(?:^|\s)--(?=\s|$)(.*)")


def parts(name):
    """How a name can stand in a definition: an operator also without its places."""
    return [name] + [p for p in name.split("◌") if p] if "◌" in name else [name]


@lru_cache(None)
def definitions(path):
    """Of each definition of a spec file its lines."""
    found, name, indent = {}, "", ""
    for number, line in enumerate(text_of(path).splitlines(), 1):
        code = COMMENT.sub("", line)
        indent = indent if code.startswith(indent) or not code.strip() else ""
        code = code[len(indent):]
        if not code.strip() or re.match(r"(use|infix[lr]?|unfolding) ", code):
            continue
        if re.match(r"module _ .* where$", code):
            indent = "  "
            continue
        start = DEFINITION.match(code)
        if start:
            name = start[1] or start[2]
            found[name] = []
        elif not name or not (code[0] == " " or set(parts(name)) & set(code.split())):
            fault(f"crates/{path}:{number}", "a line of no definition that the script can read")
            continue
        found[name].append(code)
    return found


@lru_cache(None)
def declared(path):
    """Of each name that a spec file declares its definition; a constructor's is the data type."""
    names = {}
    for name, lines in definitions(path).items():
        inner = [FIELD.match(line) for line in lines[1:]] if re.match(r"(?:pub )?data ", lines[0]) else []
        for own in [name] + [field[1] for field in inner if field]:
            names.update((part, Node(path, name)) for part in parts(own))
    return names


def module(name, where):
    """The spec file (a Node without a name) or the type that a module is of; None for proofs and the kit."""
    match = re.fullmatch(r"Rattle\.(\w+)\.(specs|proofs)\.(.+)", name)
    if not match or not (CRATES / match[1]).is_dir():
        if name.removeprefix("Rattle.").split(".")[0] not in KIT:
            fault(where, f"the script knows no module {name}")
        return None
    crate, kind, inner = match.groups()
    if kind == "proofs":
        return None
    inner = [part for part in inner.split(".") if part != "TheVariants"]
    if inner[0] != "declared":
        return Node(f"{crate}/specs/{'/'.join(inner)}.antt", "")
    return Node(source(crate, inner[1:-1]), inner[-1])


def member(target, name, where):
    """What a name of a module means."""
    if not target or target.name:
        return target
    if name not in declared(target.path):
        fault(where, f"{target.path} declares no {name}")
    return declared(target.path).get(name)


@lru_cache(None)
def scope(path):
    """What names, and short names of modules, mean in a spec or proof file, or in the contracts of a source file."""
    names, modules = {}, {}
    for number, line in enumerate(text_of(path).splitlines(), 1):
        if not re.match(r"(pub )?use " if path.endswith(".antt") else "ghost use ", line):
            continue
        where = f"crates/{path}:{number}"
        match = re.fullmatch(r"(?:pub |ghost )?use ([^\s{]+?)(?:\.\{([^}]+)\}| as (\S+?));?", line)
        if not match:
            fault(where, "a use line that the script can't read")
            continue
        target = module(match[1], where)
        if match[3]:
            modules[match[3]] = target
        for used in re.split(r",\s*", match[2]) if match[2] else []:
            name, _, other = used.partition(" as ")
            meant = member(target, name, where)
            names.update((part, meant) for part in parts(other or name))
    if "/specs/" in path:
        names.update(declared(path))
    return names, modules


def meaning(path, word):
    """What a word of a file means, or None."""
    names, modules = scope(path)
    word = word.rstrip(".")
    head, _, rest = word.partition(".")
    if rest and head in modules:
        return member(modules[head], rest.split(".")[0], f"crates/{path}")
    return names.get(word) or names.get(head)


def words(text):
    """The words of a definition or contract, but for strings and for names of fields that are given values."""
    text = re.sub(r"([{;]\s*)[^\s{};=]+ = ", r"\1", re.sub(r'"[^"]*"', " ", text))
    return re.findall(r"[^\s(){};,⌜⌝]+", text)


# ---- source files

TYPE = re.compile(r"^(?:pub )?(?:struct|enum) (\w+)(?:[^\n]*\}$|.*?^\})", re.M | re.S)
FUNCTION = re.compile(r'^ *(pub )?(?:extern "C" )?fn (\w+)', re.M)
CLAUSE = r"(?:requires|ensures)\*? (?:\w+ )?\{"
USED = re.compile(r"^(?:pub )?use ([\w:]+?)(?:::\{([^}]*)\})?;", re.M)


def source(crate, inner=()):
    """The source file of a module of a crate."""
    main = "lib" if (CRATES / crate / "src/lib.rt").exists() else "main"
    return f"{crate}/src/{'/'.join(inner) or main}.rt"


@lru_cache(None)
def types(path):
    """Of each type of a source file its lines."""
    found = {}
    for match in TYPE.finditer(text_of(path)):
        found[match[1]] = [line for line in re.sub(r"//.*", "", match[0]).splitlines() if line.strip()]
    return found


@lru_cache(None)
def functions(path):
    """Of each function of a source file whether it is public, its signature and its contract."""
    found, text = {}, text_of(path)
    for match in FUNCTION.finditer(text):
        lines = []
        for line in text[match.end():].splitlines():
            lines.append(line)
            if line.endswith("{") and not re.search(rf"{CLAUSE}$", line):
                break
        signature, *contract = re.split(rf"\b(?={CLAUSE})", "\n".join(lines).removesuffix("{"))
        found[match[2]] = (bool(match[1]), signature, re.sub(rf"\b{CLAUSE}", " ", " ".join(contract)))
    return found


@lru_cache(None)
def uses(path):
    """Of each name that a source file takes from a module its path."""
    found = {}
    for match in USED.finditer(text_of(path)):
        module, _, own = match[1].rpartition("::") if match[2] is None else (match[1], "", match[2])
        for used in re.findall(r"(\w+)(?: as (\w+))?", own):
            found[used[1] or used[0]] = f"{module}::{used[0]}"
    return found


def item(path, word):
    """Where the type or function that a word of a source file may name would stand; None outside crates/."""
    word = uses(path).get(word, word)
    if "::" not in word:
        return Node(path, word)
    crate, *inner, name = word.split("::")
    crate = path.split("/")[0] if crate == "crate" else crate
    return Node(source(crate, inner), name) if (CRATES / crate).is_dir() else None


def types_in(path, text):
    found = {item(path, word) for word in re.findall(r"\w+(?:::\w+)*", text)} - {None}
    return {node for node in found if node.name in types(node.path)}


# ---- what promises lean on


def promise(path, function):
    """What a function's signature and contract name."""
    _, signature, contract = functions(path)[function]
    nodes = types_in(path, signature)
    for word in words(contract):
        meant = meaning(path, word)
        nodes |= {meant} if meant else types_in(path, word)
    return nodes


def library(crate):
    """What the public functions of a crate name."""
    nodes = set()
    for file in (CRATES / crate / "src").glob("*.rt"):
        path = f"{crate}/src/{file.name}"
        for name in (name for name, (public, *_) in functions(path).items() if public):
            nodes |= promise(path, name)
    return nodes


def program(crate):
    """What the functions name that a program's `main` calls."""
    nodes, path = set(), source(crate)
    body = re.search(r"^fn main\(.*?\{$(.*?)^\}", text_of(path), re.M | re.S)
    for call in re.findall(r"(?<![.\w:])(\w+(?:::\w+)*)\(", body[1] if body else ""):
        called = item(path, call)
        if called and called.name in functions(called.path):
            nodes |= promise(*called)
    return nodes


def theorem(path, name):
    """What a theorem's statement names, and the parameters of its file's modules."""
    code = "\n".join(COMMENT.sub("", line) for line in text_of(path).splitlines())
    says = re.search(rf"^ *pub {re.escape(name)} : (.*?)^ *{re.escape(name)} ", code, re.M | re.S)
    given = re.findall(r"^module (.*?) where$", code, re.M | re.S)
    return {meaning(path, word) for word in words(" ".join(given + [says[1]]))} - {None} if says else set()


def promises(names):
    nodes = set()
    for name in names:
        path, _, statement = name.partition(": ")
        found = theorem(path, statement) if statement else library(name) if source(name).endswith("lib.rt") else program(name)
        if not found:
            fault("docs/check_claims.py", f"{name} promises nothing that the script can read")
        nodes |= found
    return nodes


def lines_of(node):
    lines = (definitions if node.path.endswith(".antt") else types)(node.path).get(node.name, [])
    if not lines:
        fault(f"crates/{node.path}", f"declares no {node.name}")
    return lines


def leans(node):
    """What a definition or a type names."""
    lines = lines_of(node)
    if not node.path.endswith(".antt"):
        return types_in(node.path, "\n".join(re.sub(r"^ *(?:pub )?\w+", "", line) for line in lines[1:]))
    text = lines[0] + "\n" + "\n".join(FIELD.sub("", line) for line in lines[1:])
    return {meaning(node.path, word) for word in words(text)} - {None}


def reached(nodes):
    seen, rest = set(), list(nodes)
    while rest:
        node = rest.pop()
        if node not in seen:
            seen.add(node)
            rest += leans(node)
    return seen


# ---- the two documents


@lru_cache(None)
def blocks(document):
    found, head, fresh = [], [], True
    for number, line in enumerate(read(TOP / document).splitlines(), 1):
        if line.startswith("|"):
            cells = [cell.strip() for cell in line.strip("|").split("|")]
            found += [Block(number, cell, column) for cell, column in zip(cells, head)]
            head = head or cells
            continue
        head = []
        if line.strip() and not fresh and not re.match(r"#|\d+\. |- ", line):
            found[-1] = found[-1]._replace(text=f"{found[-1].text} {line.strip()}")
        elif line.strip():
            found.append(Block(number, line.strip(), ""))
        fresh = not line.strip() or line.startswith("#")
    return found


PATH = re.compile(r"(?:\.\./)?[\w-]+(?:/[\w-]+)*(?:/[\w-]+|(?:\.[a-z]+)+)")
NAMES = re.compile(r": (`[^`]+`(?:(?:, and|,| and) `[^`]+`)*)")
FOLDERS = ("src", "specs", "proofs", "must-fail")


def is_path(text):
    first, second, *_ = text.split("/") + [""]
    return first == ".." or (CRATES / first).is_dir() or (TOP / first).is_dir() or second in FOLDERS or re.search(r"/.*\.[a-z]+$", text)


def names_after(text, place):
    """The names in backticks behind a colon; of `layout N d p` the first word."""
    names = NAMES.match(text, place)
    return re.findall(r"`([^`\s]+)[^`]*`", names[1]) if names else []


def cited(text):
    """The paths that a text cites, each with the names behind it."""
    found, folder = [], ""
    for match in PATH.finditer(text):
        path = match[0]
        if "/" not in path and path.endswith(".antt"):
            path = f"{folder}/{path}"
        elif "/" not in path or not is_path(path):
            continue
        folder = path.rpartition("/")[0]
        found.append((path, names_after(text, match.end())))
    return found


def entries(text):
    """The spec files and types that an item of a reading list names."""
    for path, names in cited(text):
        if "/specs/" in path:
            yield path
        elif "/src/" in path:
            yield from (f"{path}: {name}" for name in names)


LISTS = ("the reading lists", "the programs' reading list", "the other files of specs/")


def listed(document):
    """Of each of LISTS the entries, with their lines."""
    found, name = {name: {} for name in LISTS}, ""
    for block in blocks(document):
        if block.text.startswith("#"):
            name = ""
        if re.search(r"in reading order:?$", block.text):
            name = LISTS[bool(re.match(r"#* *Programs", block.text))]
        elif block.text.startswith("The other files of specs/"):
            name = LISTS[2]
        if name == LISTS[2] or (name and re.match(r"\d+\. ", block.text)):
            found[name].update((entry, block.line) for entry in entries(block.text))
    return found


def check_lists(public, programs):
    """Compares the lists with what is leaned on."""
    public, programs = ({n.path if n.path.endswith(".antt") else f"{n.path}: {n.name}" for n in nodes} for nodes in (public, programs))
    specs = {str(file.relative_to(CRATES)) for file in CRATES.glob("*/specs/**/*.antt") if file.name != "Lib.antt"}
    due = dict(zip(LISTS, (public, programs - public, specs - public - programs)))
    for name, lines in listed("docs/CLAIMS.md").items():
        for entry in sorted(due[name] - set(lines)):
            fault("docs/CLAIMS.md", f"{entry} is missing from {name}")
        for entry in sorted(set(lines) - due[name]):
            fault(f"docs/CLAIMS.md:{lines[entry]}", f"{entry} does not belong to {name}")


# ---- citations


def existing(path):
    """The file or folder that a path means; a must-fail edit may lack its suffix."""
    places = (CRATES / path, TOP / path, CRATES / f"{path}.edit")
    return next((place for place in places if place.exists()), None)


def declares(place, name):
    """Whether a file, or some file of a folder, declares a name."""
    if place.is_dir():
        return any(declares(file, name) for file in files_of(place) if file.suffix in (".antt", ".rt"))
    name, text = re.escape(name), read(place)
    if place.suffix == ".antt":
        return re.search(rf"^ *(?:(?:unfoldable|abbrev|pub|record|data) )*{name} (?:[^=\n]* )?:", text, re.M)
    if place.suffix == ".rt":
        return re.search(rf"\b(?:fn|struct|enum|const|mod) {name}\b", text)
    return re.search(rf"(?<!\w){name}(?!\w)", text)


@lru_cache(None)
def vocabulary():
    """The words of the sources and of their paths."""
    texts = [read(TOP / "Makefile")]
    for file in (file for folder in SOURCES for file in files_of(TOP / folder)):
        texts.append(str(file.relative_to(TOP)))
        if file.suffix in (".antt", ".rt", ".c", ".h", ".rs", ".py"):
            texts.append(read(file))
    return set(re.findall(r"[^\s(){}\[\]<>;,:.\"'`&|=!*+/]+", " ".join(texts)))


def check_edits(where, text):
    """A cell of must-fail edits."""
    for group in re.sub(r"\s*\([^)]*\)", "", text).split(";"):
        match = re.fullmatch(r"\s*(\w+(?:, \w+)*): (all|`[\w*]+`(?:, `[\w*]+`)*)\s*", group)
        if not match and ("`" in group or re.search(r": all\b", group)):
            fault(where, f"must-fail edits in a form that the script can't read: {group.strip()}")
        for crate in match[1].split(", ") if match else []:
            for label in ["*"] if match[2] == "all" else re.findall(r"`([\w*]+)`", match[2]):
                counts["edits"] += 1
                if not any((CRATES / crate / "must-fail").glob(f"{label}.edit")):
                    fault(where, f"{crate}/must-fail/{label}.edit does not exist")


def check_edited_lines():
    for edit in sorted(CRATES.glob("*/must-fail/*.edit")):
        text, old = "", ""
        for line in read(edit).splitlines():
            if line.startswith("file: "):
                text = text_of(f"{edit.parent.parent.name}/{line[6:]}")
            elif line.startswith("old: "):
                old = line[5:]
                if text.count(old) != 1:
                    fault(edit.relative_to(TOP), f"its file has not once the text: {old}")
            elif line.startswith("new: "):
                text = text.replace(old, line[5:])


def check_names(where, text):
    """Paths, and names in backticks."""
    for path, names in cited(text):
        counts["paths"] += 1
        place = existing(path)
        if not place:
            fault(where, f"{path} does not exist")
        for name in names if place else []:
            if not declares(place, name):
                fault(where, f"{path} declares no {name}")
    for match in re.finditer(r"(?<![\w/.-])\w+(?=: `)", text):
        for name in names_after(text, match.end()) if (CRATES / match[0]).is_dir() else []:
            if not any(declares(CRATES / match[0] / folder, name) for folder in ("src", "specs", "proofs")):
                fault(where, f"crates/{match[0]} declares no {name}")
    for name in re.findall(r"`([^`\s/]*[A-Za-z][^`\s/]*)`", text):
        counts["names"] += 1
        if not set(re.findall(r"[^(){}\[\]<>;,:.\"'&|=!*+]+", name)) <= vocabulary():
            fault(where, f"`{name}` occurs nowhere in {', '.join(SOURCES)}")


def check_citations(document):
    for block in blocks(document):
        check = check_edits if block.column == "must-fail edits" else check_names
        check(f"{document}:{block.line}", block.text)


# ---- quotations


def plain(text):
    """White space collapsed, and emphasis outside backticks taken off."""
    pieces = re.split(r"(`[^`]*`)", " ".join(text.split()))
    return "".join(piece if piece[:1] == "`" else re.sub(r"(\*\*?)([^*]+)\1", r"\2", piece) for piece in pieces)


def paragraphs(name):
    """The paragraphs of a shared document."""
    if not (SHARED / name).is_file():
        fault(SHARED / name, "does not exist, so that quotations can't be tested")
        return []
    return [plain(paragraph) for paragraph in re.split(r"\n\s*\n", read(SHARED / name))]


def is_quoted(quotation, texts):
    """Whether some paragraph has the pieces of a quotation in their order, as whole words."""
    pieces = [piece.strip() for piece in plain(quotation).split("..") if piece.strip()]
    bounded = [r"(?<!\w)" * piece[0].isalnum() + re.escape(piece) + r"(?!\w)" * piece[-1].isalnum() for piece in pieces]
    return any(re.search(".*?".join(bounded), text) for text in texts)


def comments(file):
    """The comments of a spec file, each with the number of its first line; comment lines that follow each other are one."""
    found, open_ = [], False
    for number, line in enumerate(read(file).splitlines(), 1):
        says = COMMENT.search(line)
        if says and open_:
            found[-1] = (found[-1][0], found[-1][1] + says[1])
        elif says:
            found.append((number, says[1]))
        open_ = bool(says)
    return found


def check_quotations():
    first, second = paragraphs(DOCUMENT_01), paragraphs(DOCUMENT_02)
    for file in sorted(CRATES.glob("*/specs/**/*.antt")) if first and second else []:
        found = comments(file)
        for number, comment in found:
            where = f"{file.relative_to(TOP)}:{number}"
            tickets = re.search(r"ocument 02|\bK\d+\b", found[0][1] + comment)
            if comment.count('"') % 2:
                fault(where, "a quotation that does not end")
            for quotation in re.findall(r'"([^"]*)"', comment):
                counts["quotations"] += 1
                if not is_quoted(quotation, first + second if tickets else first):
                    fault(where, f'no words of document {"01 or 02" if tickets else "01"}: "{quotation}"')


def report(whose, nodes):
    files = {node.path for node in nodes if node.path.endswith(".antt")}
    kinds = sum(not node.path.endswith(".antt") for node in nodes)
    lines = sum(len(lines_of(node)) for node in nodes)
    print(f"claims: {whose} on {len(files)} files and {kinds} types, {lines:,} lines of definitions to believe")


def main():
    public, programs = reached(promises(PUBLIC)), reached(promises(PROGRAMS))
    check_lists(public, programs)
    check_citations("docs/CLAIMS.md")
    check_citations("docs/DECISIONS.md")
    check_edited_lines()
    check_quotations()
    if faults:
        print("\n".join(faults))
        sys.exit(1)
    report("the public promises lean", public)
    report("the programs lean besides", programs - public)
    print(f"claims: {counts['paths']} paths, {counts['names']} names, {counts['edits']} must-fail edits and {counts['quotations']} quotations are as cited")


if __name__ == "__main__":
    main()
