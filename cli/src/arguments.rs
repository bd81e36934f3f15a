//! The command line.

use std::{ffi::OsString, path::PathBuf};

use clap::{builder::PossibleValuesParser, value_parser, Arg, ArgAction, Command};

const ABOUT: &str = "Keeps the headwords of a lexicon of polytopes, which are Coxeter diagrams typed as lines of text";

const AFTER: &str = "\
Nodes are named as the notation's references name them: a is the first that was typed, b the
second. Every answer about a text, a record or a shelf is one of the proved library's.

Exit status: 0 if nothing is wrong, 1 if something is, 2 if the work could not be done.

`lexicon help COMMAND` tells more of a command, with an example.";

const CHECK: &str = "\
Each line of a file is a headword, an empty line too; LF or CR LF ends it. Each headword that is
refused is told as FILE:LINE:COLUMN, then each group of lines that are one figure, a line for
each with its nodes in corresponding order, then the totals. `-` is standard input.

Exit status: 0 if nothing is wrong, 1 if a headword is refused or stands twice, 2 for a failure.

Example:
  $ printf 'x3o4o\\no4o3x\\n' | lexicon check -
  2 lines are one figure, their nodes in corresponding order:
    -:1: x3o4o  a b c
    -:2: o4o3x  c b a
  2 lines: 2 accepted, 0 refused; 1 figure, 1 of them more than once";

const SAME: &str = "\
Exit status: 0 for one figure, 1 for two, 2 if a text is refused.

Example:
  $ lexicon same x3o4o o4o3x
  one figure, its nodes in corresponding order:
    x3o4o  a b c
    o4o3x  c b a";

const SHOW: &str = "\
Chains stand on a line, branches, loops and all other edges below it. A number joins the nodes
whose lines are at its ends; + joins lines, and a | within a row of - passes across it. x is a
ringed node, s a snub one, o an unringed one, with lengths other than 1 in parentheses. The
nodes a, b, c... are read along the line, then branch by branch; where they were typed in
another order, their names are shown.

The groups are told by their names in Coxeter's list of finite groups and by their orders, each
at the first node of its component; the group of several components is their product. Rings,
lengths and loops play no part. No name fits a component whose group is infinite, nor one with
a fraction such as 5/2 for an edge.

From every spelling of a figure the same is told of minimal, of how many edges there are but for
loops, and of the groups, though these may come in another order.

With --geometry, decimals are the shortest that give the double back. The walls are mirrors as
Coxeter has them, and the radius of the generator over them is the one to print: the circumradius
of the figure whose edges have these lengths, the same for every spelling but for the last
digits. The generator and radius as miratope-core has them depend on the order of typing.

Where there are no names, no walls, no mirrors or no generator, the refusal is told in their
place, and the status is 0, as nothing is wrong with the text.

Exit status: 0, 1 if the text is refused, 2 for a failure.

Example:
  $ lexicon show 'x3o5/2o *b3o'
  x-3-o-5/2-o
      |
      3
      |
      o

  nodes:
    a: ringed, length 1
    b: unringed
    c: unringed
    d: unringed
  edges:
    a-b: 3
    b-c: 5/2
    b-d: 3
  minimal: yes, each component has a ringed node
  groups: none, refusal 21: no name of a finite group fits the component of node a
  $ lexicon show 'x3o3o x7o' | grep -A 3 ^groups
  groups:
    a: A3, order 24
    d: I2(7), order 14
    their product: order 336
  $ lexicon show --geometry x3o4o | grep ^radius
  radius: 0.7071067811865477
  radius as miratope-core has it: 1
  $ lexicon show --geometry o4o3x | grep ^radius
  radius: 0.7071067811865478
  radius as miratope-core has it: 2.2360679774997907";

const DRAW: &str = "\
A ringed node is a dot with a ring, an unringed one a dot, a snub one an open circle. A length
other than 1 is written at its node, by its letter if that is shorter, a number other than 3 at
its edge. Spellings of one figure are drawn alike but for loops.

Exit status: 0, 1 if the text is refused, 2 for a failure.

Example:
  $ lexicon draw 'o3o3o3o3o3x *c3o' -o e7.svg";

const RECORD: &str = "\
On each text a line: `ok`, the record's 740 hexadecimal digits and the numbering that gives it,
or `no`, the refusal's number and its fields. On standard input LF alone ends a line.

Exit status: 0, 1 if a text is refused, 2 for a failure.

Example:
  $ printf 'x3o4o\\nx1o\\n' | lexicon record | cut -c 1-20
  ok 03010000000000000
  no 7 1 1 1";

const SHELF: &str = "\
A shelf has the record of each article, 370 bytes, each greater than the one before. Places are
counted from 0. A file that is no shelf is refused, with the place that is wrong and what stands
there. The commands that only read take no lock: they see the old shelf or the new one.

Exit status: 0; 1 for refused, not found, already there or not kept; 2 for a failure.";

const SHELF_CHECK: &str = "\
Exit status: 0, 1 if the file is refused, 2 for a failure.

Example:
  $ lexicon shelf check articles.shelf
  articles.shelf: 2 places";

const SHELF_FIND: &str = "\
All texts are looked for, whether or not others are refused.

Exit status: 0, 1 if a text is not there or is refused, or if the file is, 2 for a failure.

Example:
  $ lexicon shelf find articles.shelf o4o3x x3o
  o4o3x: place 1
  x3o: not there, would be place 1";

const SHELF_ADD: &str = "\
All texts are added in one replacement of the file, or none is: not if one of them is refused or
there already, or two are one figure. Whatever happens, the file is the old shelf or the new
one. Its permissions are kept, and a link to it stays one. One run at a time adds; others wait
for it. What a killed run leaves beside FILE, .FILE.lexicon-new, the next one removes.

Exit status: 0, 1 if nothing was added because of a text or because the file is refused, 2 for a
failure.

Example:
  $ lexicon shelf add articles.shelf x3o x5o3o
  x3o: added, place 1
  x5o3o: added, place 2
  articles.shelf: 4 places";

const SHELF_LIST: &str = "\
On each place a line: its number, a tab, and a text of its figure, which the library reads to
the record that stands there. A record that no text has is told by its nodes and edges.

Exit status: 0, 1 if the file is refused, 2 for a failure.

Example:
  $ lexicon shelf list articles.shelf
  0	x
  1	x3o4o";

const SHELF_MAKE: &str = "\
Each line of standard input is a text; LF or CR LF ends it. A figure that stands twice is told,
and kept once; if a text is refused, it is told, and no file is made. FILE must not be there.

Exit status: 0; 1 if a text is refused, and no file is made, or if a figure stands twice, and
the file is made; 2 for a failure.

Example:
  $ printf 'x3o4o\\nx\\no4o3x\\n' | lexicon shelf make articles.shelf
  -:3: o4o3x is the figure of -:1: x3o4o
  articles.shelf: 2 places";

const SHELF_RESCUE: &str = "\
OLD, a shelf that was damaged or cut, is only read. NEW, which must not be there, gets each record
that can be read and is greater than the last one kept. On each other place there is a line: that
it can't be read, and the refusal; or that it is out of order and, unless a place that is kept has
the same record, a tab and a text of its figure. Bytes behind the last whole place are not kept.

A damaged record may still be read, as another figure. If that is too great, it is kept, and good
places behind it are out of order, often many in a row; so it is told which place they are less
than, and what stands there. `lexicon shelf add` adds those that are right. If they are many, or if
a record that is kept is wrong, make the shelf anew of the right texts. REPORT is what was told:
  (lexicon shelf list NEW; cat REPORT) | cut -sf 2 | grep -vxF WRONG | lexicon shelf make NEWER
What can't be read is filed again by its article's text.

Exit status: 0 if all was kept, 1 if a place or the bytes behind the last one were not, 2 for a
failure.

Example:
  $ (tail -c 740 articles.shelf; printf %370s; head -c 500 articles.shelf) >old.shelf
  $ lexicon shelf rescue old.shelf new.shelf
  old.shelf: 2 places not kept:
    2  can't be read, refusal 14
    3  out of order, less than place 1	x
  refusal 14: record not the layout of any diagram: bad count, kind, value, fraction or filler
  can't be read: `lexicon shelf find new.shelf TEXT...` tells which texts are missing
  out of order: still in old.shelf; `lexicon shelf add new.shelf TEXT...` adds those that are right
  kept before them, and perhaps damaged and too great:
    place 1: x3o4o
  old.shelf: the last 130 bytes are no whole place, and not kept
  new.shelf: 2 of 4 places kept
  $ lexicon shelf add new.shelf x
  x: added, place 0
  new.shelf: 3 places";

/// The whole command line.
pub fn command() -> Command {
    Command::new("lexicon")
        .version(clap::crate_version!())
        .about(ABOUT)
        .after_help(AFTER)
        .subcommand_required(true)
        .arg_required_else_help(true)
        .subcommand(check())
        .subcommand(
            of_texts("same", "Tells whether two texts are one figure", SAME)
                .arg(text("A", "A text"))
                .arg(text("B", "Another")),
        )
        .subcommand(show())
        .subcommand(draw())
        .subcommand(
            of_texts("record", "Writes records, line by line", RECORD)
                .arg(text("TEXT", "A text, or - for standard input").required(false))
                .arg(flag(
                    "raw",
                    "Write the records' bytes, and of refusals nothing",
                )),
        )
        .subcommand(shelf())
}

fn check() -> Command {
    of_texts(
        "check",
        "Finds the headwords that are wrong or stand twice",
        CHECK,
    )
    .arg(
        Arg::new("FILE")
            .required(true)
            .action(ArgAction::Append)
            .num_args(1..)
            .value_parser(value_parser!(PathBuf))
            .help("Lists of headwords, or - for standard input"),
    )
    .arg(flag(
        "notes",
        "Take what follows a line's first tab for a note, which is shown with it",
    ))
    .arg(
        Arg::new("format")
            .long("format")
            .value_name("FORMAT")
            .value_parser(PossibleValuesParser::new(["text", "json"]))
            .default_value("text")
            .hide_possible_values(true)
            .help("text, or json: a JSON document a finding"),
    )
}

fn show() -> Command {
    of_texts("show", "Shows a text's diagram", SHOW)
        .arg(text("TEXT", "A text"))
        .arg(flag(
            "geometry",
            "Show the matrix, the walls, the generator and its radius too, and miratope-core's",
        ))
        .arg(
            flag(
                "bits",
                "Show those numbers as the 64 bits of doubles, in hexadecimal",
            )
            .requires("geometry"),
        )
}

fn draw() -> Command {
    of_texts("draw", "Draws a text's diagram as an SVG", DRAW)
        .arg(text("TEXT", "A text"))
        .arg(
            Arg::new("output")
                .short('o')
                .long("output")
                .value_name("FILE.svg")
                .required(true)
                .value_parser(value_parser!(PathBuf))
                .help("The file that is written, or - for standard output"),
        )
}

fn shelf() -> Command {
    Command::new("shelf")
        .about("Keeps a file of records")
        .after_help(SHELF)
        .subcommand_required(true)
        .arg_required_else_help(true)
        .subcommand(
            Command::new("check")
                .about("Checks a shelf file")
                .after_help(SHELF_CHECK)
                .arg(file()),
        )
        .subcommand(
            of_texts("find", "Tells at which places texts are", SHELF_FIND)
                .arg(file())
                .arg(text("TEXT", "The texts").num_args(1..)),
        )
        .subcommand(
            of_texts("add", "Adds texts", SHELF_ADD)
                .arg(file())
                .arg(text("TEXT", "The texts").num_args(1..)),
        )
        .subcommand(
            Command::new("list")
                .about("Lists what each place holds")
                .after_help(SHELF_LIST)
                .arg(file()),
        )
        .subcommand(of_texts("make", "Makes a new shelf file of a list", SHELF_MAKE).arg(file()))
        .subcommand(
            Command::new("rescue")
                .about("Keeps what can be kept of a damaged shelf file")
                .after_help(SHELF_RESCUE)
                .arg(path("OLD", "The damaged file"))
                .arg(path("NEW", "The new shelf file")),
        )
}

/// A command that reads texts.
fn of_texts(name: &'static str, about: &'static str, after: &'static str) -> Command {
    Command::new(name)
        .about(about)
        .after_help(after)
        .arg(flag("infinite", "Take infinite lengths, such as (inf)"))
}

fn text(name: &'static str, help: &'static str) -> Arg {
    Arg::new(name)
        .required(true)
        .value_parser(value_parser!(OsString))
        .help(help)
}

fn file() -> Arg {
    path("FILE", "The shelf file")
}

fn path(name: &'static str, help: &'static str) -> Arg {
    Arg::new(name)
        .required(true)
        .value_parser(value_parser!(PathBuf))
        .help(help)
}

fn flag(name: &'static str, help: &'static str) -> Arg {
    Arg::new(name)
        .long(name)
        .action(ArgAction::SetTrue)
        .help(help)
}
