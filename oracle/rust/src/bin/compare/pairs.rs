//! `compare pairs`: records at scale. Two spellings of a figure, one of them read with the wish for infinite lengths and the
//! other without it where no length is infinite, must get one record, and numberings that tell which node is which; a figure
//! changed in one place another, unless it is the same renumbered; a record must be read back to its figure. Ticket K11: the
//! two spellings, often with other loops, must agree in what the editing page computes of them. Ticket K5: the figure laid
//! out in another numbering must be refused with 22; with a byte changed, so that it is no layout, with 14; and a record with a
//! byte changed with either, unless it is that of another figure.

use std::process::ExitCode;

use miratope::diagrams::LIMIT;

use crate::{
    articles::{self, Article},
    chance,
    dice::Dice,
    figures::{Figure, Numbering, ReadBack, PLAIN, RECORD},
    port::{Asked, Asking, Call, Port, Want, WISHES},
    records,
    run::{self, Tally, Work},
    spelling::{self, Looped, Loops, Spelling},
};

// Places of the tally.
const SPELLED: usize = 0;
const SAME: usize = 10;
const APART: usize = 11;
const DAMAGED_READ: usize = 12;
const DAMAGED_NO_LAYOUT: usize = 13;
const DAMAGED_NOT_SMALLEST: usize = 14;
const RENUMBERED_READ: usize = 15;
const RENUMBERED_NOT_SMALLEST: usize = 16;
const RENUMBERED_AND_DAMAGED: usize = 17;
const WRONG_LENGTH: usize = 18;
const TOO_LONG: usize = 19;
const WITH_AND_WITHOUT: usize = 20;
const INFINITE: usize = 21;
const OTHER_LOOPS: usize = 22;
const ONE_LOOPED: usize = 23;
const ARTICLES: usize = 24;

fn labels() -> Vec<String> {
    let mut labels: Vec<String> =
        (0..=LIMIT).map(|nodes| format!("figures of {nodes} nodes in two spellings")).collect();
    labels.push("changed in one place, yet the same renumbered".into());
    labels.push("changed in one place, filed apart".into());
    labels.push("records changed in a byte, yet records, read back".into());
    labels.push("records changed in a byte, refused with 14".into());
    labels.push("records changed in a byte, refused with 22".into());
    labels.push("figures laid out in a numbering by chance, yet the record, read back".into());
    labels.push("figures laid out in another numbering, refused with 22".into());
    labels.push("figures laid out in another numbering and changed in a byte, refused with 14".into());
    labels.push("records of another length, refused with 13".into());
    labels.push("changed in one place, too long to write".into());
    labels.push("figures in two spellings, one read with the wish and one without".into());
    labels.push("figures with an infinite length in two spellings, both read with the wish".into());
    labels.push("pairs of spellings with loops that differ".into());
    labels.push("  of them with loops in one spelling alone".into());
    labels.extend(articles::COUNTED.map(String::from));
    labels
}

pub fn run(seed: u64, count: u64, threads: usize) -> ExitCode {
    println!("{count} figures by chance, of seed {seed}");
    run::run(count, threads, &labels(), || Pairs { port: Port::new(), seed })
}

struct Pairs {
    port: Port,
    seed: u64,
}

impl Work for Pairs {
    fn one(&mut self, index: u64, tally: &mut Tally) -> Result<(), String> {
        let dice = &mut Dice::new(self.seed, index);
        let (figure, plain) = loop {
            let figure = any_figure(dice);
            if let Some(plain) = spelled(dice, &figure, 1000) {
                break (figure, plain);
            }
        };
        tally.count(SPELLED + figure.count);
        let wished = figure.is_infinite() || dice.one_in(2);
        let filed = self.filed(dice, &figure, plain, wished)?;
        let bytes = filed.bytes;
        self.spelled_again(dice, &figure, &filed, !wished, tally)?;
        if figure.count <= 5 && dice.one_in(16) && filed.figure.smallest_of_all() != (bytes, filed.numbering) {
            return Err(format!(
                "of all numberings another comes before {:?}, or has a smaller layout than {}",
                filed.numbering,
                records::shown(&bytes)
            ));
        }
        if figure.count > 0 {
            self.changed(dice, &figure, &filed, tally)?;
        }
        let own = filed.figure.renumbered(&filed.numbering);
        records::read_as(&mut self.port, &bytes, &ReadBack::Record(own), dice.next() as usize)?;
        self.damaged(dice, bytes, tally)?;
        self.renumbered(dice, &figure, &bytes, tally)
    }

    fn name(&mut self, index: u64) -> String {
        format!("figure {index}")
    }
}

fn any_figure(dice: &mut Dice) -> Figure {
    let count = count(dice);
    if dice.one_in(4) {
        chance::spherical(dice, count.max(1))
    } else {
        chance::any_figure(dice, count)
    }
}

/// Few of nine nodes: where they are alike, the model of this program takes as long for one as for a thousand of six.
fn count(dice: &mut Dice) -> usize {
    match dice.below(1 << 10) {
        0 => 9,
        1..=8 => 8,
        9..=72 => 7,
        73..=250 => 6,
        _ => dice.pick(&[0, 1, 1, 2, 2, 2, 3, 3, 3, 3, 4, 4, 4, 4, 4, 5, 5, 5, 5]),
    }
}

/// One text in six, plain or odd, has loops of any fraction at half of its nodes, so that two texts of a figure often differ in
/// them.
fn spelled(dice: &mut Dice, figure: &Figure, seldom: usize) -> Option<Spelling> {
    let looped = if dice.one_in(6) { Looped::Often } else { Looped::Seldom };
    spelling::short_spelling(dice, figure, seldom, looped)
}

/// A text, its loops, its figure in the order of the text's nodes, and what the library answers to it: record and numbering,
/// and what the editing page computes.
struct Filed {
    text: Vec<u8>,
    loops: Loops,
    figure: Figure,
    bytes: [u8; RECORD],
    numbering: Numbering,
    article: Article,
}

impl Filed {
    /// Another text of the figure must have the same record, and nodes at the same place must correspond: the renumbering
    /// that sends each of this text's to the other's there must carry this figure onto the other. Their articles must agree.
    fn same_as(&self, other: &Self) -> Result<(), String> {
        if self.bytes != other.bytes {
            let shown = [self, other].map(|filed| records::shown(&filed.bytes));
            return Err(format!("two spellings, two records: {} and {}", shown[0], shown[1]));
        }
        let mut images = PLAIN;
        for (&node, &image) in self.numbering.iter().zip(&other.numbering) {
            images[node] = image;
        }
        if other.figure.renumbered(&images) != self.figure {
            let numberings = [self.numbering, other.numbering];
            return Err(format!("two spellings, and {numberings:?} do not carry one figure onto the other"));
        }
        if !self.article.agrees(&other.article) {
            let told = [self, other].map(|filed| format!("\"{}\" {:?}", filed.text.escape_ascii(), filed.article));
            return Err(format!("two spellings, two articles: {} and {}", told[0], told[1]));
        }
        Ok(())
    }

    /// Counts two texts of a figure.
    fn count(&self, other: &Self, tally: &mut Tally) {
        if self.loops != other.loops {
            tally.count(OTHER_LOOPS);
        }
        let looped = [self, other].map(|filed| filed.loops.iter().any(Option::is_some));
        if looped[0] != looped[1] {
            tally.count(ONE_LOOPED);
        }
        self.article.count(&other.article, ARTICLES, tally);
    }
}

impl Pairs {
    /// A text for the figure, read with the wish or without.
    fn filed(&mut self, dice: &mut Dice, figure: &Figure, spelling: Spelling, wished: bool) -> Result<Filed, String> {
        let Spelling { text, order, loops } = spelling;
        let figure = figure.renumbered(&order);
        let wish = if wished { dice.pick(&WISHES) } else { 0 };
        let told = |what| format!("\"{}\": {what}", text.escape_ascii());
        let asking = Asking { text: &text, wishes: &[wish] };
        let written = records::written(&mut self.port, asking, &figure, dice.next() as usize);
        let (bytes, numbering) = written.map_err(told)?;
        let asked = Asked { text: &text, wish };
        let article = Article::of(&mut self.port, asked, &figure, dice.next() as usize).map_err(told)?;
        Ok(Filed { text, loops, figure, bytes, numbering, article })
    }

    /// The figure in another spelling, read with the wish or without, and with it where a length is infinite.
    fn spelled_again(
        &mut self,
        dice: &mut Dice,
        figure: &Figure,
        filed: &Filed,
        wished: bool,
        tally: &mut Tally,
    ) -> Result<(), String> {
        let Some(odd) = spelled(dice, figure, 5) else { return Ok(()) };
        let infinite = figure.is_infinite();
        tally.count(if infinite { INFINITE } else { WITH_AND_WITHOUT });
        let other = self.filed(dice, figure, odd, infinite || wished)?;
        filed.same_as(&other)?;
        filed.count(&other, tally);
        Ok(())
    }

    /// A figure that differs in one place: filed apart, unless it is the same renumbered.
    fn changed(&mut self, dice: &mut Dice, figure: &Figure, filed: &Filed, tally: &mut Tally) -> Result<(), String> {
        let other = chance::changed(dice, figure);
        let Some(spelling) = spelled(dice, &other, 20) else {
            tally.count(TOO_LONG);
            return Ok(());
        };
        let wished = other.is_infinite() || dice.one_in(2);
        let same = figure.same(&other);
        tally.count(if same { SAME } else { APART });
        let filed_other = self.filed(dice, &other, spelling, wished)?;
        if same != (filed_other.bytes == filed.bytes) {
            let layouts = [figure, &other].map(|figure| records::shown(&figure.layout()));
            return Err(format!("a changed figure, the same: {same}; {} and {}", layouts[0], layouts[1]));
        }
        if same {
            filed.same_as(&filed_other)?;
        }
        Ok(())
    }

    /// A record with one byte changed: no layout, or not the smallest, or another's record.
    fn damaged(&mut self, dice: &mut Dice, mut bytes: [u8; RECORD], tally: &mut Tally) -> Result<(), String> {
        damage(dice, &mut bytes);
        let back = ReadBack::of(&bytes);
        tally.count(match back {
            ReadBack::Record(_) => DAMAGED_READ,
            ReadBack::NoLayout => DAMAGED_NO_LAYOUT,
            ReadBack::NotSmallest => DAMAGED_NOT_SMALLEST,
        });
        records::read_as(&mut self.port, &bytes, &back, dice.next() as usize)?;
        self.of_another_length(dice, &bytes, tally)
    }

    /// The figure laid out in a numbering by chance: 22 unless that is the record. Of some also with one byte changed so that no
    /// diagram has it: 14, which is tested first.
    fn renumbered(
        &mut self,
        dice: &mut Dice,
        figure: &Figure,
        record: &[u8; RECORD],
        tally: &mut Tally,
    ) -> Result<(), String> {
        let mut numbering = PLAIN;
        dice.shuffle(&mut numbering[..figure.count]);
        let other = figure.renumbered(&numbering);
        let bytes = other.layout();
        if bytes == *record {
            tally.count(RENUMBERED_READ);
            return records::read_as(&mut self.port, &bytes, &ReadBack::Record(other), dice.next() as usize);
        }
        tally.count(RENUMBERED_NOT_SMALLEST);
        records::read_as(&mut self.port, &bytes, &ReadBack::NotSmallest, dice.next() as usize)?;
        if dice.one_in(4) {
            tally.count(RENUMBERED_AND_DAMAGED);
            let bytes = no_layout(dice, &bytes);
            records::read_as(&mut self.port, &bytes, &ReadBack::NoLayout, dice.next() as usize)?;
        }
        self.of_another_length(dice, &bytes, tally)
    }

    /// Of some bytes, whatever they are: cut off, or with zeros behind them.
    fn of_another_length(&mut self, dice: &mut Dice, bytes: &[u8; RECORD], tally: &mut Tally) -> Result<(), String> {
        if !dice.one_in(32) {
            return Ok(());
        }
        let long = [&bytes[..], &[0; 30]].concat();
        let any = dice.below(RECORD);
        let len = dice.pick(&[0, 1, RECORD - 1, RECORD + 1, RECORD + 30, any]);
        tally.count(WRONG_LENGTH);
        let want = Want { answer: [13, 0, 0, 0], out: &[] };
        self.port.check(Call::ReadRecord(&long[..len]), want, dice.next() as usize)
    }
}

/// One byte of a layout of two nodes or more changed so that no diagram has it in any numbering.
fn no_layout(dice: &mut Dice, layout: &[u8; RECORD]) -> [u8; RECORD] {
    loop {
        let mut bytes = *layout;
        damage(dice, &mut bytes);
        if Figure::laid_out(&bytes).is_none() {
            return bytes;
        }
    }
}

/// One byte changed, mostly among those that tell something, a little or wholly.
pub fn damage(dice: &mut Dice, bytes: &mut [u8; RECORD]) {
    let count = usize::from(bytes[0]).min(LIMIT);
    let at = match dice.below(16) {
        0 => 0,
        1 => dice.below(RECORD),
        2..=10 if count > 0 => 1 + dice.below(9 * count),
        _ if count > 1 => 82 + dice.below(4 * count * (count - 1)),
        _ => dice.below(RECORD),
    };
    let change = match dice.below(3) {
        0 => 1 << dice.below(8),
        1 => dice.within(1, 3) as u8,
        _ => dice.within(1, 255) as u8,
    };
    bytes[at] = if dice.one_in(2) { bytes[at] ^ change } else { bytes[at].wrapping_add(change) };
}
