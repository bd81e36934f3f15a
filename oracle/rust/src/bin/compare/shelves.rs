//! `compare shelves`: the calls of tickets K1 and K12 at scale. Files by chance are checked, and some records found in them,
//! bisected for and added; then each file is rescued, as it is and after a disk fault. Each answer, number for number, and each
//! byte of the buffers must be what shelf_model.rs says.

use std::process::ExitCode;

use crate::{
    dice::Dice,
    figures::RECORD,
    records::shown,
    run::{self, Tally, Work},
    shelf_files,
    shelf_model::{Asked, Bad, Fault, File, Rescued},
    shelf_port::{Call, Due, Rooms, ShelfPort},
};

/// Places of the tally for each call: first what it told, then each refusal at its number.
const SLOTS: usize = 25;

const CALLS: [(&str, &[&str]); 5] = [
    (
        "check",
        &[
            "an empty file, a shelf",
            "a shelf",
            "19 for a place that is 14",
            "19 for a place that is 22",
            "19 for a place equal to the one before",
            "19 for a place less than the one before",
        ],
    ),
    ("find", &["absent", "present"]),
    ("bisect", &["absent from a shelf", "present on a shelf", "absent where 19 is", "present where 19 is"]),
    ("add", &["added"]),
    (
        "rescue",
        &[
            "answered",
            "every place kept, no tail",
            "a tail",
            "a place out of order",
            "a place that is 14",
            "a place that is 22",
            "a place kept behind one that is not",
            "places, and none kept",
            "12 for the second buffer",
            "12 for the third",
            "12 for both",
            "12 for a second buffer that the records kept would fit in",
        ],
    ),
];

fn labels() -> Vec<String> {
    let label = |(call, told): (&str, &[&str]), slot| match told.get(slot) {
        Some(told) => format!("{call}: {told}"),
        None => format!("{call}: refused with {slot}"),
    };
    CALLS.iter().flat_map(|&call| (0..SLOTS).map(move |slot| label(call, slot))).collect()
}

pub fn run(seed: u64, count: u64, threads: usize) -> ExitCode {
    println!("{count} shelf files by chance, of seed {seed}");
    run::run(count, threads, &labels(), || Shelves { port: ShelfPort::new(), seed })
}

struct Shelves {
    port: ShelfPort,
    seed: u64,
}

impl Work for Shelves {
    fn one(&mut self, index: u64, tally: &mut Tally) -> Result<(), String> {
        let dice = &mut Dice::new(self.seed, index);
        let made = shelf_files::any_file(dice);
        let file = File::new(&made.file);
        tally.count(checked(&file));
        self.port.check(&made.file, Call::Check, &file.check(), dice.next() as usize)?;
        for _ in 0..dice.within(1, 3) {
            let (bytes, room) = (made.asked(dice), made.room(dice));
            let fault = self.asked(dice, &file, Asked::new(&bytes), room, tally);
            fault.map_err(|what| format!("{what}; of {} bytes, {}", bytes.len(), shown(&bytes)))?;
        }
        self.rescue(dice, &file, tally)?;
        let hurt = made.after_disk_fault(dice);
        self.rescue(dice, &File::new(&hurt), tally).map_err(|what| format!("{what}; after a disk fault"))
    }

    fn name(&mut self, index: u64) -> String {
        format!("file {index}")
    }
}

impl Shelves {
    /// The calls that take a record, the last with so many bytes lent.
    fn asked(
        &mut self,
        dice: &mut Dice,
        file: &File,
        asked: Asked,
        room: usize,
        tally: &mut Tally,
    ) -> Result<(), String> {
        let (find, bisect, add) = (file.find(asked), file.bisect(asked), file.add(asked, room));
        let no_shelf = 2 * usize::from(file.fault.is_some() && bisect.answer[0] == 0);
        tally.count(SLOTS + looked_up(find.answer));
        tally.count(2 * SLOTS + no_shelf + looked_up(bisect.answer));
        tally.count(3 * SLOTS + add.answer[0]);
        self.port.check(file.bytes, Call::Find(asked.bytes), &find, dice.next() as usize)?;
        self.port.check(file.bytes, Call::Bisect(asked.bytes), &bisect, dice.next() as usize)?;
        self.port.check(file.bytes, Call::Add(asked.bytes, room), &add, dice.next() as usize)
    }

    /// The rescue of a file, and that "the result passes the shelf check", the port's own.
    fn rescue(&mut self, dice: &mut Dice, file: &File, tally: &mut Tally) -> Result<(), String> {
        let rescued = file.rescued();
        let rooms = shelf_files::rooms(dice, file.bytes, &rescued);
        let so = told_of_rescue(file.bytes, &rescued, rooms);
        (0..so.len()).filter(|&slot| so[slot]).for_each(|slot| tally.count(4 * SLOTS + slot));
        let due = rescued.due(rooms);
        self.port.check(file.bytes, Call::Rescue(rooms), &due, dice.next() as usize)?;
        let passes = Due { answer: [0, due.answer[1], 0, 0], written: Vec::new(), marks: Vec::new() };
        self.port.check(&due.written, Call::Check, &passes, dice.next() as usize)
    }
}

fn checked(file: &File) -> usize {
    match file.fault {
        None => usize::from(!file.bytes.is_empty()),
        Some(Fault::Length) => 18,
        Some(Fault::Place(_, Bad::Unread(14))) => 2,
        Some(Fault::Place(_, Bad::Unread(_))) => 3,
        Some(Fault::Place(_, Bad::Equal)) => 4,
        Some(Fault::Place(_, Bad::Less)) => 5,
    }
}

/// What is counted of a rescue, in the order of its labels.
fn told_of_rescue(file: &[u8], rescued: &Rescued, rooms: Rooms) -> [bool; 12] {
    let marks = &rescued.marks;
    let short = [rooms.out < file.len(), rooms.marks < marks.len()];
    let answered = short == [false, false];
    let lost = marks.iter().position(|&mark| mark != 0);
    [
        answered,
        answered && lost.is_none() && rescued.tail == 0,
        answered && rescued.tail > 0,
        answered && marks.contains(&1),
        answered && marks.contains(&14),
        answered && marks.contains(&22),
        answered && lost.is_some_and(|lost| marks[lost..].contains(&0)),
        answered && lost.is_some() && rescued.kept.is_empty(),
        short == [true, false],
        short == [false, true],
        short == [true, true],
        short == [true, false] && rooms.out >= rescued.kept.len() * RECORD,
    ]
}

fn looked_up([number, present, ..]: [usize; 4]) -> usize {
    if number == 0 {
        present
    } else {
        number
    }
}
