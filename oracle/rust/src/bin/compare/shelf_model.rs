//! The calls on shelf files, written from the words of tickets K1 and K12 and apart from the port. What reading a record comes
//! to is figures.rs's model of document 01 and ticket K5, after the length.

use crate::{
    figures::{ReadBack, RECORD},
    shelf_port::{Due, Rooms},
};

/// The number with which reading refuses bytes: "A record to be found or added is read first, with 13 and 14", and with 22 by
/// ticket K5, "tested after 14 wherever a record is read, a shelf's lookup and adding included".
fn refusal(bytes: &[u8]) -> Option<usize> {
    let Ok(bytes) = <&[u8; RECORD]>::try_from(bytes) else {
        return Some(13);
    };
    match ReadBack::of(bytes) {
        ReadBack::Record(_) => None,
        ReadBack::NoLayout => Some(14),
        ReadBack::NotSmallest => Some(22),
    }
}

/// What is wrong with a place.
#[derive(Clone, Copy)]
pub enum Bad {
    /// It can't be read: the number.
    Unread(usize),
    /// It is the place before it.
    Equal,
    /// It is less than the place before it.
    Less,
}

/// What is wrong with a file.
#[derive(Clone, Copy)]
pub enum Fault {
    /// 18: "a file whose length is no multiple of 370".
    Length,
    /// 19: "the first place that can't be read or isn't greater than the place before it (19, that place)".
    Place(usize, Bad),
}

impl Fault {
    fn answer(self) -> [usize; 4] {
        match self {
            Self::Length => [18, 0, 0, 0],
            Self::Place(place, _) => [19, place, 0, 0],
        }
    }
}

/// A file, and what is wrong with it.
pub struct File<'a> {
    pub bytes: &'a [u8],
    /// "records of 370 bytes, no header"
    places: Vec<&'a [u8]>,
    pub fault: Option<Fault>,
}

/// Bytes to be found or added, and what refuses to read them.
#[derive(Clone, Copy)]
pub struct Asked<'a> {
    pub bytes: &'a [u8],
    pub refusal: Option<usize>,
}

impl<'a> Asked<'a> {
    pub fn new(bytes: &'a [u8]) -> Self {
        Self { bytes, refusal: refusal(bytes) }
    }
}

/// A file after a rescue with buffers that are long enough.
pub struct Rescued<'a> {
    file: &'a [u8],
    /// The records copied.
    pub kept: Vec<&'a [u8]>,
    /// One for every place.
    pub marks: Vec<u8>,
    pub tail: usize,
}

impl Rescued<'_> {
    /// "A second buffer shorter than the file, or a third with fewer bytes than places, gets 12."
    pub fn due(&self, rooms: Rooms) -> Due {
        if rooms.out < self.file.len() || rooms.marks < self.marks.len() {
            return refused([12, 0, 0, 0]);
        }
        let answer = [0, self.kept.len(), self.tail, 0];
        Due { answer, written: self.kept.concat(), marks: self.marks.clone() }
    }
}

fn refused(answer: [usize; 4]) -> Due {
    Due { answer, written: Vec::new(), marks: Vec::new() }
}

impl<'a> File<'a> {
    pub fn new(bytes: &'a [u8]) -> Self {
        let places: Vec<&[u8]> = bytes.chunks(RECORD).collect();
        let fault = if bytes.len() % RECORD != 0 {
            Some(Fault::Length)
        } else {
            (0..places.len()).find_map(|place| Some(Fault::Place(place, bad(&places, place)?)))
        };
        Self { bytes, places, fault }
    }

    /// "A call checks a lent file": the number of places.
    pub fn check(&self) -> Due {
        refused(self.fault.map_or([0, self.places.len(), 0, 0], Fault::answer))
    }

    /// What refuses the record, and then the file.
    fn refuses(&self, asked: Asked) -> Option<[usize; 4]> {
        let record = asked.refusal.map(|number| [number, 0, 0, 0]);
        record.or(self.fault.map(Fault::answer))
    }

    /// "a second says whether a record is on the shelf and at which place (from 0)"; of an absent one the number of records
    /// less than it.
    pub fn find(&self, asked: Asked) -> Due {
        if let Some(answer) = self.refuses(asked) {
            return refused(answer);
        }
        let present = self.places.contains(&asked.bytes);
        let less = self.places.iter().filter(|&&place| place < asked.bytes).count();
        refused([0, usize::from(present), less, 0])
    }

    /// What bisection finds in any file of whole places, step by step. On a shelf it must be what `find` answers.
    pub fn bisect(&self, asked: Asked) -> Due {
        match (asked.refusal, self.fault) {
            (Some(number), _) => return refused([number, 0, 0, 0]),
            (None, Some(Fault::Length)) => return refused(Fault::Length.answer()),
            _ => {}
        }
        let (mut low, mut high) = (0, self.places.len());
        while low < high {
            let middle = low + (high - low) / 2;
            if asked.bytes <= self.places[middle] {
                high = middle;
            } else {
                low = middle + 1;
            }
        }
        let present = self.places.get(low) == Some(&asked.bytes);
        let due = refused([0, usize::from(present), low, 0]);
        assert!(self.fault.is_some() || due.answer == self.find(asked).answer, "bisection on a shelf");
        due
    }

    /// "a third writes the file with one record added to a second buffer", which has so many bytes: all records by rising
    /// order. "adding then refuses a record already on the shelf (20, its place)"; "A buffer too short is 12 here too, last of
    /// all."
    pub fn add(&self, asked: Asked, room: usize) -> Due {
        if let Some(answer) = self.refuses(asked) {
            return refused(answer);
        }
        if let Some(place) = self.places.iter().position(|&place| place == asked.bytes) {
            return refused([20, place, 0, 0]);
        }
        if room < self.bytes.len() + RECORD {
            return refused([12, 0, 0, 0]);
        }
        let mut places = self.places.clone();
        places.push(asked.bytes);
        places.sort_unstable();
        let place = places.iter().position(|&place| place == asked.bytes).unwrap();
        Due { answer: [0, place, 0, 0], written: places.concat(), marks: Vec::new() }
    }

    /// "A rescue call goes through the file by 370-byte places and copies to a second buffer each record that can be read and is
    /// greater than the last one copied. A third buffer gets one byte for every place: 0 for kept, 1 for readable but out of
    /// order, else the number with which reading refuses it. The result gives the places kept and the length of a tail of
    /// fewer than 370 bytes."
    pub fn rescued(&self) -> Rescued<'a> {
        let places = self.bytes.chunks_exact(RECORD);
        let tail = places.remainder().len();
        let (mut kept, mut marks) = (Vec::<&[u8]>::new(), Vec::new());
        for place in places {
            let greater = kept.last().is_none_or(|&last| place > last);
            match refusal(place) {
                Some(number) => marks.push(number as u8),
                None if greater => {
                    marks.push(0);
                    kept.push(place);
                }
                None => marks.push(1),
            }
        }
        assert!(self.fault.is_some() || kept == self.places, "a file that already passed comes out unchanged");
        Rescued { file: self.bytes, kept, marks, tail }
    }
}

/// What is wrong with a place, `None` if it can be read and is "greater in byte order than the one before".
fn bad(places: &[&[u8]], place: usize) -> Option<Bad> {
    if let Some(number) = refusal(places[place]) {
        return Some(Bad::Unread(number));
    }
    let before = places[..place].last()?;
    match places[place].cmp(before) {
        std::cmp::Ordering::Less => Some(Bad::Less),
        std::cmp::Ordering::Equal => Some(Bad::Equal),
        std::cmp::Ordering::Greater => None,
    }
}
