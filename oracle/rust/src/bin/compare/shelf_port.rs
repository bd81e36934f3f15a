//! The port's calls on shelf files (tickets K1 and K12), and the buffers that are lent to them, between guards as in port.rs.

use crate::{
    figures::RECORD,
    port::{input, kept, Lent},
};

// port.rs says what is linked.
extern "C" {
    fn lexicon_shelf_check(file: *const u8, len: usize, answer: *mut usize) -> usize;
    fn lexicon_shelf_find(file: *const u8, len: usize, bytes: *const u8, bytes_len: usize, answer: *mut usize)
        -> usize;
    fn lexicon_shelf_bisect(
        file: *const u8,
        len: usize,
        bytes: *const u8,
        bytes_len: usize,
        answer: *mut usize,
    ) -> usize;
    fn lexicon_shelf_add(
        file: *const u8,
        len: usize,
        bytes: *const u8,
        bytes_len: usize,
        out: *mut u8,
        out_len: usize,
        answer: *mut usize,
    ) -> usize;
    fn lexicon_shelf_rescue(
        file: *const u8,
        len: usize,
        out: *mut u8,
        out_len: usize,
        marks: *mut u8,
        marks_len: usize,
        answer: *mut usize,
    ) -> usize;
}

/// The most bytes that are lent for a file, and for marks.
const MOST: usize = 64 * RECORD;
const MOST_MARKS: usize = 64 + RECORD;

/// How many bytes are lent for a file, and for marks.
#[derive(Clone, Copy, Debug)]
pub struct Rooms {
    pub out: usize,
    pub marks: usize,
}

/// A call on a file, and the bytes that it is asked about.
#[derive(Clone, Copy, Debug)]
pub enum Call<'a> {
    Check,
    Find(&'a [u8]),
    Bisect(&'a [u8]),
    /// With so many bytes lent.
    Add(&'a [u8], usize),
    Rescue(Rooms),
}

impl Call<'_> {
    fn rooms(self) -> Rooms {
        match self {
            Self::Check | Self::Find(_) | Self::Bisect(_) => Rooms { out: 0, marks: 0 },
            Self::Add(_, out) => Rooms { out, marks: 0 },
            Self::Rescue(rooms) => rooms,
        }
    }

    fn name(self) -> String {
        match self {
            Self::Check => "lexicon_shelf_check".into(),
            Self::Find(_) => "lexicon_shelf_find".into(),
            Self::Bisect(_) => "lexicon_shelf_bisect".into(),
            Self::Add(_, len) => format!("lexicon_shelf_add, {len} bytes lent"),
            Self::Rescue(Rooms { out, marks }) => format!("lexicon_shelf_rescue, {out} and {marks} bytes lent"),
        }
    }
}

/// What a call must do: its answer, and the bytes and marks that it writes, none if it refuses.
pub struct Due {
    pub answer: [usize; 4],
    pub written: Vec<u8>,
    pub marks: Vec<u8>,
}

/// The buffers of one thread, and what the last call returned.
pub struct ShelfPort {
    out: Lent<u8>,
    marks: Lent<u8>,
    answer: Lent<usize>,
    returned: usize,
}

impl ShelfPort {
    pub fn new() -> Self {
        Self {
            out: Lent::new(MOST, |word| word as u8),
            marks: Lent::new(MOST_MARKS, |word| word as u8),
            answer: Lent::new(4, |word| word as usize),
            returned: 0,
        }
    }

    /// Makes a call and compares what it returned, its answer, and every byte of the buffers; the window chooses the pattern
    /// that was there before.
    pub fn check(&mut self, file: &[u8], call: Call, due: &Due, window: usize) -> Result<(), String> {
        self.call(file, call, window);
        self.departs(due).map_or(Ok(()), |what| Err(format!("{}: {what}", call.name())))
    }

    fn call(&mut self, file: &[u8], call: Call, window: usize) {
        let rooms = call.rooms();
        self.out.fill(window, rooms.out);
        self.marks.fill(window, rooms.marks);
        self.answer.fill(window, 4);
        let (at, len) = (input(file), file.len());
        let (out, marks, answer) = (self.out.pointer(), self.marks.pointer(), self.answer.pointer());
        // Every pointer has as many elements behind it as the length beside it says.
        self.returned = unsafe {
            match call {
                Call::Check => lexicon_shelf_check(at, len, answer),
                Call::Find(bytes) => lexicon_shelf_find(at, len, input(bytes), bytes.len(), answer),
                Call::Bisect(bytes) => lexicon_shelf_bisect(at, len, input(bytes), bytes.len(), answer),
                Call::Add(bytes, room) => lexicon_shelf_add(at, len, input(bytes), bytes.len(), out, room, answer),
                Call::Rescue(_) => lexicon_shelf_rescue(at, len, out, rooms.out, marks, rooms.marks, answer),
            }
        };
    }

    fn departs(&self, due: &Due) -> Option<String> {
        let answered = self.returned == due.answer[0] && self.answer.lent() == due.answer && self.answer.kept_past(4);
        let faults = [buffer_departs("byte", &self.out, &due.written), buffer_departs("mark", &self.marks, &due.marks)];
        if answered && faults.iter().all(Option::is_none) {
            return None;
        }
        let answers = format!("returned {}, answer {:?}, {:?} is due", self.returned, self.answer.lent(), due.answer);
        Some(faults.into_iter().flatten().fold(answers, |told, fault| told + &fault))
    }
}

/// How a buffer departs from beginning with these bytes and being kept past them; `None` if it doesn't.
fn buffer_departs(element: &str, buffer: &Lent<u8>, due: &[u8]) -> Option<String> {
    let written = &buffer.lent()[..due.len()];
    let all_kept = buffer.kept_past(due.len());
    if written == due && all_kept {
        return None;
    }
    let place = written.iter().zip(due).position(|(ours, wanted)| ours != wanted);
    let at = place.map_or(String::new(), |i| format!("; at {element} {i}: {}, {} is due", written[i], due[i]));
    Some(at + kept(all_kept))
}
