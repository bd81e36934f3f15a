//! The port: the calls of include/lexicon.h, and the buffers that are lent to them. A buffer is filled beforehand with a
//! pattern, stands between guards of the same pattern, and is compared whole afterwards.

use miratope::diagrams::{DIAGRAM, LIMIT};

use crate::{
    dice::Dice,
    figures::{Numbering, RECORD},
};

pub const SQUARE: usize = 81;
pub const GENERATOR: usize = 10;
pub const REFLECTIONS: usize = 729;
pub const NAMES: usize = 36;

#[link(name = "lexicon_c", kind = "static")]
extern "C" {
    fn lexicon_read(
        text: *const u8,
        text_len: usize,
        wish: usize,
        out: *mut u64,
        out_len: usize,
        answer: *mut usize,
    ) -> usize;
    fn lexicon_write_record(
        text: *const u8,
        text_len: usize,
        wish: usize,
        out: *mut u8,
        out_len: usize,
        numbering: *mut usize,
        answer: *mut usize,
    ) -> usize;
    fn lexicon_read_record(bytes: *const u8, len: usize, out: *mut u64, out_len: usize, answer: *mut usize) -> usize;
    fn lexicon_matrix(
        text: *const u8,
        text_len: usize,
        wish: usize,
        out: *mut f64,
        out_len: usize,
        answer: *mut usize,
    ) -> usize;
    fn lexicon_mirrors(
        text: *const u8,
        text_len: usize,
        wish: usize,
        out: *mut f64,
        out_len: usize,
        answer: *mut usize,
    ) -> usize;
    fn lexicon_generator(
        text: *const u8,
        text_len: usize,
        wish: usize,
        out: *mut f64,
        out_len: usize,
        answer: *mut usize,
    ) -> usize;
    fn lexicon_reflections(
        text: *const u8,
        text_len: usize,
        wish: usize,
        out: *mut f64,
        out_len: usize,
        answer: *mut usize,
    ) -> usize;
    fn lexicon_walls(
        text: *const u8,
        text_len: usize,
        wish: usize,
        out: *mut f64,
        out_len: usize,
        answer: *mut usize,
    ) -> usize;
    fn lexicon_wall_generator(
        text: *const u8,
        text_len: usize,
        wish: usize,
        out: *mut f64,
        out_len: usize,
        answer: *mut usize,
    ) -> usize;
    fn lexicon_names(
        text: *const u8,
        text_len: usize,
        wish: usize,
        out: *mut u64,
        out_len: usize,
        answer: *mut usize,
    ) -> usize;
    fn lexicon_family_matrix(letter: u8, size: usize, out: *mut f64, out_len: usize, answer: *mut usize) -> usize;
    fn lexicon_family_mirrors(letter: u8, size: usize, out: *mut f64, out_len: usize, answer: *mut usize) -> usize;
    fn lexicon_family_walls(letter: u8, size: usize, out: *mut f64, out_len: usize, answer: *mut usize) -> usize;
}

/// A call that takes a text and writes doubles.
type Doubles = unsafe extern "C" fn(*const u8, usize, usize, *mut f64, usize, *mut usize) -> usize;

/// A text, and the wish for infinite lengths (ticket K6) that it is read with: 0 is none, any other number is one.
#[derive(Clone, Copy, PartialEq)]
pub struct Asked<'a> {
    pub text: &'a [u8],
    pub wish: usize,
}

/// Numbers that are a wish.
pub const WISHES: [usize; 8] = [1, 1, 2, 255, 256, 1 << 32, 1 << 63, usize::MAX];

/// A text and the wishes with which each of its calls is made; the same is due with all of them.
#[derive(Clone, Copy)]
pub struct Asking<'a> {
    pub text: &'a [u8],
    pub wishes: &'a [usize],
}

impl<'a> Asking<'a> {
    pub fn each(self) -> impl Iterator<Item = Asked<'a>> {
        self.wishes.iter().map(move |&wish| Asked { text: self.text, wish })
    }

    /// For the calls that read a text only to go on from there: all wishes for one text in eight, else the first alone.
    pub fn mostly_first(self, window: usize) -> Self {
        let made = if window >> 32 & 7 == 0 { self.wishes.len() } else { 1 };
        Self { wishes: &self.wishes[..made], ..self }
    }
}

/// A call and what it is asked about. All of them write words or doubles but `Record`, which writes bytes and a numbering.
#[derive(Clone, Copy, PartialEq)]
pub enum Call<'a> {
    Read(Asked<'a>),
    Record(Asked<'a>),
    ReadRecord(&'a [u8]),
    Matrix(Asked<'a>),
    Mirrors(Asked<'a>),
    Generator(Asked<'a>),
    Reflections(Asked<'a>),
    Walls(Asked<'a>),
    WallGenerator(Asked<'a>),
    Names(Asked<'a>),
    FamilyMatrix(u8, usize),
    FamilyMirrors(u8, usize),
    FamilyWalls(u8, usize),
}

impl Call<'_> {
    /// The name in include/lexicon.h, and how many elements the call writes.
    pub fn shape(self) -> (&'static str, usize) {
        match self {
            Self::Read(_) => ("lexicon_read", DIAGRAM),
            Self::Record(_) => ("lexicon_write_record", RECORD),
            Self::ReadRecord(_) => ("lexicon_read_record", DIAGRAM),
            Self::Matrix(_) => ("lexicon_matrix", SQUARE),
            Self::Mirrors(_) => ("lexicon_mirrors", SQUARE),
            Self::Generator(_) => ("lexicon_generator", GENERATOR),
            Self::Reflections(_) => ("lexicon_reflections", REFLECTIONS),
            Self::Walls(_) => ("lexicon_walls", SQUARE),
            Self::WallGenerator(_) => ("lexicon_wall_generator", GENERATOR),
            Self::Names(_) => ("lexicon_names", NAMES),
            Self::FamilyMatrix(..) => ("lexicon_family_matrix", SQUARE),
            Self::FamilyMirrors(..) => ("lexicon_family_mirrors", SQUARE),
            Self::FamilyWalls(..) => ("lexicon_family_walls", SQUARE),
        }
    }
}

/// As many patterns as this, windows of one.
const WINDOWS: usize = 1024;
const GUARD: usize = 8;
/// The most elements that are lent past those written.
pub const SPARE: usize = 8;

/// A buffer to lend, of which `GUARD + len + GUARD` elements are in use.
pub struct Lent<T> {
    pattern: Vec<T>,
    window: usize,
    len: usize,
    at: Vec<T>,
}

impl<T: Copy + PartialEq + Default> Lent<T> {
    pub fn new(most: usize, pattern: impl Fn(u64) -> T) -> Self {
        let mut dice = Dice::new(0, 0);
        let room = GUARD + most + SPARE + GUARD;
        let pattern = (0..WINDOWS + room).map(|_| pattern(dice.next())).collect();
        Self { pattern, window: 0, len: 0, at: vec![T::default(); room] }
    }

    pub fn fill(&mut self, window: usize, len: usize) {
        (self.window, self.len) = (window % WINDOWS, len);
        let used = GUARD + len + GUARD;
        self.at[..used].copy_from_slice(&self.pattern[self.window..self.window + used]);
    }

    /// Null if nothing is lent.
    pub fn pointer(&mut self) -> *mut T {
        if self.len == 0 {
            std::ptr::null_mut()
        } else {
            self.at[GUARD..].as_mut_ptr()
        }
    }

    pub fn lent(&self) -> &[T] {
        &self.at[GUARD..GUARD + self.len]
    }

    /// Whether all but the first elements lent, and the guards, are as they were filled.
    pub fn kept_past(&self, written: usize) -> bool {
        let (used, from) = (GUARD + self.len + GUARD, GUARD + written);
        let pattern = &self.pattern[self.window..self.window + used];
        self.at[..GUARD] == pattern[..GUARD] && self.at[from..used] == pattern[from..]
    }
}

/// What a call must do: its answer, and what it writes, nothing if it refuses.
#[derive(Clone, Copy)]
pub struct Want<'a> {
    pub answer: [usize; 4],
    pub out: &'a [u64],
}

/// The buffers of one thread, and what the last call returned.
pub struct Port {
    words: Lent<u64>,
    bytes: Lent<u8>,
    numbering: Lent<usize>,
    answer: Lent<usize>,
    returned: usize,
}

impl Port {
    pub fn new() -> Self {
        Self {
            words: Lent::new(REFLECTIONS, |word| word),
            bytes: Lent::new(RECORD, |word| word as u8),
            numbering: Lent::new(LIMIT, |word| word as usize),
            answer: Lent::new(4, |word| word as usize),
            returned: 0,
        }
    }

    /// Makes a call and lends it `len` elements; the window chooses the pattern.
    pub fn call(&mut self, call: Call, len: usize, window: usize) {
        self.words.fill(window, if matches!(call, Call::Record(_)) { 0 } else { len });
        self.answer.fill(window, 4);
        let (words, answer) = (self.words.pointer(), self.answer.pointer());
        let doubles = words.cast::<f64>();
        // Every pointer has as many elements behind it as the length beside it says; a double is any 64 bits.
        self.returned = unsafe {
            let of_text =
                |call: Doubles, Asked { text, wish }: Asked| call(input(text), text.len(), wish, doubles, len, answer);
            match call {
                Call::Record(asked) => return self.write_record(asked, len, window),
                Call::Read(Asked { text, wish }) => lexicon_read(input(text), text.len(), wish, words, len, answer),
                Call::ReadRecord(bytes) => lexicon_read_record(input(bytes), bytes.len(), words, len, answer),
                Call::Matrix(asked) => of_text(lexicon_matrix, asked),
                Call::Mirrors(asked) => of_text(lexicon_mirrors, asked),
                Call::Generator(asked) => of_text(lexicon_generator, asked),
                Call::Reflections(asked) => of_text(lexicon_reflections, asked),
                Call::Walls(asked) => of_text(lexicon_walls, asked),
                Call::WallGenerator(asked) => of_text(lexicon_wall_generator, asked),
                Call::Names(Asked { text, wish }) => lexicon_names(input(text), text.len(), wish, words, len, answer),
                Call::FamilyMatrix(letter, size) => lexicon_family_matrix(letter, size, doubles, len, answer),
                Call::FamilyMirrors(letter, size) => lexicon_family_mirrors(letter, size, doubles, len, answer),
                Call::FamilyWalls(letter, size) => lexicon_family_walls(letter, size, doubles, len, answer),
            }
        };
    }

    fn write_record(&mut self, Asked { text, wish }: Asked, len: usize, window: usize) {
        self.bytes.fill(window, len);
        self.numbering.fill(window, LIMIT);
        let (bytes, numbering, answer) = (self.bytes.pointer(), self.numbering.pointer(), self.answer.pointer());
        // As in `call`.
        self.returned = unsafe { lexicon_write_record(input(text), text.len(), wish, bytes, len, numbering, answer) };
    }

    /// Makes a call, any but `Record`, with a buffer that is long enough, and one call in eight also with one that is too
    /// short, which is 12 after all other refusals.
    pub fn check(&mut self, call: Call, want: Want, window: usize) -> Result<(), String> {
        let (name, needs) = call.shape();
        self.call(call, needs + window % SPARE, window);
        if let Some(what) = self.departs(&want) {
            return Err(format!("{name}: {what}"));
        }
        let Some(len) = short(needs, window) else { return Ok(()) };
        let answer = if want.answer[0] == 0 { [12, 0, 0, 0] } else { want.answer };
        self.call(call, len, window);
        let what = self.departs(&Want { answer, out: &[] });
        what.map_or(Ok(()), |what| Err(format!("{name}, {len} elements lent: {what}")))
    }

    /// The record that the last call wrote, and its numbering.
    pub fn record(&self) -> ([u8; RECORD], Numbering) {
        let bytes = self.bytes.lent()[..RECORD].try_into().unwrap();
        (bytes, self.numbering.lent().try_into().unwrap())
    }

    /// Makes a call, any but `Record`, with a buffer that is long enough: what it answered, and what it wrote, nothing if it
    /// refused. An error says how it misbehaved.
    pub fn numbers(&mut self, call: Call, window: usize) -> Result<([usize; 4], &[u64]), String> {
        let (name, needs) = call.shape();
        self.call(call, needs + window % SPARE, window);
        let answer = self.answer.lent().try_into().unwrap();
        let out = if self.returned == 0 { &self.words.lent()[..needs] } else { &[] };
        let what = self.departs(&Want { answer, out });
        what.map_or(Ok((answer, out)), |what| Err(format!("{name}: {what}")))
    }

    /// Likewise a call that writes doubles about a text that reading accepts: what it wrote, or the column of refusal 15.
    pub fn doubles(&mut self, call: Call, nodes: usize, window: usize) -> Result<Result<Vec<f64>, usize>, String> {
        match self.numbers(call, window)? {
            ([0, told, 0, 0], words) if told == nodes => {
                Ok(Ok(words.iter().map(|&word| f64::from_bits(word)).collect()))
            }
            ([15, column, 0, 0], _) if column < nodes => Ok(Err(column)),
            (answer, _) => Err(format!("{}: answer {answer:?} for {nodes} nodes", call.shape().0)),
        }
    }

    /// How the last call, any but `Record`, departs from what it must do; `None` if it doesn't.
    pub fn departs(&self, want: &Want) -> Option<String> {
        let written = want.out.len();
        let out = &self.words.lent()[..written.min(self.words.len)];
        if self.answered(want) && same_words(out, want.out) && self.words.kept_past(written) {
            return None;
        }
        let place = out.iter().zip(want.out).position(|(ours, wanted)| ours != wanted);
        let at = place.map_or(String::new(), |i| format!("; at {i}: {:x}, {:x} is due", out[i], want.out[i]));
        Some(self.answers(want) + &at + kept(self.words.kept_past(written)))
    }

    /// Likewise of `Record`: whether its answer is this, and bytes and numbering are written or kept as it says.
    pub fn record_departs(&self, answer: [usize; 4]) -> Option<String> {
        let (bytes, places) = if answer[0] == 0 { (RECORD, LIMIT) } else { (0, 0) };
        let want = Want { answer, out: &[] };
        let all_kept = self.bytes.kept_past(bytes) && self.numbering.kept_past(places);
        if self.answered(&want) && all_kept {
            return None;
        }
        Some(self.answers(&want) + kept(all_kept))
    }

    fn answered(&self, want: &Want) -> bool {
        self.returned == want.answer[0] && self.answer.lent() == want.answer && self.answer.kept_past(4)
    }

    fn answers(&self, want: &Want) -> String {
        format!("returned {}, answer {:?}, {:?} is due", self.returned, self.answer.lent(), want.answer)
    }
}

pub fn kept(all: bool) -> &'static str {
    if all {
        ""
    } else {
        "; an element is changed that should be kept"
    }
}

/// For one window in eight a length that is too short: mostly by one, else by any number, of which 0 gives a null pointer.
pub fn short(needs: usize, window: usize) -> Option<usize> {
    let (share, rest) = (window / SPARE % 8, window / SPARE / 8);
    match (share, rest % 4) {
        (0, 0) => Some(rest / 4 % needs),
        (0, _) => Some(needs - 1),
        _ => None,
    }
}

/// The bits of doubles.
pub fn bits(doubles: &[f64]) -> &[u64] {
    // Both have 64 bits and one alignment.
    unsafe { std::slice::from_raw_parts(doubles.as_ptr().cast(), doubles.len()) }
}

/// An empty input has a null pointer.
pub fn input(bytes: &[u8]) -> *const u8 {
    if bytes.is_empty() {
        std::ptr::null()
    } else {
        bytes.as_ptr()
    }
}

/// Bit for bit, but any nan is any nan.
fn same_words(ours: &[u64], wanted: &[u64]) -> bool {
    let nan = |bits: u64| f64::from_bits(bits).is_nan();
    ours == wanted || ours.len() == wanted.len() && ours.iter().zip(wanted).all(|(&a, &b)| a == b || nan(a) && nan(b))
}
