//! Lines of files of any length, in bounded memory.

use std::io::{self, BufRead, BufReader, ErrorKind, Read};

/// How many bytes of a line are kept. A text has at most 255.
const KEPT: usize = 4096;

/// The lines of a file, one after another. LF ends a line; the last one may lack it.
pub struct Lines<R> {
    reader: BufReader<R>,
    line: Vec<u8>,
    /// How many bytes were read.
    pub bytes: u64,
}

/// A line without its LF, and of a longer one the first [`KEPT`] bytes.
pub struct Line<'a> {
    pub bytes: &'a [u8],
    /// Whether it ends in CR LF. A CR that no LF follows is a space of the notation.
    pub ends_in_cr_lf: bool,
}

impl<'a> Line<'a> {
    /// The line without the CR of a CR LF.
    pub fn without_cr(&self) -> &'a [u8] {
        &self.bytes[..self.bytes.len() - usize::from(self.ends_in_cr_lf)]
    }
}

impl<R: Read> Lines<R> {
    pub fn new(reader: R) -> Self {
        Self {
            reader: BufReader::with_capacity(1 << 16, reader),
            line: Vec::with_capacity(KEPT),
            bytes: 0,
        }
    }

    /// The next line, or `None` at the end.
    pub fn next(&mut self) -> io::Result<Option<Line<'_>>> {
        self.line.clear();
        let mut length = 0;
        loop {
            let bytes = match self.reader.fill_buf() {
                Ok(bytes) => bytes,
                Err(e) if e.kind() == ErrorKind::Interrupted => continue,
                Err(e) => return Err(e),
            };
            if bytes.is_empty() && length == 0 {
                return Ok(None);
            }
            let end = bytes.iter().position(|&byte| byte == b'\n');
            let part = &bytes[..end.unwrap_or(bytes.len())];
            let room = KEPT - self.line.len();
            self.line.extend_from_slice(&part[..part.len().min(room)]);
            let last = bytes.is_empty();
            let used = part.len() + usize::from(end.is_some());
            length += used;
            self.reader.consume(used);
            self.bytes += used as u64;
            if last || end.is_some() {
                // With the LF a whole line has one byte more than is kept of it.
                let whole = length == self.line.len() + 1;
                let bytes = &self.line[..];
                let ends_in_cr_lf = end.is_some() && whole && bytes.ends_with(b"\r");
                return Ok(Some(Line {
                    bytes,
                    ends_in_cr_lf,
                }));
            }
        }
    }
}
