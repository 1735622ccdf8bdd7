//! A night read in pieces, docs/NIGHT.md: field by field, up to the file's end or
//! to the first field that cannot be read ("Cut and damaged files").

use crate::night_fields::{record_of, Damage, Record};
use std::io::{self, ErrorKind, Read};

const PIECE: usize = 64 * 1024;

/// The tag and the length.
const HEAD: usize = 3;
const MOST_FIELD: usize = HEAD + u16::MAX as usize;

/// How the reading ended; a place is the number of bytes before the field.
#[derive(Clone, Copy, Debug, PartialEq, Eq)]
pub enum End {
    Whole,
    Cut(u64),
    Damaged(u64, Damage),
}

impl End {
    /// In the words of docs/REPLAY.md, if there is anything to say.
    pub fn words(self) -> Option<String> {
        let (place, what) = match self {
            End::Whole => return None,
            End::Cut(place) => return Some(format!("the night is cut at byte {place}")),
            End::Damaged(place, Damage::UnknownTag) => (place, "an unknown tag"),
            End::Damaged(place, Damage::WrongLength) => (place, "a wrong length"),
            End::Damaged(place, Damage::WrongLayout) => {
                (place, "a set-up that is not laid out as it must be")
            }
        };
        Some(format!("the night is damaged at byte {place}: {what}"))
    }
}

pub struct NightReader<R> {
    input: R,
    /// Has room for a piece behind a field that is not whole yet.
    buffer: Vec<u8>,
    /// Between these two lies what was read and not yet handed out.
    start: usize,
    end: usize,
    /// How many bytes of the file lie before the start.
    place: u64,
}

impl<R: Read> NightReader<R> {
    pub fn new(input: R) -> NightReader<R> {
        NightReader {
            input,
            buffer: vec![0; MOST_FIELD + PIECE],
            start: 0,
            end: 0,
            place: 0,
        }
    }

    /// The next record, which borrows its bytes, or how the night ended.
    pub fn next(&mut self) -> io::Result<Result<Record<'_>, End>> {
        if !self.has(HEAD)? {
            let nothing_left = self.start == self.end;
            return Ok(Err(match nothing_left {
                true => End::Whole,
                false => End::Cut(self.place),
            }));
        }
        let head = &self.buffer[self.start..self.start + HEAD];
        let (tag, length) = (head[0], u16::from_le_bytes([head[1], head[2]]));
        let whole = HEAD + usize::from(length);
        if !self.has(whole)? {
            return Ok(Err(End::Cut(self.place)));
        }
        let value = &self.buffer[self.start + HEAD..self.start + whole];
        let record = record_of(tag, value).map_err(|damage| End::Damaged(self.place, damage));
        if record.is_ok() {
            self.start += whole;
            self.place += whole as u64;
        }
        Ok(record)
    }

    /// Reads on until so many bytes lie there; false where the file ends before.
    fn has(&mut self, count: usize) -> io::Result<bool> {
        while self.end - self.start < count {
            if !self.read_piece()? {
                return Ok(false);
            }
        }
        Ok(true)
    }

    fn read_piece(&mut self) -> io::Result<bool> {
        self.buffer.copy_within(self.start..self.end, 0);
        self.end -= self.start;
        self.start = 0;
        let room = &mut self.buffer[self.end..self.end + PIECE];
        let count = loop {
            match self.input.read(room) {
                Err(error) if error.kind() == ErrorKind::Interrupted => {}
                count => break count?,
            }
        };
        self.end += count;
        Ok(count > 0)
    }
}

#[cfg(test)]
#[path = "night_reader_tests.rs"]
mod tests;
