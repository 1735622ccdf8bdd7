//! A night as text, docs/NIGHT.md ("Nights as text"): from lines to the file.

use crate::night_writer::{add_event, add_set_up, TooLong};
use crate::rack::SetUp;
use crate::rack_lines::{begin_with, understand, RackLine};
use crate::step_words::{words_of, Limits};
use std::io::{self, BufRead, Error, ErrorKind, Write};

/// Only what a field holds: its number must fit, and its bytes.
const FIELDS: Limits = Limits {
    digits: usize::MAX,
    port_digits: usize::MAX,
    bytes: usize::MAX,
};

const NOT_UNDERSTOOD: &str = "expected `supply N`, `place SHARE LIMIT BYTES`, `setup`, an event \
    at a port such as `1 attach` or `1 packet 81 00`, a line that begins with #, or an empty one";
const NO_SUCH_PORT: &str = "expected the number of a port from 0 to 255";
const NO_SUPPLY: &str = "expected a `supply` line before it";
const NO_SETUP: &str = "expected a `setup` line behind the set-up that begins here";
const TOO_LONG: &str = "expected no more bytes than a field of the file holds, which is 65535";

/// Nothing is written if a line is wrong; the error names it.
pub fn write_night(mut input: impl BufRead, mut output: impl Write) -> io::Result<()> {
    let mut night = Night::default();
    let mut line = Vec::new();
    while input.read_until(b'\n', &mut line)? > 0 {
        if line.last() == Some(&b'\n') {
            line.pop();
        }
        night.number += 1;
        let taken = night.take(&line);
        taken.map_err(|expected| wrong_line(night.number, expected))?;
        line.clear();
    }
    if let Some((number, _)) = night.in_hand {
        return Err(wrong_line(number, NO_SETUP));
    }
    output.write_all(&night.file)?;
    output.flush()
}

fn wrong_line(number: usize, expected: &str) -> Error {
    Error::new(ErrorKind::InvalidData, format!("line {number}: {expected}"))
}

#[derive(Default)]
struct Night {
    file: Vec<u8>,
    /// Of the line that is read.
    number: usize,
    /// The set-up that is not ended yet, and the number of its first line.
    in_hand: Option<(usize, SetUp)>,
}

impl Night {
    /// Refused with what was expected instead.
    fn take(&mut self, line: &[u8]) -> Result<(), &'static str> {
        let (first, others) = words_of(line);
        if line.first() == Some(&b'#') || (first.is_empty() && others.is_empty()) {
            return Ok(());
        }
        let mut bytes = Vec::new();
        let understood = match begin_with(first) {
            true => understand(first, &others, &FIELDS, &mut bytes),
            false => None,
        };
        match understood.ok_or(NOT_UNDERSTOOD)? {
            RackLine::Supply(supply) => {
                let places = Vec::new();
                self.in_hand = Some((self.number, SetUp { supply, places }));
            }
            RackLine::Place(place) => {
                let (_, in_hand) = self.in_hand.as_mut().ok_or(NO_SUPPLY)?;
                in_hand.places.push(place);
            }
            RackLine::SetUp => {
                let (_, set_up) = self.in_hand.take().ok_or(NO_SUPPLY)?;
                add_set_up(&mut self.file, &set_up).map_err(too_long)?;
            }
            RackLine::At(port, event) => {
                let port = u8::try_from(port).map_err(|_| NO_SUCH_PORT)?;
                add_event(&mut self.file, port, &event).map_err(too_long)?;
            }
        }
        Ok(())
    }
}

fn too_long(_: TooLong) -> &'static str {
    TOO_LONG
}

/// A night by its text.
#[cfg(test)]
pub fn night_of(text: &str) -> Vec<u8> {
    let mut file = Vec::new();
    write_night(text.as_bytes(), &mut file).unwrap();
    file
}

#[cfg(test)]
#[path = "night_lines_tests.rs"]
mod tests;
