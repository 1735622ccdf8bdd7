//! A night as text, docs/NIGHT.md ("Nights as text"): from the file to lines.

use crate::night_fields::{bytes_of, Record};
use crate::night_reader::NightReader;
use crate::rack::SetUp;
use crate::step_text::{place_line, with_bytes};
use crate::step_words::word_of;
use std::io::{self, Read, Write};

pub fn print_text(input: impl Read, mut output: impl Write) -> io::Result<()> {
    let mut reader = NightReader::new(input);
    let end = loop {
        match reader.next()? {
            Ok(Record::SetUp(set_up)) => print_set_up(&set_up, &mut output)?,
            Ok(Record::Event(port, event)) => {
                let line = with_bytes(word_of(&event), bytes_of(&event));
                writeln!(output, "{port} {line}")?;
            }
            Err(end) => break end,
        }
    };
    if let Some(words) = end.words() {
        writeln!(output, "# {words}")?;
    }
    output.flush()
}

fn print_set_up(set_up: &SetUp, output: &mut impl Write) -> io::Result<()> {
    writeln!(output, "supply {}", set_up.supply)?;
    for place in &set_up.places {
        writeln!(output, "{}", place_line(place))?;
    }
    writeln!(output, "setup")
}

#[cfg(test)]
#[path = "night_text_tests.rs"]
mod tests;
