//! Lines to try the packet program with (docs/PACKETS.md). Here those that read a
//! packet, for the paper's "The packet" and the packet refusals of "Refusal numbers".

use crate::chance::Chance;
use crate::{hex, odd_lines, writing_cases};
use std::io::{self, Write};

/// Size and place.
pub type Room = Option<(u8, u8)>;

pub struct Cases<W: Write> {
    pub output: W,
    pub chance: Chance,
}

pub fn print_all(output: impl Write) -> io::Result<()> {
    let chance = Chance::new(1);
    let mut cases = Cases { output, chance };
    every_header(&mut cases)?;
    every_length(&mut cases)?;
    every_room(&mut cases)?;
    large_rooms(&mut cases)?;
    revision_11b_without_room(&mut cases)?;
    writing_cases::print_all(&mut cases)?;
    odd_lines::print_all(&mut cases)?;
    cases.output.flush()
}

#[derive(Clone, Copy, PartialEq)]
pub enum Form {
    Plain,
    ChunkedSet,
    ChunkedClear,
}

pub const FORMS: [Form; 3] = [Form::Plain, Form::ChunkedSet, Form::ChunkedClear];

impl<W: Write> Cases<W> {
    /// One line: the letter that asks (or none), the bytes, and the room if given.
    pub fn line(&mut self, letter: &str, bytes: &[u8], room: Room) -> io::Result<()> {
        let mut words = vec![letter.to_string(), hex::text_of(bytes)];
        if let Some((size, place)) = room {
            words.push(format!("@ {size:02X} {place:02X}"));
        }
        words.retain(|word| !word.is_empty());
        writeln!(self.output, "{}", words.join(" "))
    }

    fn packet(&mut self, header: u16, objects: &[u8], room: Room) -> io::Result<()> {
        let packet = [&header.to_le_bytes(), objects].concat();
        self.line("", &packet, room)
    }

    pub fn object_bytes(&mut self, count: usize, form: Form) -> Vec<u8> {
        let mut objects = self.chance.bytes(count);
        if let Some(byte) = objects.get_mut(1) {
            match form {
                Form::Plain => {}
                Form::ChunkedSet => *byte |= 0x80,
                Form::ChunkedClear => *byte &= 0x7F,
            }
        }
        objects
    }

    fn header(&mut self) -> u16 {
        self.chance.below(0x1_0000) as u16
    }

    /// A header that can be written, given the right objects: revision below 11b.
    fn writable_header(&mut self, count: usize, form: Form) -> u16 {
        let revision = self.chance.below(3) as u16;
        let extended = u16::from(form != Form::Plain);
        self.header() & 0x0F3F | revision << 6 | (count as u16) << 12 | extended << 15
    }

    fn writable_packet(&mut self, count: usize, form: Form, room: Room) -> io::Result<()> {
        let header = self.writable_header(count, form);
        let objects = self.object_bytes(4 * count, form);
        self.packet(header, &objects, room)
    }

    /// Four rooms for a message: its own size, more than enough, one byte too
    /// little, and a place past the end.
    pub fn rooms(&mut self, length: usize) -> [Room; 4] {
        let (before, after) = (self.chance.below(10), self.chance.below(10));
        let place = before as u8;
        let enough = (before + length + after) as u8;
        let short = (before + length - 1) as u8;
        let past = short + 1 + after as u8;
        [
            None,
            Some((enough, place)),
            Some((short, place)),
            Some((short, past)),
        ]
    }
}

pub fn objects_of(header: u16) -> usize {
    usize::from(header >> 12 & 0b111)
}

pub fn extended(header: u16) -> bool {
    header & 0x8000 != 0
}

/// All headers, with as many object bytes as they say.
fn every_header<W: Write>(cases: &mut Cases<W>) -> io::Result<()> {
    for header in 0..=u16::MAX {
        let count = 4 * objects_of(header);
        // Without an object there is no Chunked to set or clear.
        let forms = match (extended(header), count) {
            (true, 1..) => &FORMS[1..],
            _ => &FORMS[..1],
        };
        for &form in forms {
            let objects = cases.object_bytes(count, form);
            cases.packet(header, &objects, None)?;
        }
    }
    Ok(())
}

/// Each length with every object count, so with the right one, one too many and
/// one too few; under 4 and over 30 bytes several refusals apply at once.
fn every_length<W: Write>(cases: &mut Cases<W>) -> io::Result<()> {
    for length in 0..=40 {
        for _ in 0..24 {
            let bytes = cases.chance.bytes(length);
            cases.line("", &bytes, None)?;
        }
        for form in FORMS {
            for extended_and_count in (0..16).chain(0..16) {
                let header = cases.header() & 0x0FFF | extended_and_count << 12;
                let objects = cases.object_bytes(length.saturating_sub(2), form);
                let packet = [&header.to_le_bytes(), &objects[..]].concat();
                cases.line("", &packet[..length], None)?;
            }
        }
    }
    Ok(())
}

fn every_room<W: Write>(cases: &mut Cases<W>) -> io::Result<()> {
    for count in 0..=7 {
        for size in 0..=40 {
            for place in 0..=42 {
                let room = Some((size, place));
                cases.writable_packet(count, Form::Plain, room)?;
                if count > 0 {
                    cases.writable_packet(count, Form::ChunkedSet, room)?;
                }
            }
        }
    }
    Ok(())
}

/// The largest buffers, and places far past their end.
fn large_rooms<W: Write>(cases: &mut Cases<W>) -> io::Result<()> {
    const PLACES: [u8; 13] = [0, 1, 33, 34, 35, 61, 62, 63, 64, 65, 128, 254, 255];
    for count in 0..=7 {
        for size in [0, 30, 63, 64] {
            for place in PLACES {
                cases.writable_packet(count, Form::Plain, Some((size, place)))?;
            }
        }
    }
    Ok(())
}

/// Revision 11b is read, and not written back: 6 goes before 5.
fn revision_11b_without_room<W: Write>(cases: &mut Cases<W>) -> io::Result<()> {
    for count in 0..=7 {
        for form in FORMS {
            for room in cases.rooms(2 + 4 * count) {
                let header = cases.writable_header(count, form) | 0b11 << 6;
                let objects = cases.object_bytes(4 * count, form);
                cases.packet(header, &objects, room)?;
            }
        }
    }
    Ok(())
}

#[cfg(test)]
#[path = "packet_cases_tests.rs"]
mod tests;
