//! The packet program of docs/PACKETS.md: one line in, one line out. The rules
//! are the paper's "The packet"; here they are only put into text.

use crate::meaning::{kind, meaning, Kind, Meaning};
use crate::packet::{good_crc, read, what_we_send, write, Fields};
use crate::{hex, lines, refusal};
use std::io::{self, BufRead, Write};

/// Of a line's bytes this many are kept, and no buffer is larger.
const MOST_BYTES: usize = 64;

#[derive(Clone, Copy, PartialEq)]
enum Asked {
    Read,
    Write,
    Send,
}

struct Line {
    asked: Asked,
    bytes: Vec<u8>,
    /// Size and place, where the line gives them.
    room: Option<(usize, usize)>,
}

pub fn answer_all(input: impl BufRead, output: impl Write) -> io::Result<()> {
    lines::answer_all(input, output, answer)
}

fn answer(line: &[u8]) -> String {
    let Some(line) = understand(line) else {
        return "not understood".to_string();
    };
    let bytes = &line.bytes;
    match line.asked {
        Asked::Read => reading(bytes, line.room),
        Asked::Write => {
            let fields = Fields {
                extended: bytes[0] != 0,
                message_id: bytes[1],
                power_role: bytes[2],
                revision: bytes[3],
                data_role: bytes[4],
                message_type: bytes[5],
            };
            writing(&fields, &bytes[6..], line.room)
        }
        Asked::Send => writing(&what_we_send(bytes[0], bytes[1]), &bytes[2..], line.room),
    }
}

fn understand(line: &[u8]) -> Option<Line> {
    let mut parts = line.split(|&character| character == b'@');
    let (asked, text) = asked_of(parts.next()?);
    let room = match parts.next() {
        Some(text) => Some(room_of(text)?),
        None => None,
    };
    if parts.next().is_some() {
        return None;
    }
    let mut bytes = hex::bytes_of(text)?;
    bytes.truncate(MOST_BYTES);
    let fields = match asked {
        Asked::Read => 0,
        Asked::Write => 6,
        Asked::Send => 2,
    };
    (bytes.len() >= fields).then_some(Line { asked, bytes, room })
}

/// What is asked, and the text after the letter that asks it.
fn asked_of(text: &[u8]) -> (Asked, &[u8]) {
    let blanks = text.iter().take_while(|&&c| hex::is_blank(c)).count();
    match text[blanks..].split_first() {
        Some((b'w', rest)) => (Asked::Write, rest),
        Some((b's', rest)) => (Asked::Send, rest),
        _ => (Asked::Read, text),
    }
}

fn room_of(text: &[u8]) -> Option<(usize, usize)> {
    match hex::bytes_of(text)?[..] {
        [size, place] if usize::from(size) <= MOST_BYTES => Some((size.into(), place.into())),
        _ => None,
    }
}

fn reading(packet: &[u8], room: Option<(usize, usize)>) -> String {
    let (fields, objects) = match read(packet) {
        (Ok(fields), objects) => (fields, objects),
        (Err(number), _) => return format!("read: {}", refusal::text_of(number)),
    };
    let kind = kind(fields.extended, objects);
    format!(
        "read: {}, {}; MessageID {}; power role {}; revision {}; data role {}; type {}; \
         objects {}: {} | GoodCRC: {} | {}",
        kind_word(kind),
        meaning_word(meaning(kind, fields.message_type)),
        fields.message_id,
        fields.power_role,
        fields.revision,
        fields.data_role,
        fields.message_type,
        objects.len() / 4,
        hex::text_or_dash(objects),
        hex::text_or_dash(&good_crc(&fields)),
        writing(&fields, objects, room),
    )
}

fn writing(fields: &Fields, objects: &[u8], room: Option<(usize, usize)>) -> String {
    let (size, place) = room.unwrap_or((2 + objects.len(), 0));
    // Byte i holds i, so that a byte that changes shows.
    let mut buffer: Vec<u8> = (0..size).map(|i| i as u8).collect();
    let outcome = match write(fields, objects, &mut buffer, place) {
        Ok(length) => format!("written: {length} bytes"),
        Err(number) => refusal::text_of(number),
    };
    format!("{outcome}; buffer: {}", hex::text_or_dash(&buffer))
}

fn kind_word(kind: Kind) -> &'static str {
    match kind {
        Kind::Control => "control",
        Kind::Data => "data",
        Kind::Extended => "extended",
    }
}

fn meaning_word(meaning: Meaning) -> &'static str {
    match meaning {
        Meaning::GoodCrc => "GoodCRC",
        Meaning::Reply => "reply",
        Meaning::GetSourceCap => "Get_Source_Cap",
        Meaning::SoftReset => "Soft_Reset",
        Meaning::Quiet => "quiet",
        Meaning::Request => "Request",
        Meaning::Unsupported => "unsupported",
    }
}

#[cfg(test)]
#[path = "packet_lines_tests.rs"]
mod tests;
