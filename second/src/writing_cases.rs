//! Lines that write a message (docs/PACKETS.md, `w` and `s`), for the paper's
//! "The packet" and the refusals of writing: 6, 4 and 5, alone and together.

use crate::packet_cases::{extended, objects_of, Cases, Form, Room, FORMS};
use std::io::{self, Write};

pub fn print_all<W: Write>(cases: &mut Cases<W>) -> io::Result<()> {
    every_header_written(cases)?;
    fields_out_of_range(cases)?;
    what_we_send(cases)
}

/// MessageID, power role, revision, data role, type.
type FieldBytes = [u8; 5];

/// How many values are in each field's range.
const IN_RANGE: [usize; 5] = [8, 2, 3, 2, 32];

/// Values out of each field's range: by one, by much with low bits that would
/// pass, and by as much as can be.
const OUT_OF_RANGE: [[u8; 3]; 5] = [
    [8, 0x10, 0xFF],
    [2, 0x81, 0xFF],
    [3, 0x42, 0xFF],
    [2, 0x80, 0xFF],
    [32, 0x41, 0xFF],
];

fn write_line<W: Write>(
    cases: &mut Cases<W>,
    form: Form,
    fields: FieldBytes,
    objects: &[u8],
    room: Room,
) -> io::Result<()> {
    let extended = match form {
        Form::Plain => 0,
        // Anything but 00 is yes.
        _ => cases.chance.one_of(&[0x01, 0x02, 0x80, 0xFF]),
    };
    let bytes = [&[extended], &fields[..], objects].concat();
    cases.line("w", &bytes, room)
}

/// The fields of every header that can be written; also extended without object.
fn every_header_written<W: Write>(cases: &mut Cases<W>) -> io::Result<()> {
    for header in 0..=u16::MAX {
        let field = |shift: u16, mask: u16| (header >> shift & mask) as u8;
        let fields = [
            field(9, 0b111),
            field(8, 1),
            field(6, 0b11),
            field(5, 1),
            field(0, 31),
        ];
        if fields[2] == 0b11 {
            continue;
        }
        let form = match extended(header) {
            true => Form::ChunkedSet,
            false => Form::Plain,
        };
        let objects = cases.object_bytes(4 * objects_of(header), form);
        write_line(cases, form, fields, &objects, None)?;
    }
    Ok(())
}

/// Every fault with 0 to 40 object bytes, in every form and every room.
fn fields_out_of_range<W: Write>(cases: &mut Cases<W>) -> io::Result<()> {
    for fault in faults() {
        for count in 0..=40 {
            for form in FORMS {
                for room in cases.rooms(2 + count) {
                    let mut fields = IN_RANGE.map(|limit| cases.chance.below(limit) as u8);
                    for &(field, value) in &fault {
                        fields[field] = value;
                    }
                    let objects = cases.object_bytes(count, form);
                    write_line(cases, form, fields, &objects, room)?;
                }
            }
        }
    }
    Ok(())
}

/// No field out of range, each alone, and any two of them.
fn faults() -> Vec<Vec<(usize, u8)>> {
    let mut faults = vec![vec![]];
    for (field, values) in OUT_OF_RANGE.iter().enumerate() {
        faults.extend(values.map(|value| vec![(field, value)]));
        for (other, other_values) in OUT_OF_RANGE.iter().enumerate().skip(field + 1) {
            for &value in &values[..2] {
                for &other_value in &other_values[..2] {
                    faults.push(vec![(field, value), (other, other_value)]);
                }
            }
        }
    }
    faults
}

/// Types and MessageIDs in and out of range, with 0 to 8 objects, and once more in
/// any room, with object bytes that may not be a multiple of 4.
fn what_we_send<W: Write>(cases: &mut Cases<W>) -> io::Result<()> {
    for message_type in 0..=40 {
        for message_id in 0..=9 {
            for count in 0..=8 {
                let fields = [message_type, message_id];
                let objects = cases.chance.bytes(4 * count);
                cases.line("s", &[&fields, &objects[..]].concat(), None)?;
                let more = cases.chance.one_of(&[0, 0, 0, 1, 2, 3]);
                let objects = cases.chance.bytes(4 * count + more);
                let room = (cases.chance.below(65) as u8, cases.chance.below(67) as u8);
                cases.line("s", &[&fields, &objects[..]].concat(), Some(room))?;
            }
        }
    }
    Ok(())
}
