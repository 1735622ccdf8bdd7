//! The paper's night-desk examples 1 to 6, the order of the refusals, and what
//! "The packet" says of reading back and writing back.

use super::*;

const FIVE_VOLT: [u8; 4] = [0x2C, 0x91, 0x01, 0x00];
/// The top bit of its second byte is Chunked.
const CHUNKED_SET: [u8; 4] = [0x02, 0x80, 0x00, 0x00];
const CHUNKED_CLEAR: [u8; 4] = [0x02, 0x7F, 0xFF, 0xFF];

fn refusal(packet: &[u8]) -> u8 {
    let (fields, objects) = read(packet);
    assert!(objects.is_empty());
    fields.expect_err("this packet is to be refused")
}

/// A packet of this length with this header; all further bytes alike.
fn filled(header: u16, filler: u8, length: usize) -> Vec<u8> {
    let mut packet = vec![filler; length];
    packet[..2].copy_from_slice(&header.to_le_bytes());
    packet
}

fn written(fields: &Fields, objects: &[u8]) -> Vec<u8> {
    let mut buffer = vec![0; 2 + objects.len()];
    assert_eq!(write(fields, objects, &mut buffer, 0), Ok(buffer.len()));
    buffer
}

#[test]
fn night_desk_1_header_01a1h_is_our_good_crc_0() {
    assert_eq!(0x01A1u16.to_le_bytes(), [0xA1, 0x01]);
    assert_eq!(written(&what_we_send(1, 0), &[]), [0xA1, 0x01]);
    let (fields, objects) = read(&[0xA1, 0x01]);
    assert_eq!((fields, objects), (Ok(what_we_send(1, 0)), &[][..]));
    let request = read(&[0x82, 0x10, 0x2C, 0xB1, 0x04, 0x20]).0.unwrap();
    assert_eq!(good_crc(&request), [0xA1, 0x01]);
}

#[test]
fn night_desk_2_our_source_capabilities_0() {
    let expected = [0xA1, 0x11, 0x2C, 0x91, 0x01, 0x00];
    assert_eq!(written(&what_we_send(1, 0), &FIVE_VOLT), expected);
}

#[test]
fn night_desk_3_a_request_0() {
    let packet = [0x82, 0x10, 0x2C, 0xB1, 0x04, 0x20];
    let request = Fields {
        extended: false,
        message_id: 0,
        power_role: 0,
        revision: 0b10,
        data_role: 0,
        message_type: 2,
    };
    let (fields, objects) = read(&packet);
    assert_eq!((fields, objects), (Ok(request), &packet[2..]));
}

#[test]
fn night_desk_4_to_6_refusals() {
    assert_eq!(refusal(&[0x82]), 1);
    assert_eq!(refusal(&filled(0x7082, 0, 31)), 2);
    assert_eq!(refusal(&[0x82, 0x10]), 3);
}

#[test]
fn every_field_lies_where_table_6_1_puts_it() {
    // 1 001 110 1 01 0 10111, from Extended down to the type
    let header = 0b1001_1101_0101_0111u16;
    let packet = [&header.to_le_bytes(), &CHUNKED_SET[..]].concat();
    let fields = Fields {
        extended: true,
        message_id: 0b110,
        power_role: 1,
        revision: 0b01,
        data_role: 0,
        message_type: 0b10111,
    };
    assert_eq!(read(&packet).0, Ok(fields));
    assert_eq!(written(&fields, &CHUNKED_SET), packet);
}

#[test]
fn object_bytes_are_that_part_of_the_packet_itself() {
    let packet = filled(0x7001, 0x5A, 30);
    let (_, objects) = read(&packet);
    assert_eq!(objects.as_ptr_range(), packet[2..].as_ptr_range());
}

#[test]
fn reading_tries_1_2_3_4_3() {
    assert_eq!(refusal(&[]), 1);
    assert_eq!(refusal(&[0xFF]), 1);
    // over 30 and a wrong length and Chunked clear
    assert_eq!(refusal(&filled(0x8000, 0, 31)), 2);
    // extended under 4, though a length of 2 is right for no objects
    assert_eq!(refusal(&filled(0x8000, 0, 2)), 3);
    assert_eq!(refusal(&filled(0x8000, 0xFF, 3)), 3);
    // Chunked clear and a wrong length: 4 goes first, from 4 bytes on
    assert_eq!(refusal(&filled(0x8000, 0, 4)), 4);
    assert_eq!(refusal(&filled(0x9000, 0, 30)), 4);
    assert_eq!(refusal(&filled(0x9000, 0, 6)), 4);
    // Chunked set and a wrong length
    assert_eq!(refusal(&filled(0x8000, 0xFF, 4)), 3);
    assert_eq!(refusal(&filled(0x9000, 0xFF, 10)), 3);
    // not extended: nothing of Chunked counts
    assert_eq!(refusal(&filled(0x1000, 0, 10)), 3);
    assert!(read(&filled(0x1000, 0, 6)).0.is_ok());
}

/// The refusal of a writing that has all the named faults at once.
fn faulty(range: bool, chunked: bool, room: bool) -> Result<usize, u8> {
    let fields = Fields {
        extended: true,
        ..what_we_send(if range { 32 } else { 31 }, 7)
    };
    let objects = if chunked { CHUNKED_CLEAR } else { CHUNKED_SET };
    let size = if room { 5 } else { 6 };
    let mut buffer = [0xEE; 6];
    let outcome = write(&fields, &objects, &mut buffer[..size], 0);
    assert_eq!(outcome.is_err(), buffer == [0xEE; 6]);
    outcome
}

#[test]
fn writing_tries_6_4_5() {
    assert_eq!(faulty(true, true, true), Err(6));
    assert_eq!(faulty(true, true, false), Err(6));
    assert_eq!(faulty(true, false, true), Err(6));
    assert_eq!(faulty(true, false, false), Err(6));
    assert_eq!(faulty(false, true, true), Err(4));
    assert_eq!(faulty(false, true, false), Err(4));
    assert_eq!(faulty(false, false, true), Err(5));
    assert_eq!(faulty(false, false, false), Ok(6));
}

#[test]
fn writing_refuses_6_just_past_each_range() {
    // MessageID, power role, revision, data role, type
    let largest = [7, 1, 2, 1, 31];
    let outcome = |values: [u8; 5], count: usize| {
        let fields = Fields {
            extended: false,
            message_id: values[0],
            power_role: values[1],
            revision: values[2],
            data_role: values[3],
            message_type: values[4],
        };
        write(&fields, &[0; 64][..count], &mut [0; 66], 0)
    };
    assert_eq!(outcome(largest, 28), Ok(30));
    for field in 0..5 {
        for value in largest[field] + 1..=u8::MAX {
            let mut values = largest;
            values[field] = value;
            assert_eq!(outcome(values, 28), Err(6), "{values:?}");
        }
    }
    for count in [1, 2, 3, 5, 27, 29, 32] {
        assert_eq!(outcome(largest, count), Err(6), "{count} object bytes");
    }
}

#[test]
fn extended_without_object_is_read_as_3_and_written_as_4() {
    let fields = Fields {
        extended: true,
        ..what_we_send(1, 0)
    };
    assert_eq!(write(&fields, &[], &mut [0; 2], 0), Err(4));
    assert_eq!(refusal(&[0xA1, 0x81]), 3);
}

#[test]
fn writing_keeps_to_its_place_in_the_buffer() {
    let fields = what_we_send(1, 0);
    let message = [0xA1, 0x11, 0x2C, 0x91, 0x01, 0x00];
    for size in 0..=12 {
        for place in (0..=14).chain([usize::MAX]) {
            let mut buffer = vec![0xEE; size];
            let mut expected = buffer.clone();
            let fits = place <= size && size - place >= 6;
            if fits {
                expected[place..place + 6].copy_from_slice(&message);
            }
            let outcome = write(&fields, &FIVE_VOLT, &mut buffer, place);
            assert_eq!(outcome, if fits { Ok(6) } else { Err(5) });
            assert_eq!(buffer, expected, "size {size}, place {place}");
        }
    }
}

#[test]
fn what_was_read_writes_back_unless_revision_11b() {
    for header in 0..=u16::MAX {
        let length = 2 + 4 * usize::from(header >> 12 & 7);
        let packet = filled(header, 0xC3, length);
        let (Ok(fields), objects) = read(&packet) else {
            assert_eq!(
                (header >> 12, length),
                (8, 2),
                "only extended without object"
            );
            continue;
        };
        let mut buffer = vec![0; length];
        let outcome = write(&fields, objects, &mut buffer, 0);
        if header >> 6 & 3 == 3 {
            assert_eq!(outcome, Err(6));
        } else {
            assert_eq!((outcome, buffer), (Ok(length), packet));
        }
    }
}

#[test]
fn good_crc_repeats_the_message_id_and_01b_only() {
    for message_id in 0..8 {
        for (revision, low) in [(0, 0xA1), (1, 0x61), (2, 0xA1), (3, 0xA1)] {
            let heard = Fields {
                extended: true,
                message_id,
                power_role: 0,
                revision,
                data_role: 0,
                message_type: 13,
            };
            assert_eq!(good_crc(&heard), [low, 0x01 | message_id << 1]);
        }
    }
}
