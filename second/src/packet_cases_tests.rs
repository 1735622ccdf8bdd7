//! That the lines really cover what they are for; a comparison shows nothing
//! where no line goes.

use super::*;
use crate::packet::read;
use crate::packet_lines::answer_all;
use std::collections::{BTreeMap, BTreeSet};
use std::sync::OnceLock;

/// Made once, for they are many.
fn all_lines() -> &'static [u8] {
    static LINES: OnceLock<Vec<u8>> = OnceLock::new();
    LINES.get_or_init(|| {
        let mut lines = Vec::new();
        print_all(&mut lines).unwrap();
        lines
    })
}

fn each_line() -> impl Iterator<Item = &'static [u8]> {
    all_lines().split(|&character| character == b'\n')
}

#[test]
fn every_answer_turns_up() {
    let mut output = Vec::new();
    answer_all(all_lines(), &mut output).unwrap();
    let output = String::from_utf8(output).unwrap();
    let mut counts = BTreeMap::new();
    for line in output.lines() {
        let start = line.split(',').next().unwrap_or(line);
        *counts.entry(start).or_insert(0) += 1;
        // How a packet that was read fared in being written back.
        let end = line.find("| refused ").map(|at| &line[at..at + 11]);
        *counts.entry(end.unwrap_or("")).or_insert(0) += 1;
    }
    let expected = [
        "read: control",
        "read: data",
        "read: extended",
        "read: refused 1",
        "read: refused 2",
        "read: refused 3",
        "read: refused 4",
        "refused 4",
        "refused 5",
        "refused 6",
        "| refused 5",
        "| refused 6",
        "not understood",
    ];
    for start in expected {
        assert!(counts.get(start) > Some(&100), "{start}");
    }
    // What reading lets pass has its Chunked set.
    assert_eq!(counts.get("| refused 4"), None);
}

#[test]
fn every_header_has_its_line() {
    let mut seen = vec![false; 0x1_0000];
    for line in each_line() {
        if let Some([low, high, objects @ ..]) = hex::bytes_of(line).as_deref() {
            let header = u16::from_le_bytes([*low, *high]);
            seen[usize::from(header)] |= objects.len() == 4 * objects_of(header);
        }
    }
    assert_eq!(seen.iter().position(|seen| !seen), None);
}

/// Often, and with every object count, plain and extended, and with Chunked set and
/// clear, as far as the packet has bytes for them.
#[test]
fn every_length_has_its_lines() {
    let mut counts = BTreeMap::new();
    for packet in each_line().filter_map(hex::bytes_of) {
        let top = |place, shift: u32| packet.get::<usize>(place).map_or(0, |byte| byte >> shift);
        let kind = (packet.len(), top(1, 4), top(3, 7));
        *counts.entry(kind).or_insert(0) += 1;
    }
    for (length, kinds) in (0..=40).zip([1, 1, 16, 16].into_iter().chain([32; 37])) {
        let found = counts.range((length, 0, 0)..=(length, 15, 1));
        assert_eq!(found.clone().count(), kinds, "{length}");
        let lines: usize = found.map(|(_, count)| count).sum();
        assert!(lines >= 24 + 96, "{length}: {lines}");
    }
}

/// Every place in and past buffers of every size, with all fifteen packets (seven
/// objects at most, plain and extended) for which nothing but the room decides.
#[test]
fn every_room_has_its_lines() {
    let mut seen = BTreeSet::new();
    for line in each_line() {
        let parts = line.split(|&character| character == b'@');
        let parts: Option<Vec<_>> = parts.map(hex::bytes_of).collect();
        let Some([packet, room]) = parts.as_deref() else {
            continue;
        };
        match (read(packet), &room[..]) {
            ((Ok(fields), objects), &[size, place]) if fields.revision != 0b11 => {
                seen.insert((size, place, objects.len(), fields.extended))
            }
            _ => continue,
        };
    }
    let rooms = (0..=40).flat_map(|size| (0..=42).map(move |place| (size, place, 15)));
    let large = [0, 34, 62, 65, 255].map(|place| (64, place, 8));
    for (size, place, packets) in rooms.chain(large) {
        let found = seen.range((size, place, 0, false)..=(size, place, 28, true));
        assert_eq!(found.count(), packets, "{size} {place}");
    }
}

#[test]
fn the_last_line_has_no_end() {
    assert_ne!(all_lines().last(), Some(&b'\n'));
}
