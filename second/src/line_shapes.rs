//! Lines by their shape: with many bytes, of a length, with a character in each
//! place, and with a few characters changed.

use crate::chance::Chance;
use crate::step_walk::Walk;

/// Each start with so many bytes behind it.
pub fn with_bytes(counts: &[usize], starts: &[&str]) -> Vec<Vec<u8>> {
    let line = |start: &str, count| [start, &" 01".repeat(count)].concat().into_bytes();
    let each = |&count| starts.iter().map(move |start| line(start, count));
    counts.iter().flat_map(each).collect()
}

/// Each start and end with as many spaces between them as the length wants.
pub fn of_length(lengths: &[usize], parts: &[(&str, [&str; 3])]) -> Vec<Vec<u8>> {
    let mut lines = Vec::new();
    for length in lengths {
        for &(start, ends) in parts {
            for end in ends {
                let filler = " ".repeat(length - start.len() - end.len());
                lines.push([start, filler.as_str(), end].concat().into_bytes());
            }
        }
    }
    lines
}

/// Every character but the line's end.
pub fn characters() -> impl Iterator<Item = u8> {
    (0..=u8::MAX).filter(|&character| character != b'\n')
}

/// The parts of each line, one behind the other.
pub fn walk_all(walk: &mut Walk, lines: &[&[&[u8]]]) {
    for line in lines {
        walk.raw(&line.concat());
    }
}

/// A character is left out, put in or replaced.
pub fn change(line: &mut Vec<u8>, chance: &mut Chance) {
    let place = chance.below(line.len());
    let character = chance.one_of(b"0123456789abcdefABCDEF    \r\tghpy-");
    match chance.below(3) {
        0 => drop(line.remove(place)),
        1 => line.insert(place, character),
        _ => line[place] = character,
    }
}
