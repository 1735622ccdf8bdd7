//! That the nights really have what they are for.

use super::*;
use crate::night_fields::{Damage, Record};
use crate::night_reader::{End, NightReader};
use crate::rack::Rack;
use crate::replay::replay;
use std::collections::{BTreeMap, BTreeSet};
use std::sync::OnceLock;

/// Made once, for they are many.
fn all_nights() -> &'static [u8] {
    static NIGHTS: OnceLock<Vec<u8>> = OnceLock::new();
    NIGHTS.get_or_init(|| {
        let mut file = Vec::new();
        print_all(&mut file).unwrap();
        file
    })
}

fn replayed() -> &'static str {
    static LINES: OnceLock<String> = OnceLock::new();
    LINES.get_or_init(|| {
        let mut output = Vec::new();
        replay(all_nights(), &mut output).unwrap();
        String::from_utf8(output).unwrap()
    })
}

#[test]
fn many_events_in_racks_of_every_size_and_a_damaged_end() {
    let mut reader = NightReader::new(all_nights());
    let (mut events, mut bad_set_ups) = (0, 0);
    let mut sizes: BTreeMap<usize, usize> = BTreeMap::new();
    let end = loop {
        match reader.next().unwrap() {
            Ok(Record::Event(..)) => events += 1,
            Ok(Record::SetUp(set_up)) => match Rack::set_up(&set_up) {
                Ok(rack) => *sizes.entry(rack.bays.len()).or_default() += 1,
                Err(_) => bad_set_ups += 1,
            },
            Err(end) => break end,
        }
    };
    assert!((200_000..=300_000).contains(&events), "{events}");
    assert!(bad_set_ups > 100, "{bad_set_ups}");
    // a night by chance from each seed, and set-ups at their bounds
    assert!(sizes.len() == 32 && sizes.values().all(|&count| count >= 5));
    let End::Damaged(place, Damage::WrongLength) = end else {
        panic!("{end:?}");
    };
    // and what stands behind it is not too little to be seen
    assert!(all_nights().len() > place as usize + 100);
}

/// How many bytes lie before a piece's end, wherever these bytes stand in the nights.
fn split(bytes: &[u8]) -> BTreeSet<usize> {
    let nights = all_nights();
    let starts =
        (0..nights.len() - bytes.len()).filter(|&start| nights[start..].starts_with(bytes));
    starts
        .map(|start| start.next_multiple_of(65_536) - start)
        .collect()
}

/// Each byte of the story is the first of a piece once.
#[test]
fn every_place_of_the_pieces() {
    let story = night_pieces::story();
    let split = split(&story);
    assert!((0..=story.len()).all(|place| split.contains(&place)));
}

/// Up to its last byte, and just behind it.
#[test]
fn pieces_end_within_the_largest_set_up() {
    let largest = night_pieces::largest_set_up();
    assert_eq!(largest.len(), 3 + 32 * (20 + 7 * 4) + 7);
    let split = split(&largest);
    for place in night_pieces::places_of_the_largest() {
        assert!(place <= largest.len() && split.contains(&place), "{place}");
    }
    assert!(split.contains(&(largest.len() - 1)));
}

const ANSWERS: &[(&str, usize)] = &[
    ("| port 1 | packet 82 12 2C B1 04 20 | GoodCRC A1 03; transmit A3 07 | Accepting\n", 1),
    ("| port 1 | packet 82 12 2C B1 04 20 | GoodCRC A1 03 | Accepting\n", 1),
    // 36,000, 36,180 and 30,000 at port 3 of example 8
    ("| port 3 | packet 82 10 C8 20 03 20 | GoodCRC A1 01; stop SenderResponse; transmit A3 03 |", 2),
    ("| port 3 | packet 82 10 C9 24 03 20 | GoodCRC A1 01; stop SenderResponse; transmit A4 03 |", 2),
    ("| port 3 | packet 82 10 2C B1 04 10 | GoodCRC A1 01; stop SenderResponse; transmit A3 03 |", 2),
    ("| packet of 65534 bytes | refused 2,", 1),
    ("| packet of 65534 bytes | refused 9,", 1),
    ("| offer of 16383 objects | refused 7,", 1),
    ("| offer of 16383 objects | refused 9,", 1),
    ("| packet of 31 bytes | refused 2,", 10),
    ("| offer of 8 objects | refused 7,", 10),
    ("| offer - | refused 7,", 10),
    ("set-up | ports 0 | supply 600000 | refused 10, bad set-up\n", 1),
    ("set-up | ports 9 | supply 600000 | none\n", 1),
    ("set-up | ports 33 | supply 6400000 | refused 10, bad set-up\n", 1),
    ("set-up | ports 254 | supply 6400000 | refused 10, bad set-up\n", 1),
    // 255, 256, 257, 264, 288 and 300
    ("set-up | ports 255 | supply 6400000 | refused 10, bad set-up\n", 6),
    ("set-up | ports 8 | supply 1600000 | none\n", 2),
    ("set-up | ports 8 | supply 1600001 | none\n", 2),
    ("set-up | ports 32 | supply 6400000 | none\n", 4),
    ("set-up | ports 32 | supply 6399999 | none\n", 1),
    ("set-up | ports 32 | supply 6399999 | refused 10, bad set-up\n", 1),
    ("set-up | ports 32 | supply 6400001 | refused 10, bad set-up\n", 2),
    ("set-up | ports 1 | supply 6400000 | none\n", 1),
    ("set-up | ports 1 | supply 6400001 | refused 10, bad set-up\n", 1),
    // the last of 32 ports that ask for all they may have, and again for a little less
    ("32 | Accepting | 20.00 V 5.00 A | 200000 | 30000 | 200000\nrack | 6400000 of 6400000\n", 1),
    ("32 | Accepting | none | 199600 | 30000 | 200000\nrack | 6399600 of 6399999\n", 1),
    ("| Disabled\n", 10),
    ("| refused 1,", 500),
    ("| refused 2,", 500),
    ("| refused 3,", 500),
    ("| refused 4,", 500),
    ("| refused 7,", 500),
    ("| refused 8,", 5_000),
    ("| refused 9,", 2_000),
];

#[test]
fn every_answer_turns_up() {
    for &(text, least) in ANSWERS {
        let count = replayed().matches(text).count();
        assert!(count >= least, "{text}: {count}");
    }
}

/// The rack of example 8 after the yes to 120,000, 54,000 and 36,000.
#[test]
fn the_sums_of_example_8() {
    assert!(replayed().contains("rack | 240000 of 240000\n"));
    assert!(replayed().contains("rack | 234000 of 240000\n"));
}

#[test]
fn the_first_events_meet_no_rack() {
    let first = replayed()
        .lines()
        .take_while(|line| !line.contains("| none"));
    let refused = first.filter(|line| line.contains("| refused 9,")).count();
    assert!(refused > 50, "{refused}");
}
