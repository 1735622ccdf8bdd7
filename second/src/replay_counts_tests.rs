//! The counts and the checksum of small nights, worked out by hand.

use super::*;
use crate::night_lines::night_of;

fn lines_of(text: &str) -> Vec<String> {
    let mut output = Vec::new();
    quiet(&night_of(text)[..], &mut output).unwrap();
    let output = String::from_utf8(output).unwrap();
    output.lines().map(str::to_string).collect()
}

const ONE_PORT: &str = "supply 30000\nplace 30000 30000 2C 91 01 00\nsetup\n";

/// An event, and its numbers in the order of docs/REPLAY.md: port, verdict,
/// GoodCRC, stop, the length and the bytes of transmit, Hard Reset, supply, start,
/// state, held.
const EVENTS: &[(&str, &[u64])] = &[
    (
        "1 attach",
        &[1, 0, 0, 0, 6, 0xA1, 0x11, 0x2C, 0x91, 1, 0, 0, 0, 0, 1, 0],
    ),
    ("1 packet 81 00", &[1, 0, 0, 0, 0, 0, 0, 1, 1, 0]),
    (
        "1 packet 82 10 2C B1 04 10",
        &[1, 0, 0x01A1, 1, 2, 0xA3, 3, 0, 0, 0, 5, 30_000],
    ),
    // a repeat
    (
        "1 packet 82 10 2C B1 04 10",
        &[1, 0, 0x01A1, 0, 0, 0, 0, 0, 5, 30_000],
    ),
    ("1 packet 81 02", &[1, 0, 0, 0, 0, 0, 1, 0, 6, 30_000]),
    (
        "1 supplyready",
        &[1, 0, 0, 0, 2, 0xA6, 5, 0, 0, 0, 7, 30_000],
    ),
    ("1 packet 81 04", &[1, 0, 0, 0, 0, 0, 0, 0, 8, 30_000]),
    // revision 01b; the position does not exist
    (
        "1 packet 42 12 2C B1 04 20",
        &[1, 0, 0x0361, 0, 2, 0xA4, 7, 0, 0, 0, 10, 30_000],
    ),
    ("1 packet 81", &[1, 1, 0, 0, 0, 0, 0, 0, 10, 30_000]),
    ("1 hardreset", &[1, 0, 0, 0, 0, 0, 0, 3, 14, 30_000]),
    ("1 hardreset", &[1, 8, 0, 0, 0, 0, 0, 0, 14, 30_000]),
    ("1 offer", &[1, 7, 0, 0, 0, 0, 0, 0, 14, 30_000]),
    ("1 pshardreset", &[1, 0, 0, 0, 0, 0, 255, 0, 15, 30_000]),
    (
        "1 supplyready",
        &[1, 0, 0, 0, 6, 0xA1, 0x11, 0x2C, 0x91, 1, 0, 0, 0, 0, 1, 0],
    ),
    ("1 packet 81 00", &[1, 0, 0, 0, 0, 0, 0, 1, 1, 0]),
    ("1 senderresponse", &[1, 0, 0, 0, 0, 1, 0, 3, 14, 0]),
    ("1 detach", &[1, 0, 0, 3, 0, 0, 0, 0, 0, 0]),
    ("0 attach", &[0, 9, 0, 0, 0, 0, 0, 0, 0, 0]),
    ("255 packet", &[255, 9, 0, 0, 0, 0, 0, 0, 0, 0]),
];

/// The rule of the page.
fn checksum(numbers: impl Iterator<Item = u64>) -> u64 {
    numbers.fold(0, |sum, x| (sum * 16_777_619 + x) % 4_294_967_296)
}

#[test]
fn a_night_by_hand() {
    let lines: Vec<&str> = EVENTS.iter().map(|&(line, _)| line).collect();
    let bad = "supply 0\nsetup\n";
    let text = format!("{bad}{ONE_PORT}{}\n{bad}", lines.join("\n"));
    let events = EVENTS
        .iter()
        .flat_map(|&(_, numbers)| numbers.iter().copied());
    let sum = checksum([10, 0].into_iter().chain(events).chain([10]));
    let expected = [
        "events 19",
        "refused 1: 1, 2: 0, 3: 0, 4: 0, 5: 0, 6: 0, 7: 1, 8: 1, 9: 2, 10: 2",
        "accepts 1",
        "rejects 1",
        "hard resets 2",
        &format!("checksum {sum:08X}"),
        "port | state | contract | held | share | limit",
        "1 | Detached | none | 0 | 30000 | 30000",
        "rack | 30000 of 30000",
    ];
    assert_eq!(lines_of(&text), expected);
}

/// The page's example, and its sum worked out apart from this program.
#[test]
fn the_example_of_the_page() {
    let lines = lines_of(&format!("{ONE_PORT}1 attach\n1 packet 81 00\n"));
    assert_eq!(
        (&lines[0][..], &lines[5][..]),
        ("events 2", "checksum 7B3A805B")
    );
}

#[test]
fn no_night_at_all() {
    let expected = [
        "events 0",
        "refused 1: 0, 2: 0, 3: 0, 4: 0, 5: 0, 6: 0, 7: 0, 8: 0, 9: 0, 10: 0",
        "accepts 0",
        "rejects 0",
        "hard resets 0",
        "checksum 00000000",
        "port | state | contract | held | share | limit",
        "rack | 0 of 0",
    ];
    assert_eq!(lines_of(""), expected);
}

/// Only the last rack has a table, and the line about the end stands first.
#[test]
fn a_cut_night_of_two_racks() {
    let mut night = night_of(&format!("{ONE_PORT}1 attach\n{ONE_PORT}{ONE_PORT}1 attach"));
    let place = night.len() - 4;
    night.pop();
    let mut output = Vec::new();
    quiet(&night[..], &mut output).unwrap();
    let output = String::from_utf8(output).unwrap();
    let lines: Vec<&str> = output.lines().collect();
    assert_eq!(lines[0], format!("the night is cut at byte {place}"));
    assert_eq!(lines[1], "events 1");
    assert_eq!(lines.len(), 10);
    assert_eq!(lines[8], "1 | Detached | none | 0 | 30000 | 30000");
}

/// Timers as they stop, and the numbers of the states that the night by hand does
/// not come to.
#[test]
fn every_state_and_timer_has_its_number() {
    use State::*;
    let states = [
        Detached, Offer, Discovery, Disabled, Judge, Accepting, Moving, Telling, Ready, Declining,
        Refusing, Waiting, Soft, Answering, Hard, Default,
    ];
    for (number, state) in (0..).zip(states) {
        assert_eq!(state_number(state), number);
    }
    use Timer::*;
    let timers = [
        None,
        Some(SenderResponse),
        Some(SourceCapability),
        Some(PsHardReset),
    ];
    for (number, timer) in (0..).zip(timers) {
        assert_eq!(timer_number(timer), number);
    }
}
