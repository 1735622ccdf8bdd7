//! That the odd lines are what they are meant to be.

use super::*;
use crate::step_lines::Bench;

fn understood(line: &[u8]) -> bool {
    Bench::new().take(line).is_some()
}

#[test]
fn malformed_lines_are_not_understood() {
    for line in [SUPPLIES, PLACES, SET_UPS, NUMBERS, EVENTS].concat() {
        assert!(!understood(line), "{}", line.escape_ascii());
    }
}

#[test]
fn odd_lines_are_understood() {
    for line in ODD_BUT_GOOD {
        assert!(understood(line), "{}", line.escape_ascii());
    }
}

#[test]
fn long_lines_stand_on_both_sides_of_each_limit() {
    let lines = long_lines();
    let count = |length: usize, wanted: bool| {
        let fit = |line: &&Vec<u8>| line.len() == length && understood(line) == wanted;
        lines.iter().filter(fit).count()
    };
    assert!(count(240, true) > 10);
    assert_eq!(count(241, true), 0);
    assert!(count(241, false) > 10);
    let starts = |count: usize, wanted: bool| {
        let end = " 01".repeat(count);
        let line = |start: &str| format!("{start}{end}").into_bytes();
        [
            line("1 packet"),
            line("001 offer"),
            line("place 30000 120000"),
        ]
        .iter()
        .all(|line| lines.contains(line) && understood(line) == wanted)
    };
    assert!(starts(64, true) && starts(65, false) && starts(68, false));
}
