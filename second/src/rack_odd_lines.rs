//! Lines about a rack whose text is odd: those that docs/STEPS.md answers `not
//! understood`, those it only just understands, and good lines with a few
//! characters changed.

use crate::chance::Chance;
use crate::line_shapes::{change, characters, of_length, walk_all, with_bytes};
use crate::rack_situations::alike;
use crate::step_walk::{Walk, FIVE_VOLT, NINE_VOLT};

pub fn add_all(walk: &mut Walk) {
    // First with a rack to speak of, and with the same set-up in hand.
    walk.set_up(&alike(240_000, 4, &[FIVE_VOLT, NINE_VOLT]));
    let listed = [SUPPLIES, PLACES, SET_UPS, NUMBERS, EVENTS, ODD_BUT_GOOD];
    for line in listed.concat() {
        walk.raw(line);
    }
    for line in long_lines() {
        walk.raw(&line);
    }
    every_character(walk);
    changed_lines(walk);
}

const SUPPLIES: &[&[u8]] = &[
    b"supply",
    b"supply ",
    b"supply\r",
    b"supply  \r ",
    b"supply x",
    b"supply 24000a",
    b"supply +240000",
    b"supply -240000",
    b"supply 240,000",
    b"supply 240_000",
    b"supply 240000.0",
    b"supply 0x3A980",
    b"supply 2e5",
    b"supply 240 000",
    b"supply 240000 1",
    b"supply 240000 2C 91 01 00",
    b"supply 240000 supply 240000",
    b"supply 12345678",
    b"supply 00240000",
    b"supply 4295207296",
    b"supply 99999999999999999999999999",
    b"supply\t240000",
    b"supply\r240000",
    b"supply \r240000",
    b"supply 240000\t",
    b"supply 240000\0",
    b"supply240000",
    b" supply 240000",
    b"\rsupply 240000",
    b"Supply 240000",
    b"SUPPLY 240000",
    b"supplies 240000",
    b"suppl 240000",
    b"supplyready 240000",
    b"supply ready",
    b"supply \xEF\xBC\x92",
];

const PLACES: &[&[u8]] = &[
    // a number that is cut short by the line's end, or is none
    b"place",
    b"place ",
    b"place\r",
    b"place 30000",
    b"place 30000 ",
    b"place 30000\r",
    b"place 30000 \r ",
    b"place x 120000 2C 91 01 00",
    b"place 30000 x 2C 91 01 00",
    b"place 30000 2C 91 01 00",
    b"place 2C 91 01 00",
    b"place 30000 12000a 2C 91 01 00",
    b"place -30000 120000 2C 91 01 00",
    b"place 30000 +120000 2C 91 01 00",
    b"place 30,000 120,000 2C 91 01 00",
    b"place 30000,120000 2C 91 01 00",
    b"place 30000/120000 2C 91 01 00",
    b"place 12345678 120000 2C 91 01 00",
    b"place 30000 12345678 2C 91 01 00",
    b"place 00030000 120000 2C 91 01 00",
    b"place 30000 00120000 2C 91 01 00",
    b"place 30000120000 2C 91 01 00",
    b"place 4294997296 120000 2C 91 01 00",
    // object bytes
    b"place 30000 120000 2C",
    b"place 30000 120000 2C 91 01",
    b"place 30000 120000 2C 91 01 00 2C",
    b"place 30000 120000 2C 91 01 00 2C D1 02",
    b"place 30000 120000 2C 91 01 0",
    b"place 30000 120000 2C 91 01 0G",
    b"place 30000 120000 2C910100",
    b"place 30000 120000 2C 91 01 000",
    b"place 30000 120000 -",
    b"place 30000 120000 30000",
    b"place 30000 120000 120000 2C 91 01 00",
    // blanks
    b"place\t30000 120000 2C 91 01 00",
    b"place 30000\t120000 2C 91 01 00",
    b"place 30000\r120000 2C 91 01 00",
    b"place 30000 120000\r2C 91 01 00",
    b"place 30000 120000 \r2C 91 01 00",
    b"place30000 120000 2C 91 01 00",
    b" place 30000 120000 2C 91 01 00",
    // the word
    b"Place 30000 120000 2C 91 01 00",
    b"places 30000 120000 2C 91 01 00",
    b"plac 30000 120000 2C 91 01 00",
    b"place offer 2C 91 01 00",
];

const SET_UPS: &[&[u8]] = &[
    b"setup 1",
    b"setup x",
    b"setup setup",
    b"setup 240000",
    b"setup \r x",
    b"setup\t",
    b"setup.",
    b"setup\0",
    b"setup\xC2\xA0",
    b"set-up",
    b"set up",
    b"Setup",
    b"SETUP",
    b"setu",
    b"setups",
    b" setup",
    b"\rsetup",
    b"\tsetup",
    b"rack",
    b"noted",
];

/// A number that is none, that stands alone, or that has something before it.
const NUMBERS: &[&[u8]] = &[
    b"1",
    b"1 ",
    b"1\r",
    b"1 \r ",
    b"0",
    b"001",
    b"999",
    b"1attach",
    b"1\tattach",
    b"1\rattach",
    b"1 \rattach",
    b"1\r attach",
    b"1 \tattach",
    b" 1 attach",
    b"\r1 attach",
    b"+1 attach",
    b"-1 attach",
    b"- attach",
    b"1. attach",
    b"1: attach",
    b"1, attach",
    b"#1 attach",
    b"0x1 attach",
    b"1e0 attach",
    b"1a attach",
    b"a attach",
    b"1.0 attach",
    b"1/4 attach",
    b"1 2 attach",
    b"1 1 attach",
    b"0001 attach",
    b"0000 attach",
    b"1000 attach",
    b"0999 attach",
    b"65537 attach",
    b"4294967297 attach",
    b"18446744073709551617 attach",
    b"99999999999999999999999999 attach",
    b"one attach",
    b"port 1 attach",
    b"attach 1",
    b"\xEF\xBC\x91 attach",
    b"1\xC2\xA0attach",
];

/// What is not one of the events, behind a number that is in the rack or not.
const EVENTS: &[&[u8]] = &[
    b"1 port 120000 2C 91 01 00",
    b"1 port",
    b"9 port 120000 2C 91 01 00",
    b"1 supply 240000",
    b"1 supply",
    b"1 place 30000 120000 2C 91 01 00",
    b"1 setup",
    b"0 setup",
    b"1 rack",
    b"1 Attach",
    b"1 ATTACH",
    b"1 attac",
    b"1 attached",
    b"1 attach 1",
    b"1 attach 00",
    b"1 attach attach",
    b"1 attach\t",
    b"1 attach\0",
    b"1 yes no",
    b"1 yes 1",
    b"9 attach x",
    b"1 hard reset",
    b"1 supply ready",
    b"1 81 00",
    b"1 packet 8",
    b"1 packet 81 0",
    b"1 packet 8100",
    b"1 packet 81 000",
    b"1 packet81 00",
    b"1 packet\t81 00",
    b"1 packet 81\r00",
    b"1 packet g1",
    b"1 packet -",
    b"9 packet 8",
    b"999 packet 8100",
    b"1 offer 2C",
    b"1 offer 2C 91 01",
    b"1 offer 2C 91 01 00 2C",
    b"1 offer 2C910100",
    b"1 offer -",
    b"9 offer 2C",
    b"1 offer 120000 2C 91 01 00",
];

/// These also show what is in hand, and which rack stands there.
const ODD_BUT_GOOD: &[&[u8]] = &[
    b"setup ",
    b"1 attach ",
    b"2  attach",
    b"3   attach\r",
    b"04 attach \r \r",
    b"004 detach",
    b"01 packet 81 00",
    b"001  packet  82 10 2c b1 04 20  ",
    b"0 attach",
    b"00 attach\r",
    b"000 attach",
    b"005 attach",
    b"999 yes ",
    b"1 yes\r",
    b"1 no ",
    b"1 packet",
    b"1 packet ",
    b"1 packet\r",
    b"9 packet",
    b"1 offer",
    b"1 offer \r",
    b"9 offer",
    b"2 offer   2c   91 01    00 \r",
    b"setup\r",
    b"supply   240000",
    b"setup \r ",
    b"place   30000   120000   2c 91 01 00 \r",
    b"setup",
    b"supply 240000 ",
    b"place 0030000 0120000 2C 91 01 00\r",
    b"setup\r\r",
    b"1 attach",
    b"supply 240000\r",
    b"place 30000 120000",
    b"setup",
    b"1 acknowledgement",
    b"supply 0240000",
    b"place 30000 120000 ",
    b"place 30000 120000\r",
    b"setup",
    b"supply 0000000",
    b"place 0 0",
    b"setup",
    b"supply 9999999",
    b"place 9999999 9999999 2C 91 01 00",
    b"setup",
    b"supply 0",
    b"place 00 0 00 00 00 00",
    b"setup",
    b"supply 0030000",
    b"place 30000 30000 2C 91 01 00",
    b"setup  ",
    b"1  attach",
    b"2 attach",
];

/// Around 64 bytes and around 240 characters.
fn long_lines() -> Vec<Vec<u8>> {
    let counts = [
        28, 31, 32, 60, 63, 64, 65, 68, 72, 73, 74, 75, 76, 77, 78, 300,
    ];
    let lengths = [239, 240, 241, 242, 256, 257, 1000];
    let parts = [
        ("1 attach", ["", "\r", "x"]),
        ("001", [" attach", " yes\r", " "]),
        ("1 packet 81 00", ["", "\r", " 00"]),
        ("1 offer 2C 91 01 00", [" \r", " 00", "\r"]),
        ("supply 240000", ["", "\r", " 1"]),
        ("supply", [" 240000", " 240000\r", ""]),
        ("place 30000 120000 2C 91 01 00", ["", "\r ", " 00"]),
        ("place 30000", [" 120000", " 120000 00 90 01 00", "\r"]),
        ("setup", ["", "\r", " 1"]),
        ("", ["1 attach", "setup", "1"]),
    ];
    let mut lines = with_bytes(
        &counts,
        &["1 packet", "001 offer", "999 packet", "place 30000 120000"],
    );
    lines.extend(of_length(&lengths, &parts));
    lines
}

/// Each character alone with a word, before, within and after a line.
fn every_character(walk: &mut Walk) {
    for character in characters() {
        let lines: &[&[&[u8]]] = &[
            &[&[character], b" attach"],
            &[&[character], b"1 attach"],
            &[b"1", &[character], b" detach"],
            &[b"1", &[character], b"attach"],
            &[b"1 ", &[character], b"detach"],
            &[b"supply 24000", &[character]],
            &[b"place 30000", &[character], b"120000 2C 91 01 00"],
            &[b"place 30000 12000", &[character], b" 2C 91 01 00"],
            &[b"setup", &[character]],
        ];
        walk_all(walk, lines);
    }
}

/// Good lines with one or two characters left out, put in or replaced.
fn changed_lines(walk: &mut Walk) {
    const GOOD: [&[u8]; 12] = [
        b"1 attach",
        b"2 attach",
        b"1 detach",
        b"3 acknowledgement",
        b"1 packet 82 12 2C B1 04 20",
        b"2 packet 81 00",
        b"1 offer 2C 91 01 00 2c d1 02 00",
        b"supply 240000",
        b"place 30000 120000 2C 91 01 00 2c d1 02 00",
        b"place 60000 120000 2C 91 01 00",
        b"setup",
        b"setup",
    ];
    let mut chance = Chance::new(23);
    for _ in 0..4_000 {
        let mut line = chance.one_of(&GOOD).to_vec();
        // as often as not just as it stands, so that racks come and go
        for _ in 0..chance.below(3) {
            change(&mut line, &mut chance);
        }
        walk.raw(&line);
    }
}

#[cfg(test)]
#[path = "rack_odd_lines_tests.rs"]
mod tests;
