//! Lines whose text is odd: those that docs/STEPS.md answers `not understood`,
//! those it only just understands, and good lines with a few characters changed.

use crate::chance::Chance;
use crate::line_shapes::{change, characters, of_length, walk_all, with_bytes};
use crate::step_walk::Walk;

pub fn add_all(walk: &mut Walk) {
    for line in MALFORMED.iter().chain(ODD_BUT_GOOD) {
        walk.raw(line);
    }
    for line in long_lines() {
        walk.raw(&line);
    }
    every_character(walk);
    changed_lines(walk);
}

const MALFORMED: &[&[u8]] = &[
    // no word, or one with something before it
    b"",
    b" ",
    b"\r",
    b" \r ",
    b" attach",
    b"\rattach",
    b"\tattach",
    b"  packet 81 00",
    // an unknown word
    b"Attach",
    b"ATTACH",
    b"attac",
    b"attachh",
    b"attached",
    b"att ach",
    b"reset",
    b"hard reset",
    b"hardReset",
    b"SenderResponse",
    b"supply ready",
    b"y",
    b"Yes",
    b"yesno",
    b"not understood",
    b"81 00",
    b"# attach",
    b"Packet 81 00",
    b"packets 81 00",
    b"Offer 2C 91 01 00",
    b"Port 120000 2C 91 01 00",
    b"attach\0",
    b"\xEF\xBB\xBFattach",
    b"\xFF\xFE",
    b"attach\xC2\xA0",
    b"\xC3",
    // something behind a word that stands alone
    b"attach 00",
    b"attach attach",
    b"attach yes",
    b"yes no",
    b"detach  x",
    b"attach \r x",
    b"attach\t",
    b"attach\x0B",
    b"yes.",
    b"pshardreset 81",
    // something that is not a byte where a byte belongs
    b"packet 8",
    b"packet 81 0",
    b"packet 8100",
    b"packet 810 0",
    b"packet 81 000",
    b"packet 8 1 00",
    b"packet81 00",
    b"packet\t81 00",
    b"packet\r81 00",
    b"packet 81\r00",
    b"packet 81 \r00",
    b"packet 81\r 00",
    b"packet 81\t00",
    b"packet 81,00",
    b"packet 81-00",
    b"packet 0x81",
    b"packet g1",
    b"packet 1g",
    b"packet +1",
    b"packet -1",
    b"packet 81 00 -",
    b"packet 81 00 # one",
    b"packet -",
    b"packet \xEF\xBC\x98\xEF\xBC\x92",
    b"packet 81 \xFF0",
    b"offer 2C 91 01 0",
    b"offer 2C910100",
    b"offer2C 91 01 00",
    b"offer -",
    b"port 120000 2C 91 01 0G",
    // object bytes that are not a multiple of four
    b"offer 2C",
    b"offer 2C 91",
    b"offer 2C 91 01",
    b"offer 2C 91 01 00 2C",
    b"offer 2C 91 01 00 2C D1 02",
    b"port 120000 2C",
    b"port 120000 2C 91 01",
    b"port 120000 2C 91 01 00 2C D1",
    // a limit that is none
    b"port",
    b"port ",
    b"port\r",
    b"port120000 2C 91 01 00",
    b"port 12000a 2C 91 01 00",
    b"port +120000 2C 91 01 00",
    b"port -120000 2C 91 01 00",
    b"port 120,000 2C 91 01 00",
    b"port 120000.0 2C 91 01 00",
    b"port 0x1D4C0 2C 91 01 00",
    b"port 01200000 2C 91 01 00",
    b"port 12345678 2C 91 01 00",
    b"port 99999999999999999999999999 2C 91 01 00",
    b"port - 2C 91 01 00",
    b"port\r120000 2C 91 01 00",
    b"port 120000\r2C 91 01 00",
    b"port 120000\t2C 91 01 00",
];

/// These also show which port stands there: a refused `port` line leaves the old.
const ODD_BUT_GOOD: &[&[u8]] = &[
    b"port 120000 2C 91 01 00 2C D1 02 00",
    b"attach ",
    b"detach\r",
    b"attach   \r",
    b"detach\r\r",
    b"attach\r \r ",
    b"packet   81   00",
    b"packet 81 00\r",
    b"packet 82 10 2c b1 04 10 ",
    b"yes \r",
    b"packet 81 02  \r  ",
    b"supplyready ",
    b"packet  81  04",
    b"packet",
    b"packet ",
    b"packet\r",
    b"packet  \r ",
    b"offer",
    b"offer ",
    b"offer\r",
    b"offer   2c   91 01    00 ",
    b"offer 2C 91 01 00\r",
    // limits, and the offers they let pass
    b"port 29999 2C 91 01 00",
    b"port 0 2C 91 01 00",
    b"port 1 2C 91 01 00",
    b"port 120000",
    b"port 120000 ",
    b"port 120000\r",
    b"port 7",
    b"port   30000   2C 91 01 00",
    b"offer 2C D1 02 00",
    b"offer 2C 91 01 00 2C D1 02 00",
    b"port 0 00 90 01 00",
    b"offer 01 90 01 00",
    b"port 00 00 90 01 00",
    b"port 0000100 01 90 01 00\r",
    b"port 0120000 2C 91 01 00 2c d1 02 00 \r",
    b"port 9999999 2C 91 01 00 F4 41 06 00",
    b"port 54000 2C 91 01 00 2C D1 02 00",
    b"port 53999 2C 91 01 00 2C D1 02 00",
    b"offer 2C 91 01 00 2D D1 02 00",
    b"offer 2C 91 01 00 2B D1 02 00",
    b"attach",
    b"port 120000 2C D1 02 00",
    b"acknowledgement",
];

/// Around 64 bytes and around 240 characters.
fn long_lines() -> Vec<Vec<u8>> {
    let counts = [
        30, 31, 32, 60, 63, 64, 65, 66, 68, 72, 76, 77, 78, 79, 80, 81, 128, 1000,
    ];
    let lengths = [239, 240, 241, 242, 255, 256, 257, 1000, 70_000];
    let parts = [
        ("attach", ["", "\r", "x"]),
        ("detach", [" \r", "\r\r", " 00"]),
        ("packet 81 00", ["", "\r", " 00"]),
        ("offer 2C 91 01 00", [" \r", " 00", "\r"]),
        ("port 120000 2C 91 01 00", ["", "\r", "\r "]),
        ("", ["attach", "yes\r", " "]),
    ];
    let mut lines = with_bytes(&counts, &["packet", "offer", "port 120000", "port 1200000"]);
    lines.extend(of_length(&lengths, &parts));
    lines
}

/// Each character alone, before, within and after a line.
fn every_character(walk: &mut Walk) {
    for character in characters() {
        let lines: &[&[&[u8]]] = &[
            &[&[character]],
            &[&[character], b"attach"],
            &[b"detach", &[character]],
            &[b"packet", &[character], b"81 00"],
            &[b"packet 8", &[character], b" 00"],
            &[b"packet 81", &[character], b"00"],
            &[b"port 12000", &[character], b" 2C 91 01 00"],
        ];
        walk_all(walk, lines);
    }
}

/// Good lines with one or two characters left out, put in or replaced.
fn changed_lines(walk: &mut Walk) {
    const GOOD: [&[u8]; 8] = [
        b"attach",
        b"detach",
        b"acknowledgement",
        b"supplyready",
        b"packet 82 12 2C B1 04 20",
        b"packet 81 00",
        b"offer 2C 91 01 00 2c d1 02 00",
        b"port 120000 2C 91 01 00",
    ];
    let mut chance = Chance::new(3);
    for _ in 0..3_000 {
        let mut line = chance.one_of(&GOOD).to_vec();
        for _ in 0..=chance.below(2) {
            change(&mut line, &mut chance);
        }
        walk.raw(&line);
    }
}

#[cfg(test)]
#[path = "step_odd_lines_tests.rs"]
mod tests;
