//! Lines whose text is odd: those that docs/PACKETS.md answers `not understood`,
//! those it only just understands, those too long to keep, and good lines with a
//! few characters changed.

use crate::hex;
use crate::packet_cases::Cases;
use std::io::{self, Write};

pub fn print_all<W: Write>(cases: &mut Cases<W>) -> io::Result<()> {
    for line in MALFORMED.iter().chain(ODD_BUT_GOOD) {
        cases.output.write_all(line)?;
        cases.output.write_all(b"\n")?;
    }
    every_character(cases)?;
    long_lines(cases)?;
    changed_lines(cases)?;
    // What follows the last line's end is a line too.
    cases.output.write_all(b"82 12 2C B1 04 20 @ 08 01")
}

const MALFORMED: &[&[u8]] = &[
    // one digit where two belong
    b"8",
    b"82 1",
    b"821",
    b"8 2",
    b"8\r2",
    b"82 1 0",
    b"   82   1 2",
    b"82 12 2C B1 04 2",
    b"w 00 01 00 02 00 2",
    b"w 0 01 00 02 00 02",
    b"s 03 2",
    b"s 3 02",
    b"A1 03 @ 4 00",
    b"A1 03 @ 04 0",
    b"A1 0 @ 04 00",
    // too few fields
    b"w",
    b"w ",
    b"w 00",
    b"w 00 01",
    b"w 00 01 00",
    b"w 00 01 00 02",
    b"w 00 01 00 02 00",
    b"w 00 01 00 02 00 @ 04 00",
    b"w @ 04 00",
    b"s",
    b"s\r",
    b"s 03",
    b"s 03 @ 04 00",
    b"s @ 04 00",
    // anything but two bytes after the @
    b"A1 03 @",
    b"A1 03 @ ",
    b"A1 03 @ 04",
    b"A1 03 @ 04 00 00",
    b"A1 03 @ 04 00 @",
    b"A1 03 @ 04 00 @ 04 00",
    b"A1 03 @@ 04 00",
    b"A1 03 @ @ 04 00",
    b"A1 03 @ 04 @ 00",
    b"A1 03 @ w 04 00",
    b"A1 03 @ s",
    b"@",
    b"@@",
    b"8 @ 04 00",
    b"w 00 01 00 02 00 02 @ 04",
    b"s 03 02 @ 04 00 00",
    // a size over 64
    b"A1 03 @ 41 00",
    b"A1 03 @ FF 00",
    b"8 @ 41 00",
    b"@ 41 00",
    b"w 00 01 00 02 00 02 @ 41 00",
    b"s 03 02 @ 80 00",
    // a character that has no place in the line
    b"A1 03 w",
    b"A1 w 03",
    b"w w 00 01 00 02 00 02",
    b"w 00 01 00 02 00 02 w",
    b"ws 00 01 00 02 00 02",
    b"s w 03 02",
    b"s s 03 02",
    b"sw",
    b"W 00 01 00 02 00 02",
    b"S 03 02",
    b"r A1 03",
    b"0xA1 0x03",
    b"A1,03",
    b"A1-03",
    b"A1:03",
    b"A1\t03",
    b"\tA1 03",
    b"A1 03\t",
    b"A1\x0B03",
    b"A1\x0C03",
    b"A1 03\0",
    b"\0",
    b"+1 03",
    b"-1 03",
    b"A1 03 # our GoodCRC 1",
    b"G1 03",
    b"1G 03",
    b"a` 03",
    b"@1 03",
    b"A/ 03",
    b"A: 03",
    b"not understood",
    b"\xEF\xBB\xBFA1 03",
    b"A1\xC2\xA003",
    b"\xFF\xFE",
    b"\xEF\xBC\x98\xEF\xBC\x92",
];

const ODD_BUT_GOOD: &[&[u8]] = &[
    // no bytes at all
    b"",
    b" ",
    b"\r",
    b" \r \r ",
    b"@ 04 00",
    b" @ 00 00",
    b"@0000",
    // small and large digits, with and without blanks
    b"a1 03",
    b"A103",
    b"a103",
    b"aB cD",
    b"82122cb10420",
    b"82 12 2c b1 04 20",
    b"82 12 2c B1 04 20 @ 0a 02",
    b"82 12 2C B1 04 20 @ 0A 02",
    b"82122CB10420@0801",
    b"82 12 2C B1 04 20@08 01",
    b"82 12 2C B1 04 20 @0801",
    b"   82   12 2C  B1 04   20   ",
    b"8212 2CB1 0420",
    b"  A1 03  @  04  00  ",
    b"w000100020002",
    b"w 00 01 00 02 00 02",
    b" w 00 01 00 02 00 02",
    b"\rw 00 01 00 02 00 02",
    b"w  0001 0002  0002 2cb10420 ",
    b"w00 01 00 02 00 02@0801",
    b"s0302",
    b"s 03 02",
    b"   s 03 02",
    b"s  03  02  ",
    b"s0302@0402",
    b"s 03 02 @ 40 3E",
    b"s 03 02 @ 40 3F",
    // carriage returns
    b"A1 03\r",
    b"A1 03 \r",
    b"\rA1 03",
    b"A1\r03",
    b"A1 03\r\r",
    b"A1 03 @ 04 00\r",
    b"A1 03 @\r04\r00",
    b"w\r00 01 00 02 00 02\r",
    b"s\r03\r02\r",
    // sizes and places at their ends
    b"A1 03 @ 40 00",
    b"A1 03 @ 40 3E",
    b"A1 03 @ 40 3F",
    b"A1 03 @ 40 40",
    b"A1 03 @ 40 41",
    b"A1 03 @ 40 FF",
    b"A1 03 @ 00 00",
    b"A1 03 @ 00 FF",
];

/// Each character alone, before, between and after the digits of a packet.
fn every_character<W: Write>(cases: &mut Cases<W>) -> io::Result<()> {
    for character in (0..=u8::MAX).filter(|&character| character != b'\n') {
        let lines: [&[&[u8]]; 6] = [
            &[&[character]],
            &[&[character], b"82 10"],
            &[b"8", &[character], b" 10"],
            &[b"82", &[character], b"10"],
            &[b"82 10", &[character]],
            &[b"82 10 @ 04 ", &[character], b"1"],
        ];
        for line in lines {
            cases.output.write_all(&line.concat())?;
            cases.output.write_all(b"\n")?;
        }
    }
    Ok(())
}

/// Bytes past the 64 that are kept, good ones and then bad ones.
fn long_lines<W: Write>(cases: &mut Cases<W>) -> io::Result<()> {
    let counts = (56..=76).chain([127, 128, 255, 256, 257, 300, 1000, 5000, 70000]);
    for count in counts {
        for letter in ["", "w", "s"] {
            for mut bytes in [cases.chance.bytes(count), vec![1; count]] {
                cases.line(letter, &bytes, None)?;
                cases.line(letter, &bytes, Some((64, 1)))?;
                cases.line(letter, &bytes, Some((65, 1)))?;
                bytes.truncate(300);
                for end in [" 8", " g1", " w", " @", " @ 40", " @ 40 00 00"] {
                    writeln!(cases.output, "{letter} {}{end}", hex::text_of(&bytes))?;
                }
            }
        }
    }
    Ok(())
}

/// Good lines with one to three characters left out, put in or replaced.
fn changed_lines<W: Write>(cases: &mut Cases<W>) -> io::Result<()> {
    const GOOD: [&[u8]; 6] = [
        b"82 12 2C B1 04 20",
        b"a1 03 @ 05 02",
        b"w 00 01 00 02 00 02 2C B1 04 20 @ 10 04",
        b"w 01 07 01 01 01 1F 2c 91 00 00",
        b"s 03 02",
        b"s 01 00 2C 91 01 00 @ 09 01",
    ];
    for _ in 0..12_000 {
        let mut line = cases.chance.one_of(&GOOD).to_vec();
        for _ in 0..=cases.chance.below(3) {
            let place = cases.chance.below(line.len());
            let character = cases.chance.one_of(b"0123456789abcdefABCDEF  ws@@\r\tgWS-");
            match cases.chance.below(3) {
                0 => drop(line.remove(place)),
                1 => line.insert(place, character),
                _ => line[place] = character,
            }
        }
        cases.output.write_all(&line)?;
        cases.output.write_all(b"\n")?;
    }
    Ok(())
}

#[cfg(test)]
mod tests {
    use super::*;
    use crate::packet_lines::answer_all;

    fn answer(line: &[u8]) -> String {
        let mut output = Vec::new();
        answer_all(&[line, b"\n"].concat()[..], &mut output).unwrap();
        String::from_utf8(output).unwrap()
    }

    #[test]
    fn malformed_lines_are_not_understood() {
        for line in MALFORMED {
            assert_eq!(answer(line), "not understood\n", "{}", line.escape_ascii());
        }
    }

    #[test]
    fn odd_lines_are_understood() {
        for line in ODD_BUT_GOOD {
            assert_ne!(answer(line), "not understood\n", "{}", line.escape_ascii());
        }
    }
}
