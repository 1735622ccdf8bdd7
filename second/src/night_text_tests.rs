//! From the file to text and back: the same file.

use super::*;
use crate::night_lines::night_of;
use crate::night_pieces::story;
use crate::random_night;

fn text_of(night: &[u8]) -> String {
    let mut text = Vec::new();
    print_text(night, &mut text).unwrap();
    String::from_utf8(text).unwrap()
}

const LINES: &str = "\
9 detach
supply 4294967295
place 0 4294967295
place 1 2 2C 91 01 00 FF FF FF FF
setup
supply 0
setup
0 attach
255 detach
1 packet
1 packet 81 00 0A
1 hardreset
1 acknowledgement
1 senderresponse
1 sourcecapability
1 pshardreset
1 supplyready
1 offer
1 offer 2C 91 01 00 2C D1 02 00
1 yes
1 no
";

#[test]
fn from_text_to_file_to_text() {
    assert_eq!(text_of(&night_of(LINES)), LINES);
    assert_eq!(text_of(&[]), "");
}

#[test]
fn from_file_to_text_to_file() {
    for seed in 1..=4 {
        let mut night = story();
        random_night::print(seed, 500, 2 * seed as usize, &mut night).unwrap();
        assert_eq!(night_of(&text_of(&night)), night);
    }
}

#[test]
fn the_text_ends_where_the_file_cannot_be_read() {
    let whole = text_of(&story());
    let length = story().len();
    let cut = [&story()[..], &[0x20, 0x01]].concat();
    assert_eq!(
        text_of(&cut),
        format!("{whole}# the night is cut at byte {length}\n")
    );
    let damaged = [&story()[..], &[0x20, 0, 0], &story()].concat();
    let text = text_of(&damaged);
    assert_eq!(
        text,
        format!("{whole}# the night is damaged at byte {length}: a wrong length\n")
    );
    // the part that could be read is a file again
    assert_eq!(night_of(&text), story());
}
