//! The example block of docs/PACKETS.md, byte for byte, and that page's words on
//! rooms, long lines and the last line.

use super::*;

fn answers(input: &[u8]) -> String {
    let mut output = Vec::new();
    answer_all(input, &mut output).unwrap();
    String::from_utf8(output).unwrap()
}

const EXAMPLE_IN: &[u8] =
    b"A1 03\n82 12 2C B1 04 20\n82 10\nw 00 01 00 03 00 02 @ 04 00\n82 12 2C B1 04 20 @ 08 01\n";

const EXAMPLE_OUT: &str = "\
read: control, GoodCRC; MessageID 1; power role 1; revision 2; data role 1; type 1; objects 0: - | GoodCRC: A1 03 | written: 2 bytes; buffer: A1 03
read: data, Request; MessageID 1; power role 0; revision 2; data role 0; type 2; objects 1: 2C B1 04 20 | GoodCRC: A1 03 | written: 6 bytes; buffer: 82 12 2C B1 04 20
read: refused 3, length is not 2 + 4 x objects, or extended under 4 bytes
refused 6, a field or the object bytes out of range; buffer: 00 01 02 03
read: data, Request; MessageID 1; power role 0; revision 2; data role 0; type 2; objects 1: 2C B1 04 20 | GoodCRC: A1 03 | written: 6 bytes; buffer: 00 82 12 2C B1 04 20 07
";

#[test]
fn the_example_of_the_page() {
    assert_eq!(answers(EXAMPLE_IN), EXAMPLE_OUT);
}

#[test]
fn every_refusal_in_words() {
    let lines = b"82\n82 10 @ 04 00\nw 01 00 00 00 00 00\ns 03 02 @ 02 01\ns 20 00\n";
    let expected = "\
read: refused 1, packet under 2 bytes
read: refused 3, length is not 2 + 4 x objects, or extended under 4 bytes
refused 4, extended with Chunked clear, or written without object; buffer: 00 01
refused 5, too little room from the place on, or place past the end; buffer: 00 01
refused 6, a field or the object bytes out of range; buffer: 00 01
";
    assert_eq!(answers(lines), expected);
    let long = "00 ".repeat(31);
    assert_eq!(
        answers(long.as_bytes()),
        "read: refused 2, packet over 30 bytes\n"
    );
}

#[test]
fn what_we_send_takes_type_then_message_id() {
    let expected = "written: 6 bytes; buffer: A3 15 01 02 03 04\n";
    assert_eq!(answers(b"s 03 02 01020304\n"), expected);
}

#[test]
fn a_read_packet_may_be_refused_in_writing() {
    let tail = |line: &[u8]| answers(line).rsplit(" | ").next().unwrap().to_string();
    let six = "refused 6, a field or the object bytes out of range; buffer: 00 01\n";
    assert_eq!(tail(b"E1 01"), six);
    let five = "refused 5, too little room from the place on, or place past the end; buffer: -\n";
    assert_eq!(tail(b"A1 01 @ 00 00"), five);
}

#[test]
fn every_line_end_ends_a_line_and_an_empty_rest_is_none() {
    let one = "read: refused 1, packet under 2 bytes\n";
    assert_eq!(answers(b""), "");
    assert_eq!(answers(b"\n"), one);
    assert_eq!(answers(b"\n\n"), one.repeat(2));
    assert_eq!(answers(b"\n\r"), one.repeat(2));
    assert_eq!(answers(b"\nx"), format!("{one}not understood\n"));
}

#[test]
fn bytes_past_64_are_as_though_not_there() {
    for letter in ["", "w", "s"] {
        let kept = format!("{letter}{}", "01".repeat(64));
        let expected = answers(kept.as_bytes());
        assert!(expected.contains("refused "), "{expected}");
        for more in ["02", "0203", &"04".repeat(70_000)] {
            assert_eq!(answers(format!("{kept}{more}").as_bytes()), expected);
        }
        for bad in ["0", "0203x1", "@", "@4100"] {
            let line = format!("{kept}{bad}");
            assert_eq!(
                answers(line.as_bytes()),
                "not understood\n",
                "{letter}, {bad}"
            );
        }
    }
}
