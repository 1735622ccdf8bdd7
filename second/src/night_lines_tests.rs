//! The words of docs/NIGHT.md ("Nights as text") on lines, and what is said of a
//! line that is wrong.

use super::*;

/// What is said of the first wrong line.
fn error_of(text: &str) -> String {
    let mut file = Vec::new();
    let error = write_night(text.as_bytes(), &mut file).unwrap_err();
    assert!(file.is_empty(), "no file is written");
    error.to_string()
}

#[test]
fn comments_empty_lines_and_blanks_at_the_end_say_nothing() {
    let plain = night_of("supply 30000\nplace 30000 30000 2C 91 01 00\nsetup\n1 attach\n");
    let text = "# one port\r\n\nsupply   30000 \r\n#place\n \r\n\
        place 30000  30000 2c 91 01  00\r\nsetup\n\n1   attach  ";
    assert_eq!(night_of(text), plain);
    assert_eq!(night_of(""), []);
    assert_eq!(night_of("#\n"), []);
}

#[test]
fn numbers_up_to_what_their_field_holds() {
    assert_eq!(night_of("0 attach"), [32, 1, 0, 0]);
    assert_eq!(night_of("0000255 attach"), [32, 1, 0, 255]);
    let largest = night_of("supply 4294967295\nsetup");
    assert_eq!(largest, [16, 7, 0, 18, 4, 0, 255, 255, 255, 255]);
    assert!(error_of("256 attach").starts_with("line 1: expected the number of a port"));
    for wrong in [
        "supply 4294967296",
        "supply -1",
        "supply",
        "4294967296 attach",
    ] {
        let error = error_of(wrong);
        assert!(error.starts_with("line 1: expected `supply N`"), "{error}");
    }
}

#[test]
fn as_many_bytes_as_a_field_holds() {
    let packet = |count| format!("1 packet{}", " 00".repeat(count));
    assert_eq!(night_of(&packet(65_534)).len(), 65_538);
    assert!(error_of(&packet(65_535)).contains("expected no more bytes"));
    let offer = |count| format!("1 offer{}", " 00 00 00 00".repeat(count));
    assert_eq!(night_of(&offer(16_383)).len(), 65_536);
    assert!(error_of(&offer(16_384)).contains("expected no more bytes"));
    let ports = |count| format!("supply 1\n{}setup", "place 1 1\n".repeat(count));
    assert_eq!(night_of(&ports(3_276)).len(), 65_530);
    assert!(error_of(&ports(3_277)).starts_with("line 3279: expected no more bytes"));
}

#[test]
fn a_line_that_is_not_understood_is_named() {
    for line in [
        "attach",
        "port 30000 2C 91 01 00",
        " 1 attach",
        " # comment",
        "1",
        "1 attach 2",
        "1 packet 8",
        "1 packet 810",
        "1 offer 2C 91 01",
        "1 place 1 1",
        "x attach",
        "1\tattach",
        "setup 1",
        "Setup",
        "place 1",
        "place 1 1 2C",
    ] {
        let error = error_of(&format!("supply 1\n\n# two\n{line}\n1 attach"));
        assert!(error.starts_with("line 4: expected"), "{line}: {error}");
    }
}

#[test]
fn a_line_that_stands_where_it_cannot() {
    let no_supply = "expected a `supply` line before it";
    assert_eq!(error_of("place 1 1"), format!("line 1: {no_supply}"));
    assert_eq!(error_of("\nsetup"), format!("line 2: {no_supply}"));
    // `setup` ends the set-up in hand
    let twice = error_of("supply 1\nsetup\nsetup");
    assert_eq!(twice, format!("line 3: {no_supply}"));
    let place = error_of("supply 1\nsetup\nplace 1 1");
    assert_eq!(place, format!("line 3: {no_supply}"));
    let open = error_of("1 attach\nsupply 1\nplace 1 1\n");
    assert!(open.starts_with("line 2: expected a `setup` line"));
}

/// As in docs/STEPS.md, where events come to the rack that stands.
#[test]
fn a_set_up_is_in_hand_until_it_is_set_up() {
    let between = night_of("supply 1\n1 attach\nplace 1 1\nsetup\n");
    assert_eq!(between, night_of("1 attach\nsupply 1\nplace 1 1\nsetup\n"));
    let again = night_of("supply 1\nplace 1 1\nsupply 2\nsetup\n");
    assert_eq!(again, night_of("supply 2\nsetup\n"));
}
