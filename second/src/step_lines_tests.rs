//! The paper's example 7, line for line, and the words of docs/STEPS.md on lines
//! in and lines out.

use super::*;

fn answers(input: &[u8]) -> String {
    let mut output = Vec::new();
    answer_all(input, &mut output).unwrap();
    String::from_utf8(output).unwrap()
}

/// Both objects have gone out in each line of the example.
const OFFERED: &str = "newest 2C 91 01 00 2C D1 02 00, gone out yes, last 2C 91 01 00 2C D1 02 00";

#[test]
fn night_desk_7() {
    let way = "port 120000 2C 91 01 00 2C D1 02 00\nattach\npacket 81 00\n\
        packet 82 10 2C B1 04 10\nyes\npacket 81 02\nsupplyready\npacket 81 04\n";
    let packet = "packet 82 12 2C B1 04 20\n";
    let output = answers(format!("{way}{packet}yes\n{packet}").as_bytes());
    let lines: Vec<&str> = output.lines().skip(7).collect();
    let first = "contract 1 100 300 30000";
    let accepted = "accepted 2 180 300 54000";
    let expected = [
        format!("actions: none | held: in force | Ready, counter 3, stored 0, pending -, retries 0, {OFFERED}, accepted 1 100 300 30000, {first}, held 30000, count 0, connected yes"),
        format!("actions: GoodCRC A1 03 | held: nothing | Judge, counter 3, stored 1, pending -, retries 0, {OFFERED}, {accepted}, {first}, held 30000, count 0, connected yes"),
        format!("actions: transmit A3 07 | held: accepted | Accepting, counter 3, stored 1, pending A3 07, retries 0, {OFFERED}, {accepted}, {first}, held 54000, count 0, connected yes"),
        format!("actions: GoodCRC A1 03 | held: nothing | Accepting, counter 3, stored 1, pending A3 07, retries 0, {OFFERED}, {accepted}, {first}, held 54000, count 0, connected yes"),
    ];
    assert_eq!(lines, expected);
}

const FRESH: &str = "held: nothing | Detached, counter 0, stored none, pending -, retries 0, \
    newest 2C 91 01 00 2C D1 02 00, gone out no, last -, accepted 0 0 0 0, contract none, \
    held 0, count 0, connected no\n";

#[test]
fn a_refusal_has_its_words_and_the_old_memory() {
    let long = format!("packet{}", " 00".repeat(31));
    for (line, answer) in [
        ("packet", "refused 1, packet under 2 bytes"),
        (&long, "refused 2, packet over 30 bytes"),
        (
            "packet 82 10",
            "refused 3, length is not 2 + 4 x objects, or extended under 4 bytes",
        ),
        (
            "packet 82 90 00 00 00 00",
            "refused 4, extended with Chunked clear, or written without object",
        ),
        ("offer", "refused 7, bad offer"),
        ("port 29999 2C 91 01 00", "refused 7, bad offer"),
        ("port 120000", "refused 7, bad offer"),
        ("yes", "refused 8, the event is not awaited in this state"),
    ] {
        assert_eq!(answers(line.as_bytes()), format!("{answer} | {FRESH}"));
    }
}

#[test]
fn actions_in_the_order_of_the_paper() {
    let start = |input: &str| {
        let output = answers(input.as_bytes());
        let last = output.lines().next_back().unwrap();
        last.split(" | held: ").next().unwrap().to_string()
    };
    let soft = "attach\npacket 87 00\npacket 81 00\n";
    assert_eq!(
        start(&format!("{soft}packet 87 00")),
        "actions: GoodCRC A1 01; stop SenderResponse; signal Hard Reset; start PSHardReset"
    );
    assert_eq!(
        start(&format!("{soft}packet 8D 00")),
        "actions: GoodCRC A1 01; stop SenderResponse; transmit A3 01"
    );
    assert_eq!(start("attach\ndetach"), "actions: none");
    assert_eq!(
        start("attach\nhardreset\npshardreset"),
        "actions: supply default"
    );
}

#[test]
fn held_power_in_words() {
    let given_up = answers(b"attach\ndetach\n");
    let words: Vec<&str> = given_up.split(" | ").skip(1).step_by(2).collect();
    assert_eq!(words, ["held: nothing", "held: given up"]);
    let lines = b"attach\nhardreset\npshardreset\nsupplyready\n";
    let output = answers(lines);
    assert!(output
        .lines()
        .next_back()
        .unwrap()
        .contains("held: given up"));
}

#[test]
fn a_port_line_brings_limit_and_offer_or_nothing() {
    // worth 30,000 and 54,000: only the second limit lets the offer pass
    let lines = b"port 30000 2C 91 01 00\nport 53999 2C 91 01 00 2C D1 02 00\noffer 2C 91 01 00 2C D1 02 00\n";
    let output = answers(lines);
    let expected = FRESH.replace("2C 91 01 00 2C D1 02 00", "2C 91 01 00");
    let bad = format!("refused 7, bad offer | {expected}");
    assert_eq!(output, format!("actions: none | {expected}{bad}{bad}"));
    let output = answers(b"attach\nport 54000 2C 91 01 00 2C D1 02 00\n");
    assert!(output.ends_with(&format!("actions: none | {FRESH}")));
}

#[test]
fn not_understood_and_nothing_else() {
    assert_eq!(answers(b"attac\n"), "not understood\n");
    assert_eq!(answers(b"\n"), "not understood\n");
    assert_eq!(answers(b""), "");
    assert_eq!(
        answers(b"\xFF\xC3\n \xFF"),
        "not understood\nnot understood\n"
    );
    // the port stays as it was
    let output = answers(b"attach attach\nyes\n");
    assert!(output.ends_with(FRESH), "{output}");
}

#[test]
fn sixty_four_bytes_and_240_characters() {
    let understood = |line: String| answers(line.as_bytes()) != "not understood\n";
    assert!(understood(format!("packet{}", " 01".repeat(64))));
    assert!(!understood(format!("packet{}", " 01".repeat(65))));
    assert!(understood(format!("offer{}", " 01".repeat(64))));
    assert!(!understood(format!("offer{}", " 01".repeat(68))));
    assert!(understood(format!("attach{}", " ".repeat(234))));
    assert!(!understood(format!("attach{}", " ".repeat(235))));
    assert!(understood(format!("attach{}\r", " ".repeat(233))));
    assert!(!understood(format!("attach{}\r", " ".repeat(234))));
}
