//! The words of docs/STEPS.md ("A rack"), line for line.

use crate::step_lines::answer_all;

fn answers(input: &str) -> Vec<String> {
    let mut output = Vec::new();
    answer_all(input.as_bytes(), &mut output).unwrap();
    let output = String::from_utf8(output).unwrap();
    output.lines().map(str::to_string).collect()
}

fn last_answer(input: &str) -> String {
    answers(input).pop().unwrap()
}

const PLACE: &str = "place 30000 120000 2C 91 01 00 2C D1 02 00\n";

fn four_ports(supply: u32) -> String {
    format!("supply {supply}\n{}setup\n", PLACE.repeat(4))
}

const FRESH: &str = "Detached, counter 0, stored none, pending -, retries 0, \
    newest 2C 91 01 00 2C D1 02 00, gone out no, last -, accepted 0 0 0 0, contract none, \
    held 0, count 0, connected no";

#[test]
fn a_set_up_is_noted_and_then_tried() {
    let mut expected = vec!["noted"; 5];
    expected.push("actions: none | held: nothing | - | rack: 120000 of 240000");
    assert_eq!(answers(&four_ports(240_000)), expected);
    let bad = "refused 10, bad set-up | held: nothing | - | rack:";
    assert_eq!(last_answer("setup"), format!("{bad} 0 of 0"));
    assert_eq!(
        last_answer(&format!("{PLACE}setup")),
        format!("{bad} 0 of 0")
    );
    // the rack stays as it was
    let good = four_ports(240_000);
    let kept = last_answer(&format!("{good}supply 29999\nsetup"));
    assert_eq!(kept, format!("{bad} 120000 of 240000"));
    let one_offer_bad = format!("{good}place 30000 120000\nsetup");
    assert_eq!(
        last_answer(&one_offer_bad),
        format!("{bad} 120000 of 240000")
    );
}

#[test]
fn the_set_up_stays_in_hand() {
    let again = format!("{}1 attach\n{PLACE}setup\n5 detach", four_ports(240_000));
    let lines = answers(&again);
    assert_eq!(
        lines[8],
        "actions: none | held: nothing | - | rack: 150000 of 240000"
    );
    // a new supply puts it away
    let anew = format!("{}supply 240000\n{PLACE}setup", four_ports(240_000));
    assert!(last_answer(&anew).ends_with("rack: 30000 of 240000"));
    // up to 32 ports
    let with_more = |more| format!("{}{}setup", four_ports(990_000), PLACE.repeat(more));
    let all = "actions: none | held: nothing | - | rack: 960000 of 990000";
    assert_eq!(last_answer(&with_more(28)), all);
    let bad = "refused 10, bad set-up | held: nothing | - | rack: 120000 of 990000";
    assert_eq!(last_answer(&with_more(29)), bad);
}

/// From the paper: port 2 is offered 9 V, asks for it, and gets it or not.
#[test]
fn an_event_at_a_port_with_the_power_answer() {
    let offered = "newest 2C 91 01 00 2C D1 02 00, gone out yes, last 2C 91 01 00 2C D1 02 00";
    let way = "2 attach\n2 packet 81 00\n2 packet 82 10 2C B1 04 20\n";
    let ask = "actions: GoodCRC A1 01; stop SenderResponse; transmit";
    let memory = |state, pending, held| {
        format!("{state}, counter 1, stored 0, pending {pending}, retries 0, {offered}, accepted 2 180 300 54000, contract none, held {held}, count 0, connected yes")
    };
    let yes = memory("Accepting", "A3 03", 54_000);
    assert_eq!(
        last_answer(&format!("{}{way}", four_ports(240_000))),
        format!("{ask} A3 03 | held: accepted | {yes} | rack: 144000 of 240000")
    );
    let no = memory("Refusing", "A4 03", 0);
    assert_eq!(
        last_answer(&format!("{}{way}", four_ports(143_999))),
        format!("{ask} A4 03 | held: nothing | {no} | rack: 120000 of 143999")
    );
}

#[test]
fn refusals_at_a_port() {
    let rack = "rack: 120000 of 240000";
    let last = |line: &str| last_answer(&format!("{}{line}", four_ports(240_000)));
    for (line, words) in [
        ("4 packet", "refused 1, packet under 2 bytes"),
        ("1 offer", "refused 7, bad offer"),
        ("2 yes", "refused 8, the event is not awaited in this state"),
        ("3 no", "refused 8, the event is not awaited in this state"),
        (
            "001 detach",
            "refused 8, the event is not awaited in this state",
        ),
    ] {
        let expected = format!("{words} | held: nothing | {FRESH} | {rack}");
        assert_eq!(last(line), expected, "{line}");
    }
    let outside = "refused 9, port number not in the rack | held: nothing | - |";
    for line in [
        "0 attach",
        "5 packet",
        "9 offer",
        "32 no",
        "257 yes",
        "999 attach",
    ] {
        assert_eq!(last(line), format!("{outside} {rack}"), "{line}");
        assert_eq!(last_answer(line), format!("{outside} rack: 0 of 0"));
    }
}

#[test]
fn the_port_and_the_rack_have_nothing_to_do_with_each_other() {
    let rack = four_ports(240_000);
    let alone = last_answer("attach");
    assert_eq!(last_answer(&format!("{rack}1 attach\nattach")), alone);
    assert_eq!(
        last_answer(&format!("{rack}attach\nport 30000 2C 91 01 00\n1 attach")),
        format!("{alone} | rack: 120000 of 240000")
    );
    assert_eq!(
        last_answer(&format!("attach\n{rack}detach")),
        last_answer("attach\ndetach")
    );
}

#[test]
fn not_understood_changes_nothing() {
    let in_hand = format!("supply 240000\n{PLACE}");
    for line in [
        "supply",
        "supply 1 2",
        "place 1",
        "place x 1",
        "setup 1",
        "1 setup",
    ] {
        let lines = answers(&format!("{in_hand}{line}\nsetup"));
        assert_eq!(lines[2], "not understood", "{line}");
        assert!(lines[3].ends_with("rack: 30000 of 240000"), "{line}");
    }
}
