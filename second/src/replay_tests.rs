//! The words of docs/REPLAY.md ("A line for each event", "The table"), line for
//! line.

use super::*;
use crate::night_lines::night_of;
use crate::night_pieces::story;

fn lines_of(night: &[u8]) -> Vec<String> {
    let mut output = Vec::new();
    replay(night, &mut output).unwrap();
    let output = String::from_utf8(output).unwrap();
    output.lines().map(str::to_string).collect()
}

fn replayed(text: &str) -> Vec<String> {
    lines_of(&night_of(text))
}

const HEAD: &str = "port | state | contract | held | share | limit";
const NO_RACK: [&str; 2] = [HEAD, "rack | 0 of 0"];
const TWO_PORTS: &str = "supply 240000\n\
    place 30000 120000 2C 91 01 00 2C D1 02 00\nplace 30000 120000 2C 91 01 00\nsetup\n";

#[test]
fn from_attach_to_a_contract() {
    let way = "1 attach\n1 packet 81 00\n1 packet 82 10 2C B1 04 20\n1 packet 81 02\n\
        1 supplyready\n1 packet 81 04\n";
    let expected = [
        "set-up | ports 2 | supply 240000 | none",
        "1 | port 1 | attach | transmit A1 21 2C 91 01 00 2C D1 02 00 | Offer",
        "2 | port 1 | packet 81 00 | start SenderResponse | Offer",
        "3 | port 1 | packet 82 10 2C B1 04 20 | GoodCRC A1 01; stop SenderResponse; transmit A3 03 | Accepting",
        "4 | port 1 | packet 81 02 | supply 2 | Moving",
        "5 | port 1 | supplyready | transmit A6 05 | Telling",
        "6 | port 1 | packet 81 04 | none | Ready",
        HEAD,
        "1 | Ready | 9.00 V 3.00 A | 54000 | 30000 | 120000",
        "2 | Detached | none | 0 | 30000 | 120000",
        "rack | 84000 of 240000",
    ];
    assert_eq!(replayed(&format!("{TWO_PORTS}{way}")), expected);
}

#[test]
fn every_event_in_words_without_a_rack() {
    let words = "attach, detach, packet 82 12 2C B1 04 20, hardreset, acknowledgement, \
        senderresponse, sourcecapability, pshardreset, supplyready, offer 2C 91 01 00, yes, no";
    for (number, word) in [0, 1, 9, 255].iter().cycle().zip(words.split(", ")) {
        let first = format!("1 | port {number} | {word} | ");
        let refused = "refused 9, port number not in the rack | -";
        let expected = [&format!("{first}{refused}"), NO_RACK[0], NO_RACK[1]];
        assert_eq!(replayed(&format!("{number} {word}")), expected);
    }
}

#[test]
fn short_and_long_bytes_in_words() {
    let word = |event: &Event| what_text(event);
    assert_eq!(word(&Event::Packet(&[])), "packet -");
    assert_eq!(word(&Event::NewOffer(&[])), "offer -");
    assert_eq!(word(&Event::Packet(&[0x0A, 0xFF])), "packet 0A FF");
    let thirty = word(&Event::Packet(&[0; 30]));
    assert_eq!(thirty, format!("packet{}", " 00".repeat(30)));
    assert_eq!(word(&Event::Packet(&[0; 31])), "packet of 31 bytes");
    assert_eq!(word(&Event::Packet(&[0; 600])), "packet of 600 bytes");
    let seven = word(&Event::NewOffer(&[[0; 4]; 7]));
    assert_eq!(seven, format!("offer{}", " 00".repeat(28)));
    assert_eq!(word(&Event::NewOffer(&[[0; 4]; 8])), "offer of 8 objects");
}

#[test]
fn refusals_have_their_words_and_the_state_stays() {
    let long = format!("packet{}", " 00".repeat(31));
    let eight = format!("offer{}", " 2C 91 01 00".repeat(8));
    for (event, what, answer) in [
        ("packet", "packet -", "refused 1, packet under 2 bytes"),
        (
            &long,
            "packet of 31 bytes",
            "refused 2, packet over 30 bytes",
        ),
        (
            "packet 82 10",
            "packet 82 10",
            "refused 3, length is not 2 + 4 x objects, or extended under 4 bytes",
        ),
        (
            "packet 82 90 00 00 00 00",
            "packet 82 90 00 00 00 00",
            "refused 4, extended with Chunked clear, or written without object",
        ),
        ("offer", "offer -", "refused 7, bad offer"),
        (&eight, "offer of 8 objects", "refused 7, bad offer"),
        (
            "yes",
            "yes",
            "refused 8, the event is not awaited in this state",
        ),
    ] {
        let lines = replayed(&format!("{TWO_PORTS}2 attach\n2 {event}"));
        assert_eq!(lines[2], format!("2 | port 2 | {what} | {answer} | Offer"));
    }
}

#[test]
fn a_set_up_that_is_accepted_shows_the_table_before_it() {
    let one_port = "supply 30000\nplace 30000 30000 2C 91 01 00\nsetup\n";
    let bad = "supply 29999\nplace 1 1\nsetup\n";
    let text = format!("{bad}{one_port}{bad}1 attach\n{TWO_PORTS}{one_port}1 attach");
    let refused = "set-up | ports 1 | supply 29999 | refused 10, bad set-up";
    let expected = [
        refused,
        "set-up | ports 1 | supply 30000 | none",
        refused,
        "1 | port 1 | attach | transmit A1 11 2C 91 01 00 | Offer",
        HEAD,
        "1 | Offer | none | 0 | 30000 | 30000",
        "rack | 30000 of 30000",
        "set-up | ports 2 | supply 240000 | none",
        HEAD,
        "1 | Detached | none | 0 | 30000 | 120000",
        "2 | Detached | none | 0 | 30000 | 120000",
        "rack | 60000 of 240000",
        "set-up | ports 1 | supply 30000 | none",
        "2 | port 1 | attach | transmit A1 11 2C 91 01 00 | Offer",
        HEAD,
        "1 | Offer | none | 0 | 30000 | 30000",
        "rack | 30000 of 30000",
    ];
    assert_eq!(replayed(&text), expected);
}

#[test]
fn the_ports_of_a_bad_set_up() {
    for (ports, shown) in [
        (0, 0),
        (9, 9),
        (33, 33),
        (254, 254),
        (255, 255),
        (256, 255),
        (300, 255),
    ] {
        let text = format!("supply 4294967295\n{}setup", "place 1 1\n".repeat(ports));
        let line = format!("set-up | ports {shown} | supply 4294967295 | refused 10, bad set-up");
        assert_eq!(replayed(&text), [&line, NO_RACK[0], NO_RACK[1]]);
    }
}

#[test]
fn a_night_that_cannot_be_read_to_its_end() {
    let story = story();
    let whole = lines_of(&story);
    let table = whole.len() - 3;
    assert_eq!(whole[table], HEAD);
    let place = story.len();
    for (rest, words) in [
        (&[32, 1][..], format!("cut at byte {place}")),
        (
            &[44, 1, 0, 1],
            format!("damaged at byte {place}: an unknown tag"),
        ),
        (
            &[32, 0, 0],
            format!("damaged at byte {place}: a wrong length"),
        ),
        (
            &[16, 0, 0],
            format!("damaged at byte {place}: a set-up that is not laid out as it must be"),
        ),
    ] {
        let lines = lines_of(&[&story[..], rest].concat());
        assert_eq!(lines[..table], whole[..table]);
        assert_eq!(lines[table], format!("the night is {words}"));
        assert_eq!(lines[table + 1..], whole[table..]);
    }
}

#[test]
fn hundredths_of_volts_and_amperes() {
    let way = "1 attach\n1 packet 81 00\n1 packet 82 10 01 04 00 20\n1 packet 81 02\n\
        1 supplyready\n1 packet 81 04\n";
    // 20 V 0.01 A of an object of 20 V 3 A, and 5.05 V 1.20 A
    for (offer, request, contract) in [
        ("2C 91 01 00 2C 41 06 00", "01 04 00 20", "20.00 V 0.01 A"),
        ("2C 91 01 00 78 94 01 00", "78 E0 01 20", "5.05 V 1.20 A"),
    ] {
        let set_up = format!("supply 240000\nplace 30000 120000 {offer}\nsetup\n");
        let way = way.replace("01 04 00 20", request);
        let lines = replayed(&format!("{set_up}{way}"));
        let row = &lines[lines.len() - 2];
        assert!(
            row.starts_with(&format!("1 | Ready | {contract} | ")),
            "{row}"
        );
    }
}
