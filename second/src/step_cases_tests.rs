//! That the lines really cover what they are for; a comparison shows nothing
//! where no line goes.

use super::*;
use crate::hex;
use crate::meaning::{kind, meaning, Meaning};
use crate::packet::read;
use crate::port::Timer;
use crate::step_lines::{answer_all, Bench, Reply};
use std::collections::BTreeMap;
use std::sync::OnceLock;

/// Made once, for they are many.
fn all_lines() -> &'static [u8] {
    static LINES: OnceLock<Vec<u8>> = OnceLock::new();
    LINES.get_or_init(|| {
        let mut lines = Vec::new();
        print_all(&mut lines).unwrap();
        lines
    })
}

fn split(lines: &[u8]) -> impl Iterator<Item = &[u8]> {
    lines.split(|&character| character == b'\n')
}

#[test]
fn every_way_leads_where_it_should() {
    for &(state, way) in SITUATIONS.iter().chain(LONG_SITUATIONS) {
        let mut walk = Walk::new();
        bring(&mut walk, way);
        assert_eq!(walk.port().state, state, "{way}");
    }
}

/// The event's word; for a packet, its meaning (a Request with capability mismatch
/// is one of its own) and what its MessageID says, or the number with which its
/// reading is refused.
fn event_name(line: &[u8], port: &Port) -> String {
    let text = String::from_utf8_lossy(line);
    let (word, rest) = text.split_once(' ').unwrap_or((&text, ""));
    let Some(bytes) = hex::bytes_of(rest.as_bytes()).filter(|_| word == "packet") else {
        return word.to_string();
    };
    let (fields, objects) = read(&bytes);
    let fields = match fields {
        Ok(fields) => fields,
        Err(number) => return format!("refused {number}"),
    };
    let heard = match meaning(kind(fields.extended, objects), fields.message_type) {
        Meaning::Request if objects[3] & 4 != 0 => "Mismatch".to_string(),
        other => format!("{other:?}"),
    };
    let stored = port.channel.stored == Some(fields.message_id);
    format!("{heard} {}", if stored { "again" } else { "new" })
}

/// Each event that was understood, with the state it met.
fn all_pairs() -> BTreeSet<(State, String)> {
    let mut pairs = BTreeSet::new();
    let mut bench = Bench::new();
    for line in split(all_lines()) {
        let name = event_name(line, &bench.port);
        let state = bench.port.state;
        if bench.take(line).is_some() {
            pairs.insert((state, name));
        }
    }
    pairs
}

const EVENTS: &str = "attach, detach, hardreset, acknowledgement, senderresponse, \
    sourcecapability, pshardreset, supplyready, offer, yes, no, GoodCrc new, Reply new, \
    GetSourceCap new, SoftReset new, Quiet new, Request new, Mismatch new, Unsupported new, \
    refused 1, refused 2, refused 3, refused 4";

const REPEATS: &str = "Request again, SoftReset again, GetSourceCap again, Reply again";

#[test]
fn every_state_meets_every_event() {
    let pairs = all_pairs();
    let situations = SITUATIONS.iter().chain(LONG_SITUATIONS);
    let states: BTreeSet<State> = situations.map(|situation| situation.0).collect();
    assert_eq!(states.len(), 16);
    for state in states {
        for event in EVENTS.split(", ") {
            let pair = (state, event.to_string());
            assert!(pairs.contains(&pair), "{pair:?}");
        }
    }
    for state in [
        State::Judge,
        State::Accepting,
        State::Ready,
        State::Answering,
    ] {
        for event in REPEATS.split(", ") {
            let pair = (state, event.to_string());
            assert!(pairs.contains(&pair), "{pair:?}");
        }
    }
}

const ANSWERS: &[&str] = &[
    "refused 1,",
    "refused 2,",
    "refused 3,",
    "refused 4,",
    "refused 7,",
    "refused 8,",
    "actions: none |",
    "GoodCRC A1 ",
    "GoodCRC 61 ",
    "stop SenderResponse",
    "stop SourceCapability",
    "stop PSHardReset",
    "signal Hard Reset",
    "supply 1 |",
    "supply 7 |",
    "supply default",
    "start SenderResponse",
    "start SourceCapability",
    "start PSHardReset",
    "transmit A1 ",
    "transmit A3 ",
    "transmit A4 ",
    "transmit A6 ",
    "transmit AD 01",
    "transmit B0 ",
    "held: nothing",
    "held: accepted",
    "held: in force",
    "held: given up",
    "retries 1,",
    "retries 2,",
    "counter 7,",
    "count 50,",
    "| Disabled,",
    "not understood",
];

#[test]
fn every_answer_turns_up() {
    let mut output = Vec::new();
    answer_all(all_lines(), &mut output).unwrap();
    let output = String::from_utf8(output).unwrap();
    for text in ANSWERS {
        assert_eq!(output.matches(text).take(10).count(), 10, "{text}");
    }
    assert!(!output.contains("count 51,") && !output.contains("retries 3,"));
}

/// The sequences by chance by themselves: they come to every state often, and where
/// nobody answers to the fiftieth offer and to Disabled.
#[test]
fn chance_alone_comes_everywhere() {
    let mut walk = Walk::new();
    step_random::add_all(&mut walk);
    let mut bench = Bench::new();
    let (mut comings, mut fiftieth_offers) = (BTreeMap::new(), 0);
    for line in split(&walk.lines) {
        let (state, count) = (bench.port.state, bench.port.count);
        bench.take(line);
        if bench.port.state != state {
            *comings.entry(bench.port.state).or_insert(0) += 1;
        }
        fiftieth_offers += usize::from((count, bench.port.count) == (49, 50));
    }
    assert_eq!(comings.len(), 16, "{comings:?}");
    let disabled = comings.remove(&State::Disabled).unwrap_or(0);
    assert!(comings.values().all(|&times| times > 100), "{comings:?}");
    // once in each round
    assert!(fiftieth_offers >= 12 && disabled >= 12, "{disabled}");
}

/// After every line: what the paper says of a port that stands somewhere.
#[test]
fn no_port_ever_stands_where_it_cannot() {
    use State::*;
    let mut bench = Bench::new();
    for line in split(all_lines()) {
        let before = bench.port.clone();
        if !matches!(bench.take(line), Some(Reply::Alone(Ok(_)))) {
            assert_eq!(bench.port, before, "{}", line.escape_ascii());
        }
        let port = &bench.port;
        let pending = port.channel.pending.is_some();
        let sends = matches!(
            port.state,
            Accepting | Telling | Declining | Refusing | Answering
        );
        let may_send = matches!(port.state, Offer | Soft);
        assert!(if pending { sends || may_send } else { !sends }, "{port:?}");
        let running = match port.state {
            Offer | Soft if !pending => Some(Timer::SenderResponse),
            Discovery => Some(Timer::SourceCapability),
            Hard => Some(Timer::PsHardReset),
            _ => None,
        };
        assert_eq!(port.running, running, "{port:?}");
        // An offer that has not gone out does not wait in these two.
        assert!(port.gone_out || !matches!(port.state, Ready | Waiting));
    }
}

#[test]
fn enough_lines_and_not_too_many() {
    let lines = all_lines();
    let count = split(lines).count();
    assert!((60_000..=150_000).contains(&count), "{count}");
    // The last line has no end.
    assert_ne!(lines.last(), Some(&b'\n'));
}
