//! That the lines really cover what they are for, and that the rack keeps to the
//! paper at every one of them.

use super::*;
use crate::port::Event;
use crate::rack::{Bay, Rack};
use crate::rack_requests::judged;
use crate::step_lines::{answer_all, Bench, Reply};
use crate::step_walk::packet_of;
use std::collections::{BTreeMap, BTreeSet};
use std::sync::OnceLock;

/// Made once, for they are many.
fn all_lines() -> &'static [u8] {
    static LINES: OnceLock<Vec<u8>> = OnceLock::new();
    LINES.get_or_init(|| {
        let mut lines = Vec::new();
        print_all(&mut lines).unwrap();
        lines
    })
}

fn split(lines: &[u8]) -> impl Iterator<Item = &[u8]> {
    lines.split(|&character| character == b'\n')
}

/// Goes through the lines, and shows the bench before each one and after it.
pub fn each_line(mut look: impl FnMut(&[u8], &Rack, Option<Reply>, &Bench)) {
    let mut bench = Bench::new();
    for line in split(all_lines()) {
        let before = bench.beside.rack.clone();
        let reply = bench.take(line);
        look(line, &before, reply, &bench);
    }
}

/// A power answer that the rack gave.
pub struct Judged {
    /// How many the rack has, and which of them asked.
    pub ports: usize,
    pub number: usize,
    pub share: u32,
    pub asked: u32,
    pub yes: bool,
    /// What the sum is, or would have been.
    pub sum: u32,
    pub supply: u32,
}

/// What the port asks for at this line, if it then awaits a power answer.
fn asked(line: &[u8], bay: &Bay) -> Option<u32> {
    judged(bay, &Event::Packet(&packet_of(line)?))
}

/// None stands for a new rack between two answers.
pub fn all_judged() -> Vec<Option<Judged>> {
    let mut answers = Vec::new();
    each_line(|line, before, reply, bench| {
        let Some(Reply::Rack(number, Ok(_))) = reply else {
            return;
        };
        let Some(number) = number else {
            answers.push(None);
            return;
        };
        let bay = before.bay(number).unwrap();
        if let Some(asked) = asked(line, bay) {
            let now = bench.beside.rack.bay(number).unwrap().port.state;
            assert!(matches!(now, State::Accepting | State::Refusing));
            answers.push(Some(Judged {
                ports: before.bays.len(),
                number,
                share: bay.share,
                asked,
                yes: now == State::Accepting,
                sum: before.taken() - bay.taken() + bay.taken().max(asked),
                supply: before.supply,
            }));
        }
    });
    answers
}

#[test]
fn the_answer_is_yes_exactly_by_the_power_rule() {
    let judged: Vec<Judged> = all_judged().into_iter().flatten().collect();
    for answer in &judged {
        // no request that fits is over the limit, for no offer is
        assert_eq!(answer.yes, answer.sum <= answer.supply);
    }
    let count = |wanted: &dyn Fn(&Judged) -> bool| judged.iter().filter(|j| wanted(j)).count();
    let (yes, no) = (count(&|j| j.yes), count(&|j| !j.yes));
    assert!(yes > 2_000 && no > 1_000, "{yes} yes, {no} no");
    // as near to the bound as can be, from both sides
    let exact = count(&|j| j.sum == j.supply && j.asked > 30_000);
    let missed = count(&|j| !j.yes && j.sum < j.supply + 500);
    assert!(exact > 200 && missed > 200, "{exact} met, {missed} missed");
}

/// The same port gets what it was refused in the same rack. That can only be
/// because neighbours have given up.
#[test]
fn many_a_yes_waited_for_a_neighbour() {
    let mut refused: BTreeMap<usize, u32> = BTreeMap::new();
    let mut waited = 0;
    for answer in all_judged() {
        let Some(answer) = answer else {
            refused.clear();
            continue;
        };
        let least = refused.get(&answer.number).copied();
        match (answer.yes, least) {
            (true, Some(least)) if least <= answer.asked => {
                waited += 1;
                refused.remove(&answer.number);
            }
            (true, _) => {}
            (false, least) => {
                let least = least.unwrap_or(u32::MAX).min(answer.asked);
                refused.insert(answer.number, least);
            }
        }
    }
    assert!(waited > 200, "{waited}");
}

/// What the paper says of a rack at all times.
#[test]
fn no_rack_ever_stands_where_it_cannot() {
    let mut alone = Bench::new().port;
    each_line(|line, before, reply, bench| {
        let rack = &bench.beside.rack;
        let line = line.escape_ascii();
        assert!(rack.taken() <= rack.supply, "{line}");
        assert!(rack.bays.iter().all(|bay| bay.port.state != State::Judge));
        match reply {
            Some(Reply::Rack(None, Ok(_))) => {
                assert!(rack
                    .bays
                    .iter()
                    .all(|bay| bay.port.state == State::Detached));
            }
            Some(Reply::Rack(Some(number), Ok(_))) => {
                let mut others = before.clone();
                others.bays[number - 1] = rack.bays[number - 1].clone();
                assert_eq!(*rack, others, "{line}");
            }
            _ => assert_eq!(rack, before, "{line}"),
        }
        if !matches!(reply, Some(Reply::Alone(_))) {
            assert_eq!(bench.port, alone, "{line}");
        }
        alone = bench.port.clone();
    });
}

#[test]
fn every_state_but_judge_in_racks_of_every_size() {
    let mut seen: BTreeMap<usize, BTreeSet<State>> = BTreeMap::new();
    each_line(|_, _, reply, bench| {
        let rack = &bench.beside.rack;
        if let Some(Reply::Rack(Some(number), Ok(_))) = reply {
            let state = rack.bay(number).unwrap().port.state;
            seen.entry(rack.bays.len()).or_default().insert(state);
        }
    });
    let all: BTreeSet<State> = seen.values().flatten().copied().collect();
    assert_eq!(all.len(), 15);
    assert_eq!(seen.len(), 32);
    // only a receiver that never answers gets a port disabled, which takes long
    for (ports, states) in seen {
        assert!(states.len() >= 14, "{ports}: {states:?}");
    }
}

#[test]
fn every_way_leads_where_it_should() {
    let roomy = rack_situations::ROOMY.iter().map(|way| (240_000, way));
    let tight = rack_situations::TIGHT.iter().map(|way| (120_000, way));
    for (supply, &(state, way)) in roomy.chain(tight) {
        let mut walk = Walk::new();
        walk.set_up(&alike(supply, 4, &[FIVE_VOLT, NINE_VOLT]));
        walk.turn_to(3);
        go_in_rack(&mut walk, way);
        assert_eq!(walk.port().state, state, "{way}");
    }
}

/// Each with how often it should come at least.
const ANSWERS: &[(&str, usize)] = &[
    ("refused 1,", 50),
    ("refused 2,", 50),
    ("refused 3,", 50),
    ("refused 4,", 50),
    ("refused 7,", 300),
    ("refused 8,", 1_000),
    ("refused 9,", 1_000),
    ("refused 10,", 200),
    ("noted\n", 1_000),
    ("not understood\n", 1_000),
    ("actions: none | held: nothing | - | rack: ", 500),
    ("stop SenderResponse; transmit A3 ", 500),
    ("stop SenderResponse; transmit A4 ", 500),
    ("stop SourceCapability; transmit A3 ", 20),
    ("stop SourceCapability; transmit A4 ", 20),
    ("supply 7 |", 5),
    ("supply default", 200),
    ("held: accepted", 1_000),
    ("held: in force", 500),
    ("held: given up", 500),
    ("retries 2,", 200),
    ("count 50,", 20),
    ("| - | rack: 0 of 0\n", 5),
    ("rack: 1600000 of 1600000\n", 5),
    ("rack: 6400000 of 6400000\n", 5),
];

#[test]
fn every_answer_turns_up() {
    let mut output = Vec::new();
    answer_all(all_lines(), &mut output).unwrap();
    let output = String::from_utf8(output).unwrap();
    for &(text, least) in ANSWERS {
        let count = output.matches(text).count();
        assert!(count >= least, "{text}: {count}");
    }
}

#[test]
fn enough_lines_and_not_too_many() {
    let lines = all_lines();
    let count = split(lines).count();
    assert!((110_000..=130_000).contains(&count), "{count}");
    // The last line has no end.
    assert_ne!(lines.last(), Some(&b'\n'));
}

#[test]
fn the_set_ups_are_good_and_bad_in_plenty() {
    let set_ups = rack_set_ups::all();
    let good = set_ups.iter().filter(|s| Rack::set_up(s).is_ok()).count();
    assert!(good > 100 && set_ups.len() - good > 120, "{good}");
}
