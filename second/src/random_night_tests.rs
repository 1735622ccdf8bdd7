//! That the nights by chance are as many as asked for, and really come everywhere.

use super::*;
use crate::night_cases::{events_of_a_night, SEEDS};
use crate::night_fields::{bytes_of, Record};
use crate::night_reader::{End, NightReader};
use crate::port::Event;
use crate::rack::Rack;
use crate::rack_requests::judged;
use std::collections::{BTreeMap, BTreeSet};

fn night(seed: u64, events: u64, ports: usize) -> Vec<u8> {
    let mut file = Vec::new();
    print(seed, events, ports, &mut file).unwrap();
    file
}

/// What became of a night's events.
#[derive(Default)]
struct Seen {
    set_ups: usize,
    events: usize,
    ports: BTreeSet<u8>,
    refused: BTreeMap<u8, usize>,
    states: BTreeSet<State>,
    /// How often a port came to a state.
    comings: BTreeMap<State, usize>,
    longest_packet: usize,
    /// How often each port asked for more than its share, and got it.
    granted: BTreeMap<u8, usize>,
    /// How often each port asked for what fits its offer, and did not get it.
    no_power: BTreeMap<u8, usize>,
}

fn look_at(night: &[u8]) -> Seen {
    let mut seen = Seen::default();
    let mut rack = Rack::default();
    let mut reader = NightReader::new(night);
    loop {
        match reader.next().unwrap() {
            Ok(Record::SetUp(set_up)) => {
                seen.set_ups += 1;
                rack = Rack::set_up(&set_up).unwrap();
            }
            Ok(Record::Event(port, event)) => {
                let state = |rack: &Rack| rack.bay(port.into()).map(|bay| bay.port.state);
                let before = state(&rack);
                let asked = asked_beyond(&rack, port, &event);
                let outcome = rack.step(port.into(), &event);
                seen.take(port, &event, outcome.err(), before, state(&rack));
                seen.take_answer(port, asked, state(&rack));
            }
            Err(end) => {
                assert_eq!(end, End::Whole);
                return seen;
            }
        }
    }
}

/// Whether a Request that fits is for more than the port's share.
fn asked_beyond(rack: &Rack, port: u8, event: &Event) -> Option<bool> {
    let bay = rack.bay(port.into())?;
    judged(bay, event).map(|asked| asked > bay.share)
}

impl Seen {
    fn take(
        &mut self,
        port: u8,
        event: &Event,
        refusal: Option<u8>,
        before: Option<State>,
        after: Option<State>,
    ) {
        self.events += 1;
        self.ports.insert(port);
        self.longest_packet = self.longest_packet.max(bytes_of(event).len());
        if let Some(number) = refusal {
            *self.refused.entry(number).or_default() += 1;
        }
        if let Some(state) = after {
            self.states.insert(state);
            *self.comings.entry(state).or_default() += usize::from(before != after);
        }
    }

    fn take_answer(&mut self, port: u8, asked_beyond: Option<bool>, after: Option<State>) {
        match (asked_beyond, after) {
            (Some(true), Some(State::Accepting)) => *self.granted.entry(port).or_default() += 1,
            (Some(_), Some(State::Refusing)) => *self.no_power.entry(port).or_default() += 1,
            _ => {}
        }
    }
}

#[test]
fn exactly_so_many_events_and_always_the_same() {
    for ports in 1..=32 {
        let events = 100 * ports as u64 + 7;
        let first = night(3, events, ports);
        assert_eq!(first, night(3, events, ports));
        assert_ne!(first, night(4, events, ports));
        let seen = look_at(&first);
        assert_eq!((seen.set_ups, seen.events as u64), (1, events));
    }
    assert_eq!(look_at(&night(1, 0, 1)).events, 0);
}

/// All but Judge, which no event of a rack ends in; Disabled among them, though a
/// port comes there only after 200 events without an answer.
#[test]
fn every_state_every_refusal_and_both_power_answers_often() {
    for (ports, past) in [(1, 9), (4, 9), (8, 9), (9, 33), (32, 33)] {
        let seen = look_at(&night(11, 40_000, ports));
        assert_eq!(seen.states.len(), 15, "{:?}", seen.states);
        assert!(!seen.states.contains(&State::Judge));
        let numbers: Vec<u8> = seen.refused.keys().copied().collect();
        assert_eq!(numbers, [1, 2, 3, 4, 7, 8, 9]);
        assert!(seen.refused.values().all(|&count| count > 100));
        let refused: usize = seen.refused.values().sum();
        // some 15 of a hundred are hostile, and most of those are refused
        assert!((3_200..=7_200).contains(&refused), "{refused}");
        let comings = |state| seen.comings[&state];
        assert!(comings(State::Accepting) > 2_000, "{ports}");
        assert!(comings(State::Refusing) > 500, "{ports}");
        assert!(comings(State::Hard) > 500 && comings(State::Ready) > 2_000);
        assert!(comings(State::Soft) > 300 && comings(State::Answering) > 100);
        assert!(comings(State::Declining) > 100 && comings(State::Disabled) > 0);
        assert!(seen.longest_packet > 500);
        assert!([0, past, 255].iter().all(|port| seen.ports.contains(port)));
    }
}

/// The same at the sizes of `night-cases`, in racks of each number of ports; but that
/// the short nights of large racks have no time for Disabled.
#[test]
fn every_state_in_the_nights_of_the_cases_too() {
    for ports in 1..=32 {
        let nights = SEEDS.map(|seed| night(seed, events_of_a_night(ports), ports));
        let seen = look_at(&nights.concat());
        let mut states = seen.states;
        if !matches!(ports, 1..=8 | 32) {
            states.insert(State::Disabled);
        }
        assert_eq!(states.len(), 15, "{ports}: {states:?}");
        // and every port is there
        assert!((1..=ports as u8).all(|port| seen.ports.contains(&port)));
    }
}

/// Each whose limit is over its share gets more than that at times, and at times less
/// than it was offered.
#[test]
fn the_power_rule_matters_at_each_of_32_ports() {
    let set_up = some_set_up(&mut Chance::new(11), 32);
    let numbered = (1..).zip(&set_up.places);
    let can_have_more = numbered.filter(|(_, place)| place.share < place.limit);
    let numbers: Vec<u8> = can_have_more.map(|(number, _)| number).collect();
    assert!(numbers.len() > 24 && numbers.ends_with(&[31, 32]));
    let seen = look_at(&night(11, 40_000, 32));
    let (granted, no_power) = (&seen.granted, &seen.no_power);
    assert!(granted.keys().eq(&numbers) && no_power.keys().eq(&numbers));
    let sum = |counts: &BTreeMap<u8, usize>| counts.values().sum::<usize>();
    assert!(
        sum(granted) > 500 && sum(no_power) > 500,
        "{granted:?}, {no_power:?}"
    );
}

/// Beyond the shares: full power for a usual port, or half of what all would take
/// where that is less, and never for all.
#[test]
fn the_supply_does_for_some_ports_and_not_for_all() {
    for seed in 0..200 {
        let mut chance = Chance::new(seed);
        for ports in 1..=32 {
            let set_up = some_set_up(&mut chance, ports);
            assert!(Rack::set_up(&set_up).is_ok());
            let limits: u32 = set_up.places.iter().map(|place| place.limit).sum();
            let shares: u32 = set_up.places.iter().map(|place| place.share).sum();
            let spare = set_up.supply - shares;
            assert!(spare >= 60_000.min((limits - shares) / 2), "{set_up:?}");
            assert!(limits == shares || set_up.supply < limits, "{set_up:?}");
        }
    }
}
