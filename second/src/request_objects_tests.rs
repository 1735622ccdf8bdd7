//! That the cases and the nights by chance really have these Requests, of all kinds,
//! and that each is answered as the paper says.

use crate::meaning::{kind, meaning, Meaning};
use crate::night_fields::Record;
use crate::night_reader::NightReader;
use crate::packet::read;
use crate::port::{Event, Port, State};
use crate::rack::Rack;
use crate::step_lines::{Bench, Reply};
use crate::step_walk::packet_of;
use crate::{night_cases, rack_cases, random_night, step_cases};
use std::collections::BTreeMap;
use std::io;

/// The states in which a Request is awaited.
const AWAITING: [State; 3] = [State::Offer, State::Discovery, State::Ready];

/// How a Request for an object that is offered stands to it.
#[derive(Clone, Copy, Debug, PartialEq, Eq, PartialOrd, Ord)]
struct Kind {
    mismatch: bool,
    give_back: bool,
    asks_too_much: bool,
    names_too_much: bool,
}

impl Kind {
    fn all() -> impl Iterator<Item = Kind> {
        let bit = |number: u8, place: u8| number >> place & 1 == 1;
        (0..16).map(move |number| Kind {
            mismatch: bit(number, 0),
            give_back: bit(number, 1),
            asks_too_much: bit(number, 2),
            names_too_much: bit(number, 3),
        })
    }

    fn is_ordinary(self) -> bool {
        !self.mismatch && !self.give_back && !self.names_too_much
    }

    /// The paper's rule once more, with request 01.
    fn fits(self) -> bool {
        match self.mismatch {
            true => !self.asks_too_much,
            false => !self.asks_too_much && !self.names_too_much,
        }
    }
}

/// The kind of a Request that the port judges by its currents, and its worth.
fn judged(port: &Port, packet: &[u8]) -> Option<(Kind, u32)> {
    let (fields, objects) = read(packet);
    let fields = fields.ok()?;
    let heard = meaning(kind(fields.extended, objects), fields.message_type);
    let is_new = port.channel.stored != Some(fields.message_id);
    if heard != Meaning::Request || !is_new || !AWAITING.contains(&port.state) {
        return None;
    }
    let [low, middle, high, top]: [u8; 4] = objects.try_into().ok()?;
    let most = u32::from(low) + u32::from(middle % 4) * 256;
    let current = u32::from(middle / 4) + u32::from(high % 16) * 64;
    let place = usize::from(top / 16).checked_sub(1)?;
    let offered = port.last.get(place)?;
    let kind = Kind {
        mismatch: top & 4 != 0,
        give_back: top & 8 != 0,
        asks_too_much: current > offered.current(),
        names_too_much: most > offered.current(),
    };
    Some((kind, offered.voltage() * current))
}

/// How often a kind was met in a state, and led to another.
#[derive(Default)]
struct Census(BTreeMap<(State, Kind, State), usize>);

impl Census {
    /// In a rack there is so much power for the port, and no offer is over its limit;
    /// a port that stands alone only comes to Judge.
    fn note(&mut self, port: &Port, room: Option<u32>, packet: &[u8], after: State) {
        let Some((kind, worth)) = judged(port, packet) else {
            return;
        };
        let expected = match room {
            None if kind.fits() => State::Judge,
            Some(room) if kind.fits() && worth <= room => State::Accepting,
            _ => State::Refusing,
        };
        assert_eq!(after, expected, "{kind:?}");
        *self.0.entry((port.state, kind, after)).or_default() += 1;
    }

    fn note_in_rack(&mut self, before: &Rack, number: usize, packet: &[u8], rack: &Rack) {
        let bay = before.bay(number).unwrap();
        let room = before.supply - (before.taken() - bay.taken());
        let after = rack.bay(number).unwrap().port.state;
        self.note(&bay.port, Some(room), packet, after);
    }

    fn of_lines(print_all: impl Fn(&mut Vec<u8>) -> io::Result<()>) -> Census {
        let mut lines = Vec::new();
        print_all(&mut lines).unwrap();
        let mut census = Census::default();
        let mut bench = Bench::new();
        for line in lines.split(|&character| character == b'\n') {
            let (alone, rack) = (bench.port.clone(), bench.beside.rack.clone());
            match (bench.take(line), packet_of(line)) {
                (Some(Reply::Alone(Ok(_))), Some(packet)) => {
                    census.note(&alone, None, &packet, bench.port.state);
                }
                (Some(Reply::Rack(Some(number), Ok(_))), Some(packet)) => {
                    census.note_in_rack(&rack, number, &packet, &bench.beside.rack);
                }
                _ => {}
            }
        }
        census
    }

    fn of_night(print: impl Fn(&mut Vec<u8>) -> io::Result<()>) -> Census {
        let mut night = Vec::new();
        print(&mut night).unwrap();
        let mut census = Census::default();
        let mut rack = Rack::default();
        let mut reader = NightReader::new(&night[..]);
        while let Ok(record) = reader.next().unwrap() {
            match record {
                Record::SetUp(set_up) => rack = Rack::set_up(&set_up).unwrap_or(rack),
                Record::Event(port, event) => {
                    let before = rack.clone();
                    let outcome = rack.step(port.into(), &event);
                    if let (Event::Packet(packet), Ok(_)) = (event, outcome) {
                        census.note_in_rack(&before, port.into(), packet, &rack);
                    }
                }
            }
        }
        census
    }

    fn count(&self, wanted: impl Fn(State, Kind, State) -> bool) -> usize {
        let entries = self.0.iter();
        let wanted = entries.filter(|(&(state, kind, after), _)| wanted(state, kind, after));
        wanted.map(|(_, count)| count).sum()
    }

    /// How often the rarest kind got its answer: Reject if it does not fit, else yes.
    fn rarest(&self, states: &[State]) -> usize {
        let count = |wanted: Kind| {
            self.count(|state, kind, after| {
                let yes = after != State::Refusing;
                states.contains(&state) && kind == wanted && yes == wanted.fits()
            })
        };
        Kind::all().map(count).min().unwrap()
    }

    /// The same in the state that has the fewest.
    fn rarest_anywhere(&self) -> usize {
        let states = AWAITING.iter();
        states.map(|&state| self.rarest(&[state])).min().unwrap()
    }

    /// How often the rarest kind that fits was rejected, for there was no power.
    fn rarest_without_power(&self) -> usize {
        let fitting = Kind::all().filter(|kind| kind.fits());
        let count =
            |wanted: Kind| self.count(|_, kind, after| kind == wanted && after == State::Refusing);
        fitting.map(count).min().unwrap()
    }
}

#[test]
fn the_step_cases_have_all_kinds_wherever_they_are_awaited() {
    let census = Census::of_lines(|lines| step_cases::print_all(lines));
    assert!(census.rarest_anywhere() >= 2);
}

#[test]
fn the_rack_cases_have_all_kinds_with_power_and_without() {
    let census = Census::of_lines(|lines| rack_cases::print_all(lines));
    assert!(census.rarest_anywhere() >= 1);
    assert!(census.rarest_without_power() >= 10);
}

#[test]
fn the_nights_have_all_kinds_with_power_and_without() {
    let census = Census::of_night(|night| night_cases::print_all(night));
    let (rarest, without_power) = (census.rarest(&AWAITING), census.rarest_without_power());
    assert!(
        rarest >= 20 && without_power >= 10,
        "{rarest}, {without_power}"
    );
}

/// From a tenth to a fifth of all.
#[test]
fn a_night_by_chance_has_them_among_many_ordinary_ones() {
    for ports in [1, 4, 8, 32] {
        let census = Census::of_night(|night| random_night::print(11, 40_000, ports, night));
        let (rarest, without_power) = (census.rarest(&AWAITING), census.rarest_without_power());
        assert!(
            rarest >= 5 && without_power >= 3,
            "{ports}: {rarest}, {without_power}"
        );
        let all = census.count(|_, _, _| true);
        let others = census.count(|_, kind, _| !kind.is_ordinary());
        assert!((all / 10..=all / 5).contains(&others), "{others} of {all}");
    }
}
