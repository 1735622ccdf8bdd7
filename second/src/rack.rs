//! The paper's rack: a good set-up ("Refusal numbers"), events at numbered ports,
//! and the "Power rule", by which ports share one supply. What a port does with
//! an event stands in port.rs and states.rs.

use crate::offer::{is_good, Object, Offer};
use crate::port::{Answer, Event, Port, State};

/// Both by request 08, "Thirty-two ports".
pub const MOST_PORTS: usize = 32;
pub const LARGEST_SUPPLY: u32 = 6_400_000;
const SMALLEST_SUPPLY: u32 = 30_000;
const SMALLEST_SHARE: u32 = 30_000;
const LARGEST_LIMIT: u32 = 200_000;

const NOT_IN_THE_RACK: u8 = 9;
const BAD_SET_UP: u8 = 10;

/// What a rack is to be, good or bad.
#[derive(Clone, Debug, Default, PartialEq, Eq)]
pub struct SetUp {
    pub supply: u32,
    pub places: Vec<Place>,
}

#[derive(Clone, Debug, PartialEq, Eq)]
pub struct Place {
    pub share: u32,
    pub limit: u32,
    pub offer: Vec<Object>,
}

impl SetUp {
    fn is_good(&self) -> bool {
        (1..=MOST_PORTS).contains(&self.places.len())
            && (SMALLEST_SUPPLY..=LARGEST_SUPPLY).contains(&self.supply)
            && self.places.iter().all(Place::is_good)
            && self.shares() <= self.supply
    }

    /// Only for as many places as a rack has, and good ones: others may add to more
    /// than fits.
    fn shares(&self) -> u32 {
        self.places.iter().map(|place| place.share).sum()
    }
}

impl Place {
    fn is_good(&self) -> bool {
        SMALLEST_SHARE <= self.share
            && self.share <= self.limit
            && self.limit <= LARGEST_LIMIT
            && is_good(&self.offer, self.limit)
    }
}

/// The default has no port and no supply: that is, there is no rack.
#[derive(Clone, Debug, Default, PartialEq, Eq)]
pub struct Rack {
    pub supply: u32,
    pub bays: Vec<Bay>,
}

/// A port in its place.
#[derive(Clone, Debug, PartialEq, Eq)]
pub struct Bay {
    pub share: u32,
    pub limit: u32,
    pub port: Port,
}

impl Bay {
    /// Of a good set-up.
    fn at(place: &Place) -> Bay {
        let offer = Offer::of(place.offer.iter().copied());
        let offer = offer.expect("a good offer has at most seven objects");
        Bay {
            share: place.share,
            limit: place.limit,
            port: Port::new(offer),
        }
    }

    /// The share is kept for the port even while it holds less, or nothing.
    pub fn taken(&self) -> u32 {
        self.share.max(self.port.held)
    }
}

impl Rack {
    /// Every port detached. A bad first offer is a bad set-up, not a bad offer.
    pub fn set_up(set_up: &SetUp) -> Result<Rack, u8> {
        if !set_up.is_good() {
            return Err(BAD_SET_UP);
        }
        let bays = set_up.places.iter().map(Bay::at);
        Ok(Rack {
            supply: set_up.supply,
            bays: bays.collect(),
        })
    }

    /// Ports are numbered from 1.
    pub fn bay(&self, number: usize) -> Option<&Bay> {
        self.bays.get(number.checked_sub(1)?)
    }

    /// Takes an event at a port, or refuses it with a number and changes nothing.
    /// Where the port asks for power, the answer comes within the same event.
    pub fn step(&mut self, number: usize, event: &Event) -> Result<Answer, u8> {
        let place = number.checked_sub(1).ok_or(NOT_IN_THE_RACK)?;
        let bay = self.bays.get_mut(place).ok_or(NOT_IN_THE_RACK)?;
        let first = bay.port.step(event, bay.limit)?;
        if bay.port.state != State::Judge {
            return Ok(first);
        }
        let answer = Event::Power(self.has_power(place));
        let bay = &mut self.bays[place];
        let then = bay.port.step(&answer, bay.limit);
        Ok(both(first, then.expect("Judge awaits the power answer")))
    }

    /// The paper's "Power rule", for a port in Judge.
    fn has_power(&self, place: usize) -> bool {
        let bay = &self.bays[place];
        let asked = bay.port.accepted.worth;
        asked <= bay.limit && self.others(place) + bay.taken().max(asked) <= self.supply
    }

    fn others(&self, place: usize) -> u32 {
        let (before, from_here) = self.bays.split_at(place);
        let others = before.iter().chain(&from_here[1..]);
        others.map(Bay::taken).sum()
    }

    /// The sum over all ports.
    pub fn taken(&self) -> u32 {
        self.bays.iter().map(Bay::taken).sum()
    }
}

/// The actions of both steps as one set. A Request that comes to Judge is
/// acknowledged and may stop a timer, the answer is a message and no more; so no
/// action stands in both, and only the answer does anything to held power.
fn both(first: Answer, then: Answer) -> Answer {
    Answer {
        good_crc: first.good_crc.or(then.good_crc),
        stop: first.stop.or(then.stop),
        transmit: first.transmit.or(then.transmit),
        signal: first.signal || then.signal,
        supply: first.supply.or(then.supply),
        start: first.start.or(then.start),
        held: then.held,
    }
}

#[cfg(test)]
#[path = "rack_tests.rs"]
mod tests;
