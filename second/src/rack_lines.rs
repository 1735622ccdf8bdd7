//! The lines about a rack, docs/STEPS.md ("A rack"): a set-up is put together
//! line by line, tried as a whole, and then events come to numbered ports.

use crate::offer::{objects_of, split};
use crate::port::{Answer, Event};
use crate::rack::{Place, Rack, SetUp};
use crate::step_lines::Reply;
use crate::step_text::{memory_text, outcome_text};
use crate::step_words::{bytes_of, event_of, number_of, Limits};

pub enum RackLine<'a> {
    Supply(u32),
    Place(Place),
    SetUp,
    At(usize, Event<'a>),
}

/// Whether a line with this first word is about a rack, if it is understood at all.
pub fn begin_with(first: &[u8]) -> bool {
    matches!(first, b"supply" | b"place" | b"setup" | [b'0'..=b'9', ..])
}

/// By the line's first word and the words behind it; None where it is no such line.
/// The bytes of an event are put into the place that is lent for them.
pub fn understand<'a>(
    first: &[u8],
    others: &[&[u8]],
    limits: &Limits,
    place: &'a mut Vec<u8>,
) -> Option<RackLine<'a>> {
    match (first, others) {
        (b"supply", [supply]) => Some(RackLine::Supply(number_of(supply, limits.digits)?)),
        (b"place", [share, limit, offer @ ..]) => Some(RackLine::Place(Place {
            share: number_of(share, limits.digits)?,
            limit: number_of(limit, limits.digits)?,
            offer: objects_of(split(&bytes_of(offer, limits.bytes)?)?),
        })),
        (b"setup", []) => Some(RackLine::SetUp),
        (number, [word, others @ ..]) => {
            let number = number_of(number, limits.port_digits)?;
            let event = event_of(word, others, limits.bytes, place)?;
            Some(RackLine::At(number as usize, event))
        }
        _ => None,
    }
}

/// The rack, if there is one, and the set-up in hand.
#[derive(Default)]
pub struct RackBench {
    pub rack: Rack,
    in_hand: SetUp,
}

impl RackBench {
    pub fn take(&mut self, line: RackLine) -> Reply {
        match line {
            RackLine::Supply(supply) => {
                let places = Vec::new();
                self.in_hand = SetUp { supply, places };
                Reply::Noted
            }
            RackLine::Place(place) => {
                self.in_hand.places.push(place);
                Reply::Noted
            }
            RackLine::SetUp => Reply::Rack(None, self.set_up()),
            RackLine::At(number, event) => {
                Reply::Rack(Some(number), self.rack.step(number, &event))
            }
        }
    }

    /// The set-up stays in hand, so that the next one can begin with it.
    fn set_up(&mut self) -> Result<Answer, u8> {
        self.rack = Rack::set_up(&self.in_hand)?;
        Ok(Answer::default())
    }

    pub fn text(&self, number: Option<usize>, outcome: &Result<Answer, u8>) -> String {
        let bay = number.and_then(|number| self.rack.bay(number));
        let memory = bay.map_or("-".to_string(), |bay| memory_text(&bay.port));
        let answer = outcome_text(outcome, &memory);
        format!(
            "{answer} | rack: {} of {}",
            self.rack.taken(),
            self.rack.supply
        )
    }
}

#[cfg(test)]
#[path = "rack_lines_tests.rs"]
mod tests;
