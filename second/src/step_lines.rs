//! The step program of docs/STEPS.md: one event in, one answer and the port's
//! whole memory out. The rules are the paper's; here they are only put into text.
//! The lines about a rack stand in rack_lines.rs.

use crate::lines;
use crate::offer::{is_good, split, Object, Offer};
use crate::port::{Answer, Event, Port};
use crate::rack_lines::{self, RackBench, RackLine};
use crate::step_text::{memory_text, outcome_text};
use crate::step_words::{bytes_of, event_of, number_of, words_of, STEPS};
use std::io::{self, BufRead, Write};

const MOST_CHARACTERS: usize = 240;

const BAD_OFFER: u8 = 7;

pub fn answer_all(input: impl BufRead, output: impl Write) -> io::Result<()> {
    let mut bench = Bench::new();
    lines::answer_all(input, output, |line| bench.answer(line))
}

/// The port that stands alone, with its limit, and beside it the rack.
pub struct Bench {
    pub port: Port,
    limit: u32,
    pub beside: RackBench,
}

enum Line<'a> {
    NewPort(u32, Option<Offer>),
    Event(Event<'a>),
    Rack(RackLine<'a>),
}

/// What a line that was understood came to.
pub enum Reply {
    /// A part of a set-up, which is tried later.
    Noted,
    /// From the port that stands alone.
    Alone(Result<Answer, u8>),
    /// From the rack, with the number of the port if the line has one.
    Rack(Option<usize>, Result<Answer, u8>),
}

impl Bench {
    /// The paper's two objects: 5 V 3 A and 9 V 3 A.
    pub fn new() -> Bench {
        let offer = Offer::of([Object::new(100, 300), Object::new(180, 300)]);
        let offer = offer.expect("two objects are not too many");
        Bench {
            port: Port::new(offer),
            limit: 120_000,
            beside: RackBench::default(),
        }
    }

    pub fn answer(&mut self, line: &[u8]) -> String {
        match self.take(line) {
            None => "not understood".to_string(),
            Some(Reply::Noted) => "noted".to_string(),
            Some(Reply::Alone(outcome)) => outcome_text(&outcome, &memory_text(&self.port)),
            Some(Reply::Rack(number, outcome)) => self.beside.text(number, &outcome),
        }
    }

    /// None where the line is not understood.
    pub fn take(&mut self, line: &[u8]) -> Option<Reply> {
        let mut bytes = Vec::new();
        Some(match understand(line, &mut bytes)? {
            Line::Event(event) => Reply::Alone(self.port.step(&event, self.limit)),
            Line::NewPort(limit, offer) => Reply::Alone(self.new_port(limit, offer)),
            Line::Rack(line) => self.beside.take(line),
        })
    }

    /// There is no offer where the line has too many objects for one.
    fn new_port(&mut self, limit: u32, offer: Option<Offer>) -> Result<Answer, u8> {
        let good = offer.filter(|offer| is_good(offer, limit));
        self.port = Port::new(good.ok_or(BAD_OFFER)?);
        self.limit = limit;
        Ok(Answer::default())
    }
}

/// The bytes of an event are put into the place that is lent for them.
fn understand<'a>(line: &[u8], place: &'a mut Vec<u8>) -> Option<Line<'a>> {
    if line.len() > MOST_CHARACTERS {
        return None;
    }
    let (first, others) = words_of(line);
    if first == b"port" {
        let (limit, bytes) = others.split_first()?;
        let limit = number_of(limit, STEPS.digits)?;
        let bytes = bytes_of(bytes, STEPS.bytes)?;
        let objects = split(&bytes)?.iter().copied();
        let offer = Offer::of(objects.map(Object::from_bytes));
        return Some(Line::NewPort(limit, offer));
    }
    if rack_lines::begin_with(first) {
        return rack_lines::understand(first, &others, &STEPS, place).map(Line::Rack);
    }
    event_of(first, &others, STEPS.bytes, place).map(Line::Event)
}

#[cfg(test)]
#[path = "step_lines_tests.rs"]
mod tests;
