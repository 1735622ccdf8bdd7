//! The quiet replay of a night, docs/REPLAY.md: "The counts" and "The checksum".

use crate::night_fields::Record;
use crate::night_reader::NightReader;
use crate::port::{Answer, State, Supply, Timer};
use crate::rack::{Bay, Rack};
use crate::replay_table;
use std::io::{self, Read, Write};

pub fn quiet(input: impl Read, mut output: impl Write) -> io::Result<()> {
    let mut reader = NightReader::new(input);
    let mut rack = Rack::default();
    let mut counts = Counts::default();
    let end = loop {
        match reader.next()? {
            Ok(Record::SetUp(set_up)) => {
                let outcome = Rack::set_up(&set_up);
                counts.take_set_up(&outcome);
                if let Ok(new_rack) = outcome {
                    rack = new_rack;
                }
            }
            Ok(Record::Event(port, event)) => {
                let before = rack.bay(port.into()).map(|bay| bay.port.state);
                let outcome = rack.step(port.into(), &event);
                counts.take_event(port, &outcome, before, rack.bay(port.into()));
            }
            Err(end) => break end,
        }
    };
    if let Some(words) = end.words() {
        writeln!(output, "{words}")?;
    }
    counts.print(&mut output)?;
    replay_table::print(&rack, &mut output)?;
    output.flush()
}

#[derive(Default)]
struct Counts {
    events: u64,
    /// By the number of the refusal; none has the number 0.
    refused: [u64; 11],
    accepts: u64,
    rejects: u64,
    hard_resets: u64,
    sum: Checksum,
}

impl Counts {
    fn take_set_up(&mut self, outcome: &Result<Rack, u8>) {
        let verdict = self.verdict(outcome);
        self.sum.add(verdict);
    }

    /// The port's state before the event, and its bay afterwards, if the rack has it.
    fn take_event(
        &mut self,
        port: u8,
        outcome: &Result<Answer, u8>,
        before: Option<State>,
        bay: Option<&Bay>,
    ) {
        self.events += 1;
        self.sum.add(port.into());
        let verdict = self.verdict(outcome);
        self.sum.add(verdict);
        match outcome {
            Ok(answer) => self.sum.add_actions(answer),
            Err(_) => self.sum.add_actions(&Answer::default()),
        }
        let after = bay.map(|bay| bay.port.state);
        self.sum.add(after.map_or(0, state_number));
        self.sum.add(bay.map_or(0, |bay| bay.port.held));
        if before != after {
            self.comes_to(after);
        }
    }

    /// 0, or the number of the refusal, which is counted.
    fn verdict<T>(&mut self, outcome: &Result<T, u8>) -> u32 {
        match outcome {
            Ok(_) => 0,
            Err(number) => {
                self.refused[usize::from(*number)] += 1;
                u32::from(*number)
            }
        }
    }

    fn comes_to(&mut self, state: Option<State>) {
        match state {
            Some(State::Accepting) => self.accepts += 1,
            Some(State::Refusing) => self.rejects += 1,
            Some(State::Hard) => self.hard_resets += 1,
            _ => {}
        }
    }

    fn print(&self, output: &mut impl Write) -> io::Result<()> {
        writeln!(output, "events {}", self.events)?;
        let refused = self.refused.iter().enumerate().skip(1);
        let refused = refused.map(|(number, count)| format!("{number}: {count}"));
        let refused: Vec<String> = refused.collect();
        writeln!(output, "refused {}", refused.join(", "))?;
        writeln!(output, "accepts {}", self.accepts)?;
        writeln!(output, "rejects {}", self.rejects)?;
        writeln!(output, "hard resets {}", self.hard_resets)?;
        writeln!(output, "checksum {:08X}", self.sum.0)
    }
}

#[derive(Default)]
struct Checksum(u32);

impl Checksum {
    fn add(&mut self, number: u32) {
        self.0 = self.0.wrapping_mul(16_777_619).wrapping_add(number);
    }

    fn add_actions(&mut self, answer: &Answer) {
        let good_crc = answer.good_crc.map_or(0, u16::from_le_bytes);
        self.add(good_crc.into());
        self.add(timer_number(answer.stop));
        let message = answer.transmit.as_deref().unwrap_or(&[]);
        self.add(message.len() as u32);
        for &byte in message {
            self.add(byte.into());
        }
        self.add(answer.signal.into());
        self.add(match answer.supply {
            None => 0,
            Some(Supply::Position(position)) => position.into(),
            Some(Supply::Default) => 255,
        });
        self.add(timer_number(answer.start));
    }
}

fn timer_number(timer: Option<Timer>) -> u32 {
    match timer {
        None => 0,
        Some(Timer::SenderResponse) => 1,
        Some(Timer::SourceCapability) => 2,
        Some(Timer::PsHardReset) => 3,
    }
}

fn state_number(state: State) -> u32 {
    match state {
        State::Detached => 0,
        State::Offer => 1,
        State::Discovery => 2,
        State::Disabled => 3,
        State::Judge => 4,
        State::Accepting => 5,
        State::Moving => 6,
        State::Telling => 7,
        State::Ready => 8,
        State::Declining => 9,
        State::Refusing => 10,
        State::Waiting => 11,
        State::Soft => 12,
        State::Answering => 13,
        State::Hard => 14,
        State::Default => 15,
    }
}

#[cfg(test)]
#[path = "replay_counts_tests.rs"]
mod tests;
