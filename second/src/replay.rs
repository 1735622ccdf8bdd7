//! The replay of a night, docs/REPLAY.md: a line for each event, and the table.

use crate::night_fields::{bytes_of, Record};
use crate::night_reader::NightReader;
use crate::offer::MOST_OBJECTS;
use crate::packet::MOST_PACKET_BYTES;
use crate::port::Event;
use crate::rack::{Rack, SetUp};
use crate::step_text::{actions_text, or_refusal};
use crate::step_words::word_of;
use crate::{hex, replay_table};
use std::io::{self, Read, Write};

const MOST_PORTS_SHOWN: usize = 255;

pub fn replay(input: impl Read, mut output: impl Write) -> io::Result<()> {
    let mut reader = NightReader::new(input);
    let mut rack = Rack::default();
    let mut number: u64 = 0;
    let end = loop {
        match reader.next()? {
            Ok(Record::SetUp(set_up)) => set_up_line(&mut rack, &set_up, &mut output)?,
            Ok(Record::Event(port, event)) => {
                number += 1;
                event_line(&mut rack, number, port, &event, &mut output)?;
            }
            Err(end) => break end,
        }
    };
    if let Some(words) = end.words() {
        writeln!(output, "{words}")?;
    }
    replay_table::print(&rack, &mut output)?;
    output.flush()
}

/// Before it stands the table of the rack that is put away.
fn set_up_line(rack: &mut Rack, set_up: &SetUp, output: &mut impl Write) -> io::Result<()> {
    let outcome = Rack::set_up(set_up);
    if outcome.is_ok() && !rack.bays.is_empty() {
        replay_table::print(rack, output)?;
    }
    writeln!(
        output,
        "set-up | ports {} | supply {} | {}",
        set_up.places.len().min(MOST_PORTS_SHOWN),
        set_up.supply,
        or_refusal(&outcome, |_| "none".to_string()),
    )?;
    if let Ok(new_rack) = outcome {
        *rack = new_rack;
    }
    Ok(())
}

fn event_line(
    rack: &mut Rack,
    number: u64,
    port: u8,
    event: &Event,
    output: &mut impl Write,
) -> io::Result<()> {
    let outcome = rack.step(port.into(), event);
    let answer = or_refusal(&outcome, actions_text);
    let what = what_text(event);
    write!(output, "{number} | port {port} | {what} | {answer} | ")?;
    match rack.bay(port.into()) {
        Some(bay) => writeln!(output, "{:?}", bay.port.state),
        None => writeln!(output, "-"),
    }
}

/// The event in the words of docs/STEPS.md; of one that is too long only how long
/// it is.
fn what_text(event: &Event) -> String {
    match event {
        Event::Packet(bytes) if bytes.len() > MOST_PACKET_BYTES => {
            format!("packet of {} bytes", bytes.len())
        }
        Event::NewOffer(objects) if objects.len() > MOST_OBJECTS => {
            format!("offer of {} objects", objects.len())
        }
        Event::Packet(_) | Event::NewOffer(_) => {
            let bytes = hex::text_or_dash(bytes_of(event));
            format!("{} {bytes}", word_of(event))
        }
        lone => word_of(lone).to_string(),
    }
}

#[cfg(test)]
#[path = "replay_tests.rs"]
mod tests;
