//! The words of a line of docs/STEPS.md, which docs/NIGHT.md has too: numbers, bytes
//! and events.

use crate::hex;
use crate::offer::split;
use crate::port::{Event, Timer};

/// How many digits a number may have, and how many bytes may follow.
pub struct Limits {
    /// Of a supply, a share or a limit.
    pub digits: usize,
    pub port_digits: usize,
    pub bytes: usize,
}

/// Those of docs/STEPS.md.
pub const STEPS: Limits = Limits {
    digits: 7,
    port_digits: 3,
    bytes: 64,
};

/// The first word and the others, without the blanks at the line's end. Spaces
/// part the words; the first word has none before it, so that one there makes a
/// first word of no letters, which is unknown.
pub fn words_of(line: &[u8]) -> (&[u8], Vec<&[u8]>) {
    let blanks = line.iter().rev().take_while(|&&c| hex::is_blank(c)).count();
    let line = &line[..line.len() - blanks];
    let end = line.iter().position(|&character| character == b' ');
    let (first, rest) = line.split_at(end.unwrap_or(line.len()));
    let others = rest.split(|&character| character == b' ');
    (first, others.filter(|word| !word.is_empty()).collect())
}

pub fn number_of(word: &[u8], most_digits: usize) -> Option<u32> {
    if word.len() > most_digits || !word.iter().all(u8::is_ascii_digit) {
        return None;
    }
    std::str::from_utf8(word).ok()?.parse().ok()
}

pub fn bytes_of(words: &[&[u8]], most_bytes: usize) -> Option<Vec<u8>> {
    if words.len() > most_bytes {
        return None;
    }
    words.iter().map(|word| hex::byte_of(word)).collect()
}

/// An event by its first word and the words behind it. Its bytes are put into the
/// place that is lent for them.
pub fn event_of<'a>(
    first: &[u8],
    others: &[&[u8]],
    most_bytes: usize,
    place: &'a mut Vec<u8>,
) -> Option<Event<'a>> {
    match first {
        b"packet" => {
            *place = bytes_of(others, most_bytes)?;
            Some(Event::Packet(place))
        }
        b"offer" => {
            *place = bytes_of(others, most_bytes)?;
            Some(Event::NewOffer(split(place)?))
        }
        _ if others.is_empty() => lone_event(first),
        _ => None,
    }
}

/// The events that are told by a word alone.
const LONE_EVENTS: [(&str, Event); 10] = [
    ("attach", Event::Attach),
    ("detach", Event::Detach),
    ("hardreset", Event::HardReset),
    ("acknowledgement", Event::NotAcknowledged),
    ("senderresponse", Event::Expired(Timer::SenderResponse)),
    ("sourcecapability", Event::Expired(Timer::SourceCapability)),
    ("pshardreset", Event::Expired(Timer::PsHardReset)),
    ("supplyready", Event::SupplyReady),
    ("yes", Event::Power(true)),
    ("no", Event::Power(false)),
];

fn lone_event(word: &[u8]) -> Option<Event<'static>> {
    let found = LONE_EVENTS.iter().find(|(name, _)| name.as_bytes() == word);
    found.map(|&(_, event)| event)
}

/// The first word of the line that says this event.
pub fn word_of(event: &Event) -> &'static str {
    match event {
        Event::Packet(_) => "packet",
        Event::NewOffer(_) => "offer",
        lone => {
            let found = LONE_EVENTS.iter().find(|(_, event)| event == lone);
            found.expect("all others stand in the table").0
        }
    }
}
