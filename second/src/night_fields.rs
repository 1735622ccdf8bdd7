//! What a field of a night says, docs/NIGHT.md: "The set-up", "The events", and
//! how a field can be damaged ("Cut and damaged files").

use crate::offer::{objects_of, split};
use crate::port::{Event, Timer};
use crate::rack::{Place, SetUp};

pub const RACK_GROUP: u8 = 16;
pub const PORT_GROUP: u8 = 17;
pub const SUPPLY: u8 = 18;
pub const SHARE: u8 = 19;
pub const LIMIT: u8 = 20;
pub const OFFER_OBJECTS: u8 = 21;

/// A field that can stand alone, outside of all groups.
#[derive(Debug, PartialEq, Eq)]
pub enum Record<'a> {
    /// Laid out as it must be; whether it is good is for the rack to say.
    SetUp(SetUp),
    /// The port's number, in the rack or not.
    Event(u8, Event<'a>),
}

#[derive(Clone, Copy, Debug, PartialEq, Eq)]
pub enum Damage {
    UnknownTag,
    WrongLength,
    WrongLayout,
}

pub fn record_of(tag: u8, value: &[u8]) -> Result<Record<'_>, Damage> {
    if tag == RACK_GROUP {
        let set_up = set_up_of(value).ok_or(Damage::WrongLayout)?;
        return Ok(Record::SetUp(set_up));
    }
    let lone = |event| matches!(value, [_]).then_some(event);
    let behind_the_port = value.get(1..);
    let event = match tag {
        32 => lone(Event::Attach),
        33 => lone(Event::Detach),
        34 => behind_the_port.map(Event::Packet),
        35 => lone(Event::HardReset),
        36 => lone(Event::NotAcknowledged),
        37 => lone(Event::Expired(Timer::SenderResponse)),
        38 => lone(Event::Expired(Timer::SourceCapability)),
        39 => lone(Event::Expired(Timer::PsHardReset)),
        40 => lone(Event::SupplyReady),
        41 => behind_the_port.and_then(split).map(Event::NewOffer),
        42 => lone(Event::Power(true)),
        43 => lone(Event::Power(false)),
        _ => return Err(Damage::UnknownTag),
    };
    let event = event.ok_or(Damage::WrongLength)?;
    Ok(Record::Event(value[0], event))
}

pub fn tag_of(event: &Event) -> u8 {
    match event {
        Event::Attach => 32,
        Event::Detach => 33,
        Event::Packet(_) => 34,
        Event::HardReset => 35,
        Event::NotAcknowledged => 36,
        Event::Expired(Timer::SenderResponse) => 37,
        Event::Expired(Timer::SourceCapability) => 38,
        Event::Expired(Timer::PsHardReset) => 39,
        Event::SupplyReady => 40,
        Event::NewOffer(_) => 41,
        Event::Power(true) => 42,
        Event::Power(false) => 43,
    }
}

/// The bytes behind the port's number.
pub fn bytes_of<'a>(event: &Event<'a>) -> &'a [u8] {
    match event {
        Event::Packet(bytes) => bytes,
        Event::NewOffer(objects) => objects.as_flattened(),
        _ => &[],
    }
}

/// None where the rack group is not laid out as it must be.
fn set_up_of(value: &[u8]) -> Option<SetUp> {
    let mut row = Row(value);
    let mut places = Vec::new();
    while row.0.first() == Some(&PORT_GROUP) {
        places.push(place_of(row.take(PORT_GROUP)?)?);
    }
    let supply = row.number(SUPPLY)?;
    row.0.is_empty().then_some(SetUp { supply, places })
}

fn place_of(value: &[u8]) -> Option<Place> {
    let mut row = Row(value);
    let place = Place {
        share: row.number(SHARE)?,
        limit: row.number(LIMIT)?,
        offer: objects_of(split(row.take(OFFER_OBJECTS)?)?),
    };
    row.0.is_empty().then_some(place)
}

/// What is left of a group's row of fields.
struct Row<'a>(&'a [u8]);

impl<'a> Row<'a> {
    /// The next field's value; None unless it has this tag and is whole.
    fn take(&mut self, tag: u8) -> Option<&'a [u8]> {
        let (&[found, low, high], rest) = self.0.split_first_chunk()?;
        let length = u16::from_le_bytes([low, high]);
        let (value, rest) = rest.split_at_checked(length.into())?;
        self.0 = rest;
        (found == tag).then_some(value)
    }

    fn number(&mut self, tag: u8) -> Option<u32> {
        let value = self.take(tag)?.try_into().ok()?;
        Some(u32::from_le_bytes(value))
    }
}

#[cfg(test)]
#[path = "night_fields_tests.rs"]
mod tests;
