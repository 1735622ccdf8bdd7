//! A night as bytes, docs/NIGHT.md: fields, events and set-ups, good or bad, one
//! behind another.

use crate::night_fields::{
    bytes_of, tag_of, LIMIT, OFFER_OBJECTS, PORT_GROUP, RACK_GROUP, SHARE, SUPPLY,
};
use crate::offer;
use crate::port::Event;
use crate::rack::{Place, SetUp};

/// A value of more bytes than a field's length can say. Nothing was added then.
#[derive(Debug, PartialEq, Eq)]
pub struct TooLong;

/// The value in parts, which are put one behind the other.
pub fn add_field(file: &mut Vec<u8>, tag: u8, value: &[&[u8]]) -> Result<(), TooLong> {
    let length: usize = value.iter().map(|part| part.len()).sum();
    let length = u16::try_from(length).map_err(|_| TooLong)?;
    file.push(tag);
    file.extend(length.to_le_bytes());
    value.iter().for_each(|part| file.extend_from_slice(part));
    Ok(())
}

pub fn add_event(file: &mut Vec<u8>, port: u8, event: &Event) -> Result<(), TooLong> {
    add_field(file, tag_of(event), &[&[port], bytes_of(event)])
}

pub fn add_set_up(file: &mut Vec<u8>, set_up: &SetUp) -> Result<(), TooLong> {
    let mut group = Vec::new();
    for place in &set_up.places {
        add_place(&mut group, place)?;
    }
    add_field(&mut group, SUPPLY, &[&set_up.supply.to_le_bytes()])?;
    add_field(file, RACK_GROUP, &[&group])
}

fn add_place(file: &mut Vec<u8>, place: &Place) -> Result<(), TooLong> {
    let mut group = Vec::new();
    add_field(&mut group, SHARE, &[&place.share.to_le_bytes()])?;
    add_field(&mut group, LIMIT, &[&place.limit.to_le_bytes()])?;
    let objects = offer::bytes_of(&place.offer);
    add_field(&mut group, OFFER_OBJECTS, &[&objects])?;
    add_field(file, PORT_GROUP, &[&group])
}
