//! Short nights that cannot be read to their end, each for another reason
//! (docs/NIGHT.md, "Cut and damaged files").

use crate::full_rack;
use crate::night_fields::{LIMIT, OFFER_OBJECTS, PORT_GROUP, RACK_GROUP, SHARE, SUPPLY};
use crate::night_pieces::{largest_set_up, places_of_the_largest, story};
use crate::night_writer::{add_field, add_set_up};
use crate::rack::MOST_PORTS;
use std::io::{self, Write};

/// Writes the night with this number, counted from 0; false where there is none.
pub fn print(number: usize, mut output: impl Write) -> io::Result<bool> {
    let nights = all();
    let Some(night) = nights.get(number) else {
        return Ok(false);
    };
    output.write_all(night)?;
    output.flush()?;
    Ok(true)
}

fn all() -> Vec<Vec<u8>> {
    let mut nights = cut();
    nights.extend(cut_in_the_largest());
    nights.extend(long_fields());
    nights.extend(damaged().iter().map(|field| around(field)));
    nights
}

/// After each byte, also between two fields and before the first.
fn cut() -> Vec<Vec<u8>> {
    let story = story();
    let short = (0..story.len()).map(|length| story[..length].to_vec());
    let mut nights: Vec<Vec<u8>> = short.collect();
    // whatever the tag and whatever the length, as long as it is past the end
    for head in [
        &[34, 255, 255, 1][..],
        &[16, 8, 0, 18, 4, 0, 0, 0, 0, 0],
        &[0, 1, 0],
        &[255, 255, 255, 0, 0],
        &[32, 0, 1, 1],
        &[36, 2, 0, 1],
        &[41, 3, 0, 1, 2],
    ] {
        nights.push([&story, head].concat());
    }
    nights
}

/// In the largest set-up, behind the story, whose rack then stands; and just behind
/// it, where the rack of 32 ports stands, in the second of two events at the last.
fn cut_in_the_largest() -> Vec<Vec<u8>> {
    let largest = largest_set_up();
    let within = places_of_the_largest().into_iter();
    let within = within.filter(|&place| place < largest.len());
    let mut nights: Vec<Vec<u8>> = within
        .map(|place| [&story(), &largest[..place]].concat())
        .collect();
    let attach = [32, 1, 0, 32];
    nights.push([&largest[..], &attach, &attach[..3]].concat());
    nights
}

/// As long as a field can be, which is more than a piece of 64 KiB: whole, so that
/// its tag, its length or its layout is wrong, and cut by a byte. Then nights that
/// end near the end of a piece.
fn long_fields() -> Vec<Vec<u8>> {
    let mut nights = Vec::new();
    for tag in [0, 32, 41, RACK_GROUP] {
        let whole = field(tag, &[0; 65_535]);
        nights.push(whole[..whole.len() - 1].to_vec());
        nights.push(whole);
    }
    let packet = field(34, &[1; 65_535]);
    let lengths = [65_535, 65_536, 65_537];
    nights.extend(lengths.map(|length| packet[..length].to_vec()));
    for length in lengths {
        let before = field(34, &vec![1; length - 3]);
        let heads = [&[32][..], &[32, 1], &[32, 1, 0]];
        nights.extend(heads.map(|head| [&before, head].concat()));
    }
    nights
}

/// The field between two stories, of which the second must not be told.
fn around(field: &[u8]) -> Vec<u8> {
    let story = story();
    [&story, field, &story].concat()
}

fn damaged() -> Vec<Vec<u8>> {
    let mut fields = unknown_tags();
    fields.extend(wrong_lengths());
    let groups = wrong_rack_groups().into_iter();
    fields.extend(groups.map(|group| field(RACK_GROUP, &group)));
    fields
}

fn field(tag: u8, value: &[u8]) -> Vec<u8> {
    let mut file = Vec::new();
    add_field(&mut file, tag, &[value]).expect("a small value fits");
    file
}

/// Those next to the known ones, the parts of a set-up on their own, and far ones;
/// the length does not matter.
fn unknown_tags() -> Vec<Vec<u8>> {
    let near = [0, 1, 15, 17, 18, 19, 20, 21, 22, 31, 44, 45, 63];
    let far = [64, 127, 128, 160, 162, 255];
    let tags = near.into_iter().chain(far);
    let mut fields: Vec<Vec<u8>> = tags.map(|tag| field(tag, &[1])).collect();
    fields.push(field(0, &[]));
    fields.push(field(44, &[]));
    fields.push(field(255, &[0; 300]));
    fields.push(field(SUPPLY, &[0x30, 0x75, 0, 0]));
    fields
}

/// 34 has at least one byte, 41 one more than a multiple of four, the others one.
fn wrong_lengths() -> Vec<Vec<u8>> {
    let mut fields = Vec::new();
    for tag in 32..=43 {
        let lengths: &[usize] = match tag {
            34 => &[0],
            41 => &[0, 2, 3, 4, 6, 8, 32],
            32 => &[0, 2, 3, 5, 257],
            _ => &[0, 2],
        };
        let with_length = |&length| field(tag, &vec![1; length]);
        fields.extend(lengths.iter().map(with_length));
    }
    fields
}

fn number(tag: u8) -> Vec<u8> {
    field(tag, &30_000u32.to_le_bytes())
}

fn objects() -> Vec<u8> {
    field(OFFER_OBJECTS, &[0x2C, 0x91, 0x01, 0x00])
}

fn port_group(fields: &[Vec<u8>]) -> Vec<u8> {
    field(PORT_GROUP, &fields.concat())
}

fn good_port() -> Vec<u8> {
    port_group(&[number(SHARE), number(LIMIT), objects()])
}

fn wrong_rack_groups() -> Vec<Vec<u8>> {
    let (port, supply) = (good_port(), number(SUPPLY));
    // no port would be a bad set-up that is laid out as it must be, no supply is none
    let mut groups = vec![vec![], port.clone(), port.repeat(8)];
    groups.push([&supply[..], &port].concat());
    groups.push([&port[..], &supply, &port].concat());
    groups.push([&port[..], &supply, &supply].concat());
    let wrong_supplies = wrong_fields(&supply).into_iter();
    groups.extend(wrong_supplies.map(|wrong| [&port[..], &wrong].concat()));
    let mut wrong_ports = wrong_fields(&port);
    wrong_ports.extend(wrong_port_groups());
    for wrong in &wrong_ports {
        groups.push([&wrong[..], &supply].concat());
        groups.push([&port[..], wrong, &supply].concat());
    }
    groups.extend(wrong_large_groups());
    groups
}

/// Wrong only at the end: in a rack that has all ports it can have, and in some that
/// have more. The layout comes before their number, which is bad besides.
fn wrong_large_groups() -> Vec<Vec<u8>> {
    let supply = number(SUPPLY);
    let mut groups = Vec::new();
    for count in [MOST_PORTS, MOST_PORTS + 1, 257] {
        let ports = ports_of_seven_objects(count);
        groups.push([&ports[..], &supply, &supply].concat());
        let mut other_tag = [&ports[..], &supply].concat();
        other_tag[ports.len()] = SHARE;
        groups.push(other_tag);
        // as if the last object had a byte more
        let mut longer = [&ports[..], &supply].concat();
        longer[ports.len() - 30] += 1;
        groups.push(longer);
        groups.push(ports);
    }
    groups
}

/// As they stand in a rack group, before the supply.
fn ports_of_seven_objects(count: usize) -> Vec<u8> {
    let mut file = Vec::new();
    add_set_up(&mut file, &full_rack::set_up(count)).expect("257 ports fit");
    let group = &file[3..];
    group[..group.len() - number(SUPPLY).len()].to_vec()
}

fn wrong_port_groups() -> Vec<Vec<u8>> {
    let fields = [number(SHARE), number(LIMIT), objects()];
    let mut groups = vec![port_group(&[]), port_group(&[good_port()])];
    groups.push(port_group(&[number(SUPPLY)]));
    for order in [[1, 0, 2], [0, 2, 1], [2, 0, 1]] {
        groups.push(port_group(&order.map(|place: usize| fields[place].clone())));
    }
    for place in 0..fields.len() {
        let with = |field: Vec<u8>| {
            let mut changed = fields.clone();
            changed[place] = field;
            port_group(&changed)
        };
        groups.push(with(vec![]));
        groups.push(with(fields[place].repeat(2)));
        groups.extend(wrong_fields(&fields[place]).into_iter().map(with));
    }
    for length in [1, 2, 5, 7] {
        let objects = field(OFFER_OBJECTS, &vec![0; length]);
        groups.push(port_group(&[number(SHARE), number(LIMIT), objects]));
    }
    groups
}

/// With another tag, with a length that is too small, too large or past the end of
/// the group, with a byte behind it, and with a head that is not whole.
fn wrong_fields(field: &[u8]) -> Vec<Vec<u8>> {
    let changes: [fn(&mut Vec<u8>); 7] = [
        |field| field[0] += 1,
        |field| field[0] = 32,
        |field| field[1] -= 1,
        |field| field[1] += 1,
        |field| field[2] = 1,
        |field| field.push(0),
        |field| field.truncate(2),
    ];
    let changed = changes.map(|change| {
        let mut field = field.to_vec();
        change(&mut field);
        field
    });
    changed.to_vec()
}

#[cfg(test)]
#[path = "damaged_cases_tests.rs"]
mod tests;
