//! Nights to try the replay with (docs/NIGHT.md, docs/REPLAY.md), one behind
//! another in one file: events before any set-up, the paper's examples 7 and 8,
//! Requests that ask or name too much, power and offers at their bounds, the largest
//! rack, set-ups good and bad, all numbers of ports, fields in every place of the
//! pieces in which a file is read, nights by chance, and an end that is damaged.

use crate::night_lines::write_night;
use crate::night_writer::{add_event, add_field, add_set_up};
use crate::offer::Object;
use crate::port::Event;
use crate::rack::{Place, SetUp, MOST_PORTS};
use crate::rack_situations::alike;
use crate::step_walk::{Walk, FIVE_VOLT, NINE_VOLT};
use crate::{full_rack, night_pieces, rack_cases, rack_set_ups, random_night};
use std::io::{self, Write};

pub const SEEDS: [u64; 3] = [201, 202, 204];

/// Of a night by chance. Those of large racks are many, and so all but the ones of
/// the largest are short.
pub fn events_of_a_night(ports: usize) -> u64 {
    match ports {
        1..=8 | MOST_PORTS => 6_500,
        _ => 1_200,
    }
}

pub fn print_all(mut output: impl Write) -> io::Result<()> {
    let mut file = Vec::new();
    no_rack_yet(&mut file);
    add_walk(&mut file, rack_cases::example_7);
    add_walk(&mut file, rack_cases::example_8);
    add_walk(&mut file, rack_cases::asking_for_more);
    add_walk(&mut file, rack_cases::whole_supply);
    add_walk(&mut file, full_rack::add_all);
    add_walk(&mut file, rack_cases::own_limits);
    add_walk(&mut file, rack_cases::not_awaited);
    set_ups(&mut file);
    numbers(&mut file);
    night_pieces::add_all(&mut file);
    for seed in SEEDS {
        for ports in 1..=MOST_PORTS {
            random_night::print(seed, events_of_a_night(ports), ports, &mut file)?;
        }
    }
    damaged_end(&mut file);
    output.write_all(&file)?;
    output.flush()
}

/// The lines of a walk that is about a rack and nothing else.
fn add_walk(file: &mut Vec<u8>, go: impl Fn(&mut Walk)) {
    let mut walk = Walk::new();
    go(&mut walk);
    write_night(&walk.lines[..], file).expect("a walk of a rack is a night");
}

pub fn add(file: &mut Vec<u8>, port: u8, event: &Event) {
    add_event(file, port, event).expect("an event of a case fits in its field");
}

pub fn add_rack(file: &mut Vec<u8>, set_up: &SetUp) {
    add_set_up(file, set_up).expect("a set-up of a case fits in its field");
}

/// Every kind of event, and a packet and an offer of no bytes.
fn each_event(file: &mut Vec<u8>, port: u8) {
    for tag in 32..=43 {
        add_field(file, tag, &[&[port]]).expect("one byte fits");
    }
    add(file, port, &Event::Packet(&[0x81, 0x00]));
    add(file, port, &Event::NewOffer(&[FIVE_VOLT.bytes()]));
}

/// 9 comes before all that is wrong with the event itself, and a bad set-up sets
/// nothing up.
fn no_rack_yet(file: &mut Vec<u8>) {
    each_event(file, 0);
    each_event(file, 1);
    add_rack(file, &alike(29_999, 1, &[FIVE_VOLT]));
    each_event(file, 1);
    add_rack(file, &SetUp::default());
    each_event(file, 255);
}

fn set_ups(file: &mut Vec<u8>) {
    let mut set_ups = rack_set_ups::all();
    set_ups.extend(large_numbers());
    for set_up in &set_ups {
        // a rack that shows whether it stayed as it was
        add_rack(file, &alike(240_000, 3, &[FIVE_VOLT, NINE_VOLT]));
        add(file, 2, &Event::Attach);
        add_rack(file, set_up);
        add(file, 2, &Event::NotAcknowledged);
        add(file, 2, &Event::Attach);
        // also the number that would be left of theirs in eight bits
        add(file, set_up.places.len() as u8, &Event::Attach);
    }
}

/// Shares and limits that are good, or add to little, if only some of their bits
/// are kept.
fn large_numbers() -> Vec<SetUp> {
    let with_ports = |ports, supply, share, limit| {
        let offer = vec![Object::new(100, 0)];
        let place = Place {
            share,
            limit,
            offer,
        };
        let places = vec![place; ports];
        SetUp { supply, places }
    };
    let with = |supply, share, limit| with_ports(2, supply, share, limit);
    let over = |number: u32| number + (1 << 31);
    // 32 of these add to 32 times 30,000, if only 32 bits of the sum are kept
    let share_of_32 = 30_000 + (1 << 27);
    vec![
        with_ports(MOST_PORTS, 1_200_000, share_of_32, share_of_32),
        with_ports(MOST_PORTS, 1_200_000, share_of_32, u32::MAX),
        with_ports(MOST_PORTS, over(6_400_000), 30_000, 120_000),
        with(u32::MAX, 30_000, 120_000),
        with(240_000, over(30_000), over(120_000)),
        with(240_000, over(0), u32::MAX),
        with(240_000, 30_000, u32::MAX),
        with(over(240_000), 30_000, 120_000),
    ]
}

fn numbers(file: &mut Vec<u8>) {
    for ports in [1, 4, 8, 9, MOST_PORTS - 1, MOST_PORTS] {
        add_rack(file, &alike(1_200_000, ports, &[FIVE_VOLT, NINE_VOLT]));
        for number in 0..=255 {
            add(file, number, &Event::Attach);
            add(file, number, &Event::Packet(&[0x81, 0x00]));
        }
        for number in [0, 9, 32, 33, 40, 255] {
            each_event(file, number);
        }
        each_event(file, ports as u8);
        each_event(file, ports as u8 + 1);
    }
}

/// What stands behind the damage could be read again, but must not be.
fn damaged_end(file: &mut Vec<u8>) {
    add_field(file, 36, &[&[1, 0]]).expect("two bytes fit");
    each_event(file, 1);
    add_rack(file, &alike(240_000, 3, &[FIVE_VOLT, NINE_VOLT]));
}

#[cfg(test)]
#[path = "night_cases_tests.rs"]
mod tests;
