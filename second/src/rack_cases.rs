//! Lines about racks to try the step program with (docs/STEPS.md): the paper's
//! examples 8 and 7, Requests that ask or name too much, set-ups at their bounds,
//! the largest rack, numbers that are not in the rack, every event in every state,
//! neighbours that give up power, nights by chance, and lines whose text is odd.

use crate::offer::Object;
use crate::port::State;
use crate::rack::{Place, SetUp, LARGEST_SUPPLY, MOST_PORTS};
use crate::rack_situations::{alike, go_in_rack, TWENTY_VOLT};
use crate::request_objects::{mixtures, request};
use crate::step_events::{bad_offers, LONE_WORDS};
use crate::step_walk::{offer_line, Walk, FIVE_VOLT, NINE_VOLT, REQUEST};
use crate::{full_rack, rack_nights, rack_odd_lines, rack_odd_numbers};
use crate::{rack_set_ups, rack_situations, rack_stories};
use std::io::{self, Write};

pub fn print_all(mut output: impl Write) -> io::Result<()> {
    let mut walk = Walk::new();
    // These come first, for they begin before any set-up.
    rack_set_ups::add_all(&mut walk);
    example_8(&mut walk);
    example_7(&mut walk);
    asking_for_more(&mut walk);
    whole_supply(&mut walk);
    full_rack::add_all(&mut walk);
    own_limits(&mut walk);
    numbers(&mut walk);
    not_awaited(&mut walk);
    port_beside(&mut walk);
    rack_situations::add_all(&mut walk);
    rack_stories::add_all(&mut walk);
    rack_nights::add_all(&mut walk);
    rack_odd_numbers::add_all(&mut walk);
    rack_odd_lines::add_all(&mut walk);
    // What follows the last line's end is a line too.
    walk.lines.extend(b"1 attach");
    output.write_all(&walk.lines)?;
    output.flush()
}

/// The port attaches, asks, and goes on until it has a contract or is refused.
fn ask(walk: &mut Walk, number: usize, position: u32, current: u32) {
    walk.turn_to(number);
    if walk.port().state == State::Detached {
        go_in_rack(walk, "attach acked");
    }
    walk.hear(REQUEST, &request(position, current, current));
}

pub fn example_8(walk: &mut Walk) {
    // 36,000, 36,180 and 30,000
    for (position, current) in [(2, 200), (2, 201), (1, 300)] {
        // as it stands, and with contracts in force before the next one asks
        for onwards in ["", "acked supplyready acked"] {
            walk.set_up(&alike(240_000, 4, &[FIVE_VOLT, NINE_VOLT, TWENTY_VOLT]));
            ask(walk, 1, 3, 300);
            go_in_rack(walk, onwards);
            ask(walk, 2, 2, 300);
            go_in_rack(walk, onwards);
            ask(walk, 3, position, current);
            go_in_rack(walk, onwards);
            ask(walk, 4, 1, 300);
        }
    }
}

pub fn example_7(walk: &mut Walk) {
    for number in 1..=4 {
        walk.set_up(&alike(240_000, 4, &[FIVE_VOLT, NINE_VOLT]));
        walk.turn_to(number);
        go_in_rack(walk, "contract1");
        let packet = [0x82, 0x12, 0x2C, 0xB1, 0x04, 0x20];
        walk.packet(&packet);
        walk.packet(&packet);
        go_in_rack(walk, "acked supplyready acked");
    }
}

/// Port 3 of example 8 asks for its 36,000 or 36,180 in all mixtures.
pub fn asking_for_more(walk: &mut Walk) {
    let met = mixtures(2, 200, 300);
    let passed = mixtures(2, 201, 300);
    for object in met.iter().chain(&passed) {
        walk.set_up(&alike(240_000, 4, &[FIVE_VOLT, NINE_VOLT, TWENTY_VOLT]));
        ask(walk, 1, 3, 300);
        ask(walk, 2, 2, 300);
        walk.turn_to(3);
        go_in_rack(walk, "attach acked");
        walk.hear(REQUEST, object);
        go_in_rack(walk, "acked supplyready acked");
    }
}

/// Every port asks for all it may have: the last one just gets it, or just not.
pub fn whole_supply(walk: &mut Walk) {
    let place = Place {
        share: 30_000,
        limit: 200_000,
        offer: vec![Object::new(100, 500), Object::new(400, 500)],
    };
    for (ports, limits) in [(8, 1_600_000), (MOST_PORTS, LARGEST_SUPPLY)] {
        for supply in [limits, limits - 1] {
            walk.set_up(&SetUp {
                supply,
                places: vec![place.clone(); ports],
            });
            for number in 1..=ports {
                ask(walk, number, 2, 500);
                go_in_rack(walk, "acked supplyready acked");
            }
            // the last one again, for a little less
            go_in_rack(walk, "caps acked");
            ask(walk, ports, 2, 499);
        }
    }
}

/// An offer that is good at one port and bad at its neighbour.
pub fn own_limits(walk: &mut Walk) {
    let limits = [30_000, 53_999, 54_000, 120_000, 200_000];
    let places = limits.map(|limit| Place {
        share: 30_000,
        limit,
        offer: vec![FIVE_VOLT],
    });
    walk.set_up(&SetUp {
        supply: 400_000,
        places: places.to_vec(),
    });
    let mut offers = bad_offers();
    offers.push(vec![FIVE_VOLT, NINE_VOLT]);
    offers.push(vec![FIVE_VOLT, NINE_VOLT, TWENTY_VOLT]);
    offers.push(vec![FIVE_VOLT, Object::new(400, 500)]);
    offers.push(vec![Object::new(100, 301)]);
    offers.push(vec![FIVE_VOLT]);
    for way in ["", "attach acked", "ask1 acked supplyready acked"] {
        for number in 1..=limits.len() {
            walk.turn_to(number);
            go_in_rack(walk, way);
            for offer in &offers {
                walk.say(&offer_line(offer));
            }
        }
    }
}

/// Also those that would be a port's number if they were kept in eight bits, and
/// the same number with zeros before it. 9 goes before all other refusals.
fn numbers(walk: &mut Walk) {
    const EVENTS: [&str; 10] = [
        "attach",
        "attach",
        "packet",
        "packet 82 10",
        "packet 81 00",
        "offer",
        "offer 2C 91 01 00",
        "yes",
        "no",
        "detach",
    ];
    for ports in [1, 4, 8, 9, MOST_PORTS - 1, MOST_PORTS] {
        walk.set_up(&alike(1_200_000, ports, &[FIVE_VOLT, NINE_VOLT]));
        let near = (0..=12).chain(MOST_PORTS - 2..=MOST_PORTS + 2);
        let far = [40, 64, 99, 100, 128, 255, 256, 257, 256 + ports, 512, 513];
        let numbers = near.chain(far).chain([512 + ports, 769, 999]);
        let mut numbers: Vec<String> = numbers.map(|number| number.to_string()).collect();
        let padded = ["00", "000", "01", "001", "04", "008", "09", "010"];
        numbers.extend(padded.map(str::to_string));
        numbers.extend(["031", "032", "033"].map(str::to_string));
        for number in &numbers {
            for event in EVENTS {
                walk.raw(format!("{number} {event}").as_bytes());
            }
        }
        for number in [0, MOST_PORTS, MOST_PORTS + 1, 40, 255, ports + 1] {
            for word in LONE_WORDS {
                walk.raw(format!("{number} {word}").as_bytes());
            }
        }
    }
}

/// The power answer from outside, in every state that a port of a rack can be in,
/// and after a yes and a no of the rack itself.
pub fn not_awaited(walk: &mut Walk) {
    let roomy = rack_situations::ROOMY.iter().map(|way| (240_000, way));
    let tight = rack_situations::TIGHT.iter().map(|way| (120_000, way));
    for (supply, &(_, way)) in roomy.chain(tight) {
        walk.set_up(&alike(supply, 4, &[FIVE_VOLT, NINE_VOLT]));
        walk.turn_to(2);
        go_in_rack(walk, way);
        for line in ["yes", "no"] {
            for number in 0..=5 {
                walk.raw(format!("{number} {line}").as_bytes());
            }
        }
    }
}

/// The port that stands alone and the ports of the rack go the same way, in turns.
fn port_beside(walk: &mut Walk) {
    walk.set_up(&alike(120_000, 4, &[FIVE_VOLT, NINE_VOLT]));
    let port = "port 120000 2C 91 01 00 2C D1 02 00";
    let alone = "attach, packet 81 00, packet 82 10 2C B1 04 20, yes, packet 81 02, supplyready";
    for line in [port].into_iter().chain(alone.split(", ")) {
        walk.raw(line.as_bytes());
        for number in [1, 4] {
            walk.raw(format!("{number} {line}").as_bytes());
        }
    }
    // a set-up that is put together or refused, and one that is set up
    for line in [
        "supply 30000",
        "setup",
        "place 30000 30000 2C 91 01 00",
        "setup",
    ] {
        walk.raw(line.as_bytes());
        walk.raw(b"acknowledgement");
        walk.raw(b"1 acknowledgement");
    }
    walk.raw(port.as_bytes());
    walk.raw(b"1 attach");
    walk.raw(b"attach");
}

#[cfg(test)]
#[path = "rack_cases_tests.rs"]
mod tests;

#[cfg(test)]
#[path = "rack_sizes_tests.rs"]
mod sizes_tests;
