//! Fields in every place of the pieces of 64 KiB in which a night is read
//! (docs/NIGHT.md), and fields that are longer than a piece.

use crate::full_rack;
use crate::night_cases::{add, add_rack};
use crate::offer::Object;
use crate::port::Event;
use crate::rack::{Place, SetUp, LARGEST_SUPPLY, MOST_PORTS};
use crate::rack_situations::alike;
use crate::request_objects::request;
use crate::step_walk::{message, FIVE_VOLT, GOOD_CRC, NINE_VOLT, REQUEST};

const PIECE: usize = 65_536;
const MOST_VALUE: usize = 65_535;

/// The tag, the length, and the port's number.
const HEAD_OF_AN_EVENT: usize = 4;

pub fn add_all(file: &mut Vec<u8>) {
    longest(file);
    let story = story();
    for before in 0..=story.len() {
        fill(file, before);
        file.extend(&story);
    }
    let largest = largest_set_up();
    for before in places_of_the_largest() {
        fill(file, before);
        file.extend(&largest);
        add(file, MOST_PORTS as u8, &Event::Attach);
    }
}

/// As many bytes as a good set-up can have.
pub fn largest_set_up() -> Vec<u8> {
    let mut file = Vec::new();
    add_rack(&mut file, &full_rack::set_up(MOST_PORTS));
    file
}

/// Where a piece ends in the largest set-up; not everywhere, for each takes a piece.
/// Its head has 3 bytes, a port 48, and the supply 7.
pub fn places_of_the_largest() -> [usize; 9] {
    let (first, last) = (3, 3 + 31 * 48);
    let supply = 3 + 32 * 48;
    [
        2,
        first,
        first + 8 * 48,
        first + 8 * 48 + 1,
        last - 1,
        last + 47,
        supply,
        supply + 6,
        supply + 7,
    ]
}

/// A night with fields of many kinds, from a set-up to a contract and a new offer.
pub fn story() -> Vec<u8> {
    let mut file = Vec::new();
    let acknowledge = |file: &mut Vec<u8>, message_id| {
        let packet = message(GOOD_CRC, message_id, &[]);
        add(file, 1, &Event::Packet(&packet));
    };
    add_rack(&mut file, &alike(60_000, 1, &[FIVE_VOLT, NINE_VOLT]));
    add(&mut file, 1, &Event::Attach);
    acknowledge(&mut file, 0);
    let ask = message(REQUEST, 0, &request(2, 300, 300));
    add(&mut file, 1, &Event::Packet(&ask));
    acknowledge(&mut file, 1);
    add(&mut file, 1, &Event::SupplyReady);
    acknowledge(&mut file, 2);
    add(&mut file, 1, &Event::NewOffer(&[FIVE_VOLT.bytes()]));
    file
}

/// A long packet, so that a piece ends so many bytes behind it.
fn fill(file: &mut Vec<u8>, before: usize) {
    let missing = |file: &Vec<u8>| {
        let length = file.len() + before;
        length.next_multiple_of(PIECE) - length
    };
    if missing(file) < HEAD_OF_AN_EVENT {
        // too little for a field, so the end of the next piece is meant
        add(file, 1, &Event::Packet(&[0x81, 0x00]));
    }
    let packet = vec![0x82; missing(file) - HEAD_OF_AN_EVENT];
    add(file, 1, &Event::Packet(&packet));
}

/// Up to the longest packet, offer and set-ups, which have more bytes than a piece.
fn longest(file: &mut Vec<u8>) {
    let packet = vec![0x5A; MOST_VALUE - 1];
    let offer = vec![FIVE_VOLT.bytes(); (MOST_VALUE - 1) / 4];
    add_rack(file, &alike(60_000, 1, &[FIVE_VOLT]));
    for port in [1, 9] {
        for length in [packet.len(), packet.len() - 1, 31, 300, 4_000] {
            add(file, port, &Event::Packet(&packet[..length]));
        }
        for count in [offer.len(), offer.len() - 1, 8, 100, 4_000] {
            add(file, port, &Event::NewOffer(&offer[..count]));
        }
    }
    // a port has 20 bytes and 4 for each object, and the supply has 7
    let most_ports = vec![vec![]; (MOST_VALUE - 7) / 20];
    let most_objects = vec![vec![FIVE_VOLT; (MOST_VALUE - 7 - 20) / 4]];
    for offers in [most_ports, most_objects] {
        add_rack(file, &with_offers(offers));
        add(file, 1, &Event::Attach);
    }
}

fn with_offers(offers: Vec<Vec<Object>>) -> SetUp {
    let place = |offer| Place {
        share: 30_000,
        limit: 120_000,
        offer,
    };
    SetUp {
        supply: LARGEST_SUPPLY,
        places: offers.into_iter().map(place).collect(),
    }
}
