//! Events as nobody should send them, for the nights by chance: packets that
//! cannot be read, bad offers, events out of turn, and ports that are not there.

use crate::chance::Chance;
use crate::rack_nights::far_past;
use crate::step_events::{bad_offers, malformed_packets, LONE_WORDS};
use crate::step_random::anything;
use crate::step_walk::{offer_line, Walk};

/// Some are longer than a line of docs/STEPS.md, so that the walk does not step the
/// port; but then such a packet is refused and changes nothing.
const LONGEST_PACKET: usize = 600;

/// One event, mostly at the port that the walk has turned to.
pub fn one(walk: &mut Walk, chance: &mut Chance) {
    match chance.below(20) {
        0..=2 => {
            let packets = malformed_packets();
            let place = chance.below(packets.len());
            walk.packet(&packets[place]);
        }
        3..=4 => {
            let length = chance.below(40);
            walk.packet(&chance.bytes(length));
        }
        5 => {
            let length = chance.below(LONGEST_PACKET + 1);
            walk.packet(&chance.bytes(length));
        }
        6..=8 => walk.say(chance.one_of(&LONE_WORDS)),
        9..=10 => elsewhere(walk, chance),
        11 => {
            let offers = bad_offers();
            let place = chance.below(offers.len());
            walk.say(&offer_line(&offers[place]));
        }
        12 => walk.say(chance.one_of(&["yes", "no"])),
        _ => anything(walk, chance),
    }
}

/// At a port that the rack does not have.
fn elsewhere(walk: &mut Walk, chance: &mut Chance) {
    const LINES: [&str; 7] = [
        "attach",
        "detach",
        "packet",
        "packet 81 00",
        "acknowledgement",
        "offer 2C 91 01 00",
        "yes",
    ];
    let ports = walk.rack().bays.len();
    let number = chance.one_of(&[0, ports + 1, far_past(ports), 255]);
    let line = chance.one_of(&LINES);
    walk.raw(format!("{number} {line}").as_bytes());
}
