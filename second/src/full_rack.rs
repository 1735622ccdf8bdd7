//! The largest rack that can be: 32 ports with seven objects each. What happens at
//! its last ports, and that it stands where a set-up has a port too many.

use crate::offer::Object;
use crate::rack::{Place, SetUp, MOST_PORTS};
use crate::rack_situations::go_in_rack;
use crate::request_objects::request;
use crate::step_walk::{Walk, REQUEST};

const VOLTAGES: [u32; 7] = [100, 150, 200, 250, 300, 350, 400];

/// So many ports, each of them good. No two of 32 are alike, so that it shows if one
/// is taken for another. Beyond the shares there is just what the last of 32 can ask.
pub fn set_up(ports: usize) -> SetUp {
    let places: Vec<Place> = (0..ports).map(place).collect();
    let shares: u32 = places.iter().map(|place| place.share).sum();
    let last = place(MOST_PORTS - 1);
    SetUp {
        supply: shares + all_of(&last.offer) - last.share,
        places,
    }
}

fn place(index: usize) -> Place {
    let turn = (index % MOST_PORTS) as u32;
    let offer = VOLTAGES.map(|voltage| Object::new(voltage, 269 + turn));
    Place {
        share: 30_000 + turn,
        limit: 120_000 + turn,
        offer: offer.to_vec(),
    }
}

/// What the last object is worth, which is the most.
fn all_of(offer: &[Object]) -> u32 {
    let last = offer.last();
    last.map_or(0, |object| object.voltage() * object.current())
}

pub fn add_all(walk: &mut Walk) {
    for short in [0, 1] {
        last_ports(walk, short);
    }
    one_too_many(walk);
}

/// The last port asks for all that is left, and just gets it or just does not; the
/// one before it wants a little less, and gets that now or when the last one goes.
fn last_ports(walk: &mut Walk, short: u32) {
    let mut largest = set_up(MOST_PORTS);
    largest.supply -= short;
    walk.set_up(&largest);
    for number in [MOST_PORTS, MOST_PORTS - 1] {
        walk.turn_to(number);
        go_in_rack(walk, "attach acked");
        ask_for_all(walk);
        go_in_rack(walk, "acked supplyready acked");
    }
    walk.raw(format!("{} attach", MOST_PORTS + 1).as_bytes());
    walk.turn_to(MOST_PORTS);
    go_in_rack(walk, "detach");
    walk.turn_to(MOST_PORTS - 1);
    go_in_rack(walk, "caps acked");
    ask_for_all(walk);
    go_in_rack(walk, "acked supplyready acked");
}

fn ask_for_all(walk: &mut Walk) {
    let offer = &walk.port().last;
    let current = offer.last().map_or(0, |object| object.current());
    let object = request(offer.len() as u32, current, current);
    walk.hear(REQUEST, &object);
}

/// The rack stays as it was, with what its last port has come to.
fn one_too_many(walk: &mut Walk) {
    walk.set_up(&set_up(MOST_PORTS));
    walk.turn_to(MOST_PORTS);
    go_in_rack(walk, "contract1");
    for ports in [MOST_PORTS + 1, MOST_PORTS + 2, 40, 64] {
        walk.set_up(&set_up(ports));
        for number in [ports, MOST_PORTS + 1] {
            walk.raw(format!("{number} attach").as_bytes());
            walk.raw(format!("{number} packet").as_bytes());
        }
        go_in_rack(walk, "ask2 acked supplyready acked");
    }
}

#[cfg(test)]
#[path = "full_rack_tests.rs"]
mod tests;
