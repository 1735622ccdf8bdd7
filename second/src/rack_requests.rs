//! What a port of a rack offers, and what a receiver asks for: all it can get, just
//! what the neighbours leave, one step more than that, little, what does not fit, or
//! more named than is offered, with capability mismatch and without.

use crate::chance::Chance;
use crate::offer::{asked, Object};
use crate::port::Port;
use crate::request_objects::{request, some_mixture};
use crate::step_walk::Walk;
#[cfg(test)]
use crate::{port::Event, port::State, rack::Bay};

/// Two to five objects; the last ones are worth all that the port may ever give.
pub fn strong_offer(chance: &mut Chance, limit: u32) -> Vec<Object> {
    const VOLTAGES: [u32; 5] = [100, 180, 240, 300, 400];
    let objects = VOLTAGES.map(|voltage| Object::new(voltage, 500.min(limit / voltage)));
    objects[..2 + chance.below(4)].to_vec()
}

/// Of a port that has made an offer.
pub fn some_request(walk: &Walk, chance: &mut Chance) -> [u8; 4] {
    let offer = &walk.port().last;
    let place = chance.below(offer.len());
    let object = offer[place];
    let position = place as u32 + 1;
    let offered = object.current();
    let brim = brim(walk, object, chance.below(2) as u32);
    match chance.below(15) {
        0..=4 => most(offer),
        5..=7 => request(position, brim, offered),
        8 => request(position, offered, offered),
        9 => request(position, chance.below(offered as usize + 1) as u32, offered),
        10 => little(walk.port()),
        11 => request(position, offered + 1, offered),
        _ => {
            let current = chance.one_of(&[offered, brim]);
            some_mixture(position, current, offered, chance)
        }
    }
}

/// The object that is worth most, with all its current.
fn most(offer: &[Object]) -> [u8; 4] {
    let worth = |object: &Object| object.voltage() * object.current();
    let numbered = (1..).zip(offer);
    let best = numbered.max_by_key(|(_, object)| worth(object));
    let (position, object) = best.expect("an offer has an object");
    request(position, object.current(), object.current())
}

/// As much as there is for this port while its neighbours hold what they hold, and
/// so many steps of current beyond, which only fit once a neighbour gives up.
fn brim(walk: &Walk, object: Object, beyond: u32) -> u32 {
    let rack = walk.rack();
    let others = rack.taken() - walk.bay().taken();
    let fits = (rack.supply - others) / object.voltage();
    object.current().min(fits + beyond)
}

/// Whether the request fits, and there is power for it once all neighbours have
/// given up all but their shares.
pub fn could_have(walk: &Walk, object: &[u8]) -> bool {
    let rack = walk.rack();
    let shares: u32 = rack.bays.iter().map(|bay| bay.share).sum();
    let room = rack.supply - (shares - walk.bay().share);
    asked(object, &walk.port().last).is_some_and(|deal| deal.worth <= room)
}

/// The power that a port asks for by this event, if it then awaits a power answer.
#[cfg(test)]
pub fn judged(bay: &Bay, event: &Event) -> Option<u32> {
    let mut alone = bay.port.clone();
    alone.step(event, bay.limit).ok()?;
    (alone.state == State::Judge).then_some(alone.accepted.worth)
}

/// A quarter of the first object's current.
pub fn little(port: &Port) -> [u8; 4] {
    let current = port.last[0].current() / 4;
    request(1, current, current)
}
