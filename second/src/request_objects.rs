//! The objects of Requests that the cases put together (000, Tables 6.22 and 6.23):
//! ordinary ones, and those that set capability mismatch or name too much.

use crate::chance::Chance;
use crate::offer::ObjectBytes;

pub const MISMATCH: u32 = 1 << 26;
pub const GIVE_BACK: u32 = 1 << 27;

/// All bits that are neither the position's nor a current's.
pub const FLAGS: u32 = 0xFF << 20;

/// The most that a current's field can say, which no good offer has.
pub const FULL_FIELD: u32 = 0x3FF;

pub fn request(position: u32, current: u32, most_current: u32) -> ObjectBytes {
    (position << 28 | current << 10 | most_current).to_le_bytes()
}

pub fn with_flags(object: ObjectBytes, flags: u32) -> ObjectBytes {
    (u32::from_le_bytes(object) | flags).to_le_bytes()
}

/// Capability mismatch or not, and GiveBack, which is ignored, beside either.
const MIXTURES: [u32; 4] = [0, MISMATCH, GIVE_BACK, MISMATCH | GIVE_BACK];

/// This current or just too much is asked of an object that has so much to offer, and
/// all of that or just too much is named as the maximum; each in all mixtures.
pub fn mixtures(position: u32, current: u32, offered: u32) -> Vec<ObjectBytes> {
    let more = offered + 1;
    let currents = [
        (current, offered),
        (current, more),
        (more, offered),
        (more, more),
    ];
    let objects = currents.map(|(current, most)| request(position, current, most));
    let mixed = |object| MIXTURES.map(|flags| with_flags(object, flags));
    objects.into_iter().flat_map(mixed).collect()
}

/// The like by chance: mostly too much is named, and seldom asked.
pub fn some_mixture(position: u32, current: u32, offered: u32, chance: &mut Chance) -> ObjectBytes {
    let more = chance.one_of(&[offered + 1, offered + 1, FULL_FIELD]);
    let most = chance.one_of(&[offered, more, more]);
    let current = chance.one_of(&[current, current, current, current, more]);
    with_flags(request(position, current, most), chance.one_of(&MIXTURES))
}

#[cfg(test)]
#[path = "request_objects_tests.rs"]
mod tests;
