//! Objects, the paper's "The packet"; a good offer, "Refusal numbers"; and when a
//! Request fits, "The Source states" with request 01, "Asking for more than we
//! have". Voltages, currents and power stay in the units of the fields: 50 mV,
//! 10 mA, half a milliwatt.

use std::ops::Deref;

/// A fixed supply object. The bits that are ignored go out as they came in.
#[derive(Clone, Copy, Debug, Default, PartialEq, Eq)]
pub struct Object(pub u32);

pub const MOST_OBJECTS: usize = 7;

const FIVE_VOLT: u32 = 5_000 / 50;
const MOST_VOLTAGE: u32 = 20_000 / 50;
const MOST_CURRENT: u32 = 5_000 / 10;

impl Object {
    pub const fn new(voltage: u32, current: u32) -> Object {
        Object(voltage << 10 | current)
    }

    pub fn from_bytes(bytes: ObjectBytes) -> Object {
        Object(u32::from_le_bytes(bytes))
    }

    fn is_fixed(self) -> bool {
        self.0 >> 30 == 0
    }

    pub fn voltage(self) -> u32 {
        self.0 >> 10 & 0x3FF
    }

    pub fn current(self) -> u32 {
        self.0 & 0x3FF
    }

    pub fn bytes(self) -> ObjectBytes {
        self.0.to_le_bytes()
    }

    fn worth(self) -> u32 {
        self.voltage() * self.current()
    }
}

/// An object as it stands in a packet or a file, least byte first.
pub type ObjectBytes = [u8; 4];

/// None unless there are four bytes to every object.
pub fn split(bytes: &[u8]) -> Option<&[ObjectBytes]> {
    let (objects, rest) = bytes.as_chunks();
    rest.is_empty().then_some(objects)
}

pub fn objects_of(objects: &[ObjectBytes]) -> Vec<Object> {
    let objects = objects.iter().copied();
    objects.map(Object::from_bytes).collect()
}

pub fn bytes_of(objects: &[Object]) -> Vec<u8> {
    let words = objects.iter().map(|object| object.bytes());
    words.collect::<Vec<_>>().concat()
}

/// The objects of an offer in place, good or bad; without any, it is none.
#[derive(Clone, Copy, Debug, Default, PartialEq, Eq)]
pub struct Offer {
    objects: [Object; MOST_OBJECTS],
    count: usize,
}

impl Offer {
    /// None where there are more than seven.
    pub fn of(objects: impl IntoIterator<Item = Object>) -> Option<Offer> {
        let mut offer = Offer::default();
        for object in objects {
            *offer.objects.get_mut(offer.count)? = object;
            offer.count += 1;
        }
        Some(offer)
    }
}

impl Deref for Offer {
    type Target = [Object];

    fn deref(&self) -> &[Object] {
        &self.objects[..self.count]
    }
}

pub fn is_good(offer: &[Object], limit: u32) -> bool {
    let each = |object: &Object| {
        object.is_fixed()
            && object.voltage() <= MOST_VOLTAGE
            && object.current() <= MOST_CURRENT
            && object.worth() <= limit
    };
    let rising = |pair: &[Object]| pair[0].voltage() < pair[1].voltage();
    offer.len() <= MOST_OBJECTS
        && offer.iter().all(each)
        && offer.windows(2).all(rising)
        && offer.first().map(|object| object.voltage()) == Some(FIVE_VOLT)
}

/// A request that fitted, or the contract it became.
#[derive(Clone, Copy, Debug, Default, PartialEq, Eq)]
pub struct Deal {
    pub position: u8,
    pub voltage: u32,
    pub current: u32,
    pub worth: u32,
}

/// What a Request with these object bytes asks of this offer; None where it does
/// not fit. "With bit 26 set only the operating current is compared": the maximum
/// then says what the receiver would need (000, 6.4.2.3), and asks for nothing.
/// Without it both are. Bit 27 is ignored, so that the low field is a maximum also
/// where 000 has a minimum there.
pub fn asked(request: &[u8], offer: &[Object]) -> Option<Deal> {
    let request = u32::from_le_bytes(request.try_into().ok()?);
    let position = (request >> 28) as u8;
    let mismatch = request >> 26 & 1 == 1;
    let current = request >> 10 & 0x3FF;
    let most_current = request & 0x3FF;
    let object = at(offer, position)?;
    let has = |current| current <= object.current();
    (has(current) && (mismatch || has(most_current))).then_some(Deal {
        position,
        voltage: object.voltage(),
        current,
        worth: object.voltage() * current,
    })
}

/// Whether this offer still has what the contract says, at the same position.
pub fn honours(offer: &[Object], contract: &Deal) -> bool {
    at(offer, contract.position).is_some_and(|object| {
        object.voltage() == contract.voltage && object.current() >= contract.current
    })
}

/// Positions count from 1.
fn at(offer: &[Object], position: u8) -> Option<Object> {
    let place = usize::from(position).checked_sub(1)?;
    offer.get(place).copied()
}

#[cfg(test)]
#[path = "offer_tests.rs"]
mod tests;
