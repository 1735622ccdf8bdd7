//! A walk: lines for the step program, and a port that takes them as they are
//! written, so that the next line can depend on where the port has come to. The
//! port is the one that stands alone, or one of a rack.

use crate::offer::{bytes_of, Object};
use crate::packet::{read, write, Fields};
use crate::port::Port;
use crate::rack::{Bay, Rack, SetUp};
use crate::step_lines::Bench;
use crate::step_text::{place_line, with_bytes};

pub const GOOD_CRC: u8 = 1;
pub const ACCEPT: u8 = 3;
pub const GET_SOURCE_CAP: u8 = 7;
pub const SOFT_RESET: u8 = 13;
pub const REQUEST: u8 = 2;

/// Worth 30,000, the first object of nearly every offer here.
pub const FIVE_VOLT: Object = Object(0x0001_912C);
pub const NINE_VOLT: Object = Object(0x0002_D12C);

pub struct Walk {
    pub lines: Vec<u8>,
    bench: Bench,
    /// The port of the rack that is meant; none is the port that stands alone.
    number: Option<usize>,
}

impl Walk {
    pub fn new() -> Walk {
        Walk {
            lines: Vec::new(),
            bench: Bench::new(),
            number: None,
        }
    }

    /// From here on a port of the rack is meant, which it must have.
    pub fn turn_to(&mut self, number: usize) {
        self.number = Some(number);
    }

    pub fn port(&self) -> &Port {
        match self.number {
            None => &self.bench.port,
            Some(_) => &self.bay().port,
        }
    }

    /// The place of the port of the rack that is meant.
    pub fn bay(&self) -> &Bay {
        let bay = self.number.and_then(|number| self.rack().bay(number));
        bay.expect("a walk turns only to ports that are in the rack")
    }

    pub fn rack(&self) -> &Rack {
        &self.bench.beside.rack
    }

    /// Any bytes but a line end.
    pub fn raw(&mut self, line: &[u8]) {
        self.lines.extend(line);
        self.lines.push(b'\n');
        self.bench.take(line);
    }

    /// An event, behind the port's number where it is one of the rack.
    pub fn say(&mut self, line: &str) {
        match self.number {
            None => self.raw(line.as_bytes()),
            Some(number) => self.raw(format!("{number} {line}").as_bytes()),
        }
    }

    pub fn packet(&mut self, bytes: &[u8]) {
        self.say(&packet_line(bytes));
    }

    pub fn new_port(&mut self, limit: u32, objects: &[Object]) {
        let line = with_bytes(&format!("port {limit}"), &bytes_of(objects));
        self.raw(line.as_bytes());
    }

    /// All lines of a set-up, good or bad.
    pub fn set_up(&mut self, set_up: &SetUp) {
        self.raw(format!("supply {}", set_up.supply).as_bytes());
        for place in &set_up.places {
            self.raw(place_line(place).as_bytes());
        }
        self.raw(b"setup");
    }

    pub fn acknowledge(&mut self) {
        let message_id = pending_id(self.port());
        self.packet(&message(GOOD_CRC, message_id, &[]));
    }

    /// A packet that is new: not with the stored MessageID.
    pub fn hear(&mut self, message_type: u8, objects: &[u8]) {
        let message_id = new_id(self.port());
        self.packet(&message(message_type, message_id, objects));
    }
}

/// What a well-behaved receiver would send, the MessageID aside.
pub fn message(message_type: u8, message_id: u8, objects: &[u8]) -> Vec<u8> {
    let fields = Fields {
        extended: false,
        message_id,
        power_role: 0,
        revision: 0b10,
        data_role: 0,
        message_type,
    };
    let mut bytes = vec![0; 2 + objects.len()];
    write(&fields, objects, &mut bytes, 0).expect("a case that can be written");
    bytes
}

/// With nothing pending, that of the next message.
pub fn pending_id(port: &Port) -> u8 {
    let pending = port.channel.pending.as_ref();
    let fields = pending.map(|pending| read(&pending.message).0);
    match fields {
        Some(Ok(fields)) => fields.message_id,
        _ => port.channel.counter,
    }
}

pub fn new_id(port: &Port) -> u8 {
    port.channel.stored.map_or(0, |stored| (stored + 1) % 8)
}

pub fn packet_line(bytes: &[u8]) -> String {
    with_bytes("packet", bytes)
}

/// The packet of such a line, behind a port's number or not.
#[cfg(test)]
pub fn packet_of(line: &[u8]) -> Option<Vec<u8>> {
    let word = line.windows(6).position(|word| word == b"packet")?;
    crate::hex::bytes_of(&line[word + 6..])
}

pub fn offer_line(objects: &[Object]) -> String {
    with_bytes("offer", &bytes_of(objects))
}
