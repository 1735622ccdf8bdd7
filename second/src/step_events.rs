//! The one event that is put to a port once it stands where it should: every kind
//! of event, packets of every meaning, every refusal.

use crate::offer::Object;
use crate::port::{Port, State};
use crate::request_objects::{mixtures, request, with_flags, FLAGS, FULL_FIELD, MISMATCH};
use crate::step_walk::{
    message, new_id, offer_line, packet_line, pending_id, ACCEPT, FIVE_VOLT, GET_SOURCE_CAP,
    GOOD_CRC, NINE_VOLT, REQUEST, SOFT_RESET,
};

pub const LONE_WORDS: [&str; 10] = [
    "attach",
    "detach",
    "hardreset",
    "acknowledgement",
    "senderresponse",
    "sourcecapability",
    "pshardreset",
    "supplyready",
    "yes",
    "no",
];

/// Every event; if `thorough`, also packets of every control type, and the mixed
/// Requests that otherwise only a port gets that awaits one.
pub fn all(port: &Port, thorough: bool) -> Vec<String> {
    let mut lines: Vec<String> = LONE_WORDS.map(str::to_string).to_vec();
    lines.extend(good_offers());
    lines.extend(bad_offers().iter().map(|objects| offer_line(objects)));
    lines.extend(malformed_packets().iter().map(|bytes| packet_line(bytes)));
    let mut packets = good_crcs(port);
    packets.extend(repeats(port));
    packets.extend(requests(port));
    packets.extend(further_messages(port));
    if thorough || matches!(port.state, State::Offer | State::Discovery | State::Ready) {
        packets.extend(mixed_requests(port));
    }
    if thorough {
        packets.extend((0..32).map(|t| message(t, new_id(port), &[])));
    } else {
        let few = [0, ACCEPT, 4, 6, GET_SOURCE_CAP, 12, SOFT_RESET, 16];
        packets.extend(few.map(|t| message(t, new_id(port), &[])));
    }
    lines.extend(packets.iter().map(|bytes| packet_line(bytes)));
    lines
}

/// Those that tell most where a message is pending or a way is long.
pub fn few(port: &Port) -> Vec<String> {
    let id = new_id(port);
    let mut lines: Vec<String> = LONE_WORDS.map(str::to_string).to_vec();
    lines.push(offer_line(&[FIVE_VOLT, NINE_VOLT]));
    lines.push(offer_line(&[]));
    let more_named = with_flags(request(1, 100, FULL_FIELD), MISMATCH);
    let packets = [
        vec![0x82],
        message(GOOD_CRC, pending_id(port), &[]),
        message(GOOD_CRC, (pending_id(port) + 7) % 8, &[]),
        message(GET_SOURCE_CAP, (id + 7) % 8, &[]),
        message(SOFT_RESET, (id + 7) % 8, &[]),
        message(GET_SOURCE_CAP, id, &[]),
        message(ACCEPT, id, &[]),
        message(SOFT_RESET, id, &[]),
        message(8, id, &[]),
        message(REQUEST, id, &request(1, 100, 100)),
        message(REQUEST, id, &request(9, 100, 100)),
        message(REQUEST, id, &more_named),
    ];
    lines.extend(packets.iter().map(|bytes| packet_line(bytes)));
    lines
}

/// The same one again, another, one with bits that are ignored, and the largest.
fn good_offers() -> Vec<String> {
    let rising = [100, 101, 150, 180, 240, 300, 400].map(|voltage| Object::new(voltage, 300));
    vec![
        offer_line(&[FIVE_VOLT, NINE_VOLT]),
        offer_line(&[Object::new(100, 0)]),
        offer_line(&[Object(0x3FF1_91F4)]),
        offer_line(&rising),
    ]
}

/// The limit is 120,000, which 12 V 5 A just meets.
pub fn bad_offers() -> Vec<Vec<Object>> {
    let object = Object::new;
    let eight = [100, 110, 120, 130, 140, 150, 160, 170].map(|voltage| object(voltage, 1));
    let offers: [&[Object]; 15] = [
        &[],
        &eight,
        &[NINE_VOLT],
        &[object(99, 300)],
        &[object(101, 300)],
        &[FIVE_VOLT, object(100, 200)],
        &[FIVE_VOLT, NINE_VOLT, object(179, 300)],
        &[FIVE_VOLT, object(401, 100)],
        &[object(100, 501)],
        &[FIVE_VOLT, object(180, 501)],
        &[Object(0x4001_912C)],
        &[FIVE_VOLT, Object(0x8002_D12C)],
        &[FIVE_VOLT, Object(0xC002_D12C)],
        &[FIVE_VOLT, object(241, 500)],
        &[FIVE_VOLT, NINE_VOLT, object(400, 301)],
    ];
    offers.map(<[Object]>::to_vec).to_vec()
}

/// Refused with 1, 2, 3 and 4, in that order.
pub fn malformed_packets() -> Vec<Vec<u8>> {
    let headed = |header: [u8; 2], length: usize| {
        let mut bytes = vec![0; length];
        bytes[..2].copy_from_slice(&header);
        bytes
    };
    vec![
        vec![],
        vec![0x82],
        headed([0x82, 0x70], 31),
        headed([0x82, 0x70], 64),
        headed([0x82, 0x10], 2),
        headed([0x82, 0x10], 10),
        headed([0x87, 0x00], 6),
        headed([0x81, 0x80], 3),
        headed([0x81, 0x90], 6),
    ]
}

/// With the pending MessageID and with two others, and of another revision.
fn good_crcs(port: &Port) -> Vec<Vec<u8>> {
    let pending = pending_id(port);
    let with = |more: u8| message(GOOD_CRC, (pending + more) % 8, &[]);
    let mut other_revision = with(0);
    other_revision[0] ^= 0b11 << 6;
    vec![with(0), with(1), with(7), other_revision]
}

/// With the stored MessageID; where none is stored, these are new.
fn repeats(port: &Port) -> Vec<Vec<u8>> {
    let stored = port.channel.stored.unwrap_or(5);
    vec![
        message(GET_SOURCE_CAP, stored, &[]),
        message(REQUEST, stored, &request(1, 300, 300)),
        message(ACCEPT, stored, &[]),
        message(8, stored, &[]),
        message(SOFT_RESET, stored, &[]),
    ]
}

/// Judged by the last offer: its ends are met and just passed.
fn requests(port: &Port) -> Vec<Vec<u8>> {
    let count = port.last.len() as u32;
    let current = port.last.first().map_or(300, |object| object.current());
    let objects = [
        request(1, current, current),
        request(1, 0, 0),
        request(1, 40, current),
        request(0, 100, 100),
        request(count, 100, 100),
        request(count + 1, 100, 100),
        request(15, 100, 100),
        request(1, current + 1, current),
        request(1, current, current + 1),
        // capability mismatch, and all bits that are ignored beside it
        with_flags(request(1, 100, FULL_FIELD), FLAGS),
    ];
    let id = new_id(port);
    let mut packets: Vec<_> = objects.iter().map(|o| message(REQUEST, id, o)).collect();
    let two = [request(1, 100, 100), request(1, 100, 100)].concat();
    packets.push(message(REQUEST, id, &two));
    // revisions 01b, 00b and 11b, and a roles' mixture; the next MessageID but one
    for low in [0x42, 0x02, 0xC2, 0xA2] {
        let mut packet = message(REQUEST, (id + 1) % 8, &request(1, 100, 100));
        packet[0] = low;
        packets.push(packet);
    }
    packets
}

/// The last object is asked for in all mixtures. Besides, no other bit does what
/// capability mismatch does, and that does not help a wrong position or two objects.
fn mixed_requests(port: &Port) -> Vec<Vec<u8>> {
    let count = port.last.len() as u32;
    let current = port.last.last().map_or(300, |object| object.current());
    let small = request(1, 100, 100);
    let ignored = FLAGS & !MISMATCH;
    let mut objects = mixtures(count, current, current);
    objects.extend([
        with_flags(small, ignored),
        with_flags(request(1, 100, FULL_FIELD), ignored),
        with_flags(request(0, 100, 100), MISMATCH),
        with_flags(request(count + 1, 100, 100), MISMATCH),
    ]);
    let id = new_id(port);
    let mut packets: Vec<_> = objects.iter().map(|o| message(REQUEST, id, o)).collect();
    let two = [with_flags(small, MISMATCH); 2].concat();
    packets.push(message(REQUEST, id, &two));
    packets
}

/// Data and extended messages; the types that mean much elsewhere among them.
fn further_messages(port: &Port) -> Vec<Vec<u8>> {
    let id = new_id(port);
    let data = [0, GOOD_CRC, 3, 4, GET_SOURCE_CAP, SOFT_RESET, 31];
    let mut packets: Vec<_> = data.map(|t| message(t, id, &[0; 4])).to_vec();
    packets.push(message(15, id, &[0x5A; 28]));
    for message_type in [GOOD_CRC, REQUEST, ACCEPT, SOFT_RESET, 16] {
        let mut packet = message(message_type, id, &[0x02, 0x80, 0x00, 0x00]);
        packet[1] |= 0x80;
        packets.push(packet);
    }
    packets
}
