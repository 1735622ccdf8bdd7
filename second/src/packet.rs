//! Reading and writing a packet: the paper's "The packet" and "Refusal numbers".
//! A refusal is its number and nothing else.

/// The header's fields. The number of objects is not among them: the object
/// bytes tell it, in reading as in writing.
#[derive(Clone, Copy, Debug, PartialEq, Eq)]
pub struct Fields {
    pub extended: bool,
    pub message_id: u8,
    pub power_role: u8,
    pub revision: u8,
    pub data_role: u8,
    pub message_type: u8,
}

const HEADER_BYTES: usize = 2;
const OBJECT_BYTES: usize = 4;
const MOST_OBJECT_BYTES: usize = 28;
pub const MOST_PACKET_BYTES: usize = HEADER_BYTES + MOST_OBJECT_BYTES;

/// The fields or the refusal number, and the object bytes as that part of the
/// packet itself (empty where reading is refused).
pub fn read(packet: &[u8]) -> (Result<Fields, u8>, &[u8]) {
    match reading_refusal(packet) {
        Some(number) => (Err(number), &[]),
        None => (Ok(fields_of(header_of(packet))), &packet[HEADER_BYTES..]),
    }
}

/// Tries 1, 2, 3 (extended under 4), 4, 3.
fn reading_refusal(packet: &[u8]) -> Option<u8> {
    if packet.len() < HEADER_BYTES {
        return Some(1);
    }
    if packet.len() > MOST_PACKET_BYTES {
        return Some(2);
    }
    let header = header_of(packet);
    let extended = fields_of(header).extended;
    // Under 4 bytes there is no extended header in which to look for Chunked.
    if extended && packet.len() < 4 {
        return Some(3);
    }
    if extended && !chunked(&packet[HEADER_BYTES..]) {
        return Some(4);
    }
    let objects = usize::from(header >> 12 & 0b111);
    if packet.len() != HEADER_BYTES + OBJECT_BYTES * objects {
        return Some(3);
    }
    None
}

fn header_of(packet: &[u8]) -> u16 {
    u16::from_le_bytes([packet[0], packet[1]])
}

fn fields_of(header: u16) -> Fields {
    Fields {
        extended: header >> 15 == 1,
        message_id: (header >> 9 & 0b111) as u8,
        power_role: (header >> 8 & 1) as u8,
        revision: (header >> 6 & 0b11) as u8,
        data_role: (header >> 5 & 1) as u8,
        message_type: (header & 0b1_1111) as u8,
    }
}

/// Bit 15 of the low half of the first object, so the top bit of its second byte.
fn chunked(objects: &[u8]) -> bool {
    objects[1] & 0x80 != 0
}

/// Writes the message into the buffer from the place on and hands back how many
/// bytes that took. Refused, no byte of the buffer changes.
pub fn write(
    fields: &Fields,
    objects: &[u8],
    buffer: &mut [u8],
    place: usize,
) -> Result<usize, u8> {
    let length = HEADER_BYTES + objects.len();
    // A place past the end leaves no room at all, not even for nothing.
    let room = buffer.len().checked_sub(place);
    if out_of_range(fields, objects) {
        return Err(6);
    }
    if fields.extended && (objects.is_empty() || !chunked(objects)) {
        return Err(4);
    }
    if room.is_none_or(|bytes| bytes < length) {
        return Err(5);
    }
    let header = header_from(fields, objects.len() / OBJECT_BYTES);
    let message = &mut buffer[place..place + length];
    message[..HEADER_BYTES].copy_from_slice(&header.to_le_bytes());
    message[HEADER_BYTES..].copy_from_slice(objects);
    Ok(length)
}

/// Refusal 6.
fn out_of_range(fields: &Fields, objects: &[u8]) -> bool {
    fields.message_type > 31
        || fields.message_id > 7
        || fields.power_role > 1
        || fields.data_role > 1
        || fields.revision >= 0b11
        || !objects.len().is_multiple_of(OBJECT_BYTES)
        || objects.len() > MOST_OBJECT_BYTES
}

/// Only for fields in range: a larger one would run into its neighbour.
fn header_from(fields: &Fields, objects: usize) -> u16 {
    u16::from(fields.extended) << 15
        | (objects as u16) << 12
        | u16::from(fields.message_id) << 9
        | u16::from(fields.power_role) << 8
        | u16::from(fields.revision) << 6
        | u16::from(fields.data_role) << 5
        | u16::from(fields.message_type)
}

/// What we send: power role 1, data role 1, revision 10b, never extended.
pub fn what_we_send(message_type: u8, message_id: u8) -> Fields {
    Fields {
        extended: false,
        message_id,
        power_role: 1,
        revision: 0b10,
        data_role: 1,
        message_type,
    }
}

/// Our GoodCRC for a packet that was read: its MessageID, and 01b if it carried
/// 01b, else 10b.
pub fn good_crc(heard: &Fields) -> [u8; 2] {
    let mut ours = what_we_send(1, heard.message_id);
    if heard.revision == 0b01 {
        ours.revision = 0b01;
    }
    header_from(&ours, 0).to_le_bytes()
}

#[cfg(test)]
#[path = "packet_tests.rs"]
mod tests;
