//! A message of ours as bytes: "The packet" of the paper has at most 30 of them,
//! so that they can be kept in place.

use crate::offer::{Object, ObjectBytes, MOST_OBJECTS};
use crate::packet::{what_we_send, write, MOST_PACKET_BYTES};
use std::ops::Deref;

#[derive(Clone, Copy, Debug, PartialEq, Eq)]
pub struct Message {
    bytes: [u8; MOST_PACKET_BYTES],
    length: usize,
}

impl Message {
    /// With at most seven objects.
    pub fn new(message_type: u8, message_id: u8, objects: &[Object]) -> Message {
        let mut object_bytes = [ObjectBytes::default(); MOST_OBJECTS];
        for (bytes, object) in object_bytes.iter_mut().zip(objects) {
            *bytes = object.bytes();
        }
        let object_bytes = object_bytes[..objects.len()].as_flattened();
        let fields = what_we_send(message_type, message_id);
        let mut bytes = [0; MOST_PACKET_BYTES];
        let length = write(&fields, object_bytes, &mut bytes, 0);
        let length = length.expect("what we send can be written");
        Message { bytes, length }
    }
}

impl Deref for Message {
    type Target = [u8];

    fn deref(&self) -> &[u8] {
        &self.bytes[..self.length]
    }
}
