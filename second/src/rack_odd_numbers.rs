//! Lines at the last ports of the largest rack whose number is odd: with zeros
//! before it, in two words, with a digit more, or a port's only in eight bits.

use crate::rack::MOST_PORTS;
use crate::rack_situations::alike;
use crate::step_walk::{Walk, FIVE_VOLT, NINE_VOLT};

pub fn add_all(walk: &mut Walk) {
    walk.set_up(&alike(1_200_000, MOST_PORTS, &[FIVE_VOLT, NINE_VOLT]));
    for line in [IN_THE_RACK, NOT_IN_THE_RACK, NOT_UNDERSTOOD].concat() {
        walk.raw(line);
        // so that it shows to which port a line went
        walk.raw(b"3 acknowledgement");
        walk.raw(b"32 acknowledgement");
    }
}

const IN_THE_RACK: &[&[u8]] = &[
    b"032 attach",
    b"32  packet 81 00\r",
    b"31 attach \r",
    b"031 packet",
    b"32 offer",
    b"32 yes ",
    b"003 attach",
    b"32 detach",
    b"032 attach\r",
];

const NOT_IN_THE_RACK: &[&[u8]] = &[
    b"33 attach",
    b"033 attach",
    b"33  packet\r",
    b"033 offer",
    b"33 yes",
    b"40 detach",
    b"040 attach",
    b"64 attach",
    b"132 attach",
    b"259 detach",
    b"288 attach",
    b"288 detach",
    b"289 attach",
    b"320 attach",
    b"323 attach",
    b"544 detach",
];

const NOT_UNDERSTOOD: &[&[u8]] = &[
    b"0032 attach",
    b"0033 attach",
    b"0032 detach",
    b"3 2 attach",
    b"3  2 detach",
    b"32 32 detach",
    b"32",
    b"33",
    b"32 ",
    b"32detach",
    b"32\tdetach",
    b"32, detach",
    b"3,2 detach",
    b"3200 detach",
    b"4294967328 detach",
    b"32 setup",
    b"33 setup",
    b"32 packet 8",
    b"33 packet 8",
    b"33 offer 2C",
];

#[cfg(test)]
#[path = "rack_odd_numbers_tests.rs"]
mod tests;
