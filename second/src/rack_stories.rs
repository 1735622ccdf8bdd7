//! Two ports that want the same power. One holds it and gives it up step by step;
//! after each step the other asks, so that it shows from when on the power is free.

use crate::rack::MOST_PORTS;
use crate::rack_situations::{alike, begin, go_in_rack, TWENTY_VOLT};
use crate::step_walk::{Walk, FIVE_VOLT, NINE_VOLT};

/// How the first port comes to its power, and then what it does step by step.
const STORIES: &[(&str, &str)] = &[
    ("contract3", "detach"),
    ("contract3", "hardreset pshardreset supplyready"),
    ("contract3", "hardreset pshardreset detach"),
    // less power: the old is held until the new contract is in force
    ("contract3", "ask1 acked supplyready acked"),
    ("contract3", "ask2 acked supplyready acked"),
    ("contract3", "ask1 failed pshardreset supplyready"),
    ("contract3", "ask1 caps pshardreset supplyready"),
    ("contract3", "ask1 acked softreset pshardreset supplyready"),
    (
        "contract3",
        "ask1 acked supplyready failed pshardreset supplyready",
    ),
    ("contract3", "ask1 acked supplyready detach"),
    // a soft reset, a new offer or a Reject gives nothing up
    (
        "contract3",
        "softreset acked acked ask1 acked supplyready acked",
    ),
    (
        "contract3",
        "accept acked accept acked ask1 acked supplyready acked",
    ),
    ("contract3", "new-one acked ask1 acked supplyready acked"),
    (
        "contract3",
        "new-one acked ask-much acked pshardreset supplyready",
    ),
    (
        "contract3",
        "caps acked senderresponse pshardreset supplyready",
    ),
    ("contract3", "odd acked ask-much acked caps detach attach"),
    // more power: it is held as soon as it is accepted
    (
        "contract1",
        "ask3 acked supplyready acked ask1 acked detach",
    ),
    ("contract2", "ask3 failed pshardreset supplyready"),
    ("", "attach acked ask3 acked supplyready acked"),
    ("attach acked ask3", "hardreset pshardreset supplyready"),
    ("attach failed ask3", "detach"),
    // what is named beside capability mismatch is not held
    (
        "attach acked ask3-more",
        "acked supplyready acked ask1 acked supplyready acked",
    ),
];

/// Who holds and who asks: in a small rack, and from end to end of the largest.
const PAIRS: [(usize, usize); 3] = [(1, 2), (3, 1), (2, 3)];
const FAR_PAIR: (usize, usize) = (MOST_PORTS, 1);

pub fn add_all(walk: &mut Walk) {
    tell(walk, MOST_PORTS, &[FAR_PAIR]);
    tell(walk, 3, &PAIRS);
    both_wait(walk);
}

fn tell(walk: &mut Walk, ports: usize, pairs: &[(usize, usize)]) {
    // just enough for 90,000 at one port and the shares of the others
    let supply = 60_000 + 30_000 * ports as u32;
    walk.set_up(&alike(supply, ports, &[FIVE_VOLT, NINE_VOLT, TWENTY_VOLT]));
    for &(start, way) in STORIES {
        let steps: Vec<&str> = way.split_whitespace().collect();
        for count in 0..=steps.len() {
            for &(holder, asker) in pairs {
                walk.turn_to(holder);
                begin(walk, start);
                go_in_rack(walk, &steps[..count].join(" "));
                walk.turn_to(asker);
                go_in_rack(walk, "attach acked ask2 acked caps acked");
            }
        }
    }
}

/// Each is refused while the other holds, and asks again when the other is done. The
/// rack of three is still in hand.
fn both_wait(walk: &mut Walk) {
    walk.raw(b"setup");
    for turn in 0..12 {
        let (holder, asker) = (1 + turn % 3, 1 + (turn + 1) % 3);
        walk.turn_to(holder);
        go_in_rack(walk, "contract3");
        walk.turn_to(asker);
        go_in_rack(walk, "attach acked ask3 acked");
        walk.turn_to(holder);
        go_in_rack(walk, "ask1 acked supplyready acked");
        walk.turn_to(asker);
        go_in_rack(walk, "caps acked ask3 acked supplyready acked detach");
        walk.turn_to(holder);
        go_in_rack(walk, "detach");
    }
}
