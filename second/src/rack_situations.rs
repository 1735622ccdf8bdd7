//! Where a port of a rack can stand, with the ways that lead there, and every
//! event put to it. Judge is not among the states: no event ends in it.

use crate::offer::Object;
use crate::port::State;
use crate::rack::{Place, SetUp};
use crate::request_objects::{request, with_flags, FULL_FIELD, MISMATCH};
use crate::step_cases::try_each;
use crate::step_events;
use crate::step_situations::{go, Situation};
use crate::step_walk::{Walk, FIVE_VOLT, NINE_VOLT, REQUEST};

/// Worth 120,000, the limit of the paper's rack.
pub const TWENTY_VOLT: Object = Object::new(400, 300);

/// Ports all alike, with the share and the limit of the paper's example 8.
pub fn alike(supply: u32, ports: usize, offer: &[Object]) -> SetUp {
    let place = Place {
        share: 30_000,
        limit: 120_000,
        offer: offer.to_vec(),
    };
    SetUp {
        supply,
        places: vec![place; ports],
    }
}

/// In a rack that has power for everything.
pub const ROOMY: &[Situation] = &[
    (State::Detached, ""),
    (State::Detached, "contract2 detach"),
    (State::Offer, "attach"),
    (State::Offer, "attach acked"),
    (State::Offer, "contract1 caps acked"),
    (State::Offer, "contract2 new-one"),
    (State::Discovery, "attach failed"),
    (State::Accepting, "attach ask2"),
    (State::Accepting, "attach acked ask2"),
    (State::Accepting, "contract2 ask1 new-one"),
    (State::Accepting, "contract1 ask-more"),
    (State::Moving, "attach failed ask2 acked"),
    (State::Moving, "contract2 ask1 acked"),
    (State::Telling, "attach acked ask2 acked supplyready"),
    (State::Telling, "contract2 ask1 acked supplyready new-one"),
    (State::Ready, "contract1"),
    (State::Ready, "contract2"),
    (State::Ready, "contract1 ask-much acked"),
    (State::Declining, "contract2 odd"),
    (State::Refusing, "attach acked ask-much"),
    (State::Refusing, "contract2 ask-much new-one"),
    (State::Refusing, "contract2 new-one acked ask-much"),
    (State::Waiting, "attach acked ask-much acked"),
    (State::Soft, "attach caps"),
    (State::Soft, "contract2 accept acked"),
    (State::Answering, "contract2 softreset"),
    (State::Hard, "contract2 ask1 failed"),
    (State::Hard, "contract1 hardreset"),
    (State::Default, "contract2 hardreset pshardreset"),
    (State::Disabled, "attach 49-more failed sourcecapability"),
];

/// In a rack of which every port has its share and none has more.
pub const TIGHT: &[Situation] = &[
    (State::Accepting, "attach acked ask1"),
    (State::Ready, "contract1"),
    (State::Ready, "contract1 ask2 acked"),
    (State::Refusing, "attach acked ask2"),
    (State::Refusing, "attach failed ask2 new-one"),
    (State::Refusing, "contract1 ask2"),
    (State::Refusing, "contract1 ask2 new-one"),
    // a contract that is no longer honoured
    (State::Refusing, "contract1 new-weak acked ask2"),
    (State::Hard, "contract1 new-weak acked ask2 acked"),
    (State::Waiting, "attach acked ask2 acked"),
    (State::Soft, "contract1 ask2 failed"),
];

pub fn add_all(walk: &mut Walk) {
    for (supply, situations) in [(240_000, ROOMY), (120_000, TIGHT)] {
        walk.set_up(&alike(supply, 4, &[FIVE_VOLT, NINE_VOLT]));
        for (turn, &(state, way)) in situations.iter().enumerate() {
            walk.turn_to(1 + turn % 4);
            let bring = |walk: &mut Walk| begin(walk, way);
            match state {
                // a way of some 200 lines
                State::Disabled => try_each(walk, bring, step_events::few),
                _ => try_each(walk, bring, |port| step_events::all(port, false)),
            };
        }
    }
}

/// The set-up is still in hand, so all ports are detached again.
pub fn begin(walk: &mut Walk, way: &str) {
    walk.raw(b"setup");
    go_in_rack(walk, way);
}

/// As one port goes, but that the power answers come from the rack.
pub fn go_in_rack(walk: &mut Walk, way: &str) {
    for word in way.split_whitespace() {
        match word {
            "contract1" => go(walk, "attach acked ask1 acked supplyready acked"),
            "contract2" => go(walk, "attach acked ask2 acked supplyready acked"),
            "contract3" => go_in_rack(walk, "attach acked ask3 acked supplyready acked"),
            // 20 V 2.25 A, worth 90,000; also where as much as can be is named
            "ask3" => walk.hear(REQUEST, &request(3, 225, 300)),
            "ask3-more" => {
                let object = with_flags(request(3, 225, FULL_FIELD), MISMATCH);
                walk.hear(REQUEST, &object);
            }
            plain => go(walk, plain),
        }
    }
}
