//! Where a port can stand: every state of the paper, with all that makes a
//! difference there, and a way of events that leads to it. The words of a way
//! that are not words of docs/STEPS.md are explained below.

use crate::offer::Object;
use crate::port::State;
use crate::request_objects::{request, with_flags, MISMATCH};
use crate::step_walk::{
    message, offer_line, pending_id, Walk, ACCEPT, FIVE_VOLT, GET_SOURCE_CAP, GOOD_CRC, NINE_VOLT,
    REQUEST, SOFT_RESET,
};

pub type Situation = (State, &'static str);

/// From a new port with the paper's two objects.
pub const SITUATIONS: &[Situation] = &[
    (State::Detached, ""),
    (State::Detached, "new-one"),
    (State::Detached, "contract1 detach"),
    (State::Offer, "attach"),
    (State::Offer, "attach acked"),
    (State::Offer, "attach new-one"),
    (State::Offer, "attach acked new-one"),
    // connected, without a contract and with one
    (State::Offer, "attach caps accept"),
    (State::Offer, "attach caps accept acked"),
    (State::Offer, "contract1 caps"),
    (State::Offer, "contract1 caps acked"),
    (State::Offer, "contract2 new-one"),
    (State::Offer, "contract2 new-one new-weak acked"),
    (State::Discovery, "attach failed"),
    (State::Discovery, "attach failed new-one"),
    (State::Judge, "attach acked ask1"),
    (State::Judge, "attach ask2"),
    (State::Judge, "attach failed ask2"),
    (State::Judge, "contract1 ask2"),
    (State::Judge, "contract2 ask1 new-one"),
    (State::Judge, "contract1 ask-more"),
    (State::Accepting, "attach acked ask1 yes"),
    (State::Accepting, "contract1 ask2 yes"),
    (State::Accepting, "contract2 ask1 new-one yes"),
    (State::Moving, "attach acked ask1 yes acked"),
    (State::Moving, "contract1 ask2 yes acked"),
    (State::Moving, "contract2 ask1 new-one yes acked"),
    (State::Telling, "attach acked ask1 yes acked supplyready"),
    (State::Telling, "contract1 ask2 yes acked supplyready"),
    (
        State::Telling,
        "contract2 ask1 yes acked supplyready new-one",
    ),
    (State::Ready, "contract1"),
    (State::Ready, "contract2 odd acked"),
    (State::Ready, "contract1 ask-much acked"),
    (State::Ready, "contract-more"),
    (State::Declining, "contract1 odd"),
    (State::Declining, "contract2 odd new-one"),
    // no contract
    (State::Refusing, "attach acked ask1 no"),
    (State::Refusing, "attach acked ask-much"),
    (State::Refusing, "attach ask1 no new-one"),
    // a contract that is still honoured: nothing changed, more current, just as much
    (State::Refusing, "contract1 ask2 no"),
    (State::Refusing, "contract1 new-strong acked ask-much"),
    (State::Refusing, "contract-small new-weak acked ask-much"),
    (State::Refusing, "contract-more new-weak acked ask-over"),
    (State::Refusing, "contract1 ask-much new-one"),
    // no longer honoured: position gone, less current, another voltage
    (State::Refusing, "contract2 new-one acked ask-much"),
    (State::Refusing, "contract1 new-weak acked ask-much"),
    (State::Refusing, "contract2 new-other acked ask1 no"),
    (
        State::Refusing,
        "contract2 new-one acked ask-much new-strong",
    ),
    (State::Waiting, "attach acked ask-much acked"),
    (State::Waiting, "attach ask1 no acked"),
    (State::Soft, "attach caps"),
    (State::Soft, "attach caps acked"),
    (State::Soft, "attach caps new-one"),
    (State::Soft, "attach caps acked new-one"),
    (State::Soft, "contract1 accept"),
    (State::Soft, "contract2 odd failed acked"),
    (State::Answering, "attach softreset"),
    (State::Answering, "attach failed softreset"),
    (State::Answering, "contract1 softreset"),
    (State::Answering, "contract1 softreset softreset new-one"),
    (State::Hard, "attach hardreset"),
    (State::Hard, "attach acked senderresponse"),
    (State::Hard, "contract2 ask1 yes failed"),
    (State::Hard, "contract1 hardreset new-one"),
    (State::Default, "attach hardreset pshardreset"),
    (State::Default, "contract2 hardreset pshardreset"),
    (State::Default, "contract1 hardreset pshardreset new-one"),
];

/// Ways of some 200 lines, which are to be gone less often.
pub const LONG_SITUATIONS: &[Situation] = &[
    (State::Discovery, "attach 49-more failed"),
    (State::Offer, "attach 49-more"),
    (State::Disabled, "attach 49-more failed sourcecapability"),
    (
        State::Disabled,
        "attach 49-more failed sourcecapability new-one",
    ),
    // a count that stays 50, since no offer was acknowledged
    (State::Offer, "attach 49-more caps accept"),
    (State::Waiting, "attach 49-more ask-much acked"),
    (
        State::Ready,
        "attach 49-more ask1 yes acked supplyready acked",
    ),
];

pub fn go(walk: &mut Walk, way: &str) {
    for word in way.split_whitespace() {
        match word {
            "acked" => walk.acknowledge(),
            "wrong" => {
                let other = (pending_id(walk.port()) + 1) % 8;
                walk.packet(&message(GOOD_CRC, other, &[]));
            }
            "failed" => go(walk, "acknowledgement acknowledgement acknowledgement"),
            "49-more" => go(walk, &"failed sourcecapability ".repeat(49)),
            "contract1" => go(walk, "attach acked ask1 yes acked supplyready acked"),
            "contract2" => go(walk, "attach acked ask2 yes acked supplyready acked"),
            "contract-small" => go(walk, "attach acked ask-small yes acked supplyready acked"),
            "contract-more" => go(walk, "attach acked ask-more yes acked supplyready acked"),
            "ask1" => walk.hear(REQUEST, &request(1, 300, 300)),
            "ask2" => walk.hear(REQUEST, &request(2, 300, 300)),
            "ask-small" => walk.hear(REQUEST, &request(1, 100, 150)),
            "ask-much" => walk.hear(REQUEST, &request(1, 1023, 1023)),
            // 1 A, and 5 A named, which is too much: with capability mismatch, and without
            "ask-more" => walk.hear(REQUEST, &with_flags(request(1, 100, 500), MISMATCH)),
            "ask-over" => walk.hear(REQUEST, &request(1, 100, 500)),
            "caps" => walk.hear(GET_SOURCE_CAP, &[]),
            "accept" => walk.hear(ACCEPT, &[]),
            "softreset" => walk.hear(SOFT_RESET, &[]),
            // Get_Sink_Cap, which the table calls unsupported
            "odd" => walk.hear(8, &[]),
            "new-one" => walk.say(&offer_line(&[FIVE_VOLT])),
            "new-weak" => walk.say(&offer_line(&[Object::new(100, 100), NINE_VOLT])),
            "new-strong" => walk.say(&offer_line(&[Object::new(100, 500), NINE_VOLT])),
            "new-other" => walk.say(&offer_line(&[FIVE_VOLT, Object::new(240, 300)])),
            plain => walk.say(plain),
        }
    }
}

/// A walk on the program's first port, which has the same limit and offer.
#[cfg(test)]
pub fn after(way: &str) -> Walk {
    let mut walk = Walk::new();
    go(&mut walk, way);
    walk
}
