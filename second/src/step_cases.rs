//! Lines to try the step program with (docs/STEPS.md): the paper's example 7,
//! every pair of state and event, sequences by chance, and lines whose text is
//! odd.

use crate::port::{Port, State};
use crate::request_objects::request;
use crate::step_situations::{go, LONG_SITUATIONS, SITUATIONS};
use crate::step_walk::{Walk, FIVE_VOLT, GET_SOURCE_CAP, NINE_VOLT, REQUEST};
use crate::{step_events, step_odd_lines, step_random};
use std::collections::BTreeSet;
use std::io::{self, Write};

pub fn print_all(mut output: impl Write) -> io::Result<()> {
    let mut walk = Walk::new();
    first_port(&mut walk);
    example_7(&mut walk);
    every_pair(&mut walk);
    long_ways(&mut walk);
    step_random::add_all(&mut walk);
    step_odd_lines::add_all(&mut walk);
    // What follows the last line's end is a line too.
    walk.lines.extend(b"attach");
    output.write_all(&walk.lines)?;
    output.flush()
}

/// The port that stands there before any `port` line.
fn first_port(walk: &mut Walk) {
    go(
        walk,
        "detach attach acked ask2 yes acked supplyready acked detach",
    );
}

fn example_7(walk: &mut Walk) {
    walk.new_port(120_000, &[FIVE_VOLT, NINE_VOLT]);
    go(walk, "contract1");
    let packet = [0x82, 0x12, 0x2C, 0xB1, 0x04, 0x20];
    walk.packet(&packet);
    walk.say("yes");
    walk.packet(&packet);
}

fn bring(walk: &mut Walk, way: &str) {
    walk.new_port(120_000, &[FIVE_VOLT, NINE_VOLT]);
    go(walk, way);
}

fn every_pair(walk: &mut Walk) {
    let mut seen: BTreeSet<State> = BTreeSet::new();
    for &(state, way) in SITUATIONS {
        // In each state once, and where a timer runs besides.
        let thorough = seen.insert(state) || way == "attach acked";
        let bring = |walk: &mut Walk| bring(walk, way);
        let standing = try_each(walk, bring, |port| step_events::all(port, thorough));
        if standing.channel.pending.is_some() {
            retried(walk, way);
        }
    }
}

/// The same with one retry and with two; the third failure is among the events.
fn retried(walk: &mut Walk, way: &str) {
    for more in ["wrong", "acknowledgement wrong"] {
        let way = format!("{way} {more}");
        try_each(walk, |walk| bring(walk, &way), step_events::few);
    }
}

fn long_ways(walk: &mut Walk) {
    for &(state, way) in LONG_SITUATIONS {
        let bring = |walk: &mut Walk| bring(walk, way);
        // Disabled stays as it is at nearly every event.
        match state {
            State::Disabled => try_each(walk, bring, |port| step_events::all(port, true)),
            _ => try_each(walk, bring, step_events::few),
        };
    }
}

/// Puts each event to a port that was brought where it should stand, and hands that
/// port back. An event that changed nothing leaves it standing there for the next.
pub fn try_each(
    walk: &mut Walk,
    bring: impl Fn(&mut Walk),
    events: impl Fn(&Port) -> Vec<String>,
) -> Port {
    bring(walk);
    let standing = walk.port().clone();
    for (number, event) in events(&standing).iter().enumerate() {
        if *walk.port() != standing {
            bring(walk);
        }
        walk.say(event);
        if *walk.port() != standing {
            go_on(walk, event, number);
        }
    }
    standing
}

/// A few events more, in turns, so that what an answer does not show may show
/// later: what is pending and for how often, a timer that runs, a request kept.
fn go_on(walk: &mut Walk, event: &str, number: usize) {
    match number % 4 {
        0 => {
            walk.say(event);
            go(walk, "acked yes acked supplyready acked caps");
        }
        1 => go(
            walk,
            "senderresponse sourcecapability pshardreset supplyready acked",
        ),
        2 => go(walk, "wrong failed hardreset pshardreset supplyready"),
        _ => {
            go(walk, "acked");
            walk.hear(REQUEST, &request(1, 50, 100));
            go(walk, "no acked");
            walk.hear(GET_SOURCE_CAP, &[]);
            go(walk, "acked detach attach");
        }
    }
}

#[cfg(test)]
#[path = "step_cases_tests.rs"]
mod tests;
