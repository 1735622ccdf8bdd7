//! That the odd lines go where they are meant to.

use super::*;
use crate::step_lines::{Bench, Reply};

/// What a line comes to at a rack of 32 ports.
fn reply(line: &[u8]) -> Option<Reply> {
    let mut bench = Bench::new();
    bench.take(b"supply 960000");
    for _ in 0..32 {
        bench.take(b"place 30000 120000 2C 91 01 00");
    }
    assert!(matches!(
        bench.take(b"setup"),
        Some(Reply::Rack(None, Ok(_)))
    ));
    bench.take(line)
}

#[test]
fn at_a_port_past_the_last_or_nowhere() {
    for line in IN_THE_RACK {
        let Some(Reply::Rack(Some(number), outcome)) = reply(line) else {
            panic!("{}", line.escape_ascii());
        };
        assert!([3, 31, 32].contains(&number) && outcome != Err(9));
    }
    for line in NOT_IN_THE_RACK {
        let outside = matches!(reply(line), Some(Reply::Rack(Some(33..), Err(9))));
        assert!(outside, "{}", line.escape_ascii());
    }
    for line in NOT_UNDERSTOOD {
        assert!(reply(line).is_none(), "{}", line.escape_ascii());
    }
}
