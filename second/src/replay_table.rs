//! The table of a rack, docs/REPLAY.md ("The table").

use crate::offer::Deal;
use crate::rack::Rack;
use std::io::{self, Write};

pub fn print(rack: &Rack, output: &mut impl Write) -> io::Result<()> {
    writeln!(output, "port | state | contract | held | share | limit")?;
    for (number, bay) in (1..).zip(&rack.bays) {
        let port = &bay.port;
        let number: usize = number;
        writeln!(
            output,
            "{number} | {:?} | {} | {} | {} | {}",
            port.state,
            port.contract
                .as_ref()
                .map_or("none".to_string(), contract_text),
            port.held,
            bay.share,
            bay.limit,
        )?;
    }
    writeln!(output, "rack | {} of {}", rack.taken(), rack.supply)
}

/// A voltage field counts 50 mV, a current field 10 mA.
fn contract_text(contract: &Deal) -> String {
    let volts = hundredths(contract.voltage * 5);
    let amperes = hundredths(contract.current);
    format!("{volts} V {amperes} A")
}

fn hundredths(count: u32) -> String {
    format!("{}.{:02}", count / 100, count % 100)
}
