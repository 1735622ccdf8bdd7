//! One line in, one line out, as docs/PACKETS.md and docs/STEPS.md both want it.

use std::io::{self, BufRead, Write};

/// Answers every line. Lines are bytes, not text: any byte may turn up in one.
pub fn answer_all(
    mut input: impl BufRead,
    mut output: impl Write,
    mut answer: impl FnMut(&[u8]) -> String,
) -> io::Result<()> {
    let mut line = Vec::new();
    while input.read_until(b'\n', &mut line)? > 0 {
        if line.last() == Some(&b'\n') {
            line.pop();
        }
        writeln!(output, "{}", answer(&line))?;
        line.clear();
    }
    output.flush()
}
