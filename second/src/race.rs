//! docs/SPEED.md: two programs on the same night, in turns, and how long each takes.
//! Nothing here is a test: a machine that is busy makes any figure worthless.

use std::fs::File;
use std::io::{self, Write};
use std::process::{Command, Stdio};
use std::time::{Duration, Instant};

/// Fewer rounds say little of a machine that does other things too.
const FEWEST_ROUNDS: usize = 10;

/// Prints the median times of both in milliseconds, and their ratio.
pub fn race(
    rounds: usize,
    night: &str,
    first: &str,
    second: &[&str],
    mut output: impl Write,
) -> io::Result<()> {
    let rounds = rounds.max(FEWEST_ROUNDS);
    let mut times = [Vec::new(), Vec::new()];
    // The first round brings programs and file into memory, and counts for nothing.
    for round in 0..=rounds {
        let pair = [run(&[first], night)?, run(second, night)?];
        if round > 0 {
            times[0].push(pair[0]);
            times[1].push(pair[1]);
        }
    }
    let [first, second] = times.map(median);
    writeln!(
        output,
        "{:.2} ms | {:.2} ms | ratio {:.2}",
        first * 1000.0,
        second * 1000.0,
        first / second
    )?;
    output.flush()
}

fn run(command: &[&str], night: &str) -> io::Result<Duration> {
    let mut program = Command::new(command[0]);
    program.args(&command[1..]);
    program.stdin(File::open(night)?).stdout(Stdio::null());
    let begin = Instant::now();
    if !program.status()?.success() {
        return Err(io::Error::other(format!("{} has failed", command[0])));
    }
    Ok(begin.elapsed())
}

fn median(mut times: Vec<Duration>) -> f64 {
    times.sort();
    let middle = times.len() / 2;
    let upper = times[middle].as_secs_f64();
    match times.len() % 2 {
        0 => (times[middle - 1].as_secs_f64() + upper) / 2.0,
        _ => upper,
    }
}

#[cfg(test)]
mod tests {
    use super::*;

    fn of(milliseconds: &[u64]) -> f64 {
        median(
            milliseconds
                .iter()
                .map(|&n| Duration::from_millis(n))
                .collect(),
        )
    }

    #[test]
    fn the_median_is_the_middle() {
        assert_eq!(of(&[5, 1, 3]), 0.003);
        assert_eq!(of(&[4, 1, 100, 2]), 0.003);
    }
}
