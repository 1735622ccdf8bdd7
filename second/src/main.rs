//! An independent second implementation, written from the paper alone, to be
//! compared with the first. It has the paper's "The packet", one port ("The port's
//! memory and its actions", "The Source states"), the rack ("Refusal numbers" on a
//! good set-up, "Power rule"), and nights played through a rack (docs/NIGHT.md,
//! docs/REPLAY.md).

mod chance;
mod channel;
mod damaged_cases;
mod full_rack;
mod hex;
mod hostile_events;
mod line_shapes;
mod lines;
mod meaning;
mod message;
mod night_cases;
mod night_fields;
mod night_lines;
mod night_pieces;
mod night_reader;
mod night_text;
mod night_writer;
mod odd_lines;
mod offer;
mod packet;
mod packet_cases;
mod packet_lines;
mod port;
mod race;
mod rack;
mod rack_cases;
mod rack_lines;
mod rack_nights;
mod rack_odd_lines;
mod rack_odd_numbers;
mod rack_receivers;
mod rack_requests;
mod rack_set_ups;
mod rack_situations;
mod rack_stories;
mod random_night;
mod refusal;
mod replay;
mod replay_counts;
mod replay_table;
mod request_objects;
mod states;
mod step_cases;
mod step_events;
mod step_lines;
mod step_odd_lines;
mod step_random;
mod step_situations;
mod step_text;
mod step_walk;
mod step_words;
mod writing_cases;

use std::io::{self, BufWriter, ErrorKind, Write};
use std::process::ExitCode;

const USAGE: &str = "usage: second COMMAND

These answer standard input:
  packets       the lines of docs/PACKETS.md: read a packet, write it back
  steps         the lines of docs/STEPS.md: step a port, or a rack of ports
  replay        a night of docs/NIGHT.md: a line for each event, then the table (docs/REPLAY.md)
  quiet         a night: what it comes to in counts, then the table (docs/REPLAY.md)
  night         turn the text of a night into its file (docs/NIGHT.md)
  night-text    turn the file of a night into its text

These write what to try the programs with:
  packet-cases  lines for `packets`
  steps-cases   lines for `steps`, about one port
  rack-cases    lines for `steps`, about racks
  night-cases   nights for `replay` and `quiet`, the last of them damaged
  damaged-cases N
                the small cut or damaged night with the number N, counted from 0;
                past the last one it writes nothing and ends with status 3
  random-night SEED EVENTS PORTS
                a night by chance: so many events at a rack of 1 to 32 ports

And this tells how fast a program is (docs/SPEED.md):
  race ROUNDS NIGHT PROGRAM
                runs PROGRAM and `second quiet` in turns on the file NIGHT";

/// The status of `damaged-cases` where there is no such night.
const PAST_THE_LAST: u8 = 3;
const WRONG_ARGUMENTS: u8 = 2;

fn main() -> ExitCode {
    let arguments: Vec<_> = std::env::args_os().skip(1).collect();
    let words = arguments.iter().map(|word| word.to_str());
    let words: Vec<&str> = words.map(|word| word.unwrap_or_default()).collect();
    let output = BufWriter::new(io::stdout().lock());
    match closed_pipe_is_quiet(run(&words, output)) {
        Ok(status) => status,
        Err(error) => {
            eprintln!("second: {error}");
            ExitCode::FAILURE
        }
    }
}

/// Who reads the output may have enough of it, as `head` has.
fn closed_pipe_is_quiet(outcome: io::Result<ExitCode>) -> io::Result<ExitCode> {
    match outcome {
        Err(error) if error.kind() == ErrorKind::BrokenPipe => Ok(ExitCode::SUCCESS),
        other => other,
    }
}

fn run(words: &[&str], output: impl Write) -> io::Result<ExitCode> {
    let input = io::stdin().lock();
    match words {
        ["packets"] => packet_lines::answer_all(input, output)?,
        ["steps"] => step_lines::answer_all(input, output)?,
        ["replay"] => replay::replay(input, output)?,
        ["quiet"] => replay_counts::quiet(input, output)?,
        ["night"] => night_lines::write_night(input, output)?,
        ["night-text"] => night_text::print_text(input, output)?,
        ["packet-cases"] => packet_cases::print_all(output)?,
        ["steps-cases"] => step_cases::print_all(output)?,
        ["rack-cases"] => rack_cases::print_all(output)?,
        ["night-cases"] => night_cases::print_all(output)?,
        ["damaged-cases", number] => return damaged_case(number, output),
        ["random-night", seed, events, ports] => return random(seed, events, ports, output),
        ["race", rounds, night, program] => return race_with(rounds, night, program, output),
        _ => return Ok(wrong_arguments(USAGE)),
    }
    Ok(ExitCode::SUCCESS)
}

fn wrong_arguments(words: &str) -> ExitCode {
    eprintln!("{words}");
    ExitCode::from(WRONG_ARGUMENTS)
}

fn damaged_case(number: &str, output: impl Write) -> io::Result<ExitCode> {
    let Ok(number) = number.parse() else {
        return Ok(wrong_arguments(
            "second damaged-cases: expected a number from 0 on",
        ));
    };
    Ok(match damaged_cases::print(number, output)? {
        true => ExitCode::SUCCESS,
        false => ExitCode::from(PAST_THE_LAST),
    })
}

fn random(seed: &str, events: &str, ports: &str, output: impl Write) -> io::Result<ExitCode> {
    let numbers = (seed.parse(), events.parse(), ports.parse());
    let (Ok(seed), Ok(events), Ok(ports @ 1..=rack::MOST_PORTS)) = numbers else {
        return Ok(wrong_arguments(
            "second random-night: expected three numbers: a seed, how many events, \
             and how many ports, from 1 to 32",
        ));
    };
    random_night::print(seed, events, ports, output)?;
    Ok(ExitCode::SUCCESS)
}

fn race_with(rounds: &str, night: &str, program: &str, output: impl Write) -> io::Result<ExitCode> {
    let Ok(rounds) = rounds.parse() else {
        return Ok(wrong_arguments("second race: expected how many rounds"));
    };
    let this = std::env::current_exe()?;
    let this = this.to_string_lossy();
    race::race(rounds, night, program, &[&this, "quiet"], output)?;
    Ok(ExitCode::SUCCESS)
}

#[cfg(test)]
#[path = "main_tests.rs"]
mod tests;
