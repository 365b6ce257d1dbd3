//! The second program: documents 01 and 02 read on their own, and compared call by call with the library that a host
//! holds.
//!
//! second compare --seed S --calls N -- COMMAND..   compares at least N calls
//! second speed -- COMMAND..                        times what must not depend on the bodies
#![forbid(unsafe_code)]

mod calls;
mod compare;
mod framing;
mod generate;
mod host;
mod random;
mod report;
mod speed;
mod vectors;

use second::{bundle, bytes, control, endpoint, limit, line, lookup, open, structs, text, wire};

use std::env;
use std::process::ExitCode;

const USAGE: &str = "usage: second compare --seed S --calls N -- COMMAND..
       second speed -- COMMAND..";

/// What the command line asks for.
enum Task {
    Compare { seed: u64, calls: u64, command: Vec<String> },
    Speed { command: Vec<String> },
}

fn main() -> ExitCode {
    let words: Vec<String> = env::args().skip(1).collect();
    let Some(task) = task(&words) else {
        eprintln!("{USAGE}");
        return ExitCode::from(2);
    };
    let outcome = match task {
        Task::Compare { seed, calls, command } => compare::compare(seed, calls, &command),
        Task::Speed { command } => speed::speed(&command),
    };
    match outcome {
        Ok(true) => ExitCode::SUCCESS,
        Ok(false) => ExitCode::FAILURE,
        Err(error) => {
            println!("second: {error}");
            ExitCode::FAILURE
        }
    }
}

/// The task that the words ask for; nothing where they ask for none.
fn task(words: &[String]) -> Option<Task> {
    let end = words.iter().position(|word| word == "--")?;
    let command = words[end + 1..].to_vec();
    if command.is_empty() {
        return None;
    }
    let words: Vec<&str> = words[..end].iter().map(String::as_str).collect();
    match words[..] {
        ["compare", "--seed", seed, "--calls", calls] => {
            Some(Task::Compare { seed: seed.parse().ok()?, calls: calls.parse().ok()?, command })
        }
        ["speed"] => Some(Task::Speed { command }),
        _ => None,
    }
}
