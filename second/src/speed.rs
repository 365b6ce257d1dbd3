//! Times of functions on two inputs each. Those that read a bundle read none of its bodies, so they must not take longer
//! for a large one; plain text is tested many bytes at a time, so it must take less than text that is not.

use crate::host::{Host, Verb};

/// A function that the host times, its two inputs, and how many times as long the second may take.
struct Timed {
    name: &'static str,
    inputs: [&'static str; 2],
    most_ratio: f64,
}

/// A function that reads a bundle of each of two sizes.
const fn on_bundles(name: &'static str) -> Timed {
    Timed { name, inputs: ["100 B", "50,000,000 B"], most_ratio: 3.0 }
}

/// In the host's order.
const TIMED: [Timed; 4] = [
    on_bundles("fbdp_frame"),
    on_bundles("fbdp_receive"),
    on_bundles("probe_contents"),
    Timed { name: "probe_text", inputs: ["4 KB of two-byte characters", "4 KB of ASCII"], most_ratio: 1.0 / 3.0 },
];

/// The bytes of the host's answer for each function: nanoseconds and calls, for the first and the second input.
const ANSWER: usize = 32;

/// Prints the times per call; whether no ratio is too large.
pub fn speed(command: &[String]) -> Result<bool, String> {
    let mut host = Host::start(command)?;
    host.ask(Verb::Speed, 0, &[]);
    let answers = host.reply(Verb::Speed, TIMED.len())?;
    if answers.len() != ANSWER * TIMED.len() {
        return Err(format!("the host answered {} bytes of times", answers.len()));
    }
    let mut good = true;
    for (timed, answer) in TIMED.iter().zip(answers.chunks(ANSWER)) {
        let (first, second) = (per_call(&answer[..16]), per_call(&answer[16..]));
        let (ratio, inputs) = (second / first, timed.inputs);
        println!("{}: {} {first:.1} ns, {} {second:.1} ns, ratio {ratio:.2}", timed.name, inputs[0], inputs[1]);
        good &= ratio <= timed.most_ratio;
    }
    host.finish()?;
    Ok(good)
}

/// The nanoseconds of one call.
fn per_call(answer: &[u8]) -> f64 {
    let number = |bytes: &[u8]| bytes.iter().rev().fold(0, |number, byte| number << 8 | u64::from(*byte));
    number(&answer[..8]) as f64 / number(&answer[8..]) as f64
}
