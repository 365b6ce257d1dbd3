//! The times of two sides that do the same work, taken in many short rounds by turns: a busy machine hits both alike.

use std::time::Instant;

/// How many rounds are made, and the least that one side takes in a round.
const ROUNDS: usize = 200;
const ROUND_NANOSECONDS: u64 = 500_000;

/// How often a round is tried before it counts as long enough: a machine that is busy elsewhere makes one look long.
const TRIALS: usize = 3;

/// What two sides took: nanoseconds per call of each, and the other's time as a ratio to ours, all medians over the
/// rounds, and between which ratios all rounds but the lowest and the highest tenth lie.
pub struct Times {
    pub ours: f64,
    pub other: f64,
    pub ratio: f64,
    pub spread: (f64, f64),
}

/// Times two sides on what they both work on.
pub fn compare<Work>(work: &mut Work, ours: impl Fn(&mut Work), other: impl Fn(&mut Work)) -> Times {
    let (our_calls, other_calls) = (calls_in_a_round(work, &ours), calls_in_a_round(work, &other));
    let mut rounds = Vec::new();
    for round in 0..ROUNDS {
        rounds.push(if round % 2 == 0 {
            let our_time = per_call(work, &ours, our_calls);
            (our_time, per_call(work, &other, other_calls))
        } else {
            let other_time = per_call(work, &other, other_calls);
            (per_call(work, &ours, our_calls), other_time)
        });
    }
    let ratios = sorted(rounds.iter().map(|(ours, other)| other / ours));
    Times {
        ours: part(&sorted(rounds.iter().map(|(ours, _)| *ours)), 50),
        other: part(&sorted(rounds.iter().map(|(_, other)| *other)), 50),
        ratio: part(&ratios, 50),
        spread: (part(&ratios, 10), part(&ratios, 90)),
    }
}

/// How many calls of a side fill a round; trying it warms the side up.
fn calls_in_a_round<Work>(work: &mut Work, side: &impl Fn(&mut Work)) -> u64 {
    let mut calls = 1;
    while (0..TRIALS).any(|_| nanoseconds(work, side, calls) < ROUND_NANOSECONDS) {
        calls *= 2;
    }
    calls
}

fn per_call<Work>(work: &mut Work, side: &impl Fn(&mut Work), calls: u64) -> f64 {
    nanoseconds(work, side, calls) as f64 / calls as f64
}

fn nanoseconds<Work>(work: &mut Work, side: &impl Fn(&mut Work), calls: u64) -> u64 {
    let start = Instant::now();
    for _ in 0..calls {
        side(work);
    }
    start.elapsed().as_nanos() as u64
}

fn sorted(times: impl Iterator<Item = f64>) -> Vec<f64> {
    let mut times: Vec<f64> = times.collect();
    times.sort_by(f64::total_cmp);
    times
}

/// The time or ratio that so many of a hundred lie below.
fn part(sorted: &[f64], percent: usize) -> f64 {
    sorted[(sorted.len() - 1) * percent / 100]
}
