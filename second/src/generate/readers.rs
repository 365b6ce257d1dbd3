//! Readers at every position, and bundles that are read whole.

use super::bundles;
use super::indexes::bundles_of_every_count;
use super::{add, Calls};
use crate::bundle::Reader;
use crate::calls::HandOut;
use crate::random::Random;

/// Positions that look small in fewer bits or when they are counted in bytes, and the largest ones.
fn large_positions() -> Vec<u64> {
    let mut positions = Vec::new();
    for power in [8, 16, 24, 30, 31, 32, 61, 62, 63] {
        positions.extend((1 << power) - 1..=(1 << power) + 17);
    }
    positions.extend(u64::MAX - 17..=u64::MAX);
    positions
}

/// Mostly a position that a reader may have come to, else a large one.
pub fn position(random: &mut Random) -> u64 {
    if random.one_in(8) {
        return random.choose(&large_positions());
    }
    random.between(0, 17) as u64
}

/// Adds a whole reading: each call from the start of the bundle to the one that hands out no frame.
pub fn add_reading(calls: &mut Calls, bundle: &[u8]) {
    let mut reader = Reader { bundle, position: 0 };
    loop {
        add(calls, HandOut { bundle: bundle.to_vec(), position: reader.position as u64 });
        let Ok(Some(_)) = reader.hand_out() else {
            return;
        };
    }
}

/// Every position up to 18, and large ones.
pub fn every_position(random: &mut Random) -> Calls {
    let mut calls = Calls::new();
    for bundle in bundles_of_every_count(random) {
        for position in (0..=18).chain(large_positions()) {
            add(&mut calls, HandOut { bundle: bundle.clone(), position });
        }
    }
    calls
}

/// A valid bundle of each number of frames, the same with a byte damaged, with some missing and with some behind; and
/// random bytes behind plausible lengths.
pub fn whole_readings(random: &mut Random) -> Calls {
    let mut calls = Calls::new();
    for count in 1..=16 {
        let valid = bundles::frames(random, count).bytes();
        let mut damaged = valid.clone();
        damaged[random.between(0, valid.len() - 1)] = random.byte();
        let cut = valid[..random.between(0, valid.len() - 1)].to_vec();
        let behind = random.between(1, 8);
        let longer = [&valid[..], &random.bytes(behind)].concat();
        let plausible = bundles::with_plausible_lengths(random);
        for bundle in [valid, damaged, cut, longer, plausible] {
            add_reading(&mut calls, &bundle);
        }
    }
    calls
}

#[cfg(test)]
mod tests {
    use super::*;
    use crate::bundle::of_frames;
    use crate::calls::{Argument, Written};
    use std::collections::BTreeSet;

    /// The position that each call asks at, and what the model answers: its number, and whether a frame is found.
    fn answered(calls: &Calls) -> Vec<(u64, u64, u64)> {
        let mut answered = Vec::new();
        for call in calls {
            let Argument::Number(position) = call.arguments()[1].1 else {
                unreachable!("the position stands behind the bundle");
            };
            let answer = call.answer(&[]);
            let Written::Numbers(handed) = &answer.written[0] else {
                unreachable!("what is handed out is written as numbers");
            };
            answered.push((position, answer.returned, handed[0]));
        }
        answered
    }

    #[test]
    fn a_whole_reading_asks_for_each_frame_and_once_behind_the_last() {
        let mut calls = Calls::new();
        add_reading(&mut calls, &of_frames(&[b"a", b"", b"b"]));
        assert_eq!(answered(&calls), [(0, 0, 1), (1, 0, 1), (2, 0, 1), (3, 0, 0)]);
    }

    #[test]
    fn a_whole_reading_of_a_bad_bundle_asks_once() {
        let mut calls = Calls::new();
        add_reading(&mut calls, &[0, 1]);
        assert_eq!(answered(&calls), [(0, 10, 0)]);
    }

    #[test]
    fn whole_readings_end_behind_every_number_of_frames_or_are_refused() {
        let calls = whole_readings(&mut Random::new(5));
        let ends: BTreeSet<(u64, u64)> = answered(&calls)
            .into_iter()
            .filter(|(_, _, found)| *found == 0)
            .map(|(position, number, _)| (position, number))
            .collect();
        assert_eq!(ends, (1..=16).map(|count| (count, 0)).chain([(0, 10)]).collect());
    }
}
