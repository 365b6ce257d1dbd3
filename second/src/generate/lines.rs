//! Lines for inputs of the greatest length, one less and one more.

use super::bundles::Parts;
use super::{add_bundle, control, Calls};
use crate::line::MOST_INPUT;
use crate::random::Random;

/// A valid bundle of exactly this length, of so many frames of which all but two are empty.
fn bundle_of_length(first: Vec<u8>, count: usize, length: usize) -> Parts {
    let mut bodies = vec![Vec::new(); count];
    bodies[count - 1] = vec![0xA5; length - 2 - 4 * count - first.len()];
    bodies[0] = first;
    Parts::of_frames(bodies)
}

/// Control frames, good and refused as 11, 12 and 13.
fn first_frames(random: &mut Random) -> Vec<Vec<u8>> {
    let good = control::good(random);
    let mut frames = vec![good.clone(), good[..7].to_vec()];
    for (place, value) in [(0, 0), (4, 0), (4, 1), (4, 0x12), (4, 0x31), (4, 0x29), (5, 255)] {
        let mut frame = good.clone();
        frame[place] = value;
        frames.push(frame);
    }
    frames
}

pub fn around_the_longest_input(random: &mut Random) -> Calls {
    let mut calls = Calls::new();
    for length in [MOST_INPUT - 1, MOST_INPUT, MOST_INPUT + 1, 2 * MOST_INPUT - 1, 2 * MOST_INPUT, 2 * MOST_INPUT + 14]
    {
        for count in [2, 16] {
            for first in first_frames(random) {
                add_bundle(&mut calls, random, bundle_of_length(first, count, length).bytes());
            }
        }
        for difference in [u32::MAX, 1] {
            let mut parts = bundle_of_length(control::good(random), 2, length);
            parts.lengths[1] = parts.lengths[1].wrapping_add(difference);
            add_bundle(&mut calls, random, parts.bytes());
        }
        let one_frame = Parts::of_frames(vec![random.bytes(length - 6)]);
        add_bundle(&mut calls, random, one_frame.bytes());
        add_bundle(&mut calls, random, vec![0; length]);
        let bytes = random.bytes(length);
        add_bundle(&mut calls, random, bytes);
    }
    calls
}
