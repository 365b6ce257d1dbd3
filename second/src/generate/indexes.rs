//! Frames looked for at every index, and every frame count.

use super::bundles::Parts;
use super::{add, control, Calls};
use crate::calls::{Contents, FrameAt, HandOut};
use crate::random::Random;

/// The indexes that are looked for in each bundle: every one up to 18, and those that look small in fewer bits.
fn indexes() -> Vec<u32> {
    let mut indexes: Vec<u32> = (0..=18).collect();
    for power in [8, 16, 24, 30, 31] {
        indexes.extend([(1 << power) - 1, 1 << power, (1 << power) + 1]);
    }
    indexes.extend([u32::MAX - 1, u32::MAX]);
    indexes
}

/// Bundles of 0 to 18 frames, and each with a byte missing or extra.
pub fn bundles_of_every_count(random: &mut Random) -> Vec<Vec<u8>> {
    let mut bundles = Vec::new();
    for count in 0..=18 {
        let mut bodies = vec![control::good(random)];
        for _ in 1..count {
            let length = random.between(0, 10);
            bodies.push(random.bytes(length));
        }
        bodies.truncate(count);
        let bundle = Parts::of_frames(bodies).bytes();
        let missing = bundle[..bundle.len() - 1].to_vec();
        let extra = [&bundle[..], &[0]].concat();
        bundles.extend([bundle, missing, extra]);
    }
    bundles
}

pub fn every_index(random: &mut Random) -> Calls {
    let mut calls = Calls::new();
    for bundle in bundles_of_every_count(random) {
        for index in indexes() {
            add(&mut calls, FrameAt { bundle: bundle.clone(), index });
        }
    }
    calls
}

/// Every frame count before lengths of 0: as many as it says, up to 20.
pub fn every_frame_count(_: &mut Random) -> Calls {
    let mut calls = Calls::new();
    for count in 0..=u16::MAX {
        let lengths = vec![0; usize::from(count).min(20)];
        let bundle = Parts { count, lengths, bodies: Vec::new() }.bytes();
        add(&mut calls, HandOut { bundle: bundle.clone(), position: 0 });
        add(&mut calls, Contents { bundle });
    }
    let empty_frames = Parts::of_frames(vec![Vec::new(); usize::from(u16::MAX)]).bytes();
    add(&mut calls, FrameAt { bundle: empty_frames.clone(), index: 0 });
    add(&mut calls, HandOut { bundle: empty_frames.clone(), position: 0 });
    add(&mut calls, Contents { bundle: empty_frames });
    calls
}
