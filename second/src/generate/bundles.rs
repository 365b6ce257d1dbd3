//! Bundles: valid ones, ones that break one rule, damaged and cut ones, and random bytes.

use super::readers::add_reading;
use super::{add, add_bundle, add_control, control, Calls};
use crate::calls::{Contents, FrameAt, Line, ReadControl};
use crate::control::{SIGNATURE, VERSION};
use crate::random::Random;

/// The parts of a bundle, put together whatever they are.
#[derive(Clone)]
pub struct Parts {
    pub count: u16,
    pub lengths: Vec<u32>,
    pub bodies: Vec<Vec<u8>>,
}

impl Parts {
    /// The parts of a valid bundle of these frames.
    pub fn of_frames(bodies: Vec<Vec<u8>>) -> Parts {
        let lengths = bodies.iter().map(|body| body.len() as u32).collect();
        Parts { count: bodies.len() as u16, lengths, bodies }
    }

    pub fn bytes(&self) -> Vec<u8> {
        let mut bytes = self.count.to_be_bytes().to_vec();
        for length in &self.lengths {
            bytes.extend(length.to_be_bytes());
        }
        bytes.extend(self.bodies.concat());
        bytes
    }
}

/// A body of up to 40 bytes, now and then of a few hundred.
fn body(random: &mut Random) -> Vec<u8> {
    let length = match random.between(0, 31) {
        0 => random.between(100, 600),
        1..=5 => 0,
        _ => random.between(0, 40),
    };
    random.bytes(length)
}

/// The first frame of a bundle, mostly a good control frame.
fn first_frame(random: &mut Random) -> Vec<u8> {
    if random.one_in(8) {
        return body(random);
    }
    control::good(random)
}

/// So many frames, the first one mostly a good control frame.
pub fn frames(random: &mut Random, count: usize) -> Parts {
    let mut bodies = vec![first_frame(random)];
    bodies.extend((1..count).map(|_| body(random)));
    Parts::of_frames(bodies)
}

/// A valid bundle, mostly of few frames.
pub fn valid(random: &mut Random) -> Parts {
    let most = random.choose(&[2, 4, 16]);
    let count = random.between(1, most);
    frames(random, count)
}

/// A valid bundle that is short enough to be tried at every byte.
fn valid_and_short(random: &mut Random) -> Vec<u8> {
    let mut bodies = vec![first_frame(random)];
    bodies[0].truncate(40);
    for _ in 0..random.between(0, 5) {
        let length = random.between(0, 12);
        bodies.push(random.bytes(length));
    }
    Parts::of_frames(bodies).bytes()
}

pub fn valid_bundles(random: &mut Random) -> Calls {
    let mut calls = Calls::new();
    for _ in 0..60 {
        let parts = valid(random);
        let bundle = parts.bytes();
        for index in 0..=u32::from(parts.count) + 1 {
            add(&mut calls, FrameAt { bundle: bundle.clone(), index });
        }
        add_reading(&mut calls, &bundle);
        add(&mut calls, ReadControl { frame: parts.bodies[0].clone() });
        add(&mut calls, Contents { bundle: bundle.clone() });
        add(&mut calls, Line { input: bundle });
    }
    calls
}

pub fn wrong_counts(random: &mut Random) -> Calls {
    let mut calls = Calls::new();
    for _ in 0..12 {
        let parts = valid(random);
        let right = parts.count;
        let counts = [0, 17, 65_535, right - 1, right + 1, right + 16, right << 8, right + 256, random.number() as u16];
        for count in counts {
            add_bundle(&mut calls, random, Parts { count, ..parts.clone() }.bytes());
        }
    }
    calls
}

/// Bundles that are right in all but their number of frames.
pub fn too_many_frames(random: &mut Random) -> Calls {
    let mut calls = Calls::new();
    for _ in 0..10 {
        let count = random.between(17, 40);
        let bundle = frames(random, count).bytes();
        add_bundle(&mut calls, random, bundle);
    }
    let count = random.choose(&[256, 257, 272, 4096]);
    let mut bodies = vec![Vec::new(); count];
    bodies[0] = control::good(random);
    add_bundle(&mut calls, random, Parts::of_frames(bodies).bytes());
    calls
}

pub fn wrong_lengths(random: &mut Random) -> Calls {
    let mut calls = Calls::new();
    for _ in 0..6 {
        let parts = valid(random);
        for i in 0..parts.lengths.len() {
            let right = parts.lengths[i];
            let by_one = [right + 1, right.saturating_sub(1)];
            let by_much = [right + (1 << 16), right + (1 << 31), right.swap_bytes(), u32::MAX, random.number() as u32];
            for length in by_one.into_iter().chain(by_much) {
                let mut wrong = parts.clone();
                wrong.lengths[i] = length;
                add_bundle(&mut calls, random, wrong.bytes());
            }
        }
    }
    calls
}

/// Bundles whose lengths have the right sum only where it is counted in too few bits.
pub fn wrapping_lengths(random: &mut Random) -> Calls {
    let mut calls = Calls::new();
    for _ in 0..60 {
        let once = wrapping_once(random).bytes();
        add_bundle(&mut calls, random, once);
        let often = wrapping_often(random).bytes();
        add_bundle(&mut calls, random, often);
    }
    calls
}

/// Two lengths are wrong, and their sum is the right one plus 2^32, now and then plus 2^31 or 2^16.
fn wrapping_once(random: &mut Random) -> Parts {
    let count = random.between(2, 16);
    let mut parts = frames(random, count);
    let first = random.between(0, count - 1);
    let second = (first + random.between(1, count - 1)) % count;
    let right = u64::from(parts.lengths[first]) + u64::from(parts.lengths[second]);
    let excess: u64 = random.choose(&[1 << 32, 1 << 32, 1 << 32, 1 << 31, 1 << 16]);
    let length = right + 1 + random.number() % (excess - right - 1);
    parts.lengths[first] = length as u32;
    parts.lengths[second] = (excess + right - length) as u32;
    parts
}

/// All lengths are wrong, and their sum is the right one modulo 2^32.
fn wrapping_often(random: &mut Random) -> Parts {
    let mut parts = valid(random);
    let last = parts.lengths.len() - 1;
    for i in 0..last {
        let length = random.number() as u32;
        let difference = length.wrapping_sub(parts.lengths[i]);
        parts.lengths[i] = length;
        parts.lengths[last] = parts.lengths[last].wrapping_sub(difference);
    }
    parts
}

pub fn wrong_ends(random: &mut Random) -> Calls {
    let mut calls = Calls::new();
    for _ in 0..30 {
        let bundle = valid(random).bytes();
        add_bundle(&mut calls, random, bundle[..bundle.len() - 1].to_vec());
        let extra = random.byte();
        add_bundle(&mut calls, random, [&bundle[..], &[extra]].concat());
    }
    calls
}

/// A valid bundle with this first frame.
fn with_first_frame(random: &mut Random, first: &[u8]) -> Vec<u8> {
    let mut bodies = valid(random).bodies;
    bodies[0] = first.to_vec();
    Parts::of_frames(bodies).bytes()
}

fn add_first_frame(calls: &mut Calls, random: &mut Random, first: Vec<u8>) {
    let bundle = with_first_frame(random, &first);
    add_control(calls, random, bundle, first);
}

pub fn wrong_control_lengths(random: &mut Random) -> Calls {
    let mut calls = Calls::new();
    for _ in 0..10 {
        let good = control::good(random);
        let extra = random.byte();
        for first in [good[..7].to_vec(), good[1..].to_vec(), [&good[..], &[extra]].concat(), good.repeat(2)] {
            add_first_frame(&mut calls, random, first);
        }
        let shorter = random.between(0, 6);
        add_first_frame(&mut calls, random, good[..shorter].to_vec());
    }
    calls
}

pub fn wrong_signatures(random: &mut Random) -> Calls {
    let mut calls = Calls::new();
    for place in 0..4 {
        let right = SIGNATURE[place];
        for wrong in [right + 1, right - 1, right ^ 0x20, right ^ 0x80, 0, random.byte()] {
            let mut first = control::good(random);
            first[place] = wrong;
            add_first_frame(&mut calls, random, first);
        }
    }
    calls
}

pub fn every_version(random: &mut Random) -> Calls {
    let mut calls = Calls::new();
    for version in 0..=7 {
        for message_type in [1, 2, 3, 4, 5, random.between(0, 31) as u8] {
            let flags = control::flags(random);
            let first = control::frame(SIGNATURE, 8 * message_type + version, flags, control::type_data(random));
            add_first_frame(&mut calls, random, first);
        }
    }
    calls
}

pub fn every_type(random: &mut Random) -> Calls {
    let mut calls = Calls::new();
    for message_type in 0..=31 {
        for version in [VERSION, random.between(0, 7) as u8] {
            let flags = control::flags(random);
            let first = control::frame(SIGNATURE, 8 * message_type + version, flags, control::type_data(random));
            add_first_frame(&mut calls, random, first);
        }
    }
    calls
}

pub fn damaged(random: &mut Random) -> Calls {
    let mut calls = Calls::new();
    let bundle = valid_and_short(random);
    for place in 0..bundle.len() {
        let right = bundle[place];
        for wrong in [random.byte(), right.wrapping_add(1), right.wrapping_sub(1), 0, 255] {
            let mut damaged = bundle.clone();
            damaged[place] = wrong;
            add_bundle(&mut calls, random, damaged);
        }
    }
    calls
}

pub fn cut(random: &mut Random) -> Calls {
    let mut calls = Calls::new();
    for _ in 0..3 {
        let bundle = valid_and_short(random);
        for length in 0..bundle.len() {
            add_bundle(&mut calls, random, bundle[..length].to_vec());
        }
    }
    calls
}

pub fn bytes_behind(random: &mut Random) -> Calls {
    let mut calls = Calls::new();
    for _ in 0..10 {
        let bundle = valid(random).bytes();
        for length in 1..=8 {
            let behind = random.bytes(length);
            add_bundle(&mut calls, random, [&bundle[..], &behind].concat());
        }
    }
    calls
}

pub fn random_bytes(random: &mut Random) -> Calls {
    let mut calls = Calls::new();
    for _ in 0..60 {
        let length = random.between(0, 80);
        let bundle = random.bytes(length);
        add_bundle(&mut calls, random, bundle);
    }
    calls
}

pub fn plausible_count(random: &mut Random) -> Calls {
    let mut calls = Calls::new();
    for _ in 0..60 {
        let count = random.between(0, 17) as u8;
        let length = random.between(0, 78);
        let rest = random.bytes(length);
        add_bundle(&mut calls, random, [&[0, count][..], &rest].concat());
    }
    calls
}

/// Random bytes behind lengths that are small, so that their sum is right now and then.
pub fn with_plausible_lengths(random: &mut Random) -> Vec<u8> {
    let count = random.between(1, 4);
    let lengths = (0..count).map(|_| random.between(0, 4) as u32).collect();
    let rest = random.between(0, 3 * count);
    Parts { count: count as u16, lengths, bodies: vec![random.bytes(rest)] }.bytes()
}

pub fn plausible_lengths(random: &mut Random) -> Calls {
    let mut calls = Calls::new();
    for _ in 0..60 {
        let bundle = with_plausible_lengths(random);
        add_bundle(&mut calls, random, bundle);
    }
    calls
}
