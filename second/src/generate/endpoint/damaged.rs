//! Messages that are damaged or cut at every byte, ones with bytes behind, and random bytes.

use super::drafts::{valid, Draft};
use super::{blocks, REPLY};
use crate::control::SIGNATURE;
use crate::endpoint::State;
use crate::generate::messages::{damages, shifts};
use crate::generate::{add, bundles, Calls};
use crate::random::Random;

/// A message that its endpoint hears and that is short enough to be tried at every byte.
fn short(random: &mut Random) -> Draft {
    loop {
        let draft = valid(random);
        if draft.parts.bytes().len() <= 110 {
            return draft;
        }
    }
}

pub fn damaged(random: &mut Random) -> Calls {
    let mut calls = Calls::new();
    for _ in 0..3 {
        let draft = short(random);
        let message = draft.parts.bytes();
        for place in 0..message.len() {
            for damaged in damages(random, &message, place) {
                add(&mut calls, draft.with_bytes(damaged, REPLY));
            }
        }
    }
    calls
}

/// Messages with one byte left out, put in, or moved to another place.
pub fn shifted(random: &mut Random) -> Calls {
    let mut calls = Calls::new();
    for _ in 0..40 {
        let draft = short(random);
        for shifted in shifts(random, &draft.parts.bytes()) {
            add(&mut calls, draft.with_bytes(shifted, REPLY));
        }
    }
    calls
}

pub fn cut(random: &mut Random) -> Calls {
    let mut calls = Calls::new();
    for _ in 0..4 {
        let draft = short(random);
        let message = draft.parts.bytes();
        for length in 0..message.len() {
            add(&mut calls, draft.with_bytes(message[..length].to_vec(), REPLY));
        }
    }
    calls
}

pub fn bytes_behind(random: &mut Random) -> Calls {
    let mut calls = Calls::new();
    for _ in 0..10 {
        let draft = valid(random);
        for length in 1..=8 {
            let behind = random.bytes(length);
            let message = [draft.parts.bytes(), behind].concat();
            add(&mut calls, draft.with_bytes(message, REPLY));
        }
        let twice = draft.parts.bytes().repeat(2);
        add(&mut calls, draft.with_bytes(twice, REPLY));
    }
    calls
}

/// The bytes of a bundle that is good or bad, or whatever bytes.
fn any_bytes(random: &mut Random) -> Vec<u8> {
    let length = random.between(0, 40);
    match random.between(0, 3) {
        0 => random.bytes(length),
        1 => bundles::valid(random).bytes(),
        2 => {
            let rest = random.bytes(4);
            [&[0, 1, 0, 0, 0, 8], &SIGNATURE[..], &rest].concat()
        }
        _ => {
            let (mut parts, rest) = (bundles::valid(random), random.bytes(3));
            parts.bodies[0] = [&SIGNATURE[..], &[8 * random.between(0, 7) as u8 + 1], &rest].concat();
            bundles::Parts::of_frames(parts.bodies).bytes()
        }
    }
}

/// Any bytes to any endpoint.
pub fn random_bytes(random: &mut Random) -> Calls {
    let mut calls = Calls::new();
    for _ in 0..400 {
        let state: State = blocks::good(random);
        let draft = Draft { state, ..valid(random) };
        let bytes = any_bytes(random);
        add(&mut calls, draft.with_bytes(bytes, REPLY));
    }
    calls
}
