//! Control frames, good and bad.

use super::bundles::Parts;
use super::{add, Calls};
use crate::calls::{Line, ReadControl};
use crate::control::{SIGNATURE, VERSION};
use crate::random::Random;

/// The parts of a control frame, put together whatever they are.
pub fn frame(signature: [u8; 4], control_byte: u8, flags: u8, type_data: [u8; 2]) -> Vec<u8> {
    [&signature[..], &[control_byte, flags], &type_data].concat()
}

pub fn type_data(random: &mut Random) -> [u8; 2] {
    match random.between(0, 7) {
        0 => [0, 0],
        1 => [255, 255],
        2 => [0, random.byte()],
        3 => [random.byte(), 0],
        _ => [random.byte(), random.byte()],
    }
}

pub fn flags(random: &mut Random) -> u8 {
    if random.one_in(3) {
        return random.byte();
    }
    random.between(0, 3) as u8
}

/// A good control frame.
pub fn good(random: &mut Random) -> Vec<u8> {
    let message_type = random.between(1, 5) as u8;
    frame(SIGNATURE, 8 * message_type + VERSION, flags(random), type_data(random))
}

pub fn every_control_byte(random: &mut Random) -> Calls {
    let mut calls = Calls::new();
    for control_byte in 0..=255 {
        for flags in [0, 1, 2, 3, 4, 8, 16, 32, 64, 128, 255] {
            let frame = frame(SIGNATURE, control_byte, flags, type_data(random));
            add(&mut calls, Line { input: Parts::of_frames(vec![frame.clone()]).bytes() });
            add(&mut calls, ReadControl { frame });
        }
    }
    calls
}

pub fn every_signature_byte(random: &mut Random) -> Calls {
    let mut calls = Calls::new();
    for place in 0..4 {
        for value in 0..=255 {
            let mut frame = good(random);
            frame[place] = value;
            add(&mut calls, ReadControl { frame });
        }
    }
    calls
}

pub fn every_length(random: &mut Random) -> Calls {
    let mut calls = Calls::new();
    for length in 0..=40 {
        for _ in 0..10 {
            let mut frame = good(random);
            frame.extend(random.bytes(length));
            frame.truncate(length);
            add(&mut calls, ReadControl { frame });
        }
    }
    calls
}

pub fn random_frames(random: &mut Random) -> Calls {
    let mut calls = Calls::new();
    for _ in 0..100 {
        let frame = frame(SIGNATURE, random.byte(), random.byte(), type_data(random));
        add(&mut calls, ReadControl { frame });
        let mut frame = good(random);
        frame[random.between(0, 7)] = random.byte();
        add(&mut calls, ReadControl { frame });
        let length = random.between(0, 10);
        add(&mut calls, ReadControl { frame: random.bytes(length) });
        add(&mut calls, ReadControl { frame: good(random) });
    }
    calls
}
