//! Bundles that are written into rooms of all sizes.

use super::{add, control, Calls};
use crate::calls::Write;
use crate::control::Control;
use crate::random::Random;

/// The bytes of the bundle of a control frame alone, and those of a control frame and a body without that body.
const ONE: usize = 14;
const TWO: usize = 18;

fn control_of_type(random: &mut Random, message_type: u8) -> Control {
    let type_data = u16::from_be_bytes(control::type_data(random));
    Control { message_type, flags: control::flags(random), type_data }
}

pub fn every_room_for_one(random: &mut Random) -> Calls {
    let mut calls = Calls::new();
    for message_type in 0..=255 {
        for room in 0..=ONE + 6 {
            add(&mut calls, Write { room, control: control_of_type(random, message_type), body: None });
        }
    }
    calls
}

pub fn every_room_for_two(random: &mut Random) -> Calls {
    let mut calls = Calls::new();
    for message_type in [0, 1, 2, 3, 4, 5, 6, 31, 32, 33, 255] {
        for length in 0..=40 {
            for room in 0..=TWO + length + 6 {
                let body = Some(random.bytes(length));
                add(&mut calls, Write { room, control: control_of_type(random, message_type), body });
            }
        }
    }
    calls
}

pub fn every_room_for_long_bodies(random: &mut Random) -> Calls {
    let mut calls = Calls::new();
    for length in [256, 1000, 3000] {
        let body = random.bytes(length);
        for room in 0..=TWO + length + 20 {
            let message_type = random.between(1, 5) as u8;
            add(&mut calls, Write { room, control: control_of_type(random, message_type), body: Some(body.clone()) });
        }
    }
    calls
}

/// Bodies whose lengths are around powers of two, and the rooms around what each needs.
pub fn bodies_around_powers(random: &mut Random) -> Calls {
    let mut calls = Calls::new();
    for power in [8, 12, 15, 16, 17] {
        for length in (1 << power) - 1..=(1 << power) + 1 {
            let body = random.bytes(length);
            for room in TWO + length - 3..=TWO + length + 3 {
                add(&mut calls, Write { room, control: control_of_type(random, 4), body: Some(body.clone()) });
            }
        }
    }
    calls
}

/// The type is mostly one of 1 to 5, and the room mostly near what is needed.
pub fn random_writes(random: &mut Random) -> Calls {
    let mut calls = Calls::new();
    for _ in 0..300 {
        let message_type = if random.one_in(8) { random.byte() } else { random.between(1, 5) as u8 };
        let length = if random.one_in(20) { random.between(200, 2000) } else { random.between(0, 60) };
        let body = if random.one_in(2) { None } else { Some(random.bytes(length)) };
        let needed = body.as_ref().map_or(ONE, |body| TWO + body.len());
        let room = if random.one_in(6) { random.between(0, 100) } else { random.between(needed - 2, needed + 12) };
        add(&mut calls, Write { room, control: control_of_type(random, message_type), body });
    }
    calls
}
