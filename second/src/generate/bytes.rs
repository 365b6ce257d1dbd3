//! Reads, stores and copies at all kinds of places.

use super::{add, Calls};
use crate::calls::{Copy, Read, Store, Width};
use crate::random::Random;

/// The lengths of the slices that are tried whole, and the places that are tried in each.
const MOST_LENGTH: usize = 12;
const MOST_PLACE: u64 = 14;

/// All places in and just behind a short slice, and places around the powers of two where a sum may wrap around.
fn places() -> Vec<u64> {
    let around = |middle: u64| (middle - 13)..=(middle + 13);
    let mut places: Vec<u64> = (0..=MOST_PLACE).collect();
    for power in [8, 16, 31, 32, 63] {
        places.extend(around(1 << power));
    }
    places.extend(u64::MAX - 13..=u64::MAX);
    places
}

/// A place that mostly lies in a slice of this length or just behind it.
fn place(random: &mut Random, length: usize) -> u64 {
    if random.one_in(8) {
        return random.choose(&places());
    }
    random.between(0, length + 4) as u64
}

pub fn every_read(random: &mut Random) -> Calls {
    let mut calls = Calls::new();
    for width in Width::READ {
        for length in 0..=MOST_LENGTH {
            for at in places() {
                add(&mut calls, Read { width, bytes: random.bytes(length), at });
            }
        }
    }
    calls
}

pub fn every_store(random: &mut Random) -> Calls {
    let mut calls = Calls::new();
    for width in Width::STORED {
        for room in 0..=MOST_LENGTH {
            for at in places() {
                for number in [0, u64::MAX, 0x0102_0304_0506_0708, random.number()] {
                    add(&mut calls, Store { width, room, at, number: number & width.most() });
                }
            }
        }
    }
    calls
}

pub fn every_copy(random: &mut Random) -> Calls {
    let mut calls = Calls::new();
    for room in 0..=MOST_LENGTH {
        for length in 0..=MOST_LENGTH {
            for at in places() {
                add(&mut calls, Copy { room, at, bytes: random.bytes(length) });
            }
        }
    }
    calls
}

pub fn random_reads(random: &mut Random) -> Calls {
    let mut calls = Calls::new();
    for _ in 0..300 {
        let length = random.between(0, 60);
        let at = place(random, length);
        add(&mut calls, Read { width: random.choose(&Width::READ), bytes: random.bytes(length), at });
    }
    calls
}

pub fn random_stores(random: &mut Random) -> Calls {
    let mut calls = Calls::new();
    for _ in 0..300 {
        let width = random.choose(&Width::STORED);
        let room = random.between(0, 60);
        let number = random.number() & width.most();
        add(&mut calls, Store { width, room, at: place(random, room), number });
    }
    calls
}

pub fn random_copies(random: &mut Random) -> Calls {
    let mut calls = Calls::new();
    for _ in 0..300 {
        let room = random.between(0, 60);
        let at = place(random, room);
        let rest = (room as u64).saturating_sub(at) as usize;
        let length = if random.one_in(4) { random.between(0, 70) } else { random.between(0, rest + 1) };
        add(&mut calls, Copy { room, at, bytes: random.bytes(length) });
    }
    calls
}
