//! Varints and fields: every wire type, long forms, values and tags around the powers of two, and every end.

use super::messages::{long, long_varint};
use super::{add, Calls};
use crate::calls::{FieldAt, StoreVarint};
use crate::random::Random;
use crate::wire::{self, LENGTH_DELIMITED, VARINT};

/// Numbers next to which a varint grows or a number of fewer bits ends.
fn numbers() -> Vec<u64> {
    let mut numbers = vec![0, 1, 2, 150, 300, u64::MAX - 1, u64::MAX];
    for power in [3, 7, 8, 14, 16, 21, 28, 31, 32, 35, 42, 49, 53, 56, 57, 63] {
        numbers.extend([(1 << power) - 1, 1 << power, (1 << power) + 1]);
    }
    numbers
}

/// Field numbers, up to the largest one and a little further.
const FIELD_NUMBERS: [u64; 13] =
    [0, 1, 2, 6, 15, 16, 2047, 2048, (1 << 28) + 1, (1 << 29) - 1, 1 << 29, (1 << 29) + 1, 1 << 60];

/// Varints that are no number: ten bytes and more that continue, and ten bytes that say more than 2^64-1.
fn bad_varints() -> Vec<Vec<u8>> {
    let continuing = |count: usize, last: &[u8]| [&vec![0x80; count][..], last].concat();
    let full = |last: &[u8]| [&[0xFF; 9][..], last].concat();
    vec![
        continuing(10, &[0x00]),
        continuing(10, &[]),
        continuing(11, &[0x00]),
        continuing(9, &[0x02]),
        continuing(9, &[0x7F]),
        continuing(9, &[0x40]),
        full(&[0x02]),
        full(&[0x03]),
        full(&[0x7F]),
        full(&[0x81, 0x00]),
        full(&[0xFF, 0x01]),
    ]
}

/// A varint that is no number.
pub fn bad_varint(random: &mut Random) -> Vec<u8> {
    let bad = bad_varints();
    bad[random.between(0, bad.len() - 1)].clone()
}

/// The varint of a number in every form, from the shortest to one of eleven bytes.
fn every_form(number: u64) -> Vec<Vec<u8>> {
    let shortest = wire::varint(number).len();
    let mut forms: Vec<Vec<u8>> = (0..=10 - shortest).map(|long| long_varint(number, long)).collect();
    let mut eleven = long_varint(number, 10);
    eleven[9] += 128;
    eleven.push(0);
    forms.push(eleven);
    forms
}

/// Asks for the field at the start of the bytes with every end up to two bytes behind them.
fn add_every_end(calls: &mut Calls, bytes: &[u8]) {
    for end in 0..=bytes.len() as u64 + 2 {
        add(calls, FieldAt { bytes: bytes.to_vec(), at: 0, end });
    }
}

/// Every wire type at every field number, behind tags of every form.
pub fn every_tag(random: &mut Random) -> Calls {
    let mut calls = Calls::new();
    for number in FIELD_NUMBERS {
        for wire_type in 0..8 {
            for tag in every_form(8 * number + wire_type) {
                let mut bytes = [&tag[..], &[3]].concat();
                bytes.extend(random.bytes(8));
                add(&mut calls, FieldAt { bytes: bytes.clone(), at: 0, end: bytes.len() as u64 });
                add(&mut calls, FieldAt { bytes: bytes.clone(), at: 0, end: tag.len() as u64 });
            }
            let bytes = [wire::varint(8 * number + wire_type), random.bytes(10)].concat();
            add_every_end(&mut calls, &bytes);
        }
    }
    calls
}

/// Tags next to 8 and to 2^32, and those that look good in 32 bits.
pub fn tags_around_the_ends(random: &mut Random) -> Calls {
    let mut calls = Calls::new();
    let around_ends = (0..=24).chain((1 << 32) - 16..=(1 << 32) + 16);
    for tag in around_ends.chain((1 << 63) + 8..=(1 << 63) + 16).chain(u64::MAX - 8..=u64::MAX) {
        for long in [0, 1, 9] {
            let bytes = [&long_varint(tag, long)[..], &[0], &random.bytes(8)].concat();
            add(&mut calls, FieldAt { at: 0, end: bytes.len() as u64, bytes });
        }
    }
    calls
}

/// Varints and lengths of every value and form, each cut at every byte.
pub fn every_payload(random: &mut Random) -> Calls {
    let mut calls = Calls::new();
    let mut payloads: Vec<Vec<u8>> = numbers().into_iter().flat_map(every_form).collect();
    payloads.extend(bad_varints());
    for payload in payloads {
        let behind = random.between(0, 3);
        let behind = random.bytes(behind);
        for wire_type in [VARINT, LENGTH_DELIMITED] {
            let bytes = [&[8 + wire_type as u8][..], &payload, &behind].concat();
            add_every_end(&mut calls, &bytes);
        }
        let bytes = [&payload[..], &[0], &behind].concat();
        add_every_end(&mut calls, &bytes);
    }
    calls
}

/// Lengths next to what the message has left, and those that reach it only where a sum wraps around.
pub fn lengths_around_the_end(random: &mut Random) -> Calls {
    let mut calls = Calls::new();
    for rest in 0..20 {
        for before in [0, 1, 7] {
            let mut lengths: Vec<u64> = (0..=rest + 2).collect();
            lengths.extend((0..=24).map(|less| u64::MAX - less));
            lengths.extend([1 << 31, 1 << 32, (1 << 32) + rest, 1 << 63, (1 << 63) + rest]);
            for length in lengths {
                let bytes = [&random.bytes(before)[..], &[0x0A], &long_varint(length, 0), &random.bytes(rest as usize)];
                let bytes = bytes.concat();
                let end = bytes.len() as u64 - random.number() % (rest + 1) * u64::from(random.one_in(3));
                add(&mut calls, FieldAt { bytes, at: before as u64, end });
            }
        }
    }
    calls
}

/// Every place and end in a short slice, and those that are far outside it.
pub fn every_place(random: &mut Random) -> Calls {
    let mut calls = Calls::new();
    let far = [1 << 31, 1 << 32, (1 << 32) + 1, (1 << 63) - 1, 1 << 63, (1 << 63) + 1, u64::MAX - 1, u64::MAX];
    let mut slices = vec![Vec::new(), vec![0x08], vec![0x08, 0x00], vec![0x08; 12], vec![0x12, 0x02, 0x08, 0x00]];
    slices.push(random.bytes(12));
    for bytes in slices {
        let near = 0..=bytes.len() as u64 + 2;
        let places: Vec<u64> = near.chain(far).collect();
        for at in &places {
            for end in &places {
                add(&mut calls, FieldAt { bytes: bytes.clone(), at: *at, end: *end });
            }
        }
    }
    calls
}

/// A tag, mostly a good one of a low number.
fn tag(random: &mut Random) -> u64 {
    match random.between(0, 9) {
        0 => random.number() >> random.between(0, 63),
        1 => 8 * random.choose(&FIELD_NUMBERS) + random.between(0, 7) as u64,
        _ => 8 * random.between(1, 20) as u64 + random.choose(&[0, 1, 2, 2, 2, 5, 5, 0]),
    }
}

/// A field somewhere in a slice, its payload now and then damaged, its end mostly the slice's.
pub fn random_fields(random: &mut Random) -> Calls {
    let mut calls = Calls::new();
    for _ in 0..300 {
        let at = random.between(0, 5);
        let behind = random.between(0, 20);
        let number = if random.one_in(2) { behind as u64 } else { random.number() >> random.between(0, 63) };
        let number = if random.one_in(12) { bad_varint(random) } else { long_varint(number, long(random)) };
        let tag = if random.one_in(20) { bad_varint(random) } else { long_varint(tag(random), long(random)) };
        let bytes = [random.bytes(at), tag, number, random.bytes(behind)].concat();
        let end = match random.between(0, 7) {
            0 => random.between(0, bytes.len() + 2),
            1 | 2 => bytes.len() - random.between(0, behind),
            _ => bytes.len(),
        };
        add(&mut calls, FieldAt { bytes, at: at as u64, end: end as u64 });
    }
    calls
}

pub fn random_bytes(random: &mut Random) -> Calls {
    let mut calls = Calls::new();
    for _ in 0..150 {
        let length = random.between(0, 24);
        let mut bytes = random.bytes(length);
        if random.one_in(2) {
            bytes.iter_mut().for_each(|byte| *byte |= 0x80);
        }
        let (at, end) = (random.between(0, length + 1) as u64, random.between(0, length + 1) as u64);
        add(&mut calls, FieldAt { bytes, at, end });
    }
    calls
}

/// Varints of every length, stored at every place in and behind short rooms, and far outside them.
pub fn every_store(_: &mut Random) -> Calls {
    let mut calls = Calls::new();
    for room in [0, 1, 2, 5, 9, 10, 11, 12] {
        for number in numbers() {
            let far = [1 << 32, 1 << 63, u64::MAX - 10, u64::MAX - 9, u64::MAX - 1, u64::MAX];
            for at in (0..=room as u64 + 2).chain(far) {
                add(&mut calls, StoreVarint { room, at, number });
            }
        }
    }
    calls
}

pub fn random_stores(random: &mut Random) -> Calls {
    let mut calls = Calls::new();
    for _ in 0..150 {
        let number = random.number() >> random.between(0, 63);
        let room = random.between(0, 40);
        let at = random.between(0, room + 2) as u64;
        add(&mut calls, StoreVarint { room, at, number });
    }
    calls
}
