//! Small Structs and Values: all of a few bytes, and all that are made of a few given fields.

use super::{add, Calls};
use crate::calls::{Check, Lookup, ReadValue};
use crate::random::Random;

/// Values of up to two bytes, all of them, and each behind a tag that opens a list.
pub fn up_to_two_bytes(_: &mut Random) -> Calls {
    let mut calls = Calls::new();
    for value in [false, true] {
        add(&mut calls, Check { bytes: Vec::new(), value });
    }
    for first in 0..=255 {
        for value in [false, true] {
            add(&mut calls, Check { bytes: vec![first], value });
        }
        for second in 0..=255 {
            add(&mut calls, Check { bytes: vec![first, second], value: true });
        }
        for second in [0, 1, 2, 0x0A, 0x7F, 0x80, 0xFF] {
            add(&mut calls, ReadValue { bytes: vec![first, second] });
            add(&mut calls, Check { bytes: vec![first, second], value: false });
            add(&mut calls, Check { bytes: vec![0x32, 2, first, second], value: true });
            add(&mut calls, Check { bytes: vec![0x0A, 2, first, second], value: false });
        }
    }
    calls
}

/// Bytes inside a field of this tag.
fn delimited(tag: u8, bytes: &[u8]) -> Vec<u8> {
    [&[tag, bytes.len() as u8], bytes].concat()
}

/// Each of the first pieces with each of the last behind it.
pub fn pairs(first: &[Vec<u8>], last: &[Vec<u8>]) -> Vec<Vec<u8>> {
    first.iter().flat_map(|first| last.iter().map(move |last| [&first[..], last].concat())).collect()
}

/// All sequences of one to so many of the pieces.
pub fn sequences(pieces: &[Vec<u8>], most: usize) -> Vec<Vec<u8>> {
    let mut all: Vec<Vec<u8>> = pieces.to_vec();
    let mut longest = all.clone();
    for _ in 1..most {
        longest = pairs(&longest, pieces);
        all.extend(longest.clone());
    }
    all
}

/// Fields that a Value may hold, and some that it may not.
const FIELDS: [&[u8]; 22] = [
    &[0x08, 0x00],
    &[0x08, 0x01],
    &[0x11, 0, 0, 0, 0, 0, 0, 0, 0],
    &[0x1A, 0x01, b'x'],
    &[0x1A, 0x01, 0xFF],
    &[0x20, 0x00],
    &[0x20, 0x02],
    &[0x2A, 0x00],
    &[0x2A, 0x02, 0x0A, 0x00],
    &[0x32, 0x00],
    &[0x32, 0x02, 0x0A, 0x00],
    &[0x0A, 0x00],
    &[0x10, 0x00],
    &[0x18, 0x00],
    &[0x22, 0x00],
    &[0x2D, 0, 0, 0, 0],
    &[0x30, 0x00],
    &[0x38, 0x00],
    &[0x3A, 0x00],
    &[0x0B],
    &[0x07],
    &[0x2A, 0x7F],
];

/// Values of up to three such fields; those of up to two are tried inside seven and inside eight lists too.
pub fn every_few_fields(_: &mut Random) -> Calls {
    let mut calls = Calls::new();
    let fields = FIELDS.map(|field| field.to_vec());
    for bytes in sequences(&fields, 3) {
        add(&mut calls, ReadValue { bytes: bytes.clone() });
        add(&mut calls, Check { bytes, value: true });
    }
    for mut bytes in sequences(&fields, 2) {
        for levels in 1..=8 {
            bytes = delimited(0x32, &delimited(0x0A, &bytes));
            if levels >= 7 {
                add(&mut calls, Check { bytes: bytes.clone(), value: true });
            }
        }
    }
    calls
}

/// What an entry may be made of, and some that it may not.
const ENTRIES: [&[u8]; 14] = [
    &[],
    &[0x0A, 0x00],
    &[0x0A, 0x01, b'k'],
    &[0x0A, 0x01, 0xFF],
    &[0x12, 0x00],
    &[0x12, 0x02, 0x08, 0x00],
    &[0x0A, 0x00, 0x12, 0x02, 0x08, 0x00],
    &[0x12, 0x02, 0x08, 0x00, 0x0A, 0x00],
    &[0x0A, 0x01, b'k', 0x12, 0x02, 0x08, 0x00],
    &[0x12, 0x02, 0x08, 0x00, 0x0A, 0x01, b'k'],
    &[0x0A, 0x01, b'l', 0x12, 0x02, 0x08, 0x00],
    &[0x12, 0x02, 0x08, 0x00, 0x12, 0x02, 0x08, 0x00],
    &[0x0A, 0x01, b'k', 0x0A, 0x01, b'k'],
    &[0x12, 0x02, 0x08, 0x00, 0x1A, 0x00],
];

/// Structs of up to three such entries.
pub fn every_few_entries(_: &mut Random) -> Calls {
    let mut calls = Calls::new();
    let entries = ENTRIES.map(|entry| delimited(0x0A, entry));
    for bytes in sequences(&entries, 3) {
        for key in [&b""[..], b"k"] {
            add(&mut calls, Lookup { client: Vec::new(), defaults: bytes.clone(), key: key.to_vec() });
        }
        add(&mut calls, Check { bytes, value: false });
    }
    calls
}
