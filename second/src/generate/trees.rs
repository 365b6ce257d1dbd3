//! Valid Structs and Values of every shape, as messages that can still be changed before they are written.

use super::messages::{long, Form, Message, Payload};
use super::texts;
use crate::limit;
use crate::random::Random;
use crate::structs::{BOOL, KEY, LIST, NULL, NUMBER, STRUCT, TEXT, VALUE};

/// Keys that are likely to meet again in another Struct; some are prefixes of others, or differ in one byte.
const COMMON_KEYS: [&[u8]; 14] = [
    b"",
    b"a",
    b"b",
    b"ab",
    b"abc",
    b"abd",
    b"bbc",
    "\u{E9}".as_bytes(),
    b"a\0",
    b"max_message",
    limit::KEY,
    b"max_message_bytez",
    b"mix_message_bytes",
    b"max",
];

/// Doubles of every sort.
const DOUBLES: [u64; 16] = [
    0,
    1,
    1 << 63,
    0x000F_FFFF_FFFF_FFFF,
    0x0010_0000_0000_0000,
    0x3FF0_0000_0000_0000,
    0xBFF0_0000_0000_0000,
    0x7FEF_FFFF_FFFF_FFFF,
    0x7FF0_0000_0000_0000,
    0xFFF0_0000_0000_0000,
    0x7FF0_0000_0000_0001,
    0x7FF8_0000_0000_0000,
    0xFFF8_0000_0000_0001,
    0x7FFF_FFFF_FFFF_FFFF,
    0x412E_8480_0000_0000,
    u64::MAX,
];

pub fn common_key(random: &mut Random) -> Vec<u8> {
    random.choose(&COMMON_KEYS).to_vec()
}

pub fn key(random: &mut Random) -> Vec<u8> {
    if random.one_in(3) {
        return texts::good(random);
    }
    common_key(random)
}

/// The payload that holds these bytes.
pub fn delimited(random: &mut Random, bytes: Vec<u8>) -> Payload {
    Payload::Bytes { bytes, long: long(random) }
}

/// The payload that holds this message.
pub fn nested(random: &mut Random, message: Message) -> Payload {
    Payload::Message { message, long: long(random) }
}

/// The payload of a varint.
pub fn varint(random: &mut Random, value: u64) -> Payload {
    Payload::Varint { value, long: long(random) }
}

/// The Value that holds only this.
pub fn value_of(random: &mut Random, number: u64, payload: Payload) -> Message {
    let mut value = Message::new(Form::Value);
    value.add(random, number, payload);
    value
}

/// A field of a Value that is not a Struct or list: its number and payload.
pub fn scalar(random: &mut Random) -> (u64, Payload) {
    match random.between(0, 3) {
        0 => (NULL, varint(random, 0)),
        1 if random.one_in(2) => (NUMBER, Payload::Eight(random.number().to_le_bytes())),
        1 => (NUMBER, Payload::Eight(random.choose(&DOUBLES).to_le_bytes())),
        2 => {
            let text = texts::good(random);
            (TEXT, delimited(random, text))
        }
        _ => {
            let truth = random.between(0, 1) as u64;
            (BOOL, varint(random, truth))
        }
    }
}

/// A Value in which exactly so many Structs and lists nest.
pub fn value(random: &mut Random, levels: usize) -> Message {
    let (number, payload) = kind(random, levels);
    value_of(random, number, payload)
}

/// A field of a Value in which exactly so many Structs and lists nest: its number and payload.
pub fn kind(random: &mut Random, levels: usize) -> (u64, Payload) {
    if levels == 0 {
        return scalar(random);
    }
    let (number, message) =
        if random.one_in(2) { (STRUCT, structure(random, levels)) } else { (LIST, list(random, levels)) };
    (number, nested(random, message))
}

/// How deep each of a few Values is inside a Struct or list of so many levels: one of them reaches the last level.
fn depths(random: &mut Random, levels: usize) -> Vec<usize> {
    if levels == 1 {
        let count = random.choose(&[0, 1, 1, 2, 3, 5]);
        return vec![0; count];
    }
    let count = random.choose(&[1, 1, 1, 2, 3]);
    let mut depths: Vec<usize> =
        (0..count).map(|_| if random.one_in(4) { random.between(0, levels - 1) } else { 0 }).collect();
    let deepest = random.between(0, count - 1);
    depths[deepest] = levels - 1;
    depths
}

/// A list of exactly so many levels.
pub fn list(random: &mut Random, levels: usize) -> Message {
    let mut list = Message::new(Form::List);
    for depth in depths(random, levels) {
        let value = value(random, depth);
        let payload = nested(random, value);
        list.add(random, 1, payload);
    }
    list
}

/// A Struct of exactly so many levels, no key twice in it.
pub fn structure(random: &mut Random, levels: usize) -> Message {
    let mut structure = Message::new(Form::Struct);
    let mut keys = Vec::new();
    for depth in depths(random, levels) {
        let mut key = key(random);
        while keys.contains(&key) {
            key.push(b'k');
        }
        keys.push(key.clone());
        let value = value(random, depth);
        add_entry(random, &mut structure, key, value);
    }
    structure
}

/// Adds an entry to a Struct.
pub fn add_entry(random: &mut Random, structure: &mut Message, key: Vec<u8>, value: Message) {
    let entry = entry(random, key, value);
    let payload = nested(random, entry);
    structure.add(random, 1, payload);
}

/// An entry, key and Value in either order; an empty key is there or not.
pub fn entry(random: &mut Random, key: Vec<u8>, value: Message) -> Message {
    let mut entry = Message::new(Form::Entry);
    let no_key = key.is_empty() && random.one_in(2);
    let key = delimited(random, key);
    let value = nested(random, value);
    let mut fields = vec![(KEY, key), (VALUE, value)];
    if random.one_in(3) {
        fields.reverse();
    }
    fields.retain(|(number, _)| *number != KEY || !no_key);
    for (number, payload) in fields {
        entry.add(random, number, payload);
    }
    entry
}

/// A valid Struct, mostly of few levels.
pub fn any_struct(random: &mut Random) -> Message {
    let levels = random.choose(&[1, 1, 1, 2, 2, 3, 4, 6, 8]);
    structure(random, levels)
}

/// A valid Value, mostly of few levels.
pub fn any_value(random: &mut Random) -> Message {
    let levels = random.choose(&[0, 0, 1, 1, 2, 2, 3, 4, 6, 8]);
    value(random, levels)
}

/// A valid Struct or Value.
pub fn any(random: &mut Random) -> Message {
    if random.one_in(2) {
        any_struct(random)
    } else {
        any_value(random)
    }
}

/// The keys of a Struct, in order; an entry without one has the empty key.
pub fn keys(structure: &Message) -> Vec<Vec<u8>> {
    let entries = structure.fields().filter_map(|field| match &field.payload {
        Payload::Message { message, .. } => Some(message),
        _ => None,
    });
    entries.map(key_of).collect()
}

fn key_of(entry: &Message) -> Vec<u8> {
    let key = entry.fields().find_map(|field| match &field.payload {
        Payload::Bytes { bytes, .. } if field.number == KEY => Some(bytes.clone()),
        _ => None,
    });
    key.unwrap_or_default()
}

#[cfg(test)]
mod tests {
    use super::*;
    use crate::structs;
    use crate::wire::FaultKind;

    #[test]
    fn up_to_8_levels_are_readable_and_more_are_too_deep() {
        let mut random = Random::new(2);
        for levels in 0..=10 {
            for _ in 0..100 {
                let fault = structs::read_value(&value(&mut random, levels).bytes()).err();
                assert_eq!(fault.map(|fault| fault.kind), (levels > 8).then_some(FaultKind::TooDeep));
                let fault = structs::read_struct(&structure(&mut random, levels.max(1)).bytes()).err();
                assert_eq!(fault.map(|fault| fault.kind), (levels > 8).then_some(FaultKind::TooDeep));
            }
        }
    }

    #[test]
    fn the_keys_are_those_that_the_model_reads() {
        let mut random = Random::new(3);
        for _ in 0..500 {
            let structure = any_struct(&mut random);
            let bytes = structure.bytes();
            let entries = structs::read_struct(&bytes).unwrap();
            assert_eq!(keys(&structure), entries.into_iter().map(|entry| entry.key).collect::<Vec<_>>());
        }
    }
}
