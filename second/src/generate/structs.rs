//! Structs and Values: valid ones of every depth, ones that break a rule or two, damaged and cut ones, many keys, and
//! random bytes.

use super::broken::{break_rule, broken, RULES};
use super::messages::{damages, long_varint, shifts, Form, Message};
use super::{add, trees, Calls};
use crate::calls::{Check, Limit, Lookup, ReadValue};
use crate::random::Random;
use crate::structs;

/// Adds what is asked about bytes that are meant as a Struct or a Value, and now and then as the other one.
fn add_message(calls: &mut Calls, random: &mut Random, form: Form, bytes: Vec<u8>) {
    let value = (form == Form::Value) ^ random.one_in(16);
    add(calls, Check { bytes: bytes.clone(), value });
    match (value, random.between(0, 5)) {
        (true, 0..=3) => add(calls, ReadValue { bytes }),
        (false, 0) => add(calls, Lookup { client: bytes, defaults: Vec::new(), key: trees::common_key(random) }),
        (false, 1) => add(calls, Lookup { client: Vec::new(), defaults: bytes, key: trees::common_key(random) }),
        (false, 2) => add(calls, Limit { parameters: bytes }),
        _ => {}
    }
}

/// Adds what is asked about a valid Struct: every key of it is looked up, and one that may not be there.
fn add_struct(calls: &mut Calls, random: &mut Random, structure: &Message) {
    let bytes = structure.bytes();
    for key in trees::keys(structure) {
        add(calls, Lookup { client: bytes.clone(), defaults: Vec::new(), key });
    }
    add_message(calls, random, Form::Struct, bytes);
}

/// Every level from the first to one too many.
pub fn every_level(random: &mut Random) -> Calls {
    let mut calls = Calls::new();
    for levels in 1..=9 {
        for _ in 0..3 {
            let structure = trees::structure(random, levels);
            add_struct(&mut calls, random, &structure);
            let value = trees::value(random, levels).bytes();
            add(&mut calls, ReadValue { bytes: value.clone() });
            add_message(&mut calls, random, Form::Value, value);
            let scalar = trees::value(random, 0).bytes();
            add(&mut calls, ReadValue { bytes: scalar });
        }
    }
    let levels = random.between(10, 30);
    let value = trees::value(random, levels).bytes();
    add_message(&mut calls, random, Form::Value, value);
    calls
}

/// Every rule broken once; the model must find each breach where it was made.
pub fn one_rule_broken(random: &mut Random) -> Calls {
    let mut calls = Calls::new();
    for rule in RULES {
        for _ in 0..10 {
            let (form, written) = broken(rule, random);
            let (_, fault) = structs::check(&written.bytes, form == Form::Value);
            assert_eq!(fault, [rule.kind as u64, written.mark.expect("a breach is marked") as u64]);
            add_message(&mut calls, random, form, written.bytes);
        }
    }
    calls
}

/// A few rules broken in one message, so that the first fault has others behind it.
pub fn some_rules_broken(random: &mut Random) -> Calls {
    let mut calls = Calls::new();
    for _ in 0..150 {
        let mut message = trees::any(random);
        for _ in 0..random.between(2, 4) {
            let rule = &RULES[random.between(0, RULES.len() - 1)];
            break_rule(rule, &mut message, random);
        }
        add_message(&mut calls, random, message.form, message.bytes());
    }
    calls
}

/// A valid Struct or Value that is short enough to be tried at every byte.
fn short(random: &mut Random) -> (Form, Vec<u8>) {
    loop {
        let message = trees::any(random);
        let bytes = message.bytes();
        if (1..=90).contains(&bytes.len()) {
            return (message.form, bytes);
        }
    }
}

pub fn damaged(random: &mut Random) -> Calls {
    let mut calls = Calls::new();
    let (form, bytes) = short(random);
    for place in 0..bytes.len() {
        for damaged in damages(random, &bytes, place) {
            add_message(&mut calls, random, form, damaged);
        }
    }
    calls
}

/// Valid messages with one byte left out, put in, or moved to another place.
pub fn shifted(random: &mut Random) -> Calls {
    let mut calls = Calls::new();
    for _ in 0..40 {
        let (form, bytes) = short(random);
        for shifted in shifts(random, &bytes) {
            add_message(&mut calls, random, form, shifted);
        }
    }
    calls
}

/// Every cut, and bytes behind.
pub fn cut(random: &mut Random) -> Calls {
    let mut calls = Calls::new();
    for _ in 0..2 {
        let (form, bytes) = short(random);
        for length in 0..bytes.len() {
            add_message(&mut calls, random, form, bytes[..length].to_vec());
        }
        let behind = random.between(1, 4);
        let behind = random.bytes(behind);
        add_message(&mut calls, random, form, [bytes, behind].concat());
    }
    calls
}

fn either(random: &mut Random) -> Form {
    random.choose(&[Form::Struct, Form::Value])
}

pub fn random_bytes(random: &mut Random) -> Calls {
    let mut calls = Calls::new();
    for _ in 0..40 {
        let length = random.between(0, 40);
        let bytes = random.bytes(length);
        let form = either(random);
        add_message(&mut calls, random, form, bytes);
        let length = random.between(0, 20);
        let bytes = (0..length).map(|_| random.choose(&[0, 1, 2, 4, 8, 0x0A, 0x12, 0x1A, 0x20, 0x2A, 0x32, 0x80]));
        let bytes = bytes.collect();
        let form = either(random);
        add_message(&mut calls, random, form, bytes);
    }
    calls
}

/// Fields of low numbers and any wire type, their lengths mostly right, nested at random.
pub fn plausible(random: &mut Random, levels: usize) -> Vec<u8> {
    let mut bytes = Vec::new();
    for _ in 0..random.choose(&[0, 1, 1, 1, 2]) {
        let number = random.choose(&[1, 1, 1, 2, 2, 3, 4, 5, 6, 7]);
        let wire_type = random.choose(&[0, 0, 1, 2, 2, 2, 2, 5, 3]);
        bytes.extend(long_varint(8 * number + wire_type, usize::from(random.one_in(8))));
        match wire_type {
            0 => bytes.push(random.between(0, 2) as u8),
            1 => bytes.extend(random.bytes(8)),
            5 => bytes.extend(random.bytes(4)),
            2 => {
                let inner = if levels == 0 { vec![b'a'; random.between(0, 2)] } else { plausible(random, levels - 1) };
                let off_by_one = u64::from(random.one_in(12));
                bytes.extend(long_varint(inner.len() as u64 + off_by_one, usize::from(random.one_in(8))));
                bytes.extend(inner);
            }
            _ => {}
        }
    }
    bytes
}

pub fn plausible_fields(random: &mut Random) -> Calls {
    let mut calls = Calls::new();
    for _ in 0..100 {
        let levels = random.between(0, 8);
        let bytes = plausible(random, levels);
        let form = either(random);
        add_message(&mut calls, random, form, bytes);
    }
    calls
}

/// Keys that are much alike: of one length and differing in one byte, or of many lengths and with one prefix.
pub fn similar_keys(random: &mut Random, count: usize) -> Vec<Vec<u8>> {
    let length = random.between(4, 40);
    let prefix: Vec<u8> = (0..length).map(|_| b'a' + random.byte() % 26).collect();
    let sort = random.between(0, 2);
    let keys = (0..count).map(|number| match sort {
        0 => [&prefix[..], format!("{number:03}").as_bytes()].concat(),
        1 => [format!("{number:03}").as_bytes(), &prefix[..]].concat(),
        _ => prefix[..length.min(number)].iter().copied().chain(vec![b'z'; number.saturating_sub(length)]).collect(),
    });
    keys.collect()
}

/// A Struct of these keys, each with a scalar Value.
pub fn struct_of_keys(random: &mut Random, keys: &[Vec<u8>]) -> Message {
    let mut structure = Message::new(Form::Struct);
    for key in keys {
        let value = trees::value(random, 0);
        trees::add_entry(random, &mut structure, key.clone(), value);
    }
    structure
}

/// Structs of many keys, as they are and with one key repeated near or far.
pub fn many_keys(random: &mut Random) -> Calls {
    let mut calls = Calls::new();
    for count in [3, 8, 20, 40] {
        let mut keys = similar_keys(random, count);
        let bytes = struct_of_keys(random, &keys).bytes();
        let (first, last) = (keys[0].clone(), keys[count - 1].clone());
        for key in [first.clone(), last.clone(), keys[random.between(0, count - 1)].clone(), [last, vec![0]].concat()] {
            add(&mut calls, Lookup { client: bytes.clone(), defaults: Vec::new(), key });
        }
        add(&mut calls, Check { bytes, value: false });
        for place in [1, count - 1, random.between(1, count - 1)] {
            let repeated = keys[random.between(0, place - 1)].clone();
            let kept = std::mem::replace(&mut keys[place], repeated);
            add(&mut calls, Check { bytes: struct_of_keys(random, &keys).bytes(), value: false });
            keys[place] = kept;
        }
        keys[count - 1] = first;
        add(&mut calls, Check { bytes: struct_of_keys(random, &keys).bytes(), value: false });
    }
    calls
}

/// Structs of hundreds of keys, good and with the last one repeated from the start.
pub fn hundreds_of_keys(random: &mut Random) -> Calls {
    let mut calls = Calls::new();
    for count in [100, 300, 600] {
        let mut keys = similar_keys(random, count);
        let bytes = struct_of_keys(random, &keys).bytes();
        for key in [keys[0].clone(), keys[count - 1].clone(), b"none".to_vec()] {
            add(&mut calls, Lookup { client: bytes.clone(), defaults: bytes.clone(), key });
        }
        add(&mut calls, Check { bytes, value: false });
        keys[count - 1] = keys[0].clone();
        add(&mut calls, Check { bytes: struct_of_keys(random, &keys).bytes(), value: false });
    }
    calls
}

/// Lists that are long, of Values that are short; the last one is damaged in some.
pub fn long_lists(random: &mut Random) -> Calls {
    let mut calls = Calls::new();
    for count in [127, 128, 5000] {
        let mut list = [0x0A, 2, 0x20, 1].repeat(count);
        for last in [1, 2] {
            *list.last_mut().expect("a list of Values has bytes") = last;
            let bytes = [&[0x32][..], &long_varint(list.len() as u64, 0), &list].concat();
            add(&mut calls, ReadValue { bytes: bytes.clone() });
            add(&mut calls, Check { bytes, value: true });
        }
        let length = 4 * count;
        let text = [&[0x1A][..], &long_varint(length as u64, 0), &vec![b'x'; length]].concat();
        add(&mut calls, ReadValue { bytes: text.clone() });
        let damaged = [&text[..text.len() - 1], &[random.byte() | 0x80]].concat();
        add(&mut calls, ReadValue { bytes: damaged });
    }
    calls
}
