//! Lookups: terms in the client's parameters, in the defaults, in both and in none, and Structs that are unreadable or
//! have keys that are much alike.

use super::broken::{broken, RULES};
use super::messages::{Form, Message};
use super::open::other_text;
use super::structs::struct_of_keys;
use super::{add, alike, texts, trees, Calls};
use crate::calls::{Check, Lookup};
use crate::random::Random;

/// A key to look for: one of a Struct, one that is much like it, or any other.
fn key(random: &mut Random, keys: &[Vec<u8>]) -> Vec<u8> {
    if keys.is_empty() || random.one_in(4) {
        return if random.one_in(4) { texts::bad(random) } else { trees::key(random) };
    }
    let key = keys[random.between(0, keys.len() - 1)].clone();
    if random.one_in(4) {
        return other_text(random, &key);
    }
    key
}

/// Readable Structs that share some keys, and now and then an empty slice.
pub fn readable(random: &mut Random) -> Calls {
    let mut calls = Calls::new();
    for _ in 0..60 {
        let (client, defaults) = (trees::any_struct(random), trees::any_struct(random));
        let keys = [trees::keys(&client), trees::keys(&defaults)].concat();
        let (mut client, mut defaults) = (client.bytes(), defaults.bytes());
        match random.between(0, 5) {
            0 => client = Vec::new(),
            1 => defaults = Vec::new(),
            2 => defaults = client.clone(),
            _ => {}
        }
        for _ in 0..3 {
            let key = key(random, &keys);
            add(&mut calls, Lookup { client: client.clone(), defaults: defaults.clone(), key });
        }
    }
    calls
}

/// A Struct in which one rule is broken.
fn unreadable(random: &mut Random) -> Vec<u8> {
    loop {
        let rule = &RULES[random.between(0, RULES.len() - 1)];
        if let (Form::Struct, written) = broken(rule, random) {
            return written.bytes;
        }
    }
}

/// The client's parameters, the defaults, or both cannot be read, wherever the term is.
pub fn unreadable_structs(random: &mut Random) -> Calls {
    let mut calls = Calls::new();
    for _ in 0..40 {
        let readable = trees::any_struct(random);
        let key = key(random, &trees::keys(&readable));
        let (readable, bad) = (readable.bytes(), unreadable(random));
        let bad_behind = [&readable[..], &[random.byte() | 0x80]].concat();
        for (client, defaults) in [
            (readable.clone(), bad.clone()),
            (bad.clone(), readable.clone()),
            (bad.clone(), bad_behind.clone()),
            (bad_behind.clone(), readable.clone()),
            (readable.clone(), bad_behind),
            (Vec::new(), bad),
        ] {
            add(&mut calls, Lookup { client, defaults, key: key.clone() });
        }
    }
    calls
}

/// Every pair of Structs with at most one of a few keys, and every one of those keys.
pub fn every_small_pair(random: &mut Random) -> Calls {
    let keys: [&[u8]; 5] = [b"", b"a", b"ab", b"b", b"abc"];
    let mut structs = vec![Vec::new()];
    for key in keys {
        for _ in 0..2 {
            let mut structure = Message::new(Form::Struct);
            let value = trees::value(random, 0);
            trees::add_entry(random, &mut structure, key.to_vec(), value);
            structs.push(structure.bytes());
        }
    }
    let mut calls = Calls::new();
    for client in &structs {
        for defaults in &structs {
            for key in keys {
                add(&mut calls, Lookup { client: client.clone(), defaults: defaults.clone(), key: key.to_vec() });
            }
        }
    }
    calls
}

/// Keys to look for that are the same as that of a Struct or differ from it at every byte, and Structs of two such keys.
pub fn keys_alike(random: &mut Random) -> Calls {
    let mut calls = Calls::new();
    for key in alike::every_text(random) {
        for other in alike::like(&key) {
            let mut slices = [struct_of_keys(random, std::slice::from_ref(&key)).bytes(), Vec::new()];
            random.shuffle(&mut slices);
            let [client, defaults] = slices;
            add(&mut calls, Lookup { client, defaults, key: other.clone() });
            let mut keys = [key.clone(), other];
            random.shuffle(&mut keys);
            add(&mut calls, Check { bytes: struct_of_keys(random, &keys).bytes(), value: false });
        }
    }
    calls
}
