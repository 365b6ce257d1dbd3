//! Limits: the doubles around every boundary, what is not a number, and limits that do not count.

use super::messages::{Form, Message, Payload};
use super::{add, alike, trees, Calls};
use crate::calls::{Limit, LimitBytes, Lookup};
use crate::limit;
use crate::random::Random;
use crate::structs::{LIST, NUMBER, STRUCT, TEXT};

/// Doubles with whole values at the ends of the range, of other ranges, and of the doubles themselves.
const WHOLE: [f64; 26] = [
    0.0,
    1.0,
    2.0,
    255.0,
    65_536.0,
    999_998.0,
    999_999.0,
    1_000_000.0,
    1_000_001.0,
    2_000_000.0,
    16_777_216.0,
    16_777_217.0,
    33_554_432.0,
    33_554_433.0,
    49_999_999.0,
    50_000_000.0,
    50_000_001.0,
    50_000_002.0,
    2_147_483_648.0,
    4_294_967_296.0,
    4_295_967_296.0,
    9_007_199_254_740_992.0,
    9_223_372_036_854_775_808.0,
    18_446_744_073_709_551_616.0,
    18_446_744_073_710_551_616.0,
    1e300,
];

/// Doubles that are no whole number, or no number at all.
const STRANGE: [u64; 14] = [
    1,
    0x000F_FFFF_FFFF_FFFF,
    0x0010_0000_0000_0000,
    0x3FE0_0000_0000_0000,
    0x3FEF_FFFF_FFFF_FFFF,
    0x7FEF_FFFF_FFFF_FFFF,
    0x7FF0_0000_0000_0000,
    0x7FF0_0000_0000_0001,
    0x7FF8_0000_0000_0000,
    0x7FFF_FFFF_FFFF_FFFF,
    0x7FF8_4848_0000_0000,
    0x412E_8480_8000_0000,
    0x4000_0000_0000_0000,
    0xFFFF_FFFF_FFFF_FFFF,
];

/// The bits of every double that is tried: with its neighbours, with a half added, and each with the other sign.
pub fn every_double() -> Vec<u64> {
    let mut doubles = STRANGE.to_vec();
    for whole in WHOLE {
        let bits = whole.to_bits();
        doubles.extend([bits, bits + 1, bits.saturating_sub(1), (whole + 0.5).to_bits(), (whole - 0.5).to_bits()]);
        doubles.extend([(whole + 0.25).to_bits(), bits.swap_bytes(), (whole as u64).swap_bytes(), whole as u64]);
        doubles.extend(f64::from(whole as f32).to_bits().checked_add(1 << 29));
    }
    doubles.iter().flat_map(|bits| [*bits, bits ^ 1 << 63]).collect()
}

/// The Value of this double.
pub fn number(random: &mut Random, bits: u64) -> Message {
    trees::value_of(random, NUMBER, Payload::Eight(bits.to_le_bytes()))
}

/// Adds an entry with the limit's key to a Struct, at any place among the others.
pub fn add_limit(random: &mut Random, parameters: &mut Message, value: Message) {
    trees::add_entry(random, parameters, limit::KEY.to_vec(), value);
    let last = parameters.parts.len() - 1;
    let place = random.between(0, last);
    parameters.parts[place..].rotate_right(1);
}

/// A Struct of a few entries, none of them the limit.
pub fn other_parameters(random: &mut Random) -> Message {
    loop {
        let parameters = trees::any_struct(random);
        if !trees::keys(&parameters).iter().any(|key| key == limit::KEY) {
            return parameters;
        }
    }
}

pub fn every_limit(random: &mut Random) -> Calls {
    let mut calls = Calls::new();
    for bits in every_double() {
        let mut parameters = Message::new(Form::Struct);
        let value = number(random, bits);
        add_limit(random, &mut parameters, value);
        add(&mut calls, Limit { parameters: parameters.bytes() });
    }
    add(&mut calls, Limit { parameters: Vec::new() });
    calls
}

/// A good limit under the limit's key, and under keys that differ from it at every byte.
pub fn keys_alike(random: &mut Random) -> Calls {
    let mut calls = Calls::new();
    for key in alike::like(limit::KEY) {
        let mut parameters = Message::new(Form::Struct);
        let value = number(random, 2_000_000f64.to_bits());
        trees::add_entry(random, &mut parameters, key, value);
        add(&mut calls, Limit { parameters: parameters.bytes() });
    }
    calls
}

/// A double that is near the range or in it, whole or nearly so.
pub fn double(random: &mut Random) -> u64 {
    match random.between(0, 5) {
        0 => random.number(),
        1 => (random.between(0, 60_000_000) as f64).to_bits() ^ 1 << random.between(0, 63),
        2 => (random.between(0, 120_000_000) as f64 / 2.0).to_bits(),
        3 => random.choose(&WHOLE).to_bits(),
        _ => (random.between(999_990, 50_000_010) as f64).to_bits(),
    }
}

/// Limits among other parameters.
pub fn random_limits(random: &mut Random) -> Calls {
    let mut calls = Calls::new();
    for _ in 0..80 {
        let mut parameters = other_parameters(random);
        let bits = double(random);
        let value = number(random, bits);
        add_limit(random, &mut parameters, value);
        add(&mut calls, Limit { parameters: parameters.bytes() });
    }
    calls
}

/// A Value that holds the good limit of 2,000,000 somewhere inside, but is not a number.
pub fn hidden_limit(random: &mut Random) -> Message {
    let value = number(random, 2_000_000f64.to_bits());
    match random.between(0, 2) {
        0 => {
            let payload = trees::delimited(random, b"2000000".to_vec());
            trees::value_of(random, TEXT, payload)
        }
        1 => {
            let mut list = Message::new(Form::List);
            let payload = trees::nested(random, value);
            list.add(random, 1, payload);
            let payload = trees::nested(random, list);
            trees::value_of(random, LIST, payload)
        }
        _ => {
            let mut inner = Message::new(Form::Struct);
            add_limit(random, &mut inner, value);
            let payload = trees::nested(random, inner);
            trees::value_of(random, STRUCT, payload)
        }
    }
}

/// Limits that are not a number, that stand deeper or under another key, and parameters that are unreadable.
pub fn no_limits(random: &mut Random) -> Calls {
    let mut calls = Calls::new();
    for _ in 0..25 {
        let other_keys: [&[u8]; 5] = [b"max_message_byte", b"max_message_bytes ", b"Max_message_bytes", b"", b"limit"];
        let key = if random.one_in(2) { limit::KEY } else { random.choose(&other_keys) };
        let value = if random.one_in(3) { trees::any_value(random) } else { hidden_limit(random) };
        let mut parameters = Message::new(Form::Struct);
        trees::add_entry(random, &mut parameters, key.to_vec(), value);
        let bytes = parameters.bytes();
        add(&mut calls, Lookup { client: bytes.clone(), defaults: Vec::new(), key: limit::KEY.to_vec() });
        let cut = bytes[..random.between(0, bytes.len() - 1)].to_vec();
        add(&mut calls, Limit { parameters: bytes });
        add(&mut calls, Limit { parameters: cut });
        let value = number(random, 2_000_000f64.to_bits());
        add_limit(random, &mut parameters, value);
        add(&mut calls, Limit { parameters: parameters.bytes() });
    }
    calls
}

/// Whole numbers around every power of two and at the ends of the range.
pub fn whole_numbers() -> Vec<u32> {
    let mut numbers = Vec::new();
    for power in 0..32 {
        numbers.extend([(1 << power) - 1, 1 << power, (1 << power) + 1, u32::MAX - (1 << power), u32::MAX >> power]);
    }
    numbers.extend([999_999, 1_000_000, 1_000_001, 49_999_999, 50_000_000, 50_000_001, u32::MAX]);
    numbers
}

pub fn every_limit_bytes(_: &mut Random) -> Calls {
    let mut calls = Calls::new();
    for number in whole_numbers() {
        add(&mut calls, LimitBytes { number });
    }
    calls
}

pub fn random_limit_bytes(random: &mut Random) -> Calls {
    let mut calls = Calls::new();
    for _ in 0..60 {
        let number = (random.number() >> random.between(32, 63)) as u32;
        add(&mut calls, LimitBytes { number });
    }
    calls
}
