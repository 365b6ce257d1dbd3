//! The stored vectors that Google's protobuf serialized: every one of them, and every term of theirs.

use super::open::writers::add_round_trip;
use super::open::{add_frame, add_met, other_text, read_somewhere};
use super::{add, Calls};
use crate::calls::{Check, Limit, Lookup, ReadValue};
use crate::open::{self, Offer};
use crate::random::Random;
use crate::structs::UNREADABLE;
use crate::vectors;

pub fn every_struct(_: &mut Random) -> Calls {
    let mut calls = Calls::new();
    for vector in vectors::structs() {
        let (value, terms, bytes) = (vector.is_value(), vector.terms(), vector.bytes);
        add(&mut calls, Check { bytes: bytes.clone(), value });
        if value {
            add(&mut calls, ReadValue { bytes });
            continue;
        }
        add_terms(&mut calls, &bytes, terms);
        add(&mut calls, Lookup { client: bytes.clone(), defaults: Vec::new(), key: b"no such key".to_vec() });
        add(&mut calls, Lookup { client: Vec::new(), defaults: bytes.clone(), key: b"no such key".to_vec() });
        add(&mut calls, Limit { parameters: bytes });
    }
    calls
}

/// Looks every term up in the client's parameters and in the defaults, and reads its Value alone.
fn add_terms(calls: &mut Calls, bytes: &[u8], terms: Vec<(Vec<u8>, Vec<u8>)>) {
    for (key, value) in terms {
        add(calls, Lookup { client: bytes.to_vec(), defaults: Vec::new(), key: key.clone() });
        add(calls, Lookup { client: Vec::new(), defaults: bytes.to_vec(), key });
        add(calls, ReadValue { bytes: value });
    }
}

/// Every OPEN frame: one that a client writes must be the model's very bytes, and any other must be heard, or refused,
/// as it is stored.
pub fn every_open(random: &mut Random) -> Calls {
    let mut calls = Calls::new();
    for vector in vectors::opens() {
        let offer = vector.offer();
        if let Some(refusal) = vector.refusal() {
            assert_eq!(refused(&vector.bytes, &offer), refusal);
        } else if vector.is_written() {
            assert_eq!(open::frame(&vector.opening()).as_ref(), Some(&vector.bytes));
            add_round_trip(&mut calls, random, &vector.opening());
        } else {
            let read = read_somewhere(random, &vector.bytes, &offer);
            add_met(&mut calls, read, &vector.opening());
        }
        add_offers(&mut calls, random, &vector.bytes, &offer);
    }
    calls
}

/// The number with which the model refuses a frame, and the kind of its fault where that is 18.
fn refused(frame: &[u8], offer: &Offer) -> (u64, u64) {
    let (number, heard) = open::heard(frame, 0, frame.len() as u64, offer);
    assert_eq!(heard[8] != 0, number == UNREADABLE);
    (number, heard[8])
}

/// Asks about a frame with this offer, and with others in flow, name and format.
fn add_offers(calls: &mut Calls, random: &mut Random, frame: &[u8], offer: &Offer) {
    let (name, format) = (other_text(random, &offer.name), other_text(random, &offer.format));
    let offers = [
        offer.clone(),
        Offer { producer: !offer.producer, ..offer.clone() },
        Offer { name, ..offer.clone() },
        Offer { format, ..offer.clone() },
    ];
    for offer in offers {
        add_frame(calls, random, frame, &offer);
    }
}
