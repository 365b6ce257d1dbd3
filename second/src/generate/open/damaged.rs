//! OPEN frames that are damaged or cut at every byte, and random bytes.

use super::{add_frame, every, met, surrounding};
use crate::calls::ReadOpen;
use crate::generate::messages::{damages, shifts};
use crate::generate::{add, structs, Calls};
use crate::open::Offer;
use crate::random::Random;

/// A frame that meets its offer and is short enough to be tried at every byte.
fn short(random: &mut Random) -> (Vec<u8>, Offer) {
    loop {
        let (said, offer) = met(random);
        let frame = said.message(random).bytes();
        if frame.len() <= 90 {
            return (frame, offer);
        }
    }
}

pub fn damaged(random: &mut Random) -> Calls {
    let mut calls = Calls::new();
    let (frame, offer) = short(random);
    for place in 0..frame.len() {
        for damaged in damages(random, &frame, place) {
            add_frame(&mut calls, random, &damaged, &offer);
        }
    }
    calls
}

/// Frames with one byte left out, put in, or moved to another place.
pub fn shifted(random: &mut Random) -> Calls {
    let mut calls = Calls::new();
    for _ in 0..40 {
        let (frame, offer) = short(random);
        for shifted in shifts(random, &frame) {
            add_frame(&mut calls, random, &shifted, &offer);
        }
    }
    calls
}

/// Every cut: by the end that is given, by the end of the message and that end alike, and by the message's end alone.
pub fn cut(random: &mut Random) -> Calls {
    let mut calls = Calls::new();
    for _ in 0..2 {
        let (frame, offer) = short(random);
        let (before, behind) = (surrounding(random, &frame), surrounding(random, &frame));
        let whole = [&before[..], &frame, &behind].concat();
        let (start, end) = (before.len(), before.len() + frame.len());
        let mut ask = |message: &[u8], end: usize| {
            let offer = offer.clone();
            add(&mut calls, ReadOpen { message: message.to_vec(), at: start as u64, end: end as u64, offer });
        };
        for cut in start..=end {
            ask(&whole, cut);
            ask(&whole[..cut], cut);
            ask(&whole[..cut], end);
        }
    }
    calls
}

/// Any bytes, and fields of low numbers and any wire type.
pub fn random_bytes(random: &mut Random) -> Calls {
    let mut calls = Calls::new();
    for _ in 0..60 {
        let (_, offer) = met(random);
        let length = random.between(0, 40);
        let bytes = random.bytes(length);
        add_frame(&mut calls, random, &bytes, &offer);
        let levels = random.between(0, 5);
        let fields = [structs::plausible(random, levels), structs::plausible(random, levels)].concat();
        add_frame(&mut calls, random, &fields, &offer);
    }
    calls
}

/// A few good and bad fields in any order, and an offer that they may meet.
pub fn fields_and_offer(random: &mut Random) -> (Vec<u8>, Offer) {
    let count = random.between(2, 8);
    let frame = (0..count).flat_map(|_| random.choose(&every::FIELDS).to_vec()).collect();
    (frame, every::offer(random))
}

/// A few good and bad fields in any order.
pub fn random_fields(random: &mut Random) -> Calls {
    let mut calls = Calls::new();
    for _ in 0..200 {
        let (frame, offer) = fields_and_offer(random);
        add_frame(&mut calls, random, &frame, &offer);
    }
    calls
}
