//! OPEN frames that are written into rooms of all sizes, and read again as they were written.

use super::{add_frame, add_met, offer, opening, short_text};
use crate::calls::{ReadOpen, WriteOpen};
use crate::generate::{add, limits, texts, Calls};
use crate::limit;
use crate::open::{self, Opening, DEFAULT_LIMIT, MOST_TEXT};
use crate::random::Random;

/// Places that are far outside of every room.
const FAR: [u64; 9] =
    [1 << 31, 1 << 32, (1 << 32) + 1, (1 << 63) - 1, 1 << 63, u64::MAX - 44, u64::MAX - 10, u64::MAX - 1, u64::MAX];

/// Lengths of names and formats next to which a length grows or is too long.
const LENGTHS: [usize; 12] = [0, 1, 2, 126, 127, 128, 129, 254, 255, 256, 257, 65_537];

/// The bytes of an opening's frame; none where it is bad.
fn frame(opening: &Opening) -> Vec<u8> {
    open::frame(opening).unwrap_or_default()
}

/// Every room for a short frame, and every place in and behind that room and far outside it.
pub fn every_room(_: &mut Random) -> Calls {
    let mut calls = Calls::new();
    for (producer, limit) in [(true, DEFAULT_LIMIT), (false, DEFAULT_LIMIT), (true, 1_000_000), (false, 0)] {
        let opening = Opening { producer, name: b"press7".to_vec(), format: Vec::new(), limit };
        for room in 0..=frame(&opening).len() + 4 {
            for at in (0..=room as u64 + 1).chain(FAR) {
                add(&mut calls, WriteOpen { room, at, opening: opening.clone() });
            }
        }
    }
    calls
}

/// Asks for a frame in a room that is one byte too short for it, just long enough, and longer.
fn add_rooms(calls: &mut Calls, opening: &Opening, at: usize) {
    let needed = at + frame(opening).len();
    for room in [needed.saturating_sub(1), needed, needed + 1, needed + 40] {
        add(calls, WriteOpen { room, at: at as u64, opening: opening.clone() });
    }
}

/// Names and formats of every length that matters, with and without a limit.
pub fn every_length(random: &mut Random) -> Calls {
    let mut calls = Calls::new();
    for name in LENGTHS {
        for format in LENGTHS {
            for limit in [DEFAULT_LIMIT, 1_000_000] {
                let (name, format) = (texts::of_length(random, name), texts::of_length(random, format));
                let opening = Opening { producer: random.one_in(2), name, format, limit };
                add_rooms(&mut calls, &opening, random.between(0, 3));
            }
        }
    }
    calls
}

/// Limits around every boundary; what is written of them is read again.
pub fn every_limit(random: &mut Random) -> Calls {
    let mut calls = Calls::new();
    for limit in limits::whole_numbers() {
        let opening = Opening { limit, ..opening(random) };
        add_rooms(&mut calls, &opening, 0);
        add_round_trip(&mut calls, random, &opening);
    }
    calls
}

/// What a client may give as a name or a format: mostly a good one, now and then empty, too long or not UTF-8.
pub fn given_text(random: &mut Random) -> Vec<u8> {
    match random.between(0, 11) {
        0 => Vec::new(),
        1 => texts::bad(random),
        2 => {
            let length = random.between(MOST_TEXT - 1, MOST_TEXT + 3);
            texts::of_length(random, length)
        }
        3 => [texts::of_length(random, MOST_TEXT - 4), texts::bad(random)].concat(),
        _ => short_text(random),
    }
}

/// What a client may give, with any limit.
fn given(random: &mut Random) -> Opening {
    let limit = if random.one_in(2) { DEFAULT_LIMIT } else { (random.number() >> random.between(32, 63)) as u32 };
    Opening { producer: random.one_in(2), name: given_text(random), format: given_text(random), limit }
}

/// Good and bad openings in rooms of any size, mostly near what is needed.
pub fn random_writes(random: &mut Random) -> Calls {
    let mut calls = Calls::new();
    for _ in 0..200 {
        let opening = given(random);
        let at = random.choose(&[0, 0, 1, 8, 18]) + random.between(0, 2);
        let needed = at + frame(&opening).len();
        let room = match random.between(0, 7) {
            0 => 0,
            1 => random.between(0, needed),
            2 => needed.saturating_sub(1),
            3 => needed,
            _ => needed + random.between(0, 40),
        };
        let at = if random.one_in(12) { random.choose(&FAR) } else { at as u64 };
        add(&mut calls, WriteOpen { room, at, opening });
    }
    calls
}

/// Asks for a frame and then about the frame that was written: a good limit must be heard again with all the rest, and
/// any other must be refused as 19.
pub fn add_round_trip(calls: &mut Calls, random: &mut Random, opening: &Opening) {
    let frame = frame(opening);
    let (before, behind) = (random.between(0, 24), random.between(0, 8));
    let (at, room) = (before as u64, before + frame.len() + behind);
    add(calls, WriteOpen { room, at, opening: opening.clone() });
    let message = [&random.bytes(before)[..], &frame, &random.bytes(behind)].concat();
    let offer = offer(random, opening);
    let read = ReadOpen { message, at, end: at + frame.len() as u64, offer };
    if limit::is_good(f64::from(opening.limit)) {
        add_met(calls, read, opening);
        return;
    }
    let (number, _) = open::heard(&read.message, read.at, read.end, &read.offer);
    assert_eq!(number, open::OUT_OF_RANGE);
    add(calls, read);
}

/// What was written is read as the same socket, name, format and limit; a server of the client's own flow does not offer
/// it.
pub fn round_trips(random: &mut Random) -> Calls {
    let mut calls = Calls::new();
    for _ in 0..150 {
        let opening = opening(random);
        add_round_trip(&mut calls, random, &opening);
        if random.one_in(4) {
            let mut offer = offer(random, &opening);
            offer.producer = opening.producer;
            add_frame(&mut calls, random, &frame(&opening), &offer);
        }
    }
    calls
}
