//! Calls of endpoints: from good blocks of every kind and from bad ones, with arguments that fit and ones that do not,
//! and in sessions of two ends.

pub mod blocks;
pub mod broken;
pub mod damaged;
pub mod drafts;
pub mod every;
pub mod making;
pub mod marked;
pub mod opens;
pub mod sends;
pub mod sessions;
pub mod sizes;
pub mod unconfirmed;

use crate::random::Random;

/// The bytes of a reply, and of every message without a data frame.
const REPLY: usize = 14;

/// The most bytes of an OPEN frame.
const MOST_OPEN: usize = 4096;

/// A room for a reply: mostly long enough, now and then too short or very long.
fn reply_room(random: &mut Random) -> usize {
    match random.between(0, 39) {
        0 => random.between(1000, 5000),
        1 => random.choose(&[0, 1, 13]),
        2 => 13,
        3 => random.between(0, REPLY - 1),
        4..=19 => REPLY,
        20 | 21 => REPLY + 1,
        _ => REPLY + random.between(0, 40),
    }
}

/// A room for a message of so many bytes: mostly near what is needed, now and then very long.
fn room_for(random: &mut Random, needed: usize) -> usize {
    match random.between(0, 23) {
        0 => needed + random.between(1000, 5000),
        1 | 2 => random.choose(&[0, 13, 14, 15]),
        3 => random.between(0, needed),
        4 | 5 => needed.saturating_sub(1),
        6..=11 => needed,
        12 | 13 => needed + 1,
        _ => needed + random.between(0, 40),
    }
}

#[cfg(test)]
mod tests;
