//! The model of an endpoint: making one, what it sends and what it receives. The host lends its state as a block of 64
//! bytes, which is changed in place as `out` is, and gets a number.

mod copies;
mod histories;
mod receive;
mod rest;
mod send;
mod state;

pub use copies::{made, received, sent};
pub use histories::{Histories, CLIENT, ENDS, SERVER};
pub use receive::{body_heard, receive, Heard};
pub use rest::{agree_at_rest, send_at_rest};
pub use send::{send, Send, ASK, NO_BODY};
pub use state::{Awaited, Entry, Flow, Phase, Role, State, BLOCK, LIMITS, MOST_AWAITED};

use crate::open::BAD_GIVEN;

/// The numbers answered for the block, for an output that is too short, and in phase 5.
pub const BAD_BLOCK: u64 = 1;
pub const SHORT_OUTPUT: u64 = 2;
pub const IS_CLOSED: u64 = 3;

/// The message types.
pub const OPEN: u8 = 1;
pub const READY: u8 = 2;
pub const NOOP: u8 = 3;
pub const DATA: u8 = 4;
pub const CLOSE: u8 = 5;

/// The flags.
pub const ACK_REQUEST: u8 = 1;
pub const ACK_REPLY: u8 = 2;

/// Makes an endpoint of this role, flow and limit in a block, and answers 0; else the number that applies.
///
/// Of the block only the length is looked at. A server's limit is 50,000,000.
pub fn make(block: &mut [u8], role: Role, flow: u8, limit: u32) -> u64 {
    if block.len() != BLOCK {
        return BAD_BLOCK;
    }
    match Flow::of(flow) {
        Some(flow) if LIMITS.contains(&limit) => State::fresh(role, flow, limit).store(block),
        _ => return BAD_GIVEN,
    }
    0
}

#[cfg(test)]
mod schedules;
#[cfg(test)]
mod tests;
