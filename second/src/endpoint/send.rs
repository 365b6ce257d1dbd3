//! What an endpoint sends: whether it may, the message, and the state after it.

use crate::bundle;
use crate::control::{Control, CONTROL_FRAME};
use crate::endpoint::{Entry, Phase, Role, State, MOST_AWAITED};
use crate::endpoint::{ACK_REQUEST, BAD_BLOCK, CLOSE, DATA, IS_CLOSED, NOOP, OPEN, READY, SHORT_OUTPUT};
use crate::open::{self, Opening, BAD_GIVEN};

/// The numbers answered for a send that is refused, besides those for the block, the output and a bad name or format.
pub const NOT_ALLOWED: u64 = 30;
pub const ABOVE_OFFER: u64 = 31;
pub const TOO_MANY_ASKS: u64 = 32;
pub const TOO_LARGE: u64 = 33;
pub const BAD_CODE: u64 = 35;

/// The options of a send, bits of `how`: an ask for a confirmation, and DATA without a body. No other bit is looked at.
pub const ASK: u8 = 1;
pub const NO_BODY: u8 = 2;

/// A send with what the host gives for it.
#[derive(Clone, Debug)]
pub enum Send<Bytes = Vec<u8>> {
    Open { name: Bytes, format: Bytes },
    Ready { count: u16 },
    Data { type_data: u16, how: u8, body: Bytes },
    Noop { type_data: u16, how: u8 },
    Close { code: u16 },
}

impl Send {
    /// The same send with its bytes lent.
    pub fn lent(&self) -> Send<&[u8]> {
        match self {
            Send::Open { name, format } => Send::Open { name, format },
            Send::Ready { count } => Send::Ready { count: *count },
            Send::Data { type_data, how, body } => Send::Data { type_data: *type_data, how: *how, body },
            Send::Noop { type_data, how } => Send::Noop { type_data: *type_data, how: *how },
            Send::Close { code } => Send::Close { code: *code },
        }
    }
}

impl<'a> Send<&'a [u8]> {
    /// The body that a DATA is sent with; none where `how` says so, whatever is lent, and none for any other send.
    pub fn body(&self) -> Option<&'a [u8]> {
        match *self {
            Send::Data { how, body, .. } if how & NO_BODY == 0 => Some(body),
            _ => None,
        }
    }
}

/// Sends: writes the message at the start of `out` and says how many bytes it has; else the first number that applies,
/// with every byte as it was.
pub fn send(block: &mut [u8], send: Send<&[u8]>, out: &mut [u8]) -> Result<usize, u64> {
    let mut state = State::read(block).ok_or(BAD_BLOCK)?;
    may_send(&state, &send)?;
    let written = write(&state, &send, out)?;
    apply(&mut state, &send);
    state.store(block);
    Ok(written)
}

/// Refuses with this number where it applies.
fn refuse(number: u64, applies: bool) -> Result<(), u64> {
    if applies {
        Err(number)
    } else {
        Ok(())
    }
}

/// Refuses a send with the first of 3, 30 to 33 and 35 that applies. Only an OPEN can be refused as 34, which is told
/// where its message is written.
fn may_send(state: &State, send: &Send<&[u8]>) -> Result<(), u64> {
    refuse(IS_CLOSED, state.phase == Phase::Closed)?;
    refuse(NOT_ALLOWED, !allowed(state, send))?;
    refuse(ABOVE_OFFER, above_offer(state, send))?;
    refuse(TOO_MANY_ASKS, entry(send).is_some() && state.awaited.len() == MOST_AWAITED)?;
    refuse(TOO_LARGE, too_large(state, send))?;
    refuse(BAD_CODE, matches!(send, Send::Close { code } if !is_code(state, *code)))
}

/// A client says READY up to what the server offered; a server offers what it likes.
fn above_offer(state: &State, send: &Send<&[u8]>) -> bool {
    matches!(send, Send::Ready { count } if state.role == Role::Client && *count > state.n)
}

/// Only DATA with a body is measured: whatever else an endpoint writes is always short enough.
fn too_large(state: &State, send: &Send<&[u8]>) -> bool {
    matches!(send.body(), Some(body) if CONTROL_FRAME + body.len() > state.limit as usize)
}

/// Whether role, flow and phase allow a send.
fn allowed(state: &State, send: &Send<&[u8]>) -> bool {
    match send {
        Send::Open { .. } => state.role == Role::Client && state.phase == Phase::Fresh,
        Send::Ready { .. } => match state.role {
            Role::Client => state.phase == Phase::Offer,
            Role::Server => matches!(state.phase, Phase::Opening | Phase::Idle),
        },
        Send::Data { .. } => state.is_producer() && state.phase == Phase::Batch,
        Send::Noop { .. } => state.phase.is_running(),
        Send::Close { .. } => state.phase.is_running() || state.phase == Phase::Opening,
    }
}

/// Whether an endpoint may give this code: 0 to 6 always, 100 to 103 only a server that answers OPEN.
fn is_code(state: &State, code: u16) -> bool {
    let answers_open = state.role == Role::Server && state.phase == Phase::Opening;
    code <= 6 || answers_open && (100..=103).contains(&code)
}

/// The entry that a send adds: that of a DATA or NOOP with an ask.
fn entry(send: &Send<&[u8]>) -> Option<Entry> {
    let (message_type, type_data, how) = match send {
        Send::Data { type_data, how, .. } => (DATA, *type_data, *how),
        Send::Noop { type_data, how } => (NOOP, *type_data, *how),
        Send::Open { .. } | Send::Ready { .. } | Send::Close { .. } => return None,
    };
    (how & ASK != 0).then_some(Entry { message_type, type_data })
}

/// What an accepted send makes of the state.
fn apply(state: &mut State, send: &Send<&[u8]>) {
    match send {
        Send::Open { .. } => state.phase = Phase::Opening,
        Send::Ready { count } => match state.role {
            Role::Client => state.ready(*count, Phase::Batch),
            Role::Server => state.ready(*count, Phase::Offer),
        },
        Send::Data { .. } => state.one_less(),
        Send::Noop { .. } => {}
        Send::Close { .. } => state.close(),
    }
    if let Some(entry) = entry(send) {
        state.awaited.push(entry);
    }
}

/// Writes the message of a send, and says how many bytes it has; else that name or format is bad, or `out` too short.
fn write(state: &State, send: &Send<&[u8]>, out: &mut [u8]) -> Result<usize, u64> {
    let flags = if entry(send).is_some() { ACK_REQUEST } else { 0 };
    let control = |message_type, type_data| Control { message_type, flags, type_data };
    let written = match *send {
        Send::Open { name, format } => {
            let opening = Opening { producer: state.is_producer(), name, format, limit: state.limit };
            let frame = open::written(opening).ok_or(BAD_GIVEN)?;
            bundle::write(out, &control(OPEN, 0), Some(&frame))
        }
        Send::Ready { count } => bundle::write(out, &control(READY, count), None),
        Send::Data { type_data, .. } => bundle::write(out, &control(DATA, type_data), send.body()),
        Send::Noop { type_data, .. } => bundle::write(out, &control(NOOP, type_data), None),
        Send::Close { code } => bundle::write(out, &control(CLOSE, code), None),
    };
    match written {
        0 => Err(SHORT_OUTPUT),
        written => Ok(written),
    }
}
