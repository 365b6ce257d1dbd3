//! What an endpoint receives: the tests in their order, what is heard, the reply, and the state after it.

use std::ops::RangeInclusive;

use crate::bundle::{self, Frames, Place, BAD_BUNDLE};
use crate::control::{self, Control};
use crate::control::{NO_CONTROL_FRAME, WRONG_TYPE, WRONG_VERSION};
use crate::endpoint::{Entry, Phase, Role, State};
use crate::endpoint::{ACK_REPLY, ACK_REQUEST, CLOSE, DATA, NOOP, OPEN, READY};
use crate::endpoint::{BAD_BLOCK, IS_CLOSED, SHORT_OUTPUT};
use crate::open::{self, Offer, NOT_OFFERED, NO_SUCH_SOCKET, OTHER_FORMAT, OUT_OF_RANGE};
use crate::structs::UNREADABLE;

/// The numbers answered for a message whose control frame is read and which is refused all the same, besides those for
/// the OPEN frame.
pub const BAD_FLAGS: u64 = 14;
pub const WRONG_FRAMES: u64 = 15;
pub const TOO_LARGE: u64 = 16;
pub const NOT_ALLOWED: u64 = 17;
pub const ABOVE_OFFER: u64 = 23;
pub const UNMATCHED: u64 = 24;

/// The bytes of a reply, and the most of an OPEN frame.
const REPLY: usize = 14;
const MOST_OPEN: u64 = 4096;

/// What is heard: type, flags, type-data, length of the reply, data frames, socket, places and lengths of name, format,
/// parameters and body, and two zeros.
pub type Heard = [u64; 16];
const REPLY_SLOT: usize = 3;
const FRAMES_SLOT: usize = 4;
const OPEN_SLOTS: usize = 5;
const BODY_SLOTS: usize = 12;

/// A message that passes 10 to 13.
struct Message<'a> {
    bytes: &'a [u8],
    control: Control,
    data_frames: Frames<'a>,
    size: u64,
}

impl Message<'_> {
    fn is_confirmation(&self) -> bool {
        self.control.flags & ACK_REPLY != 0
    }

    /// The place of its first data frame; the empty place at 0 where it has none.
    fn data(&self) -> Place {
        self.data_frames.clone().next().unwrap_or(Place { at: 0, length: 0 })
    }
}

/// Hears a message, or refuses it with the first number that applies; all of `heard` is written.
///
/// The pipe name and format are those that a server offers. The first three refusals leave block and `out` as they were.
pub fn receive(block: &mut [u8], bytes: &[u8], name: &[u8], format: &[u8], out: &mut [u8], heard: &mut Heard) -> u64 {
    *heard = [0; 16];
    let Some(mut state) = State::read(block) else {
        return BAD_BLOCK;
    };
    if out.len() < REPLY {
        return SHORT_OUTPUT;
    }
    if state.phase == Phase::Closed {
        return IS_CLOSED;
    }
    let offer = Offer { producer: state.is_producer(), name, format };
    let (number, reply) = match hear(&mut state, bytes, offer, heard) {
        Ok(reply) => (0, reply),
        Err(number) => {
            let reply = refusal_reply(number, &state, bytes);
            state.close();
            *heard = [0; 16];
            (number, reply)
        }
    };
    if let Some(reply) = reply {
        heard[REPLY_SLOT] = bundle::write(out, &reply, None) as u64;
    }
    state.store(block);
    number
}

/// Hears a message at an endpoint that is not closed, and answers with its reply; else the first of 10 to 24 that
/// applies, with the state as it was.
fn hear(state: &mut State, bytes: &[u8], offer: Offer<&[u8]>, heard: &mut Heard) -> Result<Option<Control>, u64> {
    let message = read(bytes)?;
    if message.control.message_type != CLOSE {
        may_come(state, &message)?;
    } else if state.phase == Phase::Fresh {
        return Err(NOT_ALLOWED);
    }
    hear_any(&message, heard);
    match message.control.message_type {
        CLOSE => state.close(),
        OPEN => opened(state, &message, offer, heard)?,
        READY => ready(state, message.control.type_data)?,
        _ if message.is_confirmation() => confirmed(state, &message.control)?,
        DATA => {
            let body = message.data();
            heard[BODY_SLOTS..BODY_SLOTS + 2].copy_from_slice(&[body.at, body.length]);
            state.one_less();
        }
        _ => {}
    }
    Ok(confirmation(&message.control))
}

/// The body of a DATA in whose message this was heard; none where it has no data frame.
pub fn body_heard<'a>(message: &'a [u8], heard: &Heard) -> Option<&'a [u8]> {
    let (at, length) = (heard[BODY_SLOTS] as usize, heard[BODY_SLOTS + 1] as usize);
    (heard[FRAMES_SLOT] != 0).then(|| &message[at..at + length])
}

/// The message, or the first of 10 to 13 that applies.
fn read(bytes: &[u8]) -> Result<Message<'_>, u64> {
    let mut frames = bundle::frames(bytes).ok_or(BAD_BUNDLE)?;
    let size = frames.size();
    let control = control::read(frames.take_control(bytes))?;
    Ok(Message { bytes, control, data_frames: frames, size })
}

/// Refuses a message that is no CLOSE with the first of 14 to 17 that applies.
fn may_come(state: &State, message: &Message) -> Result<(), u64> {
    if !good_flags(&message.control) {
        return Err(BAD_FLAGS);
    }
    if !frames_allowed(message).contains(&message.data_frames.len()) {
        return Err(WRONG_FRAMES);
    }
    let long_open = message.control.message_type == OPEN && message.data().length > MOST_OPEN;
    if message.size > state.limit.into() || long_open {
        return Err(TOO_LARGE);
    }
    if !allowed(state, message) {
        return Err(NOT_ALLOWED);
    }
    Ok(())
}

/// Whether the flags are at most one of the two, and no ACK-REPLY on OPEN or READY.
fn good_flags(control: &Control) -> bool {
    match control.flags {
        0 | ACK_REQUEST => true,
        ACK_REPLY => !matches!(control.message_type, OPEN | READY),
        _ => false,
    }
}

/// How many data frames a message may have: a DATA that is no confirmation has a body or none.
fn frames_allowed(message: &Message) -> RangeInclusive<usize> {
    match message.control.message_type {
        OPEN => 1..=1,
        DATA if !message.is_confirmation() => 0..=1,
        _ => 0..=0,
    }
}

/// Whether role, flow and phase allow a message that is no CLOSE.
fn allowed(state: &State, message: &Message) -> bool {
    match message.control.message_type {
        OPEN => state.role == Role::Server && state.phase == Phase::Fresh,
        READY => match state.role {
            Role::Client => matches!(state.phase, Phase::Opening | Phase::Idle),
            Role::Server => state.phase == Phase::Offer,
        },
        DATA if !message.is_confirmation() => !state.is_producer() && state.phase == Phase::Batch,
        _ => state.phase.is_running(),
    }
}

/// Hears what any message says: its type, flags and type-data, and how many data frames it has.
fn hear_any(message: &Message, heard: &mut Heard) {
    let control = &message.control;
    heard[..3].copy_from_slice(&[control.message_type.into(), control.flags.into(), control.type_data.into()]);
    heard[FRAMES_SLOT] = message.data_frames.len() as u64;
}

/// Hears an OPEN, of which socket and places are heard too; else the first of 18 to 22 that applies.
fn opened(state: &mut State, message: &Message, offer: Offer<&[u8]>, heard: &mut Heard) -> Result<(), u64> {
    let frame = message.data();
    let said =
        open::hear(message.bytes, frame.at, frame.at + frame.length, offer).map_err(|refusal| refusal.number())?;
    heard[OPEN_SLOTS..BODY_SLOTS].copy_from_slice(&said.numbers());
    (state.phase, state.limit) = (Phase::Opening, said.limit);
    Ok(())
}

/// Hears a READY, a server only up to what it offered.
fn ready(state: &mut State, count: u16) -> Result<(), u64> {
    match state.role {
        Role::Client => state.ready(count, Phase::Offer),
        Role::Server if count > state.n => return Err(ABOVE_OFFER),
        Role::Server => state.ready(count, Phase::Batch),
    }
    Ok(())
}

/// Hears a confirmation of the oldest message that asked for one.
fn confirmed(state: &mut State, control: &Control) -> Result<(), u64> {
    let confirmed = Entry { message_type: control.message_type, type_data: control.type_data };
    if state.confirm(confirmed) {
        Ok(())
    } else {
        Err(UNMATCHED)
    }
}

/// The reply to a message that is heard: a NOOP or DATA that asks is confirmed.
fn confirmation(control: &Control) -> Option<Control> {
    let asks = matches!(control.message_type, NOOP | DATA) && control.flags == ACK_REQUEST;
    asks.then_some(Control { message_type: control.message_type, flags: ACK_REPLY, type_data: control.type_data })
}

/// The CLOSE that answers a refused message; nothing from a client that has not sent its OPEN, and to a CLOSE that came
/// too early.
fn refusal_reply(number: u64, state: &State, bytes: &[u8]) -> Option<Control> {
    let fresh = state.phase == Phase::Fresh;
    let early_close = number == NOT_ALLOWED && message_type(bytes) == CLOSE;
    if state.role == Role::Client && fresh || early_close {
        return None;
    }
    let opening = state.role == Role::Server && fresh;
    let code = match number {
        WRONG_VERSION if opening && message_type(bytes) == OPEN => 101,
        BAD_BUNDLE | NO_CONTROL_FRAME | WRONG_VERSION | WRONG_TYPE | BAD_FLAGS | WRONG_FRAMES | UNREADABLE => 1,
        TOO_LARGE | NOT_ALLOWED | OUT_OF_RANGE | ABOVE_OFFER | UNMATCHED => 2,
        NO_SUCH_SOCKET => 102,
        NOT_OFFERED => 100,
        OTHER_FORMAT => 103,
        _ => unreachable!("no message is refused as {number}"),
    };
    Some(Control { message_type: CLOSE, flags: 0, type_data: code })
}

/// The type in the control byte of a message that passes 10 and 11, whatever version stands beside it.
fn message_type(bytes: &[u8]) -> u8 {
    let mut frames = bundle::frames(bytes).expect("the bundle is good");
    control::message_type(frames.take_control(bytes))
}
