//! Messages whose size is around the limit, and OPEN frames of about 4,096 bytes.

use super::blocks::good_in;
use super::broken::lengthen;
use super::drafts::{opening, Draft};
use super::{blocks, MOST_OPEN, REPLY};
use crate::calls::SendMessage;
use crate::endpoint::{self, Flow, Phase, Role, Send, State, MOST_AWAITED, SHORT_OUTPUT};
use crate::endpoint::{ACK_REQUEST, ASK, CLOSE, DATA, NO_BODY};
use crate::generate::{add, Calls};
use crate::random::Random;

/// The bytes of a control frame, and of a bundle of two frames without the second.
const CONTROL: usize = 8;
const TWO: usize = 18;

/// An endpoint of this flow with this limit, in a batch.
fn in_batch(random: &mut Random, flow: Flow, limit: usize) -> State {
    let role = random.choose(&Role::ALL);
    let mut state = good_in(random, role, flow, Phase::Batch);
    state.limit = limit as u32;
    state.awaited.truncate(15);
    state
}

/// Adds a message of this type and size, in so many data frames.
fn add_message(calls: &mut Calls, random: &mut Random, state: State, message_type: u8, size: usize, frames: usize) {
    let flags = random.choose(&[0, ACK_REQUEST]);
    let mut draft = Draft::new(state, message_type, flags, 0x1234, random);
    for _ in 1..frames {
        draft.push_frame(Vec::new());
    }
    draft.push_frame(vec![0x5A; size - CONTROL]);
    add(calls, draft.call(REPLY));
}

/// Adds a DATA of this size to be sent into this room.
fn add_send(calls: &mut Calls, random: &mut Random, state: State, size: usize, room: usize) {
    let how = random.choose(&[0, ASK]);
    let send = Send::Data { type_data: 0x1234, how, body: vec![0xA5; size - CONTROL] };
    add(calls, SendMessage { block: state.block(), send, room });
}

/// Adds a DATA without a body to which the body of a message of this size is lent, in rooms around its own.
fn add_bodiless(calls: &mut Calls, random: &mut Random, state: &State, size: usize) {
    for room in [REPLY - 1, REPLY, REPLY + 1] {
        let how = random.choose(&[NO_BODY, ASK | NO_BODY]);
        let send = Send::Data { type_data: 0x1234, how, body: vec![0xA5; size - CONTROL] };
        let number = endpoint::sent(&state.block(), &send, &vec![0; room]).number;
        assert_eq!(number, if room < REPLY { SHORT_OUTPUT } else { 0 }, "a body that is not sent is not measured");
        add(calls, SendMessage { block: state.block(), send, room });
    }
}

/// DATA around the limit, sent and received; larger messages that are refused before their size is looked at, or heard
/// whatever it is; and DATA without a body to which more than the limit is lent.
pub fn around_the_limit(random: &mut Random) -> Calls {
    let mut calls = Calls::new();
    for limit in [1_000_000, 1_000_001, 1_048_576, 1_500_000] {
        for size in [limit - 1, limit, limit + 1] {
            let needed = TWO + size - CONTROL;
            let state = in_batch(random, Flow::Consumer, limit);
            add_message(&mut calls, random, state, DATA, size, 1);
            for room in [needed, needed - 1] {
                let state = in_batch(random, Flow::Producer, limit);
                add_send(&mut calls, random, state, size, room);
            }
            let state = in_batch(random, Flow::Producer, limit);
            add_message(&mut calls, random, state, DATA, size, 1);
        }
        let state = in_batch(random, Flow::Consumer, limit);
        add_message(&mut calls, random, state.clone(), DATA, limit + 1, 2);
        add_message(&mut calls, random, state.clone(), CLOSE, limit + 1, 3);
        add_send(&mut calls, random, State { flow: Flow::Producer, ..state }, limit + 1, 0);
        let state = in_batch(random, Flow::Producer, limit);
        add_bodiless(&mut calls, random, &state, limit + 1);
    }
    calls
}

/// DATA that is a byte too large, sent and received, with every other cause that there may be beside it; and the same
/// body lent where none is sent.
pub fn with_other_causes(random: &mut Random) -> Calls {
    let mut calls = Calls::new();
    let body = vec![0x3C; 1_000_001 - CONTROL];
    for phase in [Phase::Opening, Phase::Idle, Phase::Batch, Phase::Closed] {
        for flow in Flow::ALL {
            let role = random.choose(&Role::ALL);
            let awaited = blocks::entries(random, flow, if phase.is_running() { MOST_AWAITED } else { 0 });
            let state = State { limit: 1_000_000, awaited, ..good_in(random, role, flow, phase) };
            let bodiless = [(ASK | NO_BODY, 0), (ASK | NO_BODY, REPLY), (NO_BODY, REPLY - 1), (NO_BODY, REPLY)];
            for (how, room) in [(ASK, 0), (ASK, TWO + body.len()), (0, 0)].into_iter().chain(bodiless) {
                let send = Send::Data { type_data: 0, how, body: body.clone() };
                add(&mut calls, SendMessage { block: state.block(), send, room });
            }
            for (flags, frames) in [(0, 1), (1, 2), (2, 1), (3, 1), (4, 2)] {
                let mut draft = Draft::new(state.clone(), DATA, flags, 0, random);
                (0..frames).for_each(|frame| draft.push_frame(if frame == 0 { body.clone() } else { Vec::new() }));
                add(&mut calls, draft.call(REPLY));
            }
        }
    }
    calls
}

/// Sizes that a comparison of megabytes, whole or not, would judge otherwise.
pub fn of_some_megabytes(random: &mut Random) -> Calls {
    let mut calls = Calls::new();
    for (limit, size) in [
        (1_000_000, 1_000_008),
        (1_000_000, 1_048_576),
        (1_000_001, 1_048_577),
        (1_500_000, 1_500_001),
        (1_500_000, 1_499_999),
        (1_999_999, 2_000_000),
        (2_000_000, 2_000_001),
        (2_000_000, 2_097_152),
    ] {
        let state = in_batch(random, Flow::Consumer, limit);
        add_message(&mut calls, random, state, DATA, size, 1);
        let state = in_batch(random, Flow::Producer, limit);
        add_send(&mut calls, random, state, size, TWO + size - CONTROL);
    }
    calls
}

/// The largest messages that there are, and one byte more.
pub fn around_the_largest(random: &mut Random) -> Calls {
    let mut calls = Calls::new();
    const LARGEST: usize = 50_000_000;
    for size in [LARGEST, LARGEST + 1] {
        let state = in_batch(random, Flow::Consumer, LARGEST);
        add_message(&mut calls, random, state, DATA, size, 1);
        let state = in_batch(random, Flow::Producer, LARGEST);
        add_send(&mut calls, random, state, size, TWO + size - CONTROL);
    }
    calls
}

/// OPEN frames of about 4,096 bytes, to a server that hears them and to any other endpoint.
pub fn long_opens(random: &mut Random) -> Calls {
    let mut calls = Calls::new();
    for length in [4094, 4095, 4096, 4097, 4098, 8192, 65_536] {
        for _ in 0..8 {
            let mut draft = opening(random);
            lengthen(&mut draft, length);
            assert_eq!(draft.number(), if length <= MOST_OPEN { 0 } else { 16 });
            add(&mut calls, draft.call(REPLY));
            draft.state = blocks::good(random);
            add(&mut calls, draft.call(REPLY));
            draft.push_frame(Vec::new());
            add(&mut calls, draft.call(REPLY));
        }
    }
    calls
}
