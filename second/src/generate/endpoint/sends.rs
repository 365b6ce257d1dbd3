//! Sends: ones that the block allows, ones that are a step off, and any.

use super::blocks::{self, type_data};
use super::{room_for, REPLY};
use crate::calls::SendMessage;
use crate::endpoint::{self, Flow, Phase, Role, Send, State, ASK, MOST_AWAITED, NO_BODY};
use crate::generate::open::writers::given_text;
use crate::generate::open::{other_text, short_text};
use crate::generate::{add, texts, Calls};
use crate::open::MOST_TEXT;
use crate::random::Random;

/// The bits of `how` that no send has an option for: mostly none of them.
pub fn unknown_options(random: &mut Random) -> u8 {
    let any = random.byte() & !(ASK | NO_BODY);
    random.choose(&[0, 0, 0, 0, 4, 128, !(ASK | NO_BODY), any])
}

/// A `how` with each option in half of the cases.
fn how(random: &mut Random) -> u8 {
    random.choose(&[0, ASK, NO_BODY, ASK | NO_BODY]) | unknown_options(random)
}

/// A body: mostly short, often empty.
pub fn body(random: &mut Random) -> Vec<u8> {
    let length = match random.between(0, 19) {
        0 => random.between(100, 700),
        1..=6 => 0,
        _ => random.between(0, 30),
    };
    random.bytes(length)
}

fn open(random: &mut Random) -> Send {
    let format = if random.one_in(2) { Vec::new() } else { short_text(random) };
    Send::Open { name: short_text(random), format }
}

fn data(random: &mut Random) -> Send {
    Send::Data { type_data: type_data(random), how: how(random), body: body(random) }
}

fn noop(random: &mut Random) -> Send {
    Send::Noop { type_data: type_data(random), how: how(random) }
}

fn close(random: &mut Random) -> Send {
    Send::Close { code: random.between(0, 6) as u16 }
}

/// A count of any size.
fn any_count(random: &mut Random) -> u16 {
    if random.one_in(4) {
        return 0;
    }
    blocks::count(random)
}

/// One of each of the sends, with arguments that are good by themselves.
pub fn one_of_each(random: &mut Random) -> [Send; 5] {
    [open(random), Send::Ready { count: any_count(random) }, data(random), noop(random), close(random)]
}

/// An endpoint whose role, flow and phase allow a send.
fn inviting(random: &mut Random, send: &Send) -> State {
    let (role, flow) = (random.choose(&Role::ALL), random.choose(&Flow::ALL));
    let (role, flow, phases): (Role, Flow, &[Phase]) = match send {
        Send::Open { .. } => (Role::Client, flow, &[Phase::Fresh]),
        Send::Ready { .. } if role == Role::Client => (role, flow, &[Phase::Offer]),
        Send::Ready { .. } => (role, flow, &[Phase::Opening, Phase::Idle]),
        Send::Data { .. } => (role, Flow::Producer, &[Phase::Batch]),
        Send::Noop { .. } => (role, flow, &[Phase::Idle, Phase::Offer, Phase::Batch]),
        Send::Close { .. } => (role, flow, &[Phase::Opening, Phase::Opening, Phase::Idle, Phase::Offer, Phase::Batch]),
    };
    let phase = random.choose(phases);
    blocks::good_in(random, role, flow, phase)
}

/// An endpoint and a send that it accepts.
pub fn fitting(random: &mut Random) -> (State, Send) {
    let mut sends = one_of_each(random).to_vec();
    let mut send = sends.swap_remove(random.between(0, sends.len() - 1));
    let mut state = inviting(random, &send);
    state.awaited.truncate(MOST_AWAITED - 1);
    match (&mut send, state.role) {
        (Send::Ready { count }, Role::Client) => {
            let any = random.between(0, state.n.into()) as u16;
            *count = random.choose(&[0, 1, state.n - 1, state.n, any]);
        }
        (Send::Close { code }, Role::Server) if state.phase == Phase::Opening && random.one_in(2) => {
            *code = random.between(100, 103) as u16;
        }
        _ => {}
    }
    (state, send)
}

/// How many bytes the message of a send has; that of the shortest message where the model refuses it.
pub fn needed(state: &State, send: &Send) -> usize {
    let most = match send {
        Send::Data { body, .. } => body.len() + 18,
        _ => 700,
    };
    match endpoint::sent(&state.block(), send, &vec![0; most]).written {
        0 => REPLY,
        written => written as usize,
    }
}

/// The call of a send from this block, with a room for the message that it is from this state.
pub fn to_block(random: &mut Random, block: Vec<u8>, send: Send, state: &State) -> SendMessage {
    let needed = needed(state, &send);
    SendMessage { block, send, room: room_for(random, needed) }
}

fn add_send(calls: &mut Calls, random: &mut Random, state: &State, send: Send) {
    let call = to_block(random, state.block(), send, state);
    add(calls, call);
}

/// Sends that are accepted where the room allows it; the model must do so.
pub fn fitting_sends(random: &mut Random) -> Calls {
    let mut calls = Calls::new();
    for _ in 0..600 {
        let (state, send) = fitting(random);
        let needed = needed(&state, &send);
        assert_eq!(endpoint::sent(&state.block(), &send, &vec![0; needed]).number, 0);
        add_send(&mut calls, random, &state, send);
    }
    calls
}

/// A send whose arguments are a step off.
fn off_by_a_step(random: &mut Random, state: &State) -> Send {
    match random.between(0, 4) {
        0 => Send::Open { name: given_text(random), format: given_text(random) },
        1 => {
            let n = state.n;
            Send::Ready { count: random.choose(&[n.saturating_add(1), n.saturating_sub(1), n.swap_bytes(), u16::MAX]) }
        }
        2 => Send::Data { type_data: type_data(random), how: random.choose(&[1, 2, 3, 254, 255]), body: body(random) },
        3 => Send::Noop { type_data: type_data(random), how: random.choose(&[1, 2, 3, 254, 255]) },
        _ => Send::Close { code: random.choose(&[6, 7, 8, 99, 100, 101, 102, 103, 104, 256, 259, 356, u16::MAX]) },
    }
}

/// Sends with arguments that are a step off, from endpoints that would mostly accept such a send.
pub fn steps_off(random: &mut Random) -> Calls {
    let mut calls = Calls::new();
    for _ in 0..500 {
        let mut state = blocks::good(random);
        let send = off_by_a_step(random, &state);
        if random.one_in(2) {
            state = inviting(random, &send);
        }
        add_send(&mut calls, random, &state, send);
    }
    calls
}

/// Any send from any good block.
pub fn random_sends(random: &mut Random) -> Calls {
    let mut calls = Calls::new();
    for _ in 0..80 {
        let state = blocks::good(random);
        for send in one_of_each(random) {
            add_send(&mut calls, random, &state, send);
        }
        let code = random.number() as u16;
        add_send(&mut calls, random, &state, Send::Close { code });
    }
    calls
}

/// Names and formats of every length and kind that matters, in rooms around what is needed.
pub fn every_opening(random: &mut Random) -> Calls {
    let mut calls = Calls::new();
    for name in [0, 1, 2, 127, 128, 254, MOST_TEXT, MOST_TEXT + 1, 1000] {
        for format in [0, 1, 127, 128, MOST_TEXT, MOST_TEXT + 1] {
            for flow in Flow::ALL {
                let state = blocks::good_in(random, Role::Client, flow, Phase::Fresh);
                let (name, format) = (texts::of_length(random, name), texts::of_length(random, format));
                let send = Send::Open { name, format };
                let needed = needed(&state, &send);
                for room in [0, 13, needed - 1, needed, needed + 1, needed + 40] {
                    add(&mut calls, SendMessage { block: state.block(), send: send.clone(), room });
                }
            }
        }
    }
    for _ in 0..300 {
        let state = blocks::good_in(random, Role::Client, Flow::Producer, Phase::Fresh);
        let good = short_text(random);
        let (other, bad) = (other_text(random, &good), texts::bad(random));
        add_send(&mut calls, random, &state, Send::Open { name: good.clone(), format: bad.clone() });
        add_send(&mut calls, random, &state, Send::Open { name: bad, format: good });
        add_send(&mut calls, random, &state, Send::Open { name: other, format: Vec::new() });
    }
    calls
}
