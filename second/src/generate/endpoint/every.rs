//! Every kind of good block with every kind of message, with every send, with every room and with every code.

use super::blocks::{entries, type_data};
use super::drafts::{valid, Draft};
use super::sends::{needed, one_of_each};
use super::{blocks, REPLY};
use crate::calls::SendMessage;
use crate::endpoint::{Entry, Flow, Phase, Role, Send, State, MOST_AWAITED};
use crate::endpoint::{ACK_REPLY, ACK_REQUEST, DATA, NOOP, OPEN};
use crate::generate::{add, Calls};
use crate::open::{self, Opening};
use crate::random::Random;

/// What is offered, and opened.
const NAME: &[u8] = b"press7";

/// A good state of every role, flow and phase.
fn every_phase(random: &mut Random) -> Vec<State> {
    let mut states = Vec::new();
    for role in Role::ALL {
        for flow in Flow::ALL {
            for phase in Phase::ALL {
                states.push(blocks::good_in(random, role, flow, phase));
            }
        }
    }
    states
}

/// Good states of every role, flow and phase, each with every n and W that matters.
fn every_state(random: &mut Random) -> Vec<State> {
    let mut states = Vec::new();
    for state in every_phase(random) {
        let counts: &[u16] = if state.phase.counts() { &[1, 2, 65_535] } else { &[0] };
        let awaited: &[usize] = if state.phase.is_running() { &[0, 1, 2, MOST_AWAITED] } else { &[0] };
        for n in counts {
            for awaited in awaited {
                let awaited = entries(random, state.flow, *awaited);
                states.push(State { n: *n, awaited, ..state.clone() });
            }
        }
    }
    states
}

/// The OPEN frame of a client at the other end of this endpoint's pipe.
fn open_frame(state: &State) -> Vec<u8> {
    let opening = Opening { producer: !state.is_producer(), name: NAME.to_vec(), format: Vec::new(), limit: 2_000_000 };
    open::frame(&opening).expect("the name is good")
}

/// A message to this endpoint, with so many data frames, of which the first is an OPEN frame.
fn message(state: &State, control: (u8, u8, u16), frames: usize, random: &mut Random) -> Draft {
    let (message_type, flags, type_data) = control;
    let mut draft = Draft::new(state.clone(), message_type, flags, type_data, random);
    draft.name = NAME.to_vec();
    for frame in [open_frame(state), Vec::new(), Vec::new()].into_iter().take(frames) {
        draft.push_frame(frame);
    }
    draft
}

/// Every type with some flags, data frames and type-data that matter.
pub fn messages(random: &mut Random) -> Calls {
    let mut calls = Calls::new();
    for state in every_state(random) {
        let oldest = state.awaited.oldest().map_or(7, |entry| entry.type_data);
        let mut every_type_data = vec![0, 1, state.n, state.n.saturating_add(1), oldest];
        every_type_data.sort_unstable();
        every_type_data.dedup();
        for message_type in 0..=6 {
            for flags in [0, 1, 2, 3, 4, 255] {
                for frames in 0..=3 {
                    for type_data in &every_type_data {
                        let control = (message_type, flags, *type_data);
                        add(&mut calls, message(&state, control, frames, random).call(REPLY));
                    }
                }
            }
        }
    }
    calls
}

/// Every control byte, alone and with a data frame.
pub fn control_bytes(random: &mut Random) -> Calls {
    let mut calls = Calls::new();
    for state in every_phase(random) {
        for control_byte in 0..=255 {
            for frames in 0..=1 {
                let mut draft = message(&state, (OPEN, 0, 0), frames, random);
                draft.parts.bodies[0][4] = control_byte;
                add(&mut calls, draft.call(REPLY));
            }
        }
    }
    calls
}

/// Every flags byte on every type, alone and with a data frame.
pub fn flags(random: &mut Random) -> Calls {
    let mut calls = Calls::new();
    for state in every_phase(random) {
        for flags in 0..=255 {
            for message_type in 1..=5 {
                for frames in 0..=1 {
                    let control = (message_type, flags, 0);
                    add(&mut calls, message(&state, control, frames, random).call(REPLY));
                }
            }
        }
    }
    calls
}

/// DATA with up to three data frames, each of them empty or not, and with flags of every kind.
pub fn bodies(random: &mut Random) -> Calls {
    let mut calls = Calls::new();
    for state in every_state(random) {
        let type_data = state.awaited.oldest().map_or(7, |entry| entry.type_data);
        for flags in [0, ACK_REQUEST, ACK_REPLY, ACK_REQUEST | ACK_REPLY, 4] {
            for frames in 0..=3 {
                for given in 0..1 << frames {
                    let mut draft = Draft::new(state.clone(), DATA, flags, type_data, random);
                    (0..frames).for_each(|frame| draft.push_frame(vec![0x5A; 3 * (given >> frame & 1)]));
                    for room in [REPLY - 1, REPLY, REPLY + 1] {
                        add(&mut calls, draft.call(room));
                    }
                }
            }
        }
    }
    calls
}

/// Every number of entries, the oldest of either type, and the confirmation of each of them and of none.
pub fn confirmations(random: &mut Random) -> Calls {
    let mut calls = Calls::new();
    for awaited in 0..=MOST_AWAITED {
        for role in Role::ALL {
            for phase in [Phase::Idle, Phase::Offer, Phase::Batch] {
                let state = blocks::good_in(random, role, Flow::Producer, phase);
                let entry = |at: usize| Entry {
                    message_type: if (at + awaited) % 3 == 1 { DATA } else { NOOP },
                    type_data: 0x0102u16.wrapping_mul(at as u16 / 2 + 1),
                };
                let state = State { awaited: (0..awaited).map(entry).collect(), ..state };
                for confirmed in 0..=MOST_AWAITED {
                    let Entry { message_type, type_data } = entry(confirmed);
                    let control = (message_type, ACK_REPLY, type_data);
                    add(&mut calls, message(&state, control, 0, random).call(REPLY));
                }
            }
        }
    }
    calls
}

/// A DATA with an empty body and with another, and a NOOP, all sent so.
fn data_and_noop(how: u8) -> [Send; 3] {
    let data = |body: &[u8]| Send::Data { type_data: 0x1234, how, body: body.to_vec() };
    [data(&[]), data(&[1, 2, 3]), Send::Noop { type_data: 0x1234, how }]
}

/// The sends that are tried from every state.
fn every_send(state: &State) -> Vec<Send> {
    let mut sends = Vec::new();
    for name in [NAME, b"", b"\xFF"] {
        sends.push(Send::Open { name: name.to_vec(), format: Vec::new() });
    }
    for count in [0, 1, state.n.saturating_sub(1), state.n, state.n.saturating_add(1), 65_535] {
        sends.push(Send::Ready { count });
    }
    for how in [0, 1, 2, 3, 254, 255] {
        sends.extend(data_and_noop(how));
    }
    for code in [0, 6, 7, 100, 103, 104] {
        sends.push(Send::Close { code });
    }
    sends
}

/// Every send from every state, in rooms around what is needed.
pub fn sends(random: &mut Random) -> Calls {
    let mut calls = Calls::new();
    for state in every_state(random) {
        for send in every_send(&state) {
            let needed = needed(&state, &send);
            for room in [0, needed - 1, needed, needed + 1, needed + 30] {
                add(&mut calls, SendMessage { block: state.block(), send: send.clone(), room });
            }
        }
    }
    calls
}

/// Every number that says how DATA and NOOP are sent, in rooms around what is needed.
pub fn options(random: &mut Random) -> Calls {
    let mut calls = Calls::new();
    for state in every_state(random).into_iter().filter(|state| state.n <= 1) {
        for send in (0..=255).flat_map(data_and_noop) {
            let needed = needed(&state, &send);
            for room in [needed - 1, needed, needed + 1] {
                add(&mut calls, SendMessage { block: state.block(), send: send.clone(), room });
            }
        }
    }
    calls
}

/// Every code up to 300, and around the powers of two, from every phase.
pub fn codes(random: &mut Random) -> Calls {
    let mut calls = Calls::new();
    let around = (9..16).flat_map(|power| [(1 << power) - 1, 1 << power, (1 << power) + 1, (1 << power) + 100]);
    let codes: Vec<u16> = (0..=300).chain(around).chain([u16::MAX]).collect();
    for state in every_phase(random) {
        for code in &codes {
            let send = Send::Close { code: *code };
            add(&mut calls, SendMessage { block: state.block(), send, room: REPLY });
        }
    }
    calls
}

/// Every count that a client or a server may say READY with, in steps, and every one around what is offered.
pub fn counts(random: &mut Random) -> Calls {
    let mut calls = Calls::new();
    for offered in [1u16, 2, 255, 256, 257, 4_660, 65_534, 65_535] {
        let near = offered.saturating_sub(3)..=offered.saturating_add(3);
        let far = (0..=u16::MAX).step_by(257).chain((0..=u16::MAX).step_by(251));
        for count in near.chain(far).chain([offered.swap_bytes(), 0, u16::MAX]) {
            for (role, phase) in [(Role::Client, Phase::Offer), (Role::Server, Phase::Idle)] {
                let flow = random.choose(&Flow::ALL);
                let mut state = blocks::good_in(random, role, flow, phase);
                state.n = if phase.counts() { offered } else { 0 };
                let send = Send::Ready { count };
                add(&mut calls, SendMessage { block: state.block(), send, room: REPLY });
            }
            let flow = random.choose(&Flow::ALL);
            let state = State { n: offered, ..blocks::good_in(random, Role::Server, flow, Phase::Offer) };
            add(&mut calls, message(&state, (2, 0, count), 0, random).call(REPLY));
        }
    }
    calls
}

/// Every room up to a few bytes more than needed, for every send and for messages of every kind.
pub fn rooms(random: &mut Random) -> Calls {
    let mut calls = Calls::new();
    for state in every_phase(random) {
        for send in one_of_each(random) {
            let needed = needed(&state, &send);
            for room in (0..=needed.min(60) + 3).chain([needed - 1, needed, needed + 1]) {
                add(&mut calls, SendMessage { block: state.block(), send: send.clone(), room });
            }
        }
        let draft = message(&state, (NOOP, 1, type_data(random)), 0, random);
        (0..=REPLY + 6).for_each(|room| add(&mut calls, draft.call(room)));
    }
    for _ in 0..60 {
        let draft = valid(random);
        (0..=REPLY + 6).for_each(|room| add(&mut calls, draft.call(room)));
    }
    calls
}
