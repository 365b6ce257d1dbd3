//! Blocks with every mixture of NOOPs and DATA to be confirmed, and the same with another number in byte 6 or 7, or
//! with DATA behind the entries that are awaited.

use super::blocks::{good_in, ENTRIES, UNCONFIRMED};
use super::drafts::Draft;
use super::{sends, REPLY};
use crate::calls::{Make, SendMessage};
use crate::endpoint::{Awaited, Entry, Flow, Phase, Role, Send, State};
use crate::endpoint::{ACK_REPLY, ACK_REQUEST, ASK, CLOSE, DATA, MOST_AWAITED, NOOP, NO_BODY, READY};
use crate::generate::{add, Calls};
use crate::random::Random;

const RUNNING: [Phase; 3] = [Phase::Idle, Phase::Offer, Phase::Batch];

/// So many entries: a bit for each of them is set where it belongs to DATA, the oldest one's the lowest.
fn mixture(awaited: usize, data: u32) -> Awaited {
    let message_type = |at: usize| if data >> at & 1 == 1 { DATA } else { NOOP };
    let entry = |at| Entry { message_type: message_type(at), type_data: 0x0201 + at as u16 };
    (0..awaited).map(entry).collect()
}

/// Every mixture of up to so many entries.
fn mixtures_up_to(most: usize) -> Vec<Awaited> {
    (0..=most).flat_map(|awaited| (0..1 << awaited).map(move |data| mixture(awaited, data))).collect()
}

/// Of so many entries, all of one type, all but one, and the two types in turn.
fn mixtures_of(awaited: usize) -> Vec<Awaited> {
    let all = (1 << awaited) - 1;
    let one = (0..awaited).map(|at| 1 << at);
    let others = one.clone().map(|one| all ^ one);
    [0, all, 0x5555 & all, 0xAAAA & all]
        .into_iter()
        .chain(one)
        .chain(others)
        .map(|data| mixture(awaited, data))
        .collect()
}

/// A good state of this flow in this phase, with these entries.
fn awaiting(random: &mut Random, flow: Flow, phase: Phase, awaited: Awaited) -> State {
    let role = random.choose(&Role::ALL);
    State { awaited, ..good_in(random, role, flow, phase) }
}

/// The sends that are tried with every mixture, which ask and do not.
fn every_send() -> Vec<Send> {
    let data = |how| Send::Data { type_data: 0x1234, how, body: b"run".to_vec() };
    let noop = |how| Send::Noop { type_data: 0x1234, how };
    let mut sends = vec![Send::Ready { count: 0 }, Send::Ready { count: 1 }, Send::Close { code: 0 }];
    sends.extend([0, ASK, NO_BODY, ASK | NO_BODY].map(data));
    sends.extend([0, ASK].map(noop));
    sends
}

/// The messages that are tried with every mixture: ones that ask and do not, confirmations of the oldest entry and of
/// the one behind it by either type, and a CLOSE.
fn every_message(random: &mut Random, state: &State) -> Vec<Draft> {
    let mut controls = vec![(READY, 0, 1), (NOOP, 0, 7), (NOOP, ACK_REQUEST, 7), (DATA, ACK_REQUEST, 7), (CLOSE, 0, 0)];
    for entry in state.awaited.iter().take(2) {
        controls.extend([NOOP, DATA].map(|message_type| (message_type, ACK_REPLY, entry.type_data)));
    }
    let draft = |(message_type, flags, type_data)| Draft::new(state.clone(), message_type, flags, type_data, random);
    controls.into_iter().map(draft).collect()
}

/// Adds every send and every message from and to this state, with room and without, and a bundle that is bad.
fn add_every_call(calls: &mut Calls, random: &mut Random, state: &State) {
    for send in every_send() {
        for room in [REPLY - 1, REPLY + 7] {
            add(calls, SendMessage { block: state.block(), send: send.clone(), room });
        }
    }
    let drafts = every_message(random, state);
    for draft in &drafts {
        add(calls, draft.call(REPLY - 1));
        add(calls, draft.call(REPLY));
    }
    add(calls, drafts[0].with_bytes(vec![0], REPLY));
}

/// Every mixture of a few entries and those of many that are nearly of one type, and as many NOOPs of a consumer,
/// behind the first READY: whatever asks, confirms and closes.
pub fn every_mixture(random: &mut Random) -> Calls {
    let mut calls = Calls::new();
    let many = [MOST_AWAITED - 1, MOST_AWAITED].map(mixtures_of).concat();
    for awaited in [mixtures_up_to(4), many].concat() {
        for phase in RUNNING {
            let state = awaiting(random, Flow::Producer, phase, awaited.clone());
            add_every_call(&mut calls, random, &state);
            let noops = mixture(awaited.len(), 0);
            let state = awaiting(random, Flow::Consumer, phase, noops);
            add_every_call(&mut calls, random, &state);
        }
    }
    calls
}

/// Adds every call that takes a block, with this one, which is bad; the model must find it so. Making an endpoint in it
/// does not look at its bytes.
fn add_bad(calls: &mut Calls, random: &mut Random, state: &State, block: &[u8]) {
    assert_eq!(State::read(block), None, "bytes 6 and 7 are as they must not be");
    let message = state.awaited.oldest().map_or((NOOP, 0, 7), |entry| (entry.message_type, ACK_REPLY, entry.type_data));
    let (message_type, flags, type_data) = message;
    let draft = Draft::new(state.clone(), message_type, flags, type_data, random);
    add(calls, draft.to_block(block.to_vec(), REPLY));
    for send in sends::one_of_each(random) {
        let call = sends::to_block(random, block.to_vec(), send, state);
        add(calls, call);
    }
    for role in Role::ALL {
        add(calls, Make { role, block: block.to_vec(), flow: state.flow as u8, limit: state.limit });
    }
}

/// Good states of either flow, in phases in which nothing is awaited and in phases in which something may be.
fn some_states(random: &mut Random) -> Vec<State> {
    let mut states = Vec::new();
    let many = [0, 0xFFFF, 0x5A5A].map(|data| mixture(MOST_AWAITED, data));
    for awaited in mixtures_up_to(2).into_iter().chain(many) {
        let phase = random.choose(&RUNNING);
        states.push(awaiting(random, Flow::Producer, phase, awaited));
    }
    for awaited in [0, 1, 2, MOST_AWAITED] {
        let phase = random.choose(&RUNNING);
        states.push(awaiting(random, Flow::Consumer, phase, mixture(awaited, 0)));
    }
    for phase in [Phase::Fresh, Phase::Opening, Phase::Closed] {
        states.extend(Flow::ALL.map(|flow| awaiting(random, flow, phase, Awaited::NONE)));
    }
    states
}

/// Blocks that are good but for byte 6, or but for byte 7, with every number there that is not the right one.
pub fn other_numbers(random: &mut Random) -> Calls {
    let mut calls = Calls::new();
    for state in some_states(random) {
        let good = state.block();
        for (place, number) in
            [UNCONFIRMED, UNCONFIRMED + 1].into_iter().flat_map(|place| (0..=255).map(move |number| (place, number)))
        {
            let mut block = good.clone();
            block[place] = number;
            if block != good {
                add_bad(&mut calls, random, &state, &block);
            }
        }
    }
    calls
}

/// A DATA at every place behind the entries that are awaited, which byte 6 counts or does not.
pub fn data_behind(random: &mut Random) -> Calls {
    let mut calls = Calls::new();
    for awaited in [mixtures_up_to(3), mixtures_of(MOST_AWAITED - 1)].concat() {
        let phase = random.choose(&RUNNING);
        let state = awaiting(random, Flow::Producer, phase, awaited);
        for place in state.awaited.len()..MOST_AWAITED {
            let mut block = state.block();
            block[ENTRIES + 3 * place] = DATA;
            add_bad(&mut calls, random, &state, &block);
            block[UNCONFIRMED] += 1;
            add_bad(&mut calls, random, &state, &block);
        }
    }
    calls
}
