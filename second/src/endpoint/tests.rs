//! Tests of the endpoint: its block, each row of the two tables, each number, and the order of the numbers.

use super::*;
use crate::bundle::of_frames;
use crate::control::{self, Control};
use crate::open::{self, Opening};

mod unconfirmed;

use Flow::{Consumer, Producer};
use Phase::{Batch, Closed, Fresh, Idle, Offer, Opening as Opened};
use Role::{Client, Server};

const ROLES: &[Role] = &Role::ALL;
const FLOWS: &[Flow] = &Flow::ALL;
const RUNNING: &[Phase] = &[Idle, Offer, Batch];

/// A state with 4 messages where they are counted, and with one NOOP awaited where that may be.
fn state(role: Role, flow: Flow, phase: Phase) -> State {
    let n = if phase.counts() { 4 } else { 0 };
    let awaited = phase.is_running().then_some(Entry { message_type: NOOP, type_data: 0x0102 });
    State { role, flow, phase, n, limit: 2_000_000, awaited: awaited.into_iter().collect() }
}

fn every_state() -> Vec<State> {
    let mut states = Vec::new();
    for role in Role::ALL {
        for flow in Flow::ALL {
            states.extend(Phase::ALL.map(|phase| state(role, flow, phase)));
        }
    }
    states
}

fn after(phase: Phase, n: u16) -> impl Fn(&State) -> State {
    move |before| State { phase, n, ..before.clone() }
}

fn message(message_type: u8, flags: u8, type_data: u16, frames: &[&[u8]]) -> Vec<u8> {
    let control = control::frame(&Control { message_type, flags, type_data }).unwrap();
    of_frames(&[&[&control[..]], frames].concat())
}

fn close(code: u16) -> Vec<u8> {
    message(CLOSE, 0, code, &[])
}

/// The OPEN that a server of this flow, which offers `pipe` and `text`, hears.
fn opening(flow: Flow, name: &[u8], format: &[u8]) -> Vec<u8> {
    let (name, format) = (name.to_vec(), format.to_vec());
    let opening = Opening { producer: flow == Consumer, name, format, limit: 3_000_000 };
    message(OPEN, 0, 0, &[&open::frame(&opening).unwrap()])
}

fn receive_at(state: &State, message: &[u8]) -> copies::Received {
    received(&state.block(), message, b"pipe", b"text", &[7; 20])
}

fn number_at(state: &State, message: &[u8]) -> u64 {
    receive_at(state, message).number
}

fn send_from(state: &State, send: &Send) -> copies::Sent {
    sent(&state.block(), send, &[7; 600])
}

#[test]
fn a_block_says_its_state_byte_by_byte() {
    let mut expected = vec![2, 1, 4, 3, 0x12, 0x34, 2, 0, 0x00, 0x0F, 0x42, 0x40, 0, 0, 0, 0];
    expected.extend([4, 0xAB, 0xCD, 3, 0, 1, 4, 0, 2]);
    expected.resize(64, 0);
    let awaited =
        [(DATA, 0xABCD), (NOOP, 1), (DATA, 2)].map(|(message_type, type_data)| Entry { message_type, type_data });
    let awaited = awaited.into_iter().collect();
    let state = State { role: Server, flow: Producer, phase: Batch, n: 0x1234, limit: 1_000_000, awaited };
    assert_eq!(state.block(), expected);
    assert_eq!(State::read(&expected), Some(state));
}

#[test]
fn good_blocks_are_read_as_they_were_written() {
    for state in every_state() {
        assert_eq!(State::read(&state.block()), Some(state));
    }
}

/// Each with one byte of a good block changed.
#[test]
fn blocks_that_break_a_rule_are_bad() {
    let batch =
        [(0, 0), (0, 3), (1, 0), (1, 3), (2, 6), (2, 2), (3, 0), (3, 2), (3, 17), (5, 0), (6, 1), (7, 1), (8, 3)];
    let rest =
        [(9, 0), (12, 1), (13, 1), (14, 1), (15, 1), (16, 5), (16, 4), (16, 0), (19, 3), (20, 1), (21, 1), (63, 1)];
    let idle = [(4, 1), (5, 1), (2, 0), (2, 1), (2, 3), (2, 5)];
    let fresh = [(3, 1), (4, 1), (5, 1), (2, 3), (2, 4), (16, 3)];
    for (good, changes) in [
        (state(Client, Producer, Batch), &batch[..]),
        (state(Client, Producer, Batch), &rest),
        (state(Client, Consumer, Idle), &idle),
        (state(Server, Consumer, Fresh), &fresh),
    ] {
        for (place, value) in changes {
            let mut block = good.block();
            block[*place] = *value;
            assert_eq!(State::read(&block), None, "byte {place} is {value}");
        }
    }
}

#[test]
fn blocks_of_another_length_are_bad() {
    for length in [0, 63, 65, 128] {
        let mut block = state(Client, Producer, Batch).block();
        block.resize(length, 0);
        assert_eq!(State::read(&block), None);
    }
}

/// A good entry in each phase that has none.
#[test]
fn nothing_is_awaited_in_phases_0_1_and_5() {
    for phase in [Fresh, Opened, Closed] {
        let mut block = state(Client, Consumer, phase).block();
        (block[3], block[16]) = (1, NOOP);
        assert_eq!(State::read(&block), None);
    }
}

#[test]
fn the_ends_of_the_ranges_are_good() {
    let mut state = state(Client, Producer, Batch);
    for limit in [1_000_000, 50_000_000] {
        state.limit = limit;
        assert!(State::read(&state.block()).is_some());
    }
    for limit in [999_999, 50_000_001] {
        state.limit = limit;
        assert!(State::read(&state.block()).is_none());
    }
    let awaited = [Entry { message_type: DATA, type_data: 9 }; 16].into_iter().collect();
    state = State { n: 65_535, limit: 1_000_000, awaited, ..state };
    assert!(State::read(&state.block()).is_some());
}

#[test]
fn endpoints_are_made_whatever_the_block_was() {
    let (number, block) = made(&[9; 64], Client, 2, 1_000_000);
    assert_eq!((number, block[..12].to_vec()), (0, vec![1, 2, 0, 0, 0, 0, 0, 0, 0x00, 0x0F, 0x42, 0x40]));
    assert_eq!(block[12..], [0; 52]);
    let (number, block) = made(&[9; 64], Server, 1, 50_000_000);
    assert_eq!((number, block[..12].to_vec()), (0, vec![2, 1, 0, 0, 0, 0, 0, 0, 0x02, 0xFA, 0xF0, 0x80]));
    for (length, flow, limit, number) in
        [(63, 0, 0, 1), (65, 1, 1_000_000, 1), (64, 0, 1_000_000, 34), (64, 3, 1_000_000, 34), (64, 1, 999_999, 34)]
    {
        assert_eq!(made(&vec![9; length], Client, flow, limit), (number, vec![9; length]));
    }
    assert_eq!(made(&[9; 64], Client, 1, 50_000_001).0, 34);
}

/// A row of the table of sends: the send, who may send it, in which phases, what it writes, and the state after it.
type SendRow<'a> = (Send, &'a [Role], &'a [Flow], &'a [Phase], Vec<u8>, Box<dyn Fn(&State) -> State>);

fn ready_rows<'a>() -> Vec<SendRow<'a>> {
    let ready = |count| (Send::Ready { count }, message(READY, 0, count, &[]));
    let row = |count, roles, phases, then: Phase, n| -> SendRow<'a> {
        let (send, bytes) = ready(count);
        (send, roles, FLOWS, phases, bytes, Box::new(after(then, n)))
    };
    vec![
        row(0, &[Client], &[Offer], Idle, 0),
        row(3, &[Client], &[Offer], Batch, 3),
        row(4, &[Client], &[Offer], Batch, 4),
        row(0, &[Server], &[Opened, Idle], Idle, 0),
        row(9, &[Server], &[Opened, Idle], Offer, 9),
    ]
}

fn awaiting(before: &State, message_type: u8, type_data: u16) -> Awaited {
    before.awaited.iter().chain([Entry { message_type, type_data }]).collect()
}

fn other_rows<'a>() -> Vec<SendRow<'a>> {
    let data = |how| Send::Data { type_data: 0x1234, how, body: b"abc".to_vec() };
    let noop = |how| Send::Noop { type_data: 0x1234, how };
    let sent = |message_type, flags, frames| message(message_type, flags, 0x1234, frames);
    let same: fn(&State) -> State = State::clone;
    let asked_noop = |before: &State| State { awaited: awaiting(before, NOOP, 0x1234), ..before.clone() };
    let asked_data = |before: &State| State { n: 3, awaited: awaiting(before, DATA, 0x1234), ..before.clone() };
    vec![
        (noop(0), ROLES, FLOWS, RUNNING, sent(NOOP, 0, &[]), Box::new(same)),
        (noop(ASK), ROLES, FLOWS, RUNNING, sent(NOOP, 1, &[]), Box::new(asked_noop)),
        (data(0), ROLES, &[Producer], &[Batch], sent(DATA, 0, &[b"abc"]), Box::new(after(Batch, 3))),
        (data(ASK), ROLES, &[Producer], &[Batch], sent(DATA, 1, &[b"abc"]), Box::new(asked_data)),
        (data(NO_BODY), ROLES, &[Producer], &[Batch], sent(DATA, 0, &[]), Box::new(after(Batch, 3))),
        (data(ASK | NO_BODY), ROLES, &[Producer], &[Batch], sent(DATA, 1, &[]), Box::new(asked_data)),
        (Send::Close { code: 6 }, ROLES, FLOWS, &[Opened, Idle, Offer, Batch], close(6), Box::new(State::closed)),
    ]
}

#[test]
fn each_row_of_sends() {
    for (send, roles, flows, phases, bytes, after) in ready_rows().into_iter().chain(other_rows()) {
        for before in every_state() {
            let allowed = phases.contains(&before.phase) && flows.contains(&before.flow);
            if allowed && roles.contains(&before.role) {
                let sent = send_from(&before, &send);
                assert_eq!((sent.number, sent.written), (0, bytes.len() as u64), "{send:?} from {before:?}");
                assert_eq!(sent.block, after(&before).block());
                assert_eq!(sent.out, [&bytes[..], &vec![7; 600 - bytes.len()]].concat());
            } else if roles.len() == 2 || roles.contains(&before.role) {
                let number = if before.phase == Closed { 3 } else { 30 };
                assert_eq!(send_from(&before, &send).number, number, "{send:?} from {before:?}");
            }
        }
    }
}

/// A number of DATA is as its two lowest bits, and one of NOOP as its lowest.
#[test]
fn other_bits_of_how_are_not_looked_at() {
    let batch = state(Client, Producer, Batch);
    let data = |how| send_from(&batch, &Send::Data { type_data: 9, how, body: b"abc".to_vec() });
    let noop = |how| send_from(&batch, &Send::Noop { type_data: 9, how });
    for how in 0..=255 {
        assert_eq!(data(how), data(how & (ASK | NO_BODY)), "{how}");
        assert_eq!(noop(how), noop(how & ASK), "{how}");
    }
}

/// The messages of DATA without a body and with an empty one, each in the room that it needs and in a byte less.
#[test]
fn a_missing_body_is_no_data_frame_and_an_empty_one_is() {
    let batch = state(Server, Producer, Batch).block();
    for (how, lent, needed) in [(NO_BODY, &b""[..], 14), (NO_BODY, b"abc", 14), (0, b"", 18), (0, b"abc", 21)] {
        let send = Send::Data { type_data: 1, how, body: lent.to_vec() };
        assert_eq!(super::sent(&batch, &send, &vec![7; needed - 1]).number, 2);
        let sent = super::sent(&batch, &send, &vec![7; needed]);
        let frames: &[&[u8]] = if how == NO_BODY { &[] } else { &[lent] };
        assert_eq!((sent.number, sent.written, sent.out), (0, needed as u64, message(DATA, 0, 1, frames)));
    }
}

#[test]
fn open_is_sent_by_a_fresh_client_alone() {
    let send = Send::Open { name: b"pipe".to_vec(), format: b"text".to_vec() };
    for before in every_state() {
        let sent = send_from(&before, &send);
        match (before.role, before.phase) {
            (Client, Fresh) => {
                let limited = Opening {
                    producer: before.is_producer(),
                    name: b"pipe".to_vec(),
                    format: b"text".to_vec(),
                    limit: 2_000_000,
                };
                let bytes = message(OPEN, 0, 0, &[&open::frame(&limited).unwrap()]);
                assert_eq!((sent.number, &sent.out[..bytes.len()]), (0, &bytes[..]));
                assert_eq!(sent.block, after(Opened, 0)(&before).block());
            }
            (_, Closed) => assert_eq!(sent.number, 3),
            _ => assert_eq!(sent.number, 30),
        }
    }
}

#[test]
fn the_last_data_of_a_batch_leaves_an_idle_endpoint() {
    let last = State { n: 1, ..state(Server, Producer, Batch) };
    for how in [0, NO_BODY] {
        let sent = send_from(&last, &Send::Data { type_data: 0, how, body: Vec::new() });
        assert_eq!((sent.number, sent.block), (0, after(Idle, 0)(&last).block()));
    }
    let last = State { n: 1, ..state(Client, Consumer, Batch) };
    for message in [message(DATA, 0, 0, &[]), message(DATA, 0, 0, &[b""])] {
        let received = receive_at(&last, &message);
        assert_eq!((received.number, received.block), (0, after(Idle, 0)(&last).block()));
    }
}

#[test]
fn codes_of_a_close() {
    for before in every_state() {
        for code in 0..=300 {
            let number = send_from(&before, &Send::Close { code }).number;
            let expected = match (before.phase, code) {
                (Closed, _) => 3,
                (Fresh, _) => 30,
                (_, 0..=6) => 0,
                (Opened, 100..=103) if before.role == Server => 0,
                _ => 35,
            };
            assert_eq!(number, expected, "{code} from {before:?}");
        }
    }
}

/// Each send is refused for all that is wrong with it, one number after the other.
#[test]
fn sends_test_3_30_31_32_33_34_35_2_in_this_order() {
    let refused = |state: &State, send: &Send, room: usize| {
        let sent = super::sent(&state.block(), send, &vec![7; room]);
        assert_eq!((sent.block, sent.out, sent.written), (state.block(), vec![7; room], 0));
        sent.number
    };
    let full = [Entry { message_type: NOOP, type_data: 1 }; 16].into_iter().collect();
    let data = |how, length| Send::Data { type_data: 0, how, body: vec![0; length] };
    let over = data(ASK, 1_999_993);
    let batch = State { awaited: full, ..state(Client, Producer, Batch) };
    assert_eq!(refused(&State { flow: Consumer, ..batch.clone() }, &over, 0), 30);
    assert_eq!(refused(&batch, &over, 0), 32);
    assert_eq!(refused(&state(Client, Producer, Batch), &over, 0), 33);
    assert_eq!(refused(&batch, &data(0, 1_999_993), 0), 33);
    assert_eq!(refused(&batch, &data(0, 1_999_992), 2_000_009), 2);
    assert_eq!(refused(&batch, &data(ASK | NO_BODY, 1_999_993), 0), 32);
    assert_eq!(refused(&batch, &data(NO_BODY, 1_999_993), 13), 2);
    assert_eq!(refused(&batch, &Send::Noop { type_data: 0, how: ASK }, 0), 32);
    assert_eq!(refused(&batch, &Send::Noop { type_data: 0, how: 0 }, 13), 2);
    assert_eq!(refused(&state(Client, Producer, Offer), &Send::Ready { count: 5 }, 0), 31);
    assert_eq!(refused(&state(Client, Producer, Offer), &Send::Ready { count: 4 }, 13), 2);
    assert_eq!(refused(&state(Server, Producer, Idle), &Send::Ready { count: 65_535 }, 13), 2);
    assert_eq!(refused(&state(Client, Producer, Opened), &Send::Close { code: 100 }, 0), 35);
    assert_eq!(refused(&state(Server, Producer, Opened), &Send::Close { code: 100 }, 13), 2);
    let bad_name = Send::Open { name: Vec::new(), format: Vec::new() };
    assert_eq!(refused(&state(Client, Producer, Opened), &bad_name, 0), 30);
    assert_eq!(refused(&state(Client, Producer, Fresh), &bad_name, 0), 34);
    let name = Send::Open { name: b"n".to_vec(), format: Vec::new() };
    assert_eq!(refused(&state(Client, Producer, Fresh), &name, 18), 2);
    assert_eq!(refused(&state(Client, Producer, Closed), &bad_name, 0), 3);
    assert_eq!(super::sent(&[0; 64], &bad_name, &[]).number, 1);
}

/// A row of the table of messages: the message, who hears it, in which phases, and the state after it.
type ReceiveRow<'a> = (Vec<u8>, &'a [Role], &'a [Flow], &'a [Phase], Box<dyn Fn(&State) -> State>);

fn receive_rows<'a>() -> Vec<ReceiveRow<'a>> {
    let ready = |count| message(READY, 0, count, &[]);
    let same: fn(&State) -> State = State::clone;
    let confirmed = |before: &State| State { awaited: Awaited::NONE, ..before.clone() };
    let any = &[Opened, Idle, Offer, Batch];
    vec![
        (ready(0), &[Client], FLOWS, &[Opened, Idle], Box::new(after(Idle, 0))),
        (ready(9), &[Client], FLOWS, &[Opened, Idle], Box::new(after(Offer, 9))),
        (ready(0), &[Server], FLOWS, &[Offer], Box::new(after(Idle, 0))),
        (ready(3), &[Server], FLOWS, &[Offer], Box::new(after(Batch, 3))),
        (ready(4), &[Server], FLOWS, &[Offer], Box::new(after(Batch, 4))),
        (message(DATA, 0, 1, &[b"ab"]), ROLES, &[Consumer], &[Batch], Box::new(after(Batch, 3))),
        (message(DATA, 0, 1, &[]), ROLES, &[Consumer], &[Batch], Box::new(after(Batch, 3))),
        (message(NOOP, 0, 1, &[]), ROLES, FLOWS, RUNNING, Box::new(same)),
        (message(NOOP, 2, 0x0102, &[]), ROLES, FLOWS, RUNNING, Box::new(confirmed)),
        (message(CLOSE, 0, 3, &[]), ROLES, FLOWS, any, Box::new(State::closed)),
        (message(CLOSE, 255, 3, &[b"why", b""]), ROLES, FLOWS, any, Box::new(State::closed)),
    ]
}

#[test]
fn each_row_of_messages() {
    for (message, roles, flows, phases, after) in receive_rows() {
        for before in every_state() {
            let received = receive_at(&before, &message);
            let allowed = phases.contains(&before.phase) && flows.contains(&before.flow);
            if before.phase == Closed {
                assert_eq!((received.number, received.block), (3, before.block()));
            } else if allowed && roles.contains(&before.role) {
                assert_eq!((received.number, received.block), (0, after(&before).block()), "{message:?} to {before:?}");
                assert_eq!((received.heard[3], received.out), (0, vec![7; 20]));
            } else if roles.len() == 2 || roles.contains(&before.role) {
                assert_eq!(
                    (received.number, received.block),
                    (17, before.closed().block()),
                    "{message:?} to {before:?}"
                );
            }
        }
    }
}

#[test]
fn open_is_heard_by_a_fresh_server_alone() {
    for before in every_state() {
        let message = opening(before.flow, b"pipe", b"text");
        let received = receive_at(&before, &message);
        match (before.role, before.phase) {
            (Server, Fresh) => {
                let opened = State { limit: 3_000_000, ..after(Opened, 0)(&before) };
                let socket = if before.is_producer() { 2 } else { 1 };
                assert_eq!((received.number, received.block), (0, opened.block()));
                assert_eq!(received.heard, [1, 0, 0, 0, 1, socket, 20, 4, 28, 4, 34, 32, 0, 0, 0, 0]);
            }
            (_, Closed) => assert_eq!(received.number, 3),
            _ => assert_eq!(received.number, 17),
        }
    }
}

#[test]
fn what_asks_is_confirmed_and_heard_with_its_body() {
    let batch = state(Server, Consumer, Batch);
    let received = receive_at(&batch, &message(DATA, 1, 0x1234, &[b"abc"]));
    assert_eq!(received.heard, [4, 1, 0x1234, 14, 1, 0, 0, 0, 0, 0, 0, 0, 18, 3, 0, 0]);
    assert_eq!(received.out, [&message(DATA, 2, 0x1234, &[])[..], &[7; 6]].concat());
    let received = receive_at(&batch, &message(NOOP, 1, 0x1234, &[]));
    assert_eq!(received.heard, [3, 1, 0x1234, 14, 0, 0, 0, 0, 0, 0, 0, 0, 0, 0, 0, 0]);
    assert_eq!(received.out, [&message(NOOP, 2, 0x1234, &[])[..], &[7; 6]].concat());
}

/// The data frames of a DATA; how many there are, with place and length of the body; and the body.
type Body<'a> = (&'a [&'a [u8]], [u64; 3], Option<&'a [u8]>);

/// A missing body has no place, and an empty one has the place behind the control frame.
#[test]
fn a_missing_body_is_heard_apart_from_an_empty_one() {
    let batch = state(Client, Consumer, Batch);
    let bodies: [Body; 3] =
        [(&[], [0, 0, 0], None), (&[b""], [1, 18, 0], Some(b"")), (&[b"ab"], [1, 18, 2], Some(b"ab"))];
    for flags in [0, ACK_REQUEST] {
        for (frames, [count, at, length], body) in bodies {
            let message = message(DATA, flags, 5, frames);
            let received = receive_at(&batch, &message);
            let reply = if flags == ACK_REQUEST { 14 } else { 0 };
            let heard = [4, flags.into(), 5, reply, count, 0, 0, 0, 0, 0, 0, 0, at, length, 0, 0];
            assert_eq!((received.number, received.heard), (0, heard));
            assert_eq!(body_heard(&message, &received.heard), body);
        }
    }
}

/// Only NOOP and DATA are confirmed.
#[test]
fn asks_of_other_messages_are_ignored() {
    let received = receive_at(&state(Client, Consumer, Opened), &message(READY, 1, 5, &[]));
    assert_eq!((received.number, received.heard[..5].to_vec()), (0, vec![2, 1, 5, 0, 0]));
    let received = receive_at(&state(Client, Consumer, Opened), &message(CLOSE, 1, 5, &[]));
    assert_eq!((received.number, received.heard[..5].to_vec()), (0, vec![5, 1, 5, 0, 0]));
    let mut open = opening(Consumer, b"pipe", b"");
    open[15] = 1;
    let received = receive_at(&state(Server, Consumer, Fresh), &open);
    assert_eq!((received.number, received.heard[..5].to_vec()), (0, vec![1, 1, 0, 0, 1]));
}

/// A message to an endpoint, its number, and the code of the CLOSE that replies to it.
type Refusal = (State, Vec<u8>, u64, u16);

fn control_refusals() -> Vec<Refusal> {
    let (fresh, offer) = (state(Server, Consumer, Fresh), state(Server, Consumer, Offer));
    let strange = |control_byte: u8| of_frames(&[&[b'F', b'B', b'D', b'P', control_byte, 0, 0, 0]]);
    vec![
        (fresh.clone(), vec![0, 0], 10, 1),
        (fresh.clone(), of_frames(&[b"FBDP"]), 11, 1),
        (fresh.clone(), of_frames(&[b"FBDQ\x09\0\0\0"]), 11, 1),
        (fresh.clone(), strange(8), 12, 101),
        (fresh.clone(), strange(8 * 2), 12, 1),
        (fresh.clone(), strange(8 * 5 + 2), 12, 1),
        (offer, strange(8), 12, 1),
        (state(Client, Producer, Idle), strange(8), 12, 1),
        (fresh.clone(), strange(1), 13, 1),
        (fresh, strange(8 * 31 + 1), 13, 1),
    ]
}

fn flow_refusals() -> Vec<Refusal> {
    let (offer, batch) = (state(Server, Consumer, Offer), state(Client, Consumer, Batch));
    vec![
        (batch.clone(), message(NOOP, 4, 0, &[]), 14, 1),
        (batch.clone(), message(NOOP, 3, 0, &[]), 14, 1),
        (offer.clone(), message(READY, 2, 0, &[]), 14, 1),
        (offer.clone(), message(READY, 0, 0, &[b""]), 15, 1),
        (batch.clone(), message(NOOP, 0, 0, &[b""]), 15, 1),
        (batch.clone(), message(NOOP, 2, 0x0102, &[b""]), 15, 1),
        (batch.clone(), message(DATA, 0, 0, &[b"", b""]), 15, 1),
        (batch.clone(), message(DATA, 1, 0, &[b"", b"", b""]), 15, 1),
        (batch.clone(), message(DATA, 2, 0x0102, &[b""]), 15, 1),
        (batch.clone(), message(DATA, 0, 0, &[&[0; 1_999_993]]), 16, 2),
        (offer.clone(), message(DATA, 0, 0, &[b""]), 17, 2),
        (offer.clone(), message(DATA, 0, 0, &[]), 17, 2),
        (offer, message(READY, 0, 5, &[]), 23, 2),
        (batch.clone(), message(NOOP, 2, 0x0201, &[]), 24, 2),
        (batch, message(DATA, 2, 0x0102, &[]), 24, 2),
    ]
}

fn open_refusals() -> Vec<Refusal> {
    let (fresh, idle) = (state(Server, Consumer, Fresh), state(Client, Producer, Idle));
    let frame = |fields: &[u8]| message(OPEN, 0, 0, &[fields]);
    vec![
        (fresh.clone(), message(OPEN, 2, 0, &[]), 14, 1),
        (fresh.clone(), message(OPEN, 0, 0, &[]), 15, 1),
        (fresh.clone(), frame(&[0; 4097]), 16, 2),
        (idle.clone(), frame(&[0; 4097]), 16, 2),
        (idle, frame(b""), 17, 2),
        (fresh.clone(), message(NOOP, 0, 0, &[]), 17, 2),
        (fresh.clone(), frame(b"\x00"), 18, 1),
        (fresh.clone(), frame(b"\x10\x01"), 19, 2),
        (fresh.clone(), frame(b"\x0A\x04pipe\x10\x03"), 20, 102),
        (fresh.clone(), frame(b"\x0A\x04pipe\x10\x02"), 21, 100),
        (fresh.clone(), frame(b"\x0A\x04pips\x10\x01"), 21, 100),
        (fresh, opening(Consumer, b"pipe", b"other"), 22, 103),
    ]
}

#[test]
fn each_refusal_has_its_code() {
    for (to, message, number, code) in [control_refusals(), flow_refusals(), open_refusals()].concat() {
        let received = receive_at(&to, &message);
        assert_eq!((received.number, received.block), (number, to.closed().block()));
        assert_eq!(received.out, [&close(code)[..], &[7; 6]].concat(), "{number}");
        let mut heard = [0; 16];
        heard[3] = 14;
        assert_eq!(received.heard, heard);
    }
}

#[test]
fn a_fresh_client_and_an_early_close_get_no_reply() {
    let client = state(Client, Producer, Fresh);
    for message in
        [vec![], close(0), message(NOOP, 1, 0, &[]), opening(Producer, b"pipe", b""), message(READY, 0, 1, &[])]
    {
        let received = receive_at(&client, &message);
        assert_eq!((received.block, received.out), (client.closed().block(), vec![7; 20]));
        assert_eq!(received.heard, [0; 16]);
    }
    let server = state(Server, Producer, Fresh);
    let received = receive_at(&server, &message(CLOSE, 255, 0, &[b"", b""]));
    assert_eq!((received.number, received.block), (17, server.closed().block()));
    assert_eq!((received.out, received.heard), (vec![7; 20], [0; 16]));
}

#[test]
fn receives_test_1_2_3_10_in_this_order() {
    let closed = state(Server, Producer, Closed).block();
    let mut bad = closed.clone();
    bad[6] = 1;
    for (block, room, number) in [(&bad, 0, 1), (&closed, 13, 2), (&closed, 14, 3)] {
        let received = received(block, &[], b"", b"", &vec![7; room]);
        assert_eq!((received.number, &received.block), (number, block));
        assert_eq!((received.out, received.heard), (vec![7; room], [0; 16]));
    }
    let fresh = state(Server, Producer, Fresh).block();
    assert_eq!(received(&fresh, &[], b"", b"", &[7; 13]).number, 2);
    assert_eq!(received(&fresh, &[], b"", b"", &[7; 14]).number, 10);
}

/// Each message is refused for all that is wrong with it, one number after the other.
#[test]
fn receives_test_14_to_17_in_this_order() {
    let idle = state(Client, Producer, Idle);
    let large = vec![0; 1_999_993];
    assert_eq!(number_at(&idle, &message(DATA, 3, 0, &[&large, b""])), 14);
    assert_eq!(number_at(&idle, &message(DATA, 1, 0, &[&large, b""])), 15);
    assert_eq!(number_at(&idle, &message(DATA, 1, 0, &[&large])), 16);
    assert_eq!(number_at(&idle, &message(DATA, 1, 0, &[&large[1..]])), 17);
    assert_eq!(number_at(&idle, &message(DATA, 3, 0, &[])), 14);
    assert_eq!(number_at(&idle, &message(DATA, 1, 0, &[])), 17);
    assert_eq!(number_at(&idle, &message(CLOSE, 7, 0, &[&large, b""])), 0);
}

/// A confirmation is no data: n stays, whatever the phase.
#[test]
fn confirmations_go_to_the_oldest_entry_and_leave_n() {
    let entry = |message_type, type_data| Entry { message_type, type_data };
    let awaited = [entry(DATA, 7), entry(NOOP, 7), entry(DATA, 8)];
    for (phase, n) in [(Idle, 0), (Offer, 4), (Batch, 1)] {
        let before = State { n, awaited: awaited.into_iter().collect(), ..state(Server, Producer, phase) };
        let left = State { awaited: awaited[1..].iter().copied().collect(), ..before.clone() };
        let received = receive_at(&before, &message(DATA, 2, 7, &[]));
        assert_eq!((received.number, received.block), (0, left.block()));
        assert_eq!(number_at(&before, &message(NOOP, 2, 7, &[])), 24);
        assert_eq!(number_at(&before, &message(DATA, 2, 8, &[])), 24);
        assert_eq!(number_at(&left, &message(NOOP, 2, 7, &[])), 0);
    }
}
