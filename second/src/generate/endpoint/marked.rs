//! The marked cases and the slips of document 01, and the cases of C-12 and C-14 in document 02, as calls; the model
//! must answer each of them as it is told there.

use crate::calls::{Receive, SendMessage};
use crate::endpoint::{self, Awaited, Entry, Flow, Phase, Role, Send, State, ASK, DATA, NOOP, NO_BODY};
use crate::generate::{add, Calls};
use crate::random::Random;

/// The lengths before a control frame alone.
const ALONE: [u8; 6] = [0, 1, 0, 0, 0, 8];

/// K1, and behind it K4's frame and what K5 adds to it.
const READY_8: [u8; 8] = [0x46, 0x42, 0x44, 0x50, 0x11, 0x00, 0x00, 0x08];
const PRESS7: &[u8] = b"\x0A\x06press7\x10\x01";
const MILLION: &[u8] = b"\x22\x20\x0A\x1E\x0A\x11max_message_bytes\x12\x09\x11\x00\x00\x00\x00\x80\x84\x2E\x41";

/// A bundle of a control frame alone, told from its control byte on.
fn alone(control_byte: u8, flags: u8, type_data: [u8; 2]) -> Vec<u8> {
    [&ALONE[..], b"FBDP", &[control_byte, flags], &type_data].concat()
}

/// A bundle of a DATA with this type-data and body.
fn data(flags: u8, type_data: [u8; 2], body: &[u8]) -> Vec<u8> {
    let length = (body.len() as u32).to_be_bytes();
    [&[0, 2, 0, 0, 0, 8], &length[..], b"FBDP\x21", &[flags], &type_data, body].concat()
}

/// A bundle of an OPEN without flags and with this frame.
fn open(frame: &[u8]) -> Vec<u8> {
    [&[0, 2, 0, 0, 0, 8, 0, 0, 0, frame.len() as u8], &b"FBDP\x09\0\0\0"[..], frame].concat()
}

fn close(code: u8) -> Vec<u8> {
    alone(0x29, 0, [0, code])
}

fn state(role: Role, flow: Flow, phase: Phase, n: u16) -> State {
    State { role, flow, phase, n, limit: 1_000_000, awaited: Awaited::NONE }
}

fn awaiting(state: &State, entries: &[(u8, u16)]) -> State {
    let entry = |(message_type, type_data): &(u8, u16)| Entry { message_type: *message_type, type_data: *type_data };
    State { awaited: entries.iter().map(entry).collect(), ..state.clone() }
}

/// What comes of a send: the number, the state after it, and the message.
fn sent(calls: &mut Calls, from: &State, send: Send, number: u64, after: &State, message: &[u8]) {
    let room = message.len().max(14) + 2;
    let answer = endpoint::sent(&from.block(), &send, &vec![7; room]);
    assert_eq!((answer.number, answer.block), (number, after.block()));
    assert_eq!(answer.written, message.len() as u64);
    assert_eq!(answer.out, [message, &vec![7; room - message.len()]].concat());
    add(calls, SendMessage { block: from.block(), send, room });
}

/// What comes of a message: the number, the state after it, and the reply.
fn received(calls: &mut Calls, to: &State, message: &[u8], number: u64, after: &State, reply: &[u8]) {
    let (name, format) = (b"press7".to_vec(), b"text".to_vec());
    let answer = endpoint::received(&to.block(), message, &name, &format, &[7; 16]);
    assert_eq!((answer.number, answer.block), (number, after.block()));
    assert_eq!(answer.heard[3], reply.len() as u64);
    assert_eq!(answer.out, [reply, &vec![7; 16 - reply.len()]].concat());
    add(calls, Receive { block: to.block(), message: message.to_vec(), name, format, room: 16 });
}

/// K1 to K3: READY(8) and a NOOP that asks.
fn ready_and_noop(calls: &mut Calls) {
    let k2 = [&ALONE[..], &READY_8].concat();
    for flow in Flow::ALL {
        let server = state(Role::Server, flow, Phase::Opening, 0);
        sent(calls, &server, Send::Ready { count: 8 }, 0, &server.after_ready(8, Phase::Offer), &k2);
        let client = state(Role::Client, flow.other(), Phase::Opening, 0);
        received(calls, &client, &k2, 0, &client.after_ready(8, Phase::Offer), &[]);
        for (phase, n) in [(Phase::Idle, 0), (Phase::Offer, 3), (Phase::Batch, 3)] {
            let (asked, confirmed) = (alone(0x19, 1, [0x12, 0x34]), alone(0x19, 2, [0x12, 0x34]));
            let any = state(Role::Client, flow, phase, n);
            let awaits = awaiting(&any, &[(NOOP, 0x1234)]);
            sent(calls, &any, Send::Noop { type_data: 0x1234, how: ASK }, 0, &awaits, &asked);
            received(calls, &any, &asked, 0, &any, &confirmed);
            received(calls, &awaits, &confirmed, 0, &any, &[]);
        }
    }
}

/// K4 and K5: the OPEN for `press7` with the limit of 50,000,000 and that of 1,000,000.
fn opens(calls: &mut Calls) {
    for (limit, frame) in [(50_000_000, PRESS7.to_vec()), (1_000_000, [PRESS7, MILLION].concat())] {
        let message = open(&frame);
        let client = State::fresh(Role::Client, Flow::Producer, limit);
        let opening = Send::Open { name: b"press7".to_vec(), format: Vec::new() };
        sent(calls, &client, opening, 0, &State { phase: Phase::Opening, ..client.clone() }, &message);
        let server = State::fresh(Role::Server, Flow::Consumer, 50_000_000);
        received(calls, &server, &message, 0, &State { phase: Phase::Opening, limit, ..server.clone() }, &[]);
        let heard = endpoint::received(&server.block(), &message, b"press7", b"", &[0; 14]).heard;
        let parameters = if limit == 1_000_000 { [30, 32] } else { [0, 0] };
        assert_eq!(heard[..6], [1, 0, 0, 0, 1, 1]);
        assert_eq!(heard[6..], [20, 6, 0, 0, parameters[0], parameters[1], 0, 0, 0, 0]);
        assert_eq!(message.len(), if limit == 1_000_000 { 62 } else { 28 });
    }
}

/// K6 to K8: READY to an offer of 5.
fn offers(calls: &mut Calls) {
    for flow in Flow::ALL {
        let server = state(Role::Server, flow, Phase::Offer, 5);
        let client = state(Role::Client, flow, Phase::Offer, 5);
        for count in [5, 0] {
            let ready = alone(0x11, 0, [0, count]);
            let count = count.into();
            received(calls, &server, &ready, 0, &server.after_ready(count, Phase::Batch), &[]);
            sent(calls, &client, Send::Ready { count }, 0, &client.after_ready(count, Phase::Batch), &ready);
        }
        received(calls, &server, &alone(0x11, 0, [0, 6]), 23, &server.closed(), &close(2));
        sent(calls, &client, Send::Ready { count: 6 }, 31, &client, &[]);
    }
}

/// K9 and K10: the last DATA of a batch, and one more.
fn batches(calls: &mut Calls) {
    for role in Role::ALL {
        let message = data(0, [0, 9], b"sheet");
        let consumer = state(role, Flow::Consumer, Phase::Batch, 1);
        let idle = state(role, Flow::Consumer, Phase::Idle, 0);
        received(calls, &consumer, &message, 0, &idle, &[]);
        received(calls, &idle, &message, 17, &idle.closed(), &close(2));
        let producer = state(role, Flow::Producer, Phase::Batch, 1);
        let idle = state(role, Flow::Producer, Phase::Idle, 0);
        let send = Send::Data { type_data: 9, how: 0, body: b"sheet".to_vec() };
        sent(calls, &producer, send.clone(), 0, &idle, &message);
        sent(calls, &idle, send, 30, &idle, &[]);
    }
}

/// K11 and K12: a frame count of 0, and a type-5 message with flags 255, which is never replied to.
fn bundles_and_closes(calls: &mut Calls) {
    let mut no_frames = alone(0x11, 0, [0, 8]);
    no_frames[1] = 0;
    let close_255 = alone(0x29, 255, [0, 0]);
    for role in Role::ALL {
        for (phase, n) in [(Phase::Opening, 0), (Phase::Idle, 0), (Phase::Offer, 9), (Phase::Batch, 9)] {
            let any = state(role, Flow::Producer, phase, n);
            received(calls, &any, &no_frames, 10, &any.closed(), &close(1));
            received(calls, &any, &close_255, 0, &any.closed(), &[]);
        }
        let fresh = state(role, Flow::Producer, Phase::Fresh, 0);
        received(calls, &fresh, &close_255, 17, &fresh.closed(), &[]);
    }
}

/// A confirmation of a DATA is no data, and only the oldest entry is confirmed.
fn confirmations(calls: &mut Calls) {
    for role in Role::ALL {
        let producer = state(role, Flow::Producer, Phase::Batch, 3);
        let both = awaiting(&producer, &[(DATA, 0x0102), (NOOP, 0x0304)]);
        let later = awaiting(&producer, &[(NOOP, 0x0304)]);
        received(calls, &both, &alone(0x21, 2, [1, 2]), 0, &later, &[]);
        received(calls, &both, &alone(0x19, 2, [3, 4]), 24, &both.closed(), &close(2));
        received(calls, &both, &alone(0x21, 2, [2, 1]), 24, &both.closed(), &close(2));
        let last = State { n: 1, ..awaiting(&producer, &[(DATA, 5)]) };
        received(calls, &last, &alone(0x21, 2, [0, 5]), 0, &State { n: 1, ..producer }, &[]);
        let consumer = state(role, Flow::Consumer, Phase::Batch, 3);
        received(calls, &consumer, &alone(0x21, 2, [0, 5]), 24, &consumer.closed(), &close(2));
    }
}

/// A DATA that is too large leaves n as it is, and the limit is counted in bytes.
fn limits(calls: &mut Calls) {
    for role in Role::ALL {
        let producer = state(role, Flow::Producer, Phase::Batch, 3);
        let just = vec![1; 999_992];
        let send = Send::Data { type_data: 0, how: ASK, body: just.clone() };
        let after = awaiting(&State { n: 2, ..producer.clone() }, &[(DATA, 0)]);
        sent(calls, &producer, send, 0, &after, &data(1, [0, 0], &just));
        let over = vec![1; 999_993];
        sent(calls, &producer, Send::Data { type_data: 0, how: ASK, body: over.clone() }, 33, &producer, &[]);
        let consumer = state(role, Flow::Consumer, Phase::Batch, 3);
        let after = State { n: 2, ..consumer.clone() };
        received(calls, &consumer, &data(1, [0, 7], &just), 0, &after, &alone(0x21, 2, [0, 7]));
        received(calls, &consumer, &data(1, [0, 7], &over), 16, &consumer.closed(), &close(2));
    }
}

/// C-12: DATA without a data frame is sent and heard, apart from DATA with an empty one; only two or more are refused.
fn reports_without_a_body(calls: &mut Calls) {
    let (missing, empty) = (alone(0x21, 0, [0, 9]), data(0, [0, 9], b""));
    let two = [&[0, 3, 0, 0, 0, 8, 0, 0, 0, 0, 0, 0, 0, 0], &b"FBDP\x21\0\0\x09"[..]].concat();
    let send = |how, body: &[u8]| Send::Data { type_data: 9, how, body: body.to_vec() };
    for role in Role::ALL {
        let producer = state(role, Flow::Producer, Phase::Batch, 3);
        let after = State { n: 2, ..producer.clone() };
        for (how, lent) in [(NO_BODY, &b""[..]), (NO_BODY, b"sheet"), (NO_BODY, &[1; 999_993]), (254, b"sheet")] {
            sent(calls, &producer, send(how, lent), 0, &after, &missing);
        }
        sent(calls, &producer, send(0, b""), 0, &after, &empty);
        let awaits = awaiting(&after, &[(DATA, 9)]);
        sent(calls, &producer, send(ASK | NO_BODY, b"sheet"), 0, &awaits, &alone(0x21, 1, [0, 9]));
        let consumer = state(role, Flow::Consumer, Phase::Batch, 3);
        let after = State { n: 2, ..consumer.clone() };
        for (message, [frames, at]) in [(&missing, [0, 0]), (&empty, [1, 18])] {
            received(calls, &consumer, message, 0, &after, &[]);
            let heard = endpoint::received(&consumer.block(), message, b"", b"", &[0; 14]).heard;
            assert_eq!([heard[4], heard[12], heard[13]], [frames, at, 0]);
            received(calls, &producer, message, 17, &producer.closed(), &close(2));
        }
        received(calls, &consumer, &alone(0x21, 1, [0, 9]), 0, &after, &alone(0x21, 2, [0, 9]));
        received(calls, &consumer, &two, 15, &consumer.closed(), &close(1));
    }
}

/// C-14: byte 6 of the block says how many of the awaited confirmations belong to DATA, and a close clears it; a block
/// in which it differs is not good.
fn unconfirmed_reports(calls: &mut Calls) {
    let report = |how| Send::Data { type_data: 9, how, body: Vec::new() };
    for role in Role::ALL {
        let producer = state(role, Flow::Producer, Phase::Batch, 3);
        let asked = awaiting(&State { n: 2, ..producer.clone() }, &[(DATA, 9)]);
        let both = awaiting(&asked, &[(DATA, 9), (NOOP, 9)]);
        let noop = awaiting(&asked, &[(NOOP, 9)]);
        for (state, bytes) in [(&producer, [0, 0, 3, 0, 0]), (&asked, [1, 0, 2, 1, 0]), (&both, [2, 0, 2, 1, 0])] {
            assert_eq!(state.block()[3..8], bytes);
        }
        assert_eq!(noop.block()[3..8], [1, 0, 2, 0, 0]);
        sent(calls, &producer, report(ASK), 0, &asked, &data(1, [0, 9], b""));
        sent(calls, &asked, Send::Noop { type_data: 9, how: ASK }, 0, &both, &alone(0x19, 1, [0, 9]));
        sent(calls, &both, report(0), 0, &State { n: 1, ..both.clone() }, &data(0, [0, 9], b""));
        received(calls, &both, &alone(0x21, 2, [0, 9]), 0, &noop, &[]);
        received(calls, &both, &alone(0x19, 2, [0, 9]), 24, &both.closed(), &close(2));
        received(calls, &both, &close(0), 0, &both.closed(), &[]);
        sent(calls, &both, Send::Close { code: 0 }, 0, &both.closed(), &close(0));
        assert_eq!(both.closed().block()[2..8], [5, 0, 0, 0, 0, 0]);
        for number in [0, 2, 255] {
            let mut block = both.block();
            block[6] = number;
            assert_eq!(endpoint::sent(&block, &report(0), &[7; 18]).number, endpoint::BAD_BLOCK);
            add(calls, SendMessage { block, send: report(0), room: 18 });
        }
    }
}

/// The high byte of type-data stands first, in messages and in entries.
fn byte_order(calls: &mut Calls) {
    let client = state(Role::Client, Flow::Producer, Phase::Idle, 0);
    received(calls, &client, &alone(0x11, 0, [1, 0]), 0, &client.after_ready(256, Phase::Offer), &[]);
    let server = state(Role::Server, Flow::Producer, Phase::Idle, 0);
    sent(
        calls,
        &server,
        Send::Ready { count: 256 },
        0,
        &server.after_ready(256, Phase::Offer),
        &alone(0x11, 0, [1, 0]),
    );
    let offer = State { phase: Phase::Offer, n: 256, ..client.clone() };
    sent(calls, &offer, Send::Ready { count: 1 }, 0, &offer.after_ready(1, Phase::Batch), &alone(0x11, 0, [0, 1]));
    let awaits = awaiting(&client, &[(NOOP, 0x0100)]);
    assert_eq!(awaits.block()[16..19], [3, 1, 0]);
    sent(calls, &client, Send::Noop { type_data: 0x0100, how: 255 }, 0, &awaits, &alone(0x19, 1, [1, 0]));
}

pub fn cases(_: &mut Random) -> Calls {
    let mut calls = Calls::new();
    ready_and_noop(&mut calls);
    opens(&mut calls);
    offers(&mut calls);
    batches(&mut calls);
    bundles_and_closes(&mut calls);
    confirmations(&mut calls);
    limits(&mut calls);
    reports_without_a_body(&mut calls);
    unconfirmed_reports(&mut calls);
    byte_order(&mut calls);
    calls
}
