//! Tests of byte 6, the number of DATA among the confirmations that are awaited, and of byte 7, which is zero.
//!
//! The blocks are written byte by byte, so that the model's own counting has no part in what is expected.

use std::collections::BTreeSet;

use super::*;

/// Where W, the number of unconfirmed DATA, the zero behind it and the entries stand in a block.
const W: usize = 3;
const UNCONFIRMED: usize = 6;
const ZERO: usize = 7;
const ENTRIES: usize = 16;

/// So many entries, with a bit for each of them that is set where it belongs to DATA, the oldest one's the lowest.
type Mixture = (usize, u32);

/// Every mixture of up to so many entries.
fn mixtures_up_to(most: usize) -> impl Iterator<Item = Mixture> {
    (0..=most).flat_map(|awaited| (0..1 << awaited).map(move |data| (awaited, data)))
}

/// The type and type-data of an entry of a mixture, all entries having different type-data.
fn entry((_, data): Mixture, at: usize) -> (u8, u16) {
    (if data >> at & 1 == 1 { DATA } else { NOOP }, 0x0100 + at as u16)
}

/// The block of an endpoint with these entries; 4 messages are counted in phases 3 and 4, and the limit is 1,000,000.
fn block_of(role: Role, flow: Flow, phase: Phase, mixture: Mixture) -> [u8; BLOCK] {
    let (awaited, data) = mixture;
    let n = if phase.counts() { 4 } else { 0 };
    let mut block = [0; BLOCK];
    block[..6].copy_from_slice(&[role as u8, flow as u8, phase as u8, awaited as u8, 0, n]);
    block[UNCONFIRMED] = data.count_ones() as u8;
    block[9..12].copy_from_slice(&[0x0F, 0x42, 0x40]);
    for at in 0..awaited {
        let (message_type, type_data) = entry(mixture, at);
        let [high, low] = type_data.to_be_bytes();
        block[ENTRIES + 3 * at..][..3].copy_from_slice(&[message_type, high, low]);
    }
    block
}

fn roles_and_flows() -> impl Iterator<Item = (Role, Flow)> {
    ROLES.iter().flat_map(|role| FLOWS.iter().map(move |flow| (*role, *flow)))
}

/// The block of a client in a batch, with these entries.
fn in_batch(flow: Flow, mixture: Mixture) -> [u8; BLOCK] {
    block_of(Client, flow, Batch, mixture)
}

/// The blocks of every producer behind the first READY, with these entries.
fn running(mixture: Mixture) -> impl Iterator<Item = [u8; BLOCK]> {
    let roles_and_phases = ROLES.iter().flat_map(|role| RUNNING.iter().map(move |phase| (*role, *phase)));
    roles_and_phases.map(move |(role, phase)| block_of(role, Producer, phase, mixture))
}

/// The block that a close makes of another.
fn closed(block: &[u8]) -> Vec<u8> {
    let mut closed = vec![0; BLOCK];
    closed[..3].copy_from_slice(&[block[0], block[1], 5]);
    closed[8..12].copy_from_slice(&block[8..12]);
    closed
}

/// What a send makes of byte 6.
type Change = fn(u8) -> u8;

/// The sends, each with what it makes of byte 6 where it is accepted.
fn sends() -> Vec<(Send, Change)> {
    let data = |how| Send::Data { type_data: 0x1234, how, body: b"abc".to_vec() };
    let noop = |how| Send::Noop { type_data: 0x1234, how };
    let (same, one_more, none): (Change, Change, Change) = (|number| number, |number| number + 1, |_| 0);
    let mut sends = vec![(Send::Ready { count: 0 }, same), (Send::Ready { count: 4 }, same)];
    sends.extend([0, NO_BODY, !ASK].map(|how| (data(how), same)));
    sends.extend([ASK, ASK | NO_BODY, 255].map(|how| (data(how), one_more)));
    sends.extend([0, ASK, NO_BODY, 255].map(|how| (noop(how), same)));
    sends.push((Send::Close { code: 0 }, none));
    sends
}

/// Asserts that every call that tests its block refuses this one as 1, and that no byte changes.
fn assert_refused(block: &[u8]) {
    let open = Send::Open { name: b"pipe".to_vec(), format: Vec::new() };
    for send in sends().into_iter().map(|(send, _)| send).chain([open]) {
        let sent = super::sent(block, &send, &[7; 40]);
        assert_eq!((sent.number, &sent.block[..], sent.out), (1, block, vec![7; 40]), "{send:?}");
    }
    for message in [close(0), message(NOOP, ACK_REPLY, 0x0100, &[]), message(DATA, ACK_REPLY, 0x0100, &[])] {
        let received = received(block, &message, b"pipe", b"", &[7; 20]);
        assert_eq!((received.number, &received.block[..], received.out), (1, block, vec![7; 20]), "{message:?}");
    }
}

#[test]
fn byte_6_is_the_number_of_data_among_the_entries_in_every_mixture() {
    for mixture in mixtures_up_to(MOST_AWAITED) {
        let good = in_batch(Producer, mixture);
        let mut block = good;
        for number in 0..=255 {
            block[UNCONFIRMED] = number;
            assert_eq!(State::read(&block).is_some(), block == good, "{number} with {mixture:?}");
        }
    }
}

#[test]
fn every_call_refuses_every_other_number_in_byte_6_as_1() {
    for mixture in mixtures_up_to(4) {
        let good = in_batch(Producer, mixture);
        for number in (0..=255).filter(|number| *number != good[UNCONFIRMED]) {
            let mut block = good;
            block[UNCONFIRMED] = number;
            assert_refused(&block);
        }
    }
}

#[test]
fn every_call_refuses_every_number_but_0_in_byte_7_as_1() {
    for mixture in mixtures_up_to(3) {
        for number in 1..=255 {
            let mut block = in_batch(Producer, mixture);
            block[ZERO] = number;
            assert_refused(&block);
        }
    }
}

/// A number that stands in both bytes is not that of byte 6.
#[test]
fn byte_6_is_a_number_of_one_byte() {
    let mut block = in_batch(Producer, (1, 1));
    block[UNCONFIRMED..=ZERO].copy_from_slice(&[0, 1]);
    assert_refused(&block);
    block[UNCONFIRMED..=ZERO].copy_from_slice(&[1, 1]);
    assert_refused(&block);
}

/// An entry of DATA behind the first W is never good, whether byte 6 counts it or not.
#[test]
fn data_behind_the_first_w_are_not_counted() {
    for mixture in mixtures_up_to(4) {
        for place in mixture.0..MOST_AWAITED {
            let mut block = in_batch(Producer, mixture);
            block[ENTRIES + 3 * place] = DATA;
            assert_refused(&block);
            block[UNCONFIRMED] += 1;
            assert_refused(&block);
        }
    }
}

/// W takes an entry in only together with its number, and leaves none behind.
#[test]
fn data_that_w_leaves_out_are_not_counted() {
    let mut block = in_batch(Producer, (3, 0b111));
    block[W] = 2;
    assert_refused(&block);
    block[UNCONFIRMED] = 2;
    assert_refused(&block);
    block[ENTRIES + 3 * 2..][..3].fill(0);
    assert_eq!(State::read(&block).map(|state| state.awaited.unconfirmed()), Some(2));
}

#[test]
fn a_consumer_has_0_in_byte_6_and_awaits_no_data() {
    for awaited in 0..=MOST_AWAITED {
        let good = in_batch(Consumer, (awaited, 0));
        assert!(State::read(&good).is_some());
        for number in 1..=255 {
            let mut block = good;
            block[UNCONFIRMED] = number;
            assert_eq!(State::read(&block), None, "{number} with {awaited} NOOPs");
        }
    }
    for mixture in mixtures_up_to(4).filter(|(_, data)| *data != 0) {
        let mut block = in_batch(Consumer, mixture);
        assert_refused(&block);
        block[UNCONFIRMED] = 0;
        assert_refused(&block);
    }
}

#[test]
fn nothing_is_unconfirmed_in_phases_0_1_and_5() {
    for phase in [Fresh, Opened, Closed] {
        for (role, flow) in roles_and_flows() {
            let good = block_of(role, flow, phase, (0, 0));
            assert!(State::read(&good).is_some());
            for number in 1..=255 {
                let mut block = good;
                block[UNCONFIRMED] = number;
                assert_eq!(State::read(&block), None, "{number} in phase {phase:?}");
            }
        }
    }
}

#[test]
fn making_gives_0_in_bytes_6_and_7() {
    for before in [[9; BLOCK], [255; BLOCK], in_batch(Producer, (2, 0b11))] {
        for (role, flow) in roles_and_flows() {
            let (number, block) = made(&before, role, flow as u8, 1_000_000);
            assert_eq!((number, block), (0, block_of(role, flow, Fresh, (0, 0)).to_vec()));
        }
    }
}

/// A send that is accepted leaves a block in which byte 6 is as it should be, and one that is refused the same block.
#[test]
fn only_data_that_asks_raises_byte_6_and_a_close_sent_clears_it() {
    let many = [(MOST_AWAITED - 1, 0x7FFF), (MOST_AWAITED, 0x5A5A)];
    let mut numbers = BTreeSet::new();
    for before in mixtures_up_to(4).chain(many).flat_map(running) {
        for (place, (send, unconfirmed)) in sends().into_iter().enumerate() {
            let sent = super::sent(&before, &send, &[7; 40]);
            numbers.insert((place, sent.number));
            if sent.number == 0 {
                assert_eq!(sent.block[UNCONFIRMED..=ZERO], [unconfirmed(before[UNCONFIRMED]), 0], "{send:?}");
                assert!(State::read(&sent.block).is_some());
            } else {
                assert_eq!(sent.block, before, "{send:?}");
            }
        }
    }
    assert!((0..sends().len()).all(|place| numbers.contains(&(place, 0))), "each send is accepted by some");
    assert!(numbers.iter().any(|(_, number)| *number == 32), "an ask is refused where 16 are awaited");
}

#[test]
fn a_send_without_room_leaves_byte_6() {
    for (send, _) in sends() {
        for before in running((3, 0b101)) {
            let sent = super::sent(&before, &send, &[7; 13]);
            assert!([2, 30].contains(&sent.number));
            assert_eq!(sent.block, before);
        }
    }
}

#[test]
fn a_data_above_the_limit_leaves_byte_6() {
    let before = in_batch(Producer, (3, 0b101));
    let send = Send::Data { type_data: 0, how: ASK, body: vec![0; 999_993] };
    let sent = super::sent(&before, &send, &[]);
    assert_eq!((sent.number, sent.block), (33, before.to_vec()));
}

/// The last DATA of a batch leaves phase 2, in which its confirmation is awaited.
#[test]
fn the_last_data_of_a_batch_is_unconfirmed_in_phase_2() {
    let mut before = in_batch(Producer, (2, 0b01));
    before[5] = 1;
    let sent = super::sent(&before, &Send::Data { type_data: 0, how: ASK, body: Vec::new() }, &[7; 18]);
    assert_eq!(sent.block[..8], [1, 1, 2, 3, 0, 0, 2, 0]);
}

#[test]
fn a_confirmation_of_data_lowers_byte_6_and_one_of_a_noop_leaves_it() {
    for mixture in mixtures_up_to(MOST_AWAITED).filter(|(awaited, _)| *awaited != 0) {
        let before = in_batch(Producer, mixture);
        let (message_type, type_data) = entry(mixture, 0);
        let confirmed = receive_block(&before, &message(message_type, ACK_REPLY, type_data, &[]));
        let left = mixture.1.count_ones() as u8 - u8::from(message_type == DATA);
        assert_eq!(confirmed.number, 0);
        assert_eq!(confirmed.block[W], before[W] - 1);
        assert_eq!(confirmed.block[UNCONFIRMED..=ZERO], [left, 0], "{mixture:?}");
        assert!(State::read(&confirmed.block).is_some());
    }
}

fn receive_block(block: &[u8], message: &[u8]) -> copies::Received {
    received(block, message, b"pipe", b"text", &[7; 20])
}

/// READYs, NOOPs and DATA that come, and what an output that is too short leaves.
#[test]
fn what_confirms_nothing_leaves_byte_6() {
    let ready = message(READY, 0, 3, &[]);
    let asks = message(NOOP, ACK_REQUEST, 3, &[]);
    for mixture in mixtures_up_to(4) {
        let (offered, idle) = (block_of(Server, Producer, Offer, mixture), block_of(Client, Producer, Idle, mixture));
        for (before, message) in [(offered, &ready), (offered, &asks), (idle, &ready), (idle, &asks)] {
            let received = receive_block(&before, message);
            assert_eq!(received.number, 0);
            assert_eq!(received.block[UNCONFIRMED..=ZERO], before[UNCONFIRMED..=ZERO]);
            let short = super::received(&before, message, b"", b"", &[7; 13]);
            assert_eq!((short.number, short.block), (2, before.to_vec()));
        }
        let consumer = in_batch(Consumer, (mixture.0, 0));
        for flags in [0, ACK_REQUEST] {
            let received = receive_block(&consumer, &message(DATA, flags, 3, &[b"abc"]));
            assert_eq!((received.number, received.block[UNCONFIRMED]), (0, 0));
        }
    }
}

/// Messages that a server which offered 4 refuses, with their numbers, while DATA of its are unconfirmed.
fn refused_by_a_producer() -> Vec<(Vec<u8>, u64)> {
    let strange = |control_byte: u8| of_frames(&[&[b'F', b'B', b'D', b'P', control_byte, 0, 0, 0]]);
    vec![
        (vec![0, 0], 10),
        (of_frames(&[b"FBDP"]), 11),
        (strange(8 * NOOP), 12),
        (strange(1), 13),
        (message(NOOP, 4, 0, &[]), 14),
        (message(NOOP, 0, 0, &[b""]), 15),
        (message(DATA, 0, 0, &[&[0; 999_993]]), 16),
        (message(DATA, 0, 0, &[b""]), 17),
        (message(READY, 0, 5, &[]), 23),
        (message(DATA, ACK_REPLY, 0x0101, &[]), 24),
        (message(NOOP, ACK_REPLY, 0x0101, &[]), 24),
    ]
}

#[test]
fn every_close_clears_byte_6() {
    for mixture in mixtures_up_to(4).chain([(MOST_AWAITED, 0xFFFF)]) {
        let before = block_of(Server, Producer, Offer, mixture);
        for (message, number) in refused_by_a_producer().into_iter().chain([(close(3), 0)]) {
            let received = receive_block(&before, &message);
            assert_eq!((received.number, received.block), (number, closed(&before)));
        }
        let sent = super::sent(&before, &Send::Close { code: 3 }, &[7; 14]);
        assert_eq!((sent.number, sent.block), (0, closed(&before)));
    }
}

/// The confirmation of the other type closes, whichever of the two is the oldest.
#[test]
fn a_confirmation_of_the_other_type_clears_byte_6() {
    for mixture in mixtures_up_to(4).filter(|(awaited, _)| *awaited != 0) {
        let before = in_batch(Producer, mixture);
        let (message_type, type_data) = entry(mixture, 0);
        let received = receive_block(&before, &message(NOOP + DATA - message_type, ACK_REPLY, type_data, &[]));
        assert_eq!((received.number, received.block), (24, closed(&before)));
    }
}

/// DATA and NOOPs that ask in turn up to the most, one more of each, and all confirmations in their order.
#[test]
fn byte_6_is_true_from_the_first_ask_to_the_last_confirmation() {
    let mut block = in_batch(Producer, (0, 0)).to_vec();
    block[5] = 20;
    let data = Send::Data { type_data: 1, how: ASK, body: Vec::new() };
    let noop = Send::Noop { type_data: 2, how: ASK };
    for asked in 1..=8 {
        for (send, noops) in [(&data, asked - 1), (&noop, asked)] {
            block = super::sent(&block, send, &[7; 18]).block;
            assert_eq!([block[W], block[UNCONFIRMED]], [asked + noops, asked]);
        }
    }
    for send in [&data, &noop] {
        assert_eq!(super::sent(&block, send, &[7; 18]).number, 32);
    }
    for left in (0..8).rev() {
        for (message_type, type_data, noops) in [(DATA, 1, left + 1), (NOOP, 2, left)] {
            block = receive_block(&block, &message(message_type, ACK_REPLY, type_data, &[])).block;
            assert_eq!([block[W], block[UNCONFIRMED]], [left + noops, left]);
        }
    }
}
