//! Blocks: good ones of every kind, and bad ones for every cause.

use super::{drafts, reply_room, sends};
use crate::calls::{Part, Says};
use crate::endpoint::{Awaited, Entry, Flow, Phase, Role, State, BLOCK, DATA, LIMITS, MOST_AWAITED, NOOP};
use crate::generate::{add, control, Calls};
use crate::random::Random;

/// Where the parts of a block stand.
const W: usize = 3;
const N: usize = 4;
pub const UNCONFIRMED: usize = 6;
const LIMIT: usize = 8;
const ZEROS: [usize; 5] = [7, 12, 13, 14, 15];
pub const ENTRIES: usize = 16;

/// A type-data: any number, often one whose bytes are 0 or 255.
pub fn type_data(random: &mut Random) -> u16 {
    u16::from_be_bytes(control::type_data(random))
}

/// A number of messages, 1 or more, often at an edge.
pub fn count(random: &mut Random) -> u16 {
    match random.between(0, 3) {
        0 => random.between(1, 65_535) as u16,
        1 => random.choose(&[255, 256, 257, 32_767, 32_768, 65_534, 65_535]),
        _ => random.choose(&[1, 1, 2, 3, 5]),
    }
}

/// A good limit, often at an end of the range.
pub fn limit(random: &mut Random) -> u32 {
    match random.between(0, 2) {
        0 => random.between(*LIMITS.start() as usize, *LIMITS.end() as usize) as u32,
        1 => *LIMITS.end(),
        _ => random.choose(&[1_000_000, 1_000_001, 1_048_576, 16_777_216, 49_999_999]),
    }
}

/// So many entries of an endpoint of this flow, some alike in type or type-data.
pub fn entries(random: &mut Random, flow: Flow, count: usize) -> Awaited {
    let mut entries: Vec<Entry> = Vec::new();
    for _ in 0..count {
        let message_type = if flow == Flow::Producer && random.one_in(2) { DATA } else { NOOP };
        let type_data = match entries.last() {
            Some(last) if random.one_in(4) => last.type_data,
            _ => type_data(random),
        };
        entries.push(Entry { message_type, type_data });
    }
    entries.into_iter().collect()
}

/// A good state of this role, flow and phase.
pub fn good_in(random: &mut Random, role: Role, flow: Flow, phase: Phase) -> State {
    let n = if phase.counts() { count(random) } else { 0 };
    let awaited = match random.between(0, 3) {
        0 => 0,
        1 => random.choose(&[15, 16, 16]),
        _ => random.between(0, MOST_AWAITED),
    };
    let awaited = entries(random, flow, if phase.is_running() { awaited } else { 0 });
    State { role, flow, phase, n, limit: limit(random), awaited }
}

/// A good state of any kind.
pub fn good(random: &mut Random) -> State {
    let (role, flow) = (random.choose(&Role::ALL), random.choose(&Flow::ALL));
    let phase = random.choose(&Phase::ALL);
    good_in(random, role, flow, phase)
}

/// Puts into byte 6 how many of the entries that W says belong to DATA, whatever else the block breaks.
pub fn count_unconfirmed(block: &mut [u8]) {
    let awaited = block[ENTRIES..].chunks_exact(3).take(block[W].into());
    block[UNCONFIRMED] = awaited.filter(|entry| entry[0] == DATA).count() as u8;
}

/// A cause for which a block is bad, brought into a good one: false where that one does not allow it.
///
/// Where a cause changes what byte 6 has to count, it is counted anew, so that there is no other cause beside it.
type Cause = fn(&mut [u8], &mut Random) -> bool;

const CAUSES: &[Cause] = &[
    |block, random| other_byte(block, random, 0, &[0, 3, 4, 129, 255]),
    |block, random| other_byte(block, random, 1, &[0, 3, 4, 129, 255]),
    |block, random| other_byte(block, random, 2, &[6, 7, 8, 130, 255]),
    |block, random| other_byte(block, random, W, &[17, 18, 32, 128, 255]),
    one_more_awaited,
    one_less_awaited,
    awaited_in_another_phase,
    n_in_another_phase,
    no_n,
    other_unconfirmed,
    entry_of_the_other_type,
    byte_not_zero,
    other_limit,
    entry_behind,
    type_data_behind,
    other_entry_type,
    data_of_a_consumer,
];

/// Puts one of these numbers at a place.
fn other_byte(block: &mut [u8], random: &mut Random, place: usize, numbers: &[u8]) -> bool {
    block[place] = random.choose(numbers);
    true
}

/// W says one entry more than there are.
fn one_more_awaited(block: &mut [u8], _: &mut Random) -> bool {
    block[W] += 1;
    true
}

/// W says one entry less than there are.
fn one_less_awaited(block: &mut [u8], _: &mut Random) -> bool {
    if block[W] == 0 {
        return false;
    }
    block[W] -= 1;
    count_unconfirmed(block);
    true
}

/// Good entries in a phase that has none.
fn awaited_in_another_phase(block: &mut [u8], random: &mut Random) -> bool {
    block[2] = random.choose(&[0, 1, 5]);
    block[N..N + 2].fill(0);
    if block[W] == 0 {
        block[W] = 1;
        block[ENTRIES] = NOOP;
    }
    true
}

fn n_in_another_phase(block: &mut [u8], random: &mut Random) -> bool {
    if matches!(block[2], 3 | 4) {
        block[2] = 2;
        return true;
    }
    let n = count(random);
    block[N..N + 2].copy_from_slice(&n.to_be_bytes());
    true
}

fn no_n(block: &mut [u8], _: &mut Random) -> bool {
    block[N..N + 2].fill(0);
    matches!(block[2], 3 | 4)
}

/// Byte 6 is one off, or all that are awaited, or the NOOPs among them, or a number that is never right.
fn other_unconfirmed(block: &mut [u8], random: &mut Random) -> bool {
    let (right, awaited) = (block[UNCONFIRMED], block[W]);
    let numbers = [right + 1, right.wrapping_sub(1), awaited, awaited - right, 16, 17, right | 128, 255];
    block[UNCONFIRMED] = random.choose(&numbers);
    block[UNCONFIRMED] != right
}

/// A NOOP among a producer's entries is a DATA, or a DATA is a NOOP, and byte 6 is as it was.
fn entry_of_the_other_type(block: &mut [u8], random: &mut Random) -> bool {
    let Some(place) = awaited_place(block, random) else {
        return false;
    };
    block[place] = NOOP + DATA - block[place];
    block[1] == Flow::Producer as u8
}

fn byte_not_zero(block: &mut [u8], random: &mut Random) -> bool {
    block[random.choose(&ZEROS)] = 1 << random.between(0, 7);
    true
}

fn other_limit(block: &mut [u8], random: &mut Random) -> bool {
    let above = random.between(50_000_001, (1 << 32) - 1) as u32;
    let below = random.between(0, 999_999) as u32;
    let limit: u32 = random.choose(&[0, 1, 999_999, 50_000_001, 1 << 31, u32::MAX, above, below]);
    block[LIMIT..LIMIT + 4].copy_from_slice(&limit.to_be_bytes());
    true
}

/// The place of an entry behind those that are awaited.
fn place_behind(block: &[u8], random: &mut Random) -> Option<usize> {
    let awaited = usize::from(block[W]);
    let entry = [awaited, MOST_AWAITED - 1, random.between(awaited.min(MOST_AWAITED - 1), MOST_AWAITED - 1)];
    (awaited < MOST_AWAITED).then(|| ENTRIES + 3 * random.choose(&entry))
}

/// An entry of either type that W does not take in, and byte 6 neither.
fn entry_behind(block: &mut [u8], random: &mut Random) -> bool {
    let Some(place) = place_behind(block, random) else {
        return false;
    };
    block[place] = random.choose(&[NOOP, DATA]);
    block[place + 1..place + 3].copy_from_slice(&type_data(random).to_be_bytes());
    true
}

/// The type of an entry is gone and its type-data is not.
fn type_data_behind(block: &mut [u8], random: &mut Random) -> bool {
    let Some(place) = place_behind(block, random) else {
        return false;
    };
    block[place + random.between(1, 2)] = 1 << random.between(0, 7);
    true
}

/// The place of one of the entries that are awaited.
fn awaited_place(block: &[u8], random: &mut Random) -> Option<usize> {
    let last = usize::from(block[W]).checked_sub(1)?;
    let any = random.between(0, last);
    Some(ENTRIES + 3 * random.choose(&[0, last, any]))
}

fn other_entry_type(block: &mut [u8], random: &mut Random) -> bool {
    let Some(place) = awaited_place(block, random) else {
        return false;
    };
    block[place] = random.choose(&[0, 1, 2, 5, 6, 25, 33, 131, 255]);
    count_unconfirmed(block);
    true
}

fn data_of_a_consumer(block: &mut [u8], random: &mut Random) -> bool {
    let Some(place) = awaited_place(block, random) else {
        return false;
    };
    block[place] = DATA;
    block[1] = Flow::Consumer as u8;
    count_unconfirmed(block);
    true
}

/// The block of this state with a cause brought in, if it allows that.
fn spoilt(random: &mut Random, cause: Cause, state: &State) -> Option<Vec<u8>> {
    let mut block = state.block();
    cause(&mut block, random).then_some(block)
}

/// The block of this state, cut short or with bytes behind.
fn other_length(random: &mut Random, state: &State) -> Vec<u8> {
    let longer = BLOCK + random.between(1, 64);
    let length = random.choose(&[0, 1, 16, 48, 63, 65, 66, 96, 128, 256, longer]);
    let mut block = state.block();
    block.resize(length, random.choose(&[0, 0, 3, 255]));
    block
}

/// Adds a receive and a send that would be accepted, were the block good; the model must find it bad.
fn add_spoilt(calls: &mut Calls, random: &mut Random, spoil: impl Fn(&mut Random, &State) -> Option<Vec<u8>>) {
    let draft = drafts::valid(random);
    if let Some(block) = spoil(random, &draft.state) {
        assert_eq!(State::read(&block), None, "a block with a cause is bad");
        let room = reply_room(random);
        add(calls, draft.to_block(block, room));
    }
    let (state, send) = sends::fitting(random);
    if let Some(block) = spoil(random, &state) {
        assert_eq!(State::read(&block), None, "a block with a cause is bad");
        let call = sends::to_block(random, block, send, &state);
        add(calls, call);
    }
}

/// Blocks that are bad for one cause.
pub fn one_cause(random: &mut Random) -> Calls {
    let mut calls = Calls::new();
    for _ in 0..24 {
        add_spoilt(&mut calls, random, |random, state| Some(other_length(random, state)));
        for cause in CAUSES {
            add_spoilt(&mut calls, random, |random, state| spoilt(random, *cause, state));
        }
    }
    calls
}

/// Blocks with a byte changed, good or bad, and blocks of any bytes.
pub fn damaged(random: &mut Random) -> Calls {
    let mut calls = Calls::new();
    for round in 0..300 {
        let draft = drafts::valid(random);
        let mut block = draft.state.block();
        match round % 3 {
            0 => block = random.bytes(BLOCK),
            1 => block[random.between(0, BLOCK - 1)] = random.byte(),
            _ => {
                let place = random.between(0, BLOCK - 1);
                block[place] ^= 1 << random.between(0, 7);
            }
        }
        add(&mut calls, draft.to_block(block.clone(), super::REPLY));
        let (state, send) = sends::fitting(random);
        let call = sends::to_block(random, block, send, &state);
        add(&mut calls, call);
    }
    calls
}

/// The block of this state with another value at a place, and where that has another number of DATA to be confirmed
/// also with byte 6 counting these.
fn changed(state: &State, place: usize, value: u8) -> Vec<Vec<u8>> {
    let mut block = state.block();
    block[place] = value;
    let mut counted = block.clone();
    count_unconfirmed(&mut counted);
    if place == UNCONFIRMED || counted == block {
        return vec![block];
    }
    vec![block, counted]
}

/// What is made, once its state awaits confirmations of NOOPs and of DATA.
fn awaiting_both<T>(random: &mut Random, make: fn(&mut Random) -> T, state: fn(&T) -> &State) -> T {
    loop {
        let made = make(random);
        let awaited = &state(&made).awaited;
        if (1..awaited.len()).contains(&awaited.unconfirmed()) {
            return made;
        }
    }
}

/// Every byte of some good blocks with every value: a call that the good block accepts.
pub fn every_byte(random: &mut Random) -> Calls {
    let mut calls = Calls::new();
    let drafts = [drafts::valid(random), awaiting_both(random, drafts::valid, |draft| &draft.state)];
    let sends = [sends::fitting(random), awaiting_both(random, sends::fitting, |(state, _)| state)];
    for (draft, (state, send)) in drafts.iter().zip(&sends) {
        for (place, value) in (0..BLOCK).flat_map(|place| (0..=255).map(move |value| (place, value))) {
            for block in changed(&draft.state, place, value) {
                add(&mut calls, draft.to_block(block, super::REPLY));
            }
            for block in changed(state, place, value) {
                let call = sends::to_block(random, block, send.clone(), state);
                add(&mut calls, call);
            }
        }
    }
    calls
}

/// Blocks of every length, their first bytes those of a good one, in every call.
pub fn every_length(random: &mut Random) -> Calls {
    let mut calls = Calls::new();
    for length in 0..=2 * BLOCK + 2 {
        let draft = drafts::valid(random);
        let mut block = draft.state.block();
        block.resize(length, 0);
        add(&mut calls, draft.to_block(block, super::REPLY));
        for send in sends::one_of_each(random) {
            let state = good(random);
            let mut block = state.block();
            block.resize(length, 0);
            let call = sends::to_block(random, block, send, &state);
            add(&mut calls, call);
        }
    }
    calls
}

/// What every part of a block says: of blocks in which one byte alone is not zero, and of good ones and ones of any
/// bytes.
pub fn what_they_say(random: &mut Random) -> Calls {
    let mut calls = Calls::new();
    let alone = |place: usize| (0..BLOCK).map(|other| if other == place { 0xA5 } else { 0 }).collect();
    let mut blocks: Vec<Vec<u8>> = (0..BLOCK).map(alone).collect();
    blocks.extend((0..100).flat_map(|_| [good(random).block(), random.bytes(BLOCK)]));
    for block in blocks {
        let block = block.try_into().expect("a block has 64 bytes");
        Part::ALL.iter().for_each(|part| add(&mut calls, Says { part: *part, block }));
    }
    calls
}
