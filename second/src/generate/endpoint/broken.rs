//! Messages that are refused: for one cause, and for several at once.

use super::drafts::{self, running, valid, Draft};
use super::{reply_room, MOST_OPEN, REPLY};
use crate::endpoint::{Entry, Flow, Phase, Role, State};
use crate::endpoint::{ACK_REPLY, ACK_REQUEST, CLOSE, DATA, NOOP, OPEN, READY};
use crate::generate::endpoint::blocks::{self, good_in, type_data};
use crate::generate::open::broken::refused_frame;
use crate::generate::{add, Calls};
use crate::random::Random;

/// A cause for which a message is refused, with its number, brought into one that is valid: false where that one does
/// not allow it.
struct Cause {
    number: u64,
    make: fn(&mut Draft, &mut Random) -> bool,
}

const CAUSES: &[Cause] = &[
    Cause { number: 10, make: other_count },
    Cause { number: 10, make: other_frame_length },
    Cause { number: 10, make: byte_more_or_less },
    Cause { number: 10, make: seventeen_frames },
    Cause { number: 10, make: wrapping_lengths },
    Cause { number: 11, make: other_control_length },
    Cause { number: 11, make: other_signature },
    Cause { number: 12, make: other_version },
    Cause { number: 12, make: version_of_any_type },
    Cause { number: 13, make: other_type },
    Cause { number: 14, make: unknown_flags },
    Cause { number: 14, make: both_flags },
    Cause { number: 14, make: confirmed_open_or_ready },
    Cause { number: 15, make: too_many_frames },
    Cause { number: 15, make: no_frame },
    Cause { number: 16, make: long_open },
    Cause { number: 16, make: long_open_elsewhere },
    Cause { number: 17, make: not_allowed },
    Cause { number: 23, make: above_the_offer },
    Cause { number: 24, make: nothing_awaited },
    Cause { number: 24, make: other_type_data },
    Cause { number: 24, make: other_confirmed_type },
    Cause { number: 24, make: not_the_oldest },
    Cause { number: 24, make: data_confirmed_to_consumer },
];

fn other_count(draft: &mut Draft, random: &mut Random) -> bool {
    let right = draft.parts.count;
    draft.parts.count = random.choose(&[0, right - 1, right + 1, right + 256, right << 8, 17, 65_535]);
    true
}

fn other_frame_length(draft: &mut Draft, random: &mut Random) -> bool {
    let place = random.between(0, draft.parts.lengths.len() - 1);
    let length = &mut draft.parts.lengths[place];
    let added = random.choose(&[1, u32::MAX, 1 << 24, 1 << 31, u32::MAX - *length]);
    *length = length.wrapping_add(added);
    added != 0
}

fn byte_more_or_less(draft: &mut Draft, random: &mut Random) -> bool {
    let last = draft.parts.bodies.last_mut().expect("there is a control frame");
    if random.one_in(2) && last.pop().is_some() {
        return true;
    }
    last.push(random.choose(&[0, 1, 255]));
    true
}

fn seventeen_frames(draft: &mut Draft, random: &mut Random) -> bool {
    let count = random.choose(&[17, 18, 32]);
    while draft.parts.count < count {
        let length = random.between(0, 2);
        draft.push_frame(random.bytes(length));
    }
    true
}

/// Two lengths whose sum is right only in 32 bits.
fn wrapping_lengths(draft: &mut Draft, random: &mut Random) -> bool {
    let [first, second, ..] = &mut draft.parts.lengths[..] else {
        return false;
    };
    let any = second.saturating_add(1 + u32::from(random.byte()));
    let moved = random.choose(&[1 << 31, u32::MAX - *first, any]);
    *first = first.wrapping_add(moved);
    *second = second.wrapping_sub(moved);
    u64::from(*first) + u64::from(*second) >= 1 << 32
}

fn other_control_length(draft: &mut Draft, random: &mut Random) -> bool {
    let mut control = draft.parts.bodies[0].clone();
    control.resize(random.choose(&[0, 4, 6, 7, 9, 10, 12, 16]), 0);
    draft.replace_control(control);
    true
}

fn other_signature(draft: &mut Draft, random: &mut Random) -> bool {
    let place = random.between(0, 3);
    draft.parts.bodies[0][place] ^= 1 << random.between(0, 7);
    true
}

fn other_version(draft: &mut Draft, random: &mut Random) -> bool {
    draft.parts.bodies[0][4] = 8 * draft.message_type() + random.choose(&[0, 2, 3, 4, 5, 6, 7]);
    true
}

/// A strange version beside any type.
fn version_of_any_type(draft: &mut Draft, random: &mut Random) -> bool {
    draft.parts.bodies[0][4] = 8 * random.between(0, 31) as u8;
    other_version(draft, random)
}

fn other_type(draft: &mut Draft, random: &mut Random) -> bool {
    let any = random.between(6, 31) as u8;
    draft.parts.bodies[0][4] = 8 * random.choose(&[0, 6, 7, 8, 31, any]) + 1;
    true
}

fn unknown_flags(draft: &mut Draft, random: &mut Random) -> bool {
    let any = random.byte() & 0xFC;
    draft.parts.bodies[0][5] |= random.choose(&[4, 8, 16, 32, 64, 128, 252, 4 | any]);
    draft.message_type() != CLOSE
}

fn both_flags(draft: &mut Draft, _: &mut Random) -> bool {
    draft.parts.bodies[0][5] = ACK_REQUEST | ACK_REPLY;
    draft.message_type() != CLOSE
}

fn confirmed_open_or_ready(draft: &mut Draft, _: &mut Random) -> bool {
    draft.parts.bodies[0][5] = ACK_REPLY;
    matches!(draft.message_type(), OPEN | READY)
}

/// More data frames than the message may have: a DATA without a body gets at least two.
fn too_many_frames(draft: &mut Draft, random: &mut Random) -> bool {
    let bodiless = draft.message_type() == DATA && !is_confirmation(draft) && draft.parts.bodies.len() == 1;
    for _ in 0..random.choose(&[1, 1, 2, 14]) + usize::from(bodiless) {
        let length = random.choose(&[0, 1, 8]);
        draft.push_frame(random.bytes(length));
    }
    draft.message_type() != CLOSE
}

/// An OPEN without its data frame.
fn no_frame(draft: &mut Draft, _: &mut Random) -> bool {
    if draft.message_type() != OPEN || draft.parts.bodies.len() != 2 {
        return false;
    }
    draft.pop_frame();
    true
}

/// Makes the frame of an OPEN longer by a field that is skipped, so that it has this many bytes; a few more where it has
/// hardly fewer already. The field's length always takes three bytes.
pub fn lengthen(draft: &mut Draft, length: usize) {
    let mut frame = draft.parts.bodies[1].clone();
    let filling = length.saturating_sub(frame.len() + 4);
    let in_three = [filling | 0x80, filling >> 7 | 0x80, filling >> 14].map(|digit| digit as u8);
    frame.push(0x2A);
    frame.extend(in_three);
    frame.extend(vec![7; filling]);
    draft.pop_frame();
    draft.push_frame(frame);
}

fn long_open(draft: &mut Draft, random: &mut Random) -> bool {
    if draft.message_type() != OPEN || draft.parts.bodies.len() != 2 {
        return false;
    }
    let least = random.choose(&[4097, 4098, 5000]);
    lengthen(draft, least);
    true
}

/// The same at an endpoint that hears no OPEN.
fn long_open_elsewhere(draft: &mut Draft, random: &mut Random) -> bool {
    draft.state = blocks::good(random);
    draft.state.phase != Phase::Closed && long_open(draft, random)
}

/// An endpoint of one of these roles and flows, in one of these phases.
fn endpoint(random: &mut Random, roles: &[Role], flows: &[Flow], phases: &[Phase]) -> State {
    let (role, flow, phase) = (random.choose(roles), random.choose(flows), random.choose(phases));
    good_in(random, role, flow, phase)
}

/// The message comes to an endpoint whose role, flow or phase does not allow it.
fn not_allowed(draft: &mut Draft, random: &mut Random) -> bool {
    use Phase::{Batch, Fresh, Idle, Offer, Opening};
    const OPEN_PHASES: [Phase; 5] = [Fresh, Opening, Idle, Offer, Batch];
    let (any_role, any_flow) = (&Role::ALL[..], &Flow::ALL[..]);
    let (client, server) = (&[Role::Client][..], &[Role::Server][..]);
    let confirms = draft.flags() == ACK_REPLY;
    let other = random.one_in(2);
    let (roles, flows, phases): (&[Role], &[Flow], &[Phase]) = match draft.message_type() {
        OPEN if other => (client, any_flow, &OPEN_PHASES),
        OPEN => (server, any_flow, &[Opening, Idle, Offer, Batch]),
        READY if other => (client, any_flow, &[Fresh, Offer, Batch]),
        READY => (server, any_flow, &[Fresh, Opening, Idle, Batch]),
        DATA if !confirms && other => (any_role, &[Flow::Producer], &OPEN_PHASES),
        DATA if !confirms => (any_role, &[Flow::Consumer], &[Fresh, Opening, Idle, Offer]),
        CLOSE => (any_role, any_flow, &[Fresh]),
        _ => (any_role, any_flow, &[Fresh, Opening]),
    };
    draft.state = endpoint(random, roles, flows, phases);
    true
}

/// Puts another type-data into the control frame.
fn set_type_data(draft: &mut Draft, type_data: u16) {
    draft.parts.bodies[0][6..].copy_from_slice(&type_data.to_be_bytes());
}

fn above_the_offer(draft: &mut Draft, random: &mut Random) -> bool {
    let n = draft.state.n;
    if draft.message_type() != READY || draft.state.role != Role::Server || n == u16::MAX {
        return false;
    }
    let any = random.between(usize::from(n) + 1, 65_535) as u16;
    set_type_data(draft, random.choose(&[n + 1, u16::MAX, any]));
    true
}

fn is_confirmation(draft: &Draft) -> bool {
    draft.flags() == ACK_REPLY && matches!(draft.message_type(), NOOP | DATA)
}

fn nothing_awaited(draft: &mut Draft, random: &mut Random) -> bool {
    if random.one_in(2) {
        *draft = Draft::new(running(random), NOOP, ACK_REPLY, 0, random);
    }
    draft.state.awaited.truncate(0);
    is_confirmation(draft)
}

fn other_type_data(draft: &mut Draft, random: &mut Random) -> bool {
    let (true, Some(oldest)) = (is_confirmation(draft), draft.state.awaited.oldest()) else {
        return false;
    };
    let right = oldest.type_data;
    let wrong = random.choose(&[right.wrapping_add(1), right ^ 1 << 15, right ^ 1, right.swap_bytes(), !right]);
    set_type_data(draft, wrong);
    wrong != right
}

/// A NOOP is confirmed as a DATA, or a DATA as a NOOP.
fn other_confirmed_type(draft: &mut Draft, _: &mut Random) -> bool {
    if !is_confirmation(draft) {
        return false;
    }
    draft.parts.bodies[0][4] = 8 * (NOOP + DATA - draft.message_type()) + 1;
    true
}

/// The confirmation of a message that asked later.
fn not_the_oldest(draft: &mut Draft, random: &mut Random) -> bool {
    if !is_confirmation(draft) || draft.state.awaited.len() < 2 {
        return false;
    }
    let entries: Vec<Entry> = draft.state.awaited.iter().collect();
    let later = random.choose(&entries[1..]);
    draft.parts.bodies[0][4] = 8 * later.message_type + 1;
    set_type_data(draft, later.type_data);
    later != entries[0]
}

fn data_confirmed_to_consumer(draft: &mut Draft, random: &mut Random) -> bool {
    let state = endpoint(random, &Role::ALL, &[Flow::Consumer], &[Phase::Idle, Phase::Offer, Phase::Batch]);
    let oldest = state.awaited.oldest().map_or(0, |entry| entry.type_data);
    let type_data = if random.one_in(2) { oldest } else { type_data(random) };
    *draft = Draft::new(state, DATA, ACK_REPLY, type_data, random);
    true
}

/// A message that is refused for one cause; the model must give its number.
fn refused_for(random: &mut Random, cause: &Cause) -> Draft {
    loop {
        let confirms = cause.number == 24 && random.one_in(2);
        let mut draft = if confirms { drafts::confirmation(random) } else { valid(random) };
        if (cause.make)(&mut draft, random) {
            assert_eq!(draft.number(), cause.number, "a cause has its number");
            return draft;
        }
    }
}

/// Every cause some times.
pub fn one_cause(random: &mut Random) -> Calls {
    let mut calls = Calls::new();
    for cause in CAUSES {
        for _ in 0..30 {
            let draft = refused_for(random, cause);
            let room = reply_room(random);
            add(&mut calls, draft.call(room));
        }
    }
    calls
}

/// An OPEN whose frame is refused, with the number answered for it.
fn refused_open(random: &mut Random) -> (u64, Draft) {
    loop {
        let (number, frame, offer) = refused_frame(random);
        if frame.len() <= MOST_OPEN {
            return (number, Draft::open(random, frame, &offer));
        }
    }
}

/// OPENs that are refused for what their frame says; the model must give 18 to 22.
pub fn refused_opens(random: &mut Random) -> Calls {
    let mut calls = Calls::new();
    for _ in 0..200 {
        let (number, draft) = refused_open(random);
        assert_eq!(draft.number(), number);
        let room = reply_room(random);
        add(&mut calls, draft.call(room));
    }
    calls
}

/// Two to four causes in one message, so that the first to apply has others behind it; mostly ones behind 10 to 13.
pub fn some_causes(random: &mut Random) -> Calls {
    let mut calls = Calls::new();
    let in_control = CAUSES.iter().filter(|cause| cause.number <= 13).count();
    for _ in 0..700 {
        let mut draft = if random.one_in(3) { refused_open(random).1 } else { valid(random) };
        for _ in 0..random.between(2, 4) {
            let before = draft.clone();
            let first = random.choose(&[0, in_control, in_control]);
            let cause = &CAUSES[random.between(first, CAUSES.len() - 1)];
            let usable = draft.parts.bodies[0].len() == 8 && (1..=16).contains(&draft.parts.count);
            if !usable || !(cause.make)(&mut draft, random) {
                draft = before;
            }
        }
        let room = if random.one_in(8) { random.between(0, REPLY) } else { reply_room(random) };
        add(&mut calls, draft.call(room));
    }
    calls
}
