//! Tests of the sets: which numbers they reach, and that the sessions go where they should.

use std::collections::{BTreeMap, BTreeSet};

use super::*;
use crate::calls::{Answer, Argument, Call, Part, Says, Written};
use crate::endpoint::{self, Phase, State};
use crate::generate::Calls;
use crate::open::NOT_OFFERED;

/// The whole answer of the model to a call.
fn answer(call: &dyn Call) -> Answer {
    let rooms: Vec<Vec<u8>> = call
        .arguments()
        .iter()
        .filter_map(|(_, argument)| match argument {
            Argument::Room(length) => Some(vec![7; *length]),
            _ => None,
        })
        .collect();
    call.answer(&rooms)
}

/// The number that the model answers to a call, and the block before and afterwards.
fn answered(call: &dyn Call) -> (u64, Vec<u8>, Vec<u8>) {
    let Some((_, Argument::InPlace(before))) = call.arguments().into_iter().next() else {
        unreachable!("an endpoint's first argument is its block");
    };
    let answer = answer(call);
    let Some(Written::Bytes(after)) = answer.written.into_iter().next() else {
        unreachable!("an endpoint's block comes first in the answer");
    };
    (answer.returned, before.to_vec(), after)
}

/// The data frames and the length of the body of a DATA that a call accepts as data; nothing for any other call.
fn accepted_body(call: &dyn Call) -> Option<[u64; 2]> {
    match answer(call).written.pop() {
        Some(Written::Numbers(heard)) if heard.len() == 16 && heard[0] == 4 && heard[1] != 2 => {
            Some([heard[4], heard[13]])
        }
        _ => None,
    }
}

/// The number of options and the body that are lent to a send of DATA; nothing for any other call.
fn lent_to_data(call: &dyn Call) -> Option<(u64, usize)> {
    match call.arguments()[..] {
        [_, _, ("how", Argument::Number(how)), ("body", Argument::Input(body)), ..] => Some((how, body.len())),
        _ => None,
    }
}

/// How often each function answers each number in some rounds of a set.
fn numbers(rounds: usize, make: fn(&mut Random) -> Calls) -> BTreeMap<(&'static str, u64), usize> {
    let mut random = Random::new(3);
    let mut numbers = BTreeMap::new();
    for _ in 0..rounds {
        for call in make(&mut random) {
            let (number, _, _) = answered(call.as_ref());
            *numbers.entry((call.function().name(), number)).or_insert(0) += 1;
        }
    }
    numbers
}

fn numbers_of(function: &str, rounds: usize, make: fn(&mut Random) -> Calls) -> BTreeSet<u64> {
    let all = numbers(rounds, make);
    all.keys().filter(|(name, _)| *name == function).map(|(_, number)| *number).collect()
}

#[test]
fn the_marked_cases_are_answered_as_they_are_told() {
    assert!(!marked::cases(&mut Random::new(0)).is_empty());
}

#[test]
fn messages_are_heard_or_refused_as_they_were_meant() {
    assert_eq!(numbers_of("fbdp_receive", 3, drafts::valid_messages), BTreeSet::from([0, 2]));
    let refused = numbers_of("fbdp_receive", 3, broken::one_cause);
    assert_eq!(refused, BTreeSet::from([2, 10, 11, 12, 13, 14, 15, 16, 17, 23, 24]));
    assert_eq!(numbers_of("fbdp_receive", 3, broken::refused_opens), BTreeSet::from([2, 18, 19, 20, 21, 22]));
}

/// Bodies that are missing, empty, short and long, at either role, in single messages and in whole sessions.
#[test]
fn data_are_accepted_with_every_kind_of_body() {
    for make in [drafts::valid_messages, sessions::sessions] {
        let mut random = Random::new(14);
        let mut kinds = BTreeSet::new();
        for call in (0..20).flat_map(|_| make(&mut random)) {
            let role = answered(call.as_ref()).1[0];
            kinds.extend(accepted_body(call.as_ref()).map(|[frames, length]| (role, frames, length.min(100))));
        }
        for role in [1, 2] {
            assert!([(0, 0), (1, 0), (1, 1), (1, 100)].iter().all(|kind| kinds.contains(&(role, kind.0, kind.1))));
        }
    }
}

#[test]
fn every_number_of_data_frames_is_heard_or_refused() {
    let numbers = numbers_of("fbdp_receive", 1, every::bodies);
    assert_eq!(numbers, BTreeSet::from([0, 2, 3, 14, 15, 17, 24]));
}

/// The sets themselves hold the model to what was put in.
#[test]
fn opens_are_heard_as_they_were_sent() {
    let mut random = Random::new(8);
    opens::stored(&mut random);
    opens::round_trips(&mut random);
}

#[test]
fn bad_blocks_are_refused_by_every_function() {
    let numbers = numbers(2, blocks::one_cause);
    assert_eq!(numbers.keys().map(|(_, number)| *number).collect::<BTreeSet<_>>(), BTreeSet::from([1]));
    assert_eq!(numbers.len(), 6);
}

/// The same block with the right number in byte 6, and 0 behind it.
fn put_right(block: &[u8]) -> Vec<u8> {
    let mut right = block.to_vec();
    blocks::count_unconfirmed(&mut right);
    right[7] = 0;
    right
}

/// Each bad block breaks either the rule of byte 6 or another one, and both kinds come to every function.
#[test]
fn bad_blocks_have_one_cause_beside_or_in_byte_6() {
    let mut random = Random::new(21);
    let mut kinds = BTreeSet::new();
    for call in (0..3).flat_map(|_| blocks::one_cause(&mut random)) {
        let (_, before, _) = answered(call.as_ref());
        if before.len() != endpoint::BLOCK {
            continue;
        }
        let mut counted = before.clone();
        blocks::count_unconfirmed(&mut counted);
        let miscounted = before != counted;
        assert_eq!(State::read(&counted).is_some(), miscounted, "byte 6 is the one cause, or another is: {before:?}");
        kinds.insert((call.function().name(), miscounted));
    }
    assert_eq!(kinds.len(), 2 * 6);
}

#[test]
fn blocks_with_another_number_in_byte_6_or_7_are_refused_by_all_but_making() {
    let mut refusing = BTreeSet::new();
    for call in unconfirmed::other_numbers(&mut Random::new(22)) {
        let (number, before, _) = answered(call.as_ref());
        assert!(State::read(&put_right(&before)).is_some(), "all else is good: {before:?}");
        let name = call.function().name();
        assert_eq!(number, if name.starts_with("fbdp_make") { 0 } else { 1 }, "{name}");
        refusing.insert((name, before[6].cmp(&put_right(&before)[6])));
    }
    assert_eq!(refusing.len(), 8 * 3, "byte 6 is less, more, and right beside another byte 7, in each function");
}

#[test]
fn blocks_with_data_behind_the_entries_are_refused_by_all_but_making() {
    let numbers = numbers(1, unconfirmed::data_behind);
    assert!(numbers.keys().all(|(name, number)| *number == u64::from(!name.starts_with("fbdp_make"))));
    assert_eq!(numbers.len(), 8);
}

/// How each function changes W and byte 6 where it accepts, and with which numbers it closes.
#[test]
fn mixtures_are_asked_confirmed_and_closed() {
    let (mut mixtures, mut changes, mut closes) = (BTreeSet::new(), BTreeSet::new(), BTreeSet::new());
    for call in unconfirmed::every_mixture(&mut Random::new(23)) {
        let (number, before, after) = answered(call.as_ref());
        assert_eq!(after, put_right(&after));
        mixtures.insert((before[1], before[3], before[6]));
        if after[2] == Phase::Closed as u8 {
            assert_eq!(after[6], 0);
            closes.insert((call.function().name(), number, before[6] != 0));
        } else if number == 0 {
            let change = |place: usize| i16::from(after[place]) - i16::from(before[place]);
            changes.insert((call.function().name(), change(3), change(6)));
        }
    }
    for awaited in [0, 1, 2, 3, 4, 15, 16] {
        assert!([0, 1, awaited / 2, awaited].iter().all(|data| mixtures.contains(&(1, awaited, awaited.min(*data)))));
        assert!(mixtures.contains(&(2, awaited, 0)));
    }
    let asked = [("fbdp_send_data", 1, 1), ("fbdp_send_noop", 1, 0)];
    let confirmed = [("fbdp_receive", -1, -1), ("fbdp_receive", -1, 0)];
    let same = ["fbdp_send_data", "fbdp_send_noop", "fbdp_send_ready", "fbdp_receive"].map(|name| (name, 0, 0));
    assert_eq!(changes, [&asked[..], &confirmed, &same].concat().into_iter().collect());
    assert!(closes.contains(&("fbdp_send_close", 0, true)));
    assert!([0, 10, 17, 24].iter().all(|number| closes.contains(&("fbdp_receive", *number, true))));
}

/// The header's functions are asked for each part of blocks of any bytes; of good ones they say what the state has.
#[test]
fn what_a_good_block_says_is_its_state() {
    let mut random = Random::new(25);
    for state in (0..100).map(|_| blocks::good(&mut random)) {
        let block = state.block().try_into().expect("a block has 64 bytes");
        let said = Part::ALL.map(|part| answer(&Says { part, block }).returned);
        let (awaited, unconfirmed) = (state.awaited.len() as u64, state.awaited.unconfirmed() as u64);
        assert_eq!(said, [state.phase as u64, awaited, unconfirmed, state.n.into(), state.limit.into()]);
    }
    let asked: BTreeSet<&str> = blocks::what_they_say(&mut random).iter().map(|call| call.function().name()).collect();
    let names = ["fbdp_phase", "fbdp_awaited", "fbdp_unconfirmed", "fbdp_count", "fbdp_limit"];
    assert_eq!(asked, names.into_iter().collect());
}

/// The same block with the other type in its oldest entry, counted in byte 6.
fn with_the_other_type(block: &[u8]) -> Vec<u8> {
    let mut other = block.to_vec();
    other[blocks::ENTRIES] = endpoint::NOOP + endpoint::DATA - other[blocks::ENTRIES];
    put_right(&other)
}

/// A type that is changed alone makes a block bad, and with byte 6 counting it another good one.
#[test]
fn every_byte_is_changed_alone_and_with_what_it_makes_of_byte_6() {
    let mut random = Random::new(24);
    let (mut good, mut bad) = (BTreeSet::new(), BTreeSet::new());
    for call in blocks::every_byte(&mut random) {
        let (number, before, _) = answered(call.as_ref());
        let blocks = if number == 1 { &mut bad } else { &mut good };
        blocks.insert((call.function().name() == "fbdp_receive", before));
    }
    for receives in [true, false] {
        let both = |(is_receive, block): &(bool, Vec<u8>)| {
            let other = with_the_other_type(block);
            let mut alone = other.clone();
            alone[6] = block[6];
            good.contains(&(receives, other)) && bad.contains(&(receives, alone)) && *is_receive == receives
        };
        assert!(good.iter().filter(|(_, block)| block[3] != 0).any(both));
    }
}

#[test]
fn sends_reach_every_number() {
    let reached =
        |function| &numbers_of(function, 6, sends::steps_off) | &numbers_of(function, 6, sends::fitting_sends);
    assert_eq!(reached("fbdp_send_open"), BTreeSet::from([0, 2, 3, 30, 34]));
    assert_eq!(reached("fbdp_send_ready"), BTreeSet::from([0, 2, 3, 30, 31]));
    assert_eq!(reached("fbdp_send_data"), BTreeSet::from([0, 2, 3, 30, 32]));
    assert_eq!(reached("fbdp_send_noop"), BTreeSet::from([0, 2, 3, 30, 32]));
    assert_eq!(reached("fbdp_send_close"), BTreeSet::from([0, 2, 3, 30, 35]));
    assert!(numbers_of("fbdp_send_data", 1, sizes::around_the_limit).contains(&33));
    assert_eq!(numbers_of("fbdp_send_data", 1, every::options), BTreeSet::from([0, 2, 3, 30, 32]));
    assert_eq!(numbers_of("fbdp_send_noop", 1, every::options), BTreeSet::from([0, 2, 3, 30, 32]));
}

/// The sessions themselves watch that the two ends understand each other.
#[test]
fn sessions_go_through_every_phase_up_to_every_confirmation() {
    let mut random = Random::new(11);
    let (mut phases, mut awaited, mut numbers) = (BTreeSet::new(), BTreeSet::new(), BTreeSet::new());
    let mut unconfirmed = BTreeSet::new();
    for _ in 0..40 {
        let calls =
            [sessions::sessions(&mut random), sessions::of_many_confirmations(&mut random)].into_iter().flatten();
        for call in calls {
            let (number, _, after) = answered(call.as_ref());
            let state = State::read(&after).expect("a session's blocks are good");
            phases.insert((state.role as u8, state.flow as u8, state.phase as u8));
            awaited.insert(state.awaited.len());
            unconfirmed.insert(after[6]);
            numbers.insert((call.function().name(), number));
        }
    }
    assert_eq!(phases.len(), 2 * 2 * 6);
    assert_eq!(awaited, (0..=16).collect());
    assert_eq!(unconfirmed, (0..=16).collect());
    for number in [0, 2, 3, 21, 22] {
        assert!(numbers.contains(&("fbdp_receive", number)));
    }
    assert!(numbers.contains(&("fbdp_send_noop", 32)) && numbers.contains(&("fbdp_send_data", 32)));
}

/// The blocks in which a session first makes its ends hold any bytes, and are not good.
#[test]
fn sessions_make_both_ends_again_in_every_phase_with_every_flow() {
    let mut random = Random::new(13);
    let mut made_again = BTreeSet::new();
    for call in (0..100).flat_map(|_| sessions::sessions(&mut random)) {
        if ["fbdp_make_client", "fbdp_make_server"].contains(&call.function().name()) {
            let (_, before, after) = answered(call.as_ref());
            made_again.extend(State::read(&before).map(|state| (after[0], state.phase as u8, before[1], after[1])));
        }
    }
    assert_eq!(made_again.len(), 2 * 6 * 2 * 2);
}

/// Whether a server of the other flow hears the message of a receive.
fn other_flow_hears(receive: &dyn Call) -> bool {
    let arguments = receive.arguments();
    let bytes = arguments.iter().filter_map(|(_, argument)| match argument {
        Argument::InPlace(bytes) | Argument::Input(bytes) => Some(*bytes),
        _ => None,
    });
    let lent: Vec<&[u8]> = bytes.collect();
    let [block, message, name, format] = lent[..] else {
        unreachable!("a receive is lent its block, the message, the name and the format");
    };
    let mut state = State::read(block).expect("a session's blocks are good");
    state.flow = state.flow.other();
    endpoint::received(&state.block(), message, name, format, &[0; REPLY]).number == 0
}

/// Data are accepted at either role, and OPENs refused at either flow that only the flow keeps from being heard.
#[test]
fn sessions_carry_data_both_ways_and_have_ends_of_the_same_flow() {
    let mut random = Random::new(12);
    let (mut accepting, mut refusing) = (BTreeSet::new(), BTreeSet::new());
    for call in (0..40).flat_map(|_| sessions::sessions(&mut random)) {
        if call.function().name() != "fbdp_receive" {
            continue;
        }
        let (number, before, after) = answered(call.as_ref());
        let [before, after] = [before, after].map(|block| State::read(&block).expect("a session's blocks are good"));
        if number == 0 && before.phase == Phase::Batch && after.phase != Phase::Closed && after.n < before.n {
            accepting.insert(before.role as u8);
        }
        if number == NOT_OFFERED && other_flow_hears(call.as_ref()) {
            refusing.insert(before.flow as u8);
        }
    }
    assert_eq!((accepting, refusing), (BTreeSet::from([1, 2]), BTreeSet::from([1, 2])));
}

/// Bodies above the limit are refused where they are to be sent, and not looked at where none is.
#[test]
fn sessions_of_large_data_meet_the_limit() {
    let mut random = Random::new(4);
    let mut numbers = BTreeSet::new();
    for call in (0..300).flat_map(|_| sessions::of_large_data(&mut random)) {
        let (number, before, _) = answered(call.as_ref());
        let limit = State::read(&before).map_or(0, |state| state.limit as usize);
        let above = lent_to_data(call.as_ref()).filter(|(_, length)| length + 8 > limit);
        numbers.extend(above.map(|(how, _)| (how as u8 & endpoint::NO_BODY, number)));
    }
    assert!(numbers.contains(&(0, 33)) && numbers.contains(&(endpoint::NO_BODY, 0)));
    assert!(!numbers.contains(&(0, 0)) && !numbers.contains(&(endpoint::NO_BODY, 33)));
}

#[test]
fn either_end_closes_in_every_phase_with_every_code() {
    let calls = sessions::closed_in_every_phase(&mut Random::new(2));
    let mut closes = BTreeSet::new();
    for call in calls.iter().filter(|call| call.function().name() == "fbdp_send_close") {
        let (number, before, _) = answered(call.as_ref());
        let Some((_, Argument::Number(code))) = call.arguments().into_iter().nth(1) else {
            unreachable!("the code stands behind the block");
        };
        if number == 0 {
            closes.insert((before[0], before[2], code));
        }
    }
    for phase in 1..=4 {
        for role in 1..=2 {
            assert!((0..=6).all(|code| closes.contains(&(role, phase, code))), "role {role}, phase {phase}");
        }
    }
    assert!((100..=103).all(|code| closes.contains(&(2, 1, code))));
}
