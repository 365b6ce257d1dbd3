//! OPEN frames that are refused: with one rule broken, for one cause, and for several at once.

use super::{add_frame, met, other_text, short_text, Said};
use crate::generate::broken::{break_rule, Place, Rule, RULES};
use crate::generate::messages::{Form, Message, Payload, Written};
use crate::generate::{limits, texts, trees, Calls};
use crate::limit;
use crate::open::{self, Offer, FORMAT, MOST_TEXT, NAME, PARAMETERS, SOCKET};
use crate::random::Random;
use crate::structs::UNREADABLE;
use crate::wire::FaultKind;

/// The rules that only an OPEN frame has.
const OPEN_RULES: &[Rule] = &[
    Rule { kind: FaultKind::BadVarint, broken: oversized_socket },
    Rule { kind: FaultKind::Repeated, broken: second_field },
    Rule { kind: FaultKind::BadText, broken: bad_name_or_format },
];

/// A socket above 2^32-1, alone or beside another one.
fn oversized_socket(place: &mut Place) -> bool {
    if place.message.form != Form::Open {
        return false;
    }
    let any = place.random.number() | 1 << place.random.between(32, 63);
    let socket = place.random.choose(&[1 << 32, (1 << 32) + 1, (1 << 32) + 2, 1 << 63, u64::MAX, any]);
    let payload = trees::varint(place.random, socket);
    let field = place.field(SOCKET, payload);
    place.insert(field);
    true
}

/// One of the four fields once more, with something that may or may not be allowed there.
fn second_field(place: &mut Place) -> bool {
    let number = place.random.between(NAME as usize, PARAMETERS as usize) as u64;
    let Some(first) = place.find_in(Form::Open, number) else {
        return false;
    };
    let payload = second_payload(place.random, number);
    let field = place.field(number, payload);
    place.insert_behind(first, field);
    true
}

fn second_payload(random: &mut Random, number: u64) -> Payload {
    let bytes = match (number, random.between(0, 2)) {
        (SOCKET, _) => {
            let socket = random.choose(&[0, 1, 2, 3, (1 << 32) - 1]);
            return trees::varint(random, socket);
        }
        (_, 0) => texts::bad(random),
        (PARAMETERS, _) => trees::any_struct(random).bytes(),
        _ => texts::good(random),
    };
    trees::delimited(random, bytes)
}

fn bad_name_or_format(place: &mut Place) -> bool {
    let number = place.random.choose(&[NAME, FORMAT]);
    let Some(text) = place.find_in(Form::Open, number) else {
        return false;
    };
    let bad = texts::bad(place.random);
    let payload = trees::delimited(place.random, bad);
    place.replace(text, payload);
    true
}

/// A rule of OPEN frames, or one of those that are broken in any message.
fn any_rule(random: &mut Random) -> &'static Rule {
    let rules = if random.one_in(3) { OPEN_RULES } else { RULES };
    &rules[random.between(0, rules.len() - 1)]
}

/// Every rule broken once, outside or inside the parameters; the model must find each breach where it was made.
pub fn one_rule_broken(random: &mut Random) -> Calls {
    let mut calls = Calls::new();
    for (rules, times) in [(OPEN_RULES, 40), (RULES, 15)] {
        for rule in rules {
            for _ in 0..times {
                add_broken(&mut calls, random, rule);
            }
        }
    }
    calls
}

/// A frame in which the rule is broken, and an offer.
fn broken_frame(random: &mut Random, rule: &Rule) -> (Written, Offer) {
    let (mut message, offer) = message_and_offer(random);
    while !break_rule(rule, &mut message, random) {
        message = message_and_offer(random).0;
    }
    (message.written(), offer)
}

fn add_broken(calls: &mut Calls, random: &mut Random, rule: &Rule) {
    let (written, offer) = broken_frame(random, rule);
    let (number, heard) = open::heard(&written.bytes, 0, written.bytes.len() as u64, &offer);
    let mark = written.mark.expect("a breach is marked") as u64;
    assert_eq!((number, heard[8..].to_vec()), (UNREADABLE, vec![rule.kind as u64, mark]));
    add_frame(calls, random, &written.bytes, &offer);
}

/// A frame that meets its offer.
fn message_and_offer(random: &mut Random) -> (Message, Offer) {
    let (said, offer) = met(random);
    (said.message(random), offer)
}

/// A cause for which a frame that can be read is refused, with the number answered for it.
struct Cause {
    number: u64,
    make: fn(&mut Said, &mut Offer, &mut Random),
}

const CAUSES: &[Cause] = &[
    Cause { number: open::OUT_OF_RANGE, make: |said, _, _| said.name = None },
    Cause { number: open::OUT_OF_RANGE, make: |said, _, _| said.name = Some(Vec::new()) },
    Cause { number: open::OUT_OF_RANGE, make: long_name },
    Cause { number: open::OUT_OF_RANGE, make: long_format },
    Cause { number: open::OUT_OF_RANGE, make: |said, _, _| said.socket = None },
    Cause { number: open::OUT_OF_RANGE, make: |said, _, _| said.socket = Some(0) },
    Cause { number: open::OUT_OF_RANGE, make: |said, _, random| said.parameters = Some(bad_parameters(random)) },
    Cause { number: open::NO_SUCH_SOCKET, make: no_such_socket },
    Cause { number: open::NOT_OFFERED, make: other_name },
    Cause { number: open::NOT_OFFERED, make: |_, offer, _| offer.producer = !offer.producer },
    Cause { number: open::OTHER_FORMAT, make: other_format },
];

/// A text of more than 255 bytes.
fn long_text(random: &mut Random) -> Vec<u8> {
    let length = if random.one_in(2) { MOST_TEXT + 1 } else { random.between(MOST_TEXT + 2, 600) };
    texts::of_length(random, length)
}

fn long_name(said: &mut Said, offer: &mut Offer, random: &mut Random) {
    offer.name = long_text(random);
    said.name = Some(offer.name.clone());
}

fn long_format(said: &mut Said, offer: &mut Offer, random: &mut Random) {
    offer.format = long_text(random);
    said.format = Some(offer.format.clone());
}

/// Parameters with a limit that is no number, that is not whole or that is out of range.
fn bad_parameters(random: &mut Random) -> Message {
    loop {
        let mut parameters = limits::other_parameters(random);
        let value = match random.between(0, 3) {
            0 => limits::hidden_limit(random),
            1 => trees::any_value(random),
            _ => {
                let bits = limits::double(random);
                limits::number(random, bits)
            }
        };
        limits::add_limit(random, &mut parameters, value);
        if let (0, [2, 0]) = limit::limit(&parameters.bytes()) {
            return parameters;
        }
    }
}

fn no_such_socket(said: &mut Said, _: &mut Offer, random: &mut Random) {
    let any = random.between(3, (1 << 32) - 1) as u64;
    said.socket = Some(random.choose(&[3, 4, 127, 128, 257, 258, 1 << 16, 1 << 31, (1 << 31) + 1, (1 << 32) - 1, any]));
}

fn other_name(said: &mut Said, offer: &mut Offer, random: &mut Random) {
    let name = said.name.clone().unwrap_or_default();
    offer.name = other_text(random, &name);
}

fn other_format(said: &mut Said, offer: &mut Offer, random: &mut Random) {
    let format = short_text(random);
    offer.format = other_text(random, &format);
    said.format = Some(format);
}

/// A frame that is refused for this cause, and the offer.
fn frame_with_cause(random: &mut Random, cause: &Cause) -> (Vec<u8>, Offer) {
    let (mut said, mut offer) = met(random);
    (cause.make)(&mut said, &mut offer, random);
    (said.message(random).bytes(), offer)
}

/// A frame that is refused as 18 to 22, with its number and the offer.
pub fn refused_frame(random: &mut Random) -> (u64, Vec<u8>, Offer) {
    if random.one_in(4) {
        let rule = any_rule(random);
        let (written, offer) = broken_frame(random, rule);
        return (UNREADABLE, written.bytes, offer);
    }
    let cause = &CAUSES[random.between(0, CAUSES.len() - 1)];
    let (frame, offer) = frame_with_cause(random, cause);
    (cause.number, frame, offer)
}

/// Every cause once; the model must give its number.
pub fn one_cause(random: &mut Random) -> Calls {
    let mut calls = Calls::new();
    for cause in CAUSES {
        for _ in 0..25 {
            let (frame, offer) = frame_with_cause(random, cause);
            let (number, heard) = open::heard(&frame, 0, frame.len() as u64, &offer);
            assert_eq!((number, heard), (cause.number, [0; 10]));
            add_frame(&mut calls, random, &frame, &offer);
        }
    }
    calls
}

/// Up to three causes and up to three broken rules in one frame, so that the first to apply has others behind it.
pub fn some_causes_and_rules(random: &mut Random) -> Calls {
    let mut calls = Calls::new();
    for _ in 0..300 {
        let (mut said, mut offer) = met(random);
        for _ in 0..random.between(1, 3) {
            let cause = &CAUSES[random.between(0, CAUSES.len() - 1)];
            (cause.make)(&mut said, &mut offer, random);
        }
        let mut message = said.message(random);
        for _ in 0..random.choose(&[0, 0, 1, 2, 3]) {
            break_rule(any_rule(random), &mut message, random);
        }
        add_frame(&mut calls, random, &message.bytes(), &offer);
    }
    calls
}
