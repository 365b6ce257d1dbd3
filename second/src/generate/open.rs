//! OPEN frames: what they say before they are written, valid ones, and frames that stand anywhere in a message.

pub mod broken;
pub mod damaged;
pub mod every;
pub mod writers;

use super::broken::payload;
use super::messages::{Form, Message, Payload};
use super::{add, alike, limits, texts, trees, Calls};
use crate::calls::ReadOpen;
use crate::open::{self, Offer, Opening, DEFAULT_LIMIT, FORMAT, MOST_TEXT, NAME, PARAMETERS, SOCKET};
use crate::random::Random;
use crate::wire::{EIGHT_BYTES, FOUR_BYTES, LENGTH_DELIMITED, VARINT};

/// Field numbers that are skipped; some look like lower ones in fewer bits.
const SKIPPED: [u64; 14] = [5, 6, 7, 8, 15, 16, 17, 34, 257, 2047, 2048, (1 << 28) + 1, (1 << 28) + 2, (1 << 29) - 1];

/// What an OPEN frame says in each of its fields; nothing for a field that is absent.
pub struct Said {
    pub name: Option<Vec<u8>>,
    pub socket: Option<u64>,
    pub format: Option<Vec<u8>>,
    pub parameters: Option<Message>,
}

impl Said {
    /// The number and payload of each field that is there.
    fn fields(&self, random: &mut Random) -> Vec<(u64, Payload)> {
        let mut fields = Vec::new();
        for (number, text) in [(NAME, &self.name), (FORMAT, &self.format)] {
            fields.extend(text.clone().map(|text| (number, trees::delimited(random, text))));
        }
        fields.extend(self.socket.map(|socket| (SOCKET, trees::varint(random, socket))));
        fields.extend(self.parameters.clone().map(|message| (PARAMETERS, trees::nested(random, message))));
        fields
    }

    /// The frame with its fields in any order and some that are skipped among them.
    pub fn message(&self, random: &mut Random) -> Message {
        let mut fields = self.fields(random);
        for _ in 0..random.choose(&[0, 0, 0, 1, 1, 2, 4]) {
            let field = (random.choose(&SKIPPED), skipped_payload(random));
            fields.extend(vec![field; random.choose(&[1, 1, 2])]);
        }
        random.shuffle(&mut fields);
        let mut message = Message::new(Form::Open);
        for (number, payload) in fields {
            message.add(random, number, payload);
        }
        message
    }
}

/// The payload of a field that is skipped.
fn skipped_payload(random: &mut Random) -> Payload {
    let wire_type = random.choose(&[VARINT, EIGHT_BYTES, LENGTH_DELIMITED, FOUR_BYTES]);
    payload(random, wire_type)
}

/// A text of 1 to 255 bytes, mostly short.
pub fn short_text(random: &mut Random) -> Vec<u8> {
    let length = match random.between(0, 9) {
        0 => random.choose(&[1, 127, 128, 254, 255]),
        1 => random.between(1, 255),
        2 | 3 => texts::around_words(random),
        _ => random.between(1, 9),
    };
    texts::of_length(random, length)
}

/// A name or format to offer, or a key to look for, that is not this one, mostly much like it.
pub fn other_text(random: &mut Random, text: &[u8]) -> Vec<u8> {
    let place = random.between(0, text.len().saturating_sub(1));
    let other = match random.between(0, 8) {
        0 => Vec::new(),
        1 => text[..place].to_vec(),
        2 => [text, &[random.choose(&[0, b' ', b'a', 0x80])]].concat(),
        3 => [&text[..place], &[0], &text[place..]].concat(),
        4 => texts::bad(random),
        5 => text.repeat(1 + MOST_TEXT / text.len().max(1)),
        6 => short_text(random),
        _ => alike::with_bit_changed(text, place, 1 << random.between(0, 7)),
    };
    if other == text {
        return [text, b"x"].concat();
    }
    other
}

/// What a client opens a pipe with, with a good limit.
pub fn opening(random: &mut Random) -> Opening {
    let limit = match random.between(0, 5) {
        0 => random.choose(&[1_000_000, 1_000_001, 49_999_999]),
        1 | 2 => DEFAULT_LIMIT,
        _ => random.between(1_000_000, 50_000_000) as u32,
    };
    let format = if random.one_in(2) { Vec::new() } else { short_text(random) };
    Opening { producer: random.one_in(2), name: short_text(random), format, limit }
}

/// An offer that an opening meets; where it has no format, any one may be offered.
pub fn offer(random: &mut Random, opening: &Opening) -> Offer {
    let any_format = opening.format.is_empty() && random.one_in(2);
    let format = if any_format { other_text(random, b"format") } else { opening.format.clone() };
    Offer { producer: !opening.producer, name: opening.name.clone(), format }
}

/// What a frame says for an opening: an empty format and the limit of 50,000,000 are there or not, and other
/// parameters stand beside the limit.
fn said(random: &mut Random, opening: &Opening) -> Said {
    let format = Some(opening.format.clone()).filter(|format| !format.is_empty() || random.one_in(2));
    let parameters = if opening.limit != DEFAULT_LIMIT || random.one_in(3) {
        let mut parameters = limits::other_parameters(random);
        let value = limits::number(random, f64::from(opening.limit).to_bits());
        limits::add_limit(random, &mut parameters, value);
        Some(parameters)
    } else {
        random.one_in(2).then(|| limits::other_parameters(random))
    };
    Said { name: Some(opening.name.clone()), socket: Some(opening.socket()), format, parameters }
}

/// A frame that meets an offer.
pub fn met(random: &mut Random) -> (Said, Offer) {
    let opening = opening(random);
    (said(random, &opening), offer(random, &opening))
}

/// Bytes next to a frame: none, any, the frame's own once more, or ones that would go on with what stands before them.
fn surrounding(random: &mut Random, frame: &[u8]) -> Vec<u8> {
    let length = random.between(1, 20);
    match random.between(0, 5) {
        0 | 1 => Vec::new(),
        2 => frame.to_vec(),
        3 => vec![0x80; length],
        4 => vec![0; length],
        _ => random.bytes(length),
    }
}

/// The call that reads a frame which stands somewhere in a message, with other bytes around it.
pub fn read_somewhere(random: &mut Random, frame: &[u8], offer: &Offer) -> ReadOpen {
    let (before, behind) = (surrounding(random, frame), surrounding(random, frame));
    let at = before.len() as u64;
    let message = [&before, frame, &behind].concat();
    ReadOpen { message, at, end: at + frame.len() as u64, offer: offer.clone() }
}

/// Asks about a frame that stands somewhere in a message.
pub fn add_frame(calls: &mut Calls, random: &mut Random, frame: &[u8], offer: &Offer) {
    let read = read_somewhere(random, frame, offer);
    add(calls, read);
}

/// Asks about a frame in which the model must hear this opening.
pub fn add_met(calls: &mut Calls, read: ReadOpen, opening: &Opening) {
    let (number, heard) = open::heard(&read.message, read.at, read.end, &read.offer);
    let part = |at: u64, length: u64| &read.message[at as usize..][..length as usize];
    assert_eq!((number, heard[0], heard[7]), (0, opening.socket(), opening.limit.into()));
    assert_eq!(part(heard[1], heard[2]), opening.name);
    assert_eq!(part(heard[3], heard[4]), opening.format);
    add(calls, read);
}

/// Frames that meet their offer; the model must hear what was put in.
pub fn valid_frames(random: &mut Random) -> Calls {
    let mut calls = Calls::new();
    for _ in 0..400 {
        let opening = opening(random);
        let (said, offer) = (said(random, &opening), offer(random, &opening));
        let frame = said.message(random).bytes();
        let read = read_somewhere(random, &frame, &offer);
        add_met(&mut calls, read, &opening);
    }
    calls
}

#[cfg(test)]
mod tests {
    use std::collections::BTreeSet;
    use std::ops::RangeInclusive;

    use super::*;
    use crate::calls::Written;
    use crate::generate::stored;
    use crate::structs::UNREADABLE;

    /// The numbers that the model answers to some rounds of reads, each with the kind of its fault.
    fn answers(rounds: usize, make: fn(&mut Random) -> Calls) -> BTreeSet<(u64, u64)> {
        let mut random = Random::new(5);
        let calls: Vec<_> = (0..rounds).flat_map(|_| make(&mut random)).collect();
        let kind = |heard: &Written| match heard {
            Written::Numbers(heard) => heard[8],
            Written::Bytes(_) => unreachable!("a read writes numbers alone"),
        };
        let answers = calls.iter().map(|call| call.answer(&[]));
        answers.map(|answer| (answer.returned, kind(&answer.written[0]))).collect()
    }

    fn unreadable(kinds: RangeInclusive<u64>) -> BTreeSet<(u64, u64)> {
        kinds.map(|kind| (UNREADABLE, kind)).collect()
    }

    fn readable(numbers: RangeInclusive<u64>) -> BTreeSet<(u64, u64)> {
        numbers.map(|number| (number, 0)).collect()
    }

    #[test]
    fn valid_frames_are_heard() {
        assert_eq!(answers(5, valid_frames), readable(0..=0));
    }

    #[test]
    fn every_broken_rule_is_18_and_every_kind_of_fault_is_there() {
        assert_eq!(answers(40, broken::one_rule_broken), unreadable(1..=7));
    }

    #[test]
    fn every_cause_has_its_number() {
        assert_eq!(answers(20, broken::one_cause), readable(19..=22));
    }

    #[test]
    fn a_few_fields_give_every_number() {
        let expected = &(&unreadable(1..=6) | &readable(19..=22)) | &readable(0..=0);
        assert_eq!(answers(1, every::few_fields), expected);
    }

    /// The sets themselves hold the model to what was put in.
    #[test]
    fn what_was_written_is_heard_again() {
        let mut random = Random::new(7);
        writers::every_limit(&mut random);
        writers::round_trips(&mut random);
        stored::every_open(&mut random);
    }

    #[test]
    fn what_is_offered_instead_is_never_the_same() {
        let mut random = Random::new(6);
        for _ in 0..2000 {
            let text = if random.one_in(8) { Vec::new() } else { short_text(&mut random) };
            assert_ne!(other_text(&mut random, &text), text);
        }
    }
}
