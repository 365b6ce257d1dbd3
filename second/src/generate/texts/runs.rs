//! Runs of plain bytes with other bytes among them: what is passed over several bytes at a time must be plain, and no
//! sequence may be begun, left or cut by it.

use super::{add_text, character, plain, BAD_SEQUENCES};
use crate::calls::{Check, ReadOpen};
use crate::generate::small::pairs;
use crate::generate::{add, Calls};
use crate::open::{Offer, NAME, OUTPUT, SOCKET};
use crate::random::Random;
use crate::structs::{ENTRY, KEY, TEXT};
use crate::wire;

/// The most plain bytes in front of a sequence and behind it: more than twice and once the thirty-two that may be passed
/// over at a time.
const MOST_BEFORE: usize = 72;
const MOST_BEHIND: usize = 33;

/// Plain bytes; there are seven of them, so that each comes to stand at each place of eight.
const PLAIN: [u8; 7] = [b'p', 0x00, b'7', 0x7F, b' ', 0x01, b'~'];

/// Characters of two to four bytes at the ends of the table's rows.
const EDGES: [char; 7] = ['\u{80}', '\u{7FF}', '\u{800}', '\u{D7FF}', '\u{E000}', '\u{10000}', '\u{10FFFF}'];

/// The ends of the ranges in which the bytes behind the first one of a sequence lie, and what is just outside of them.
const BEHIND_THE_FIRST: [u8; 10] = [0x00, 0x7F, 0x80, 0x8F, 0x90, 0x9F, 0xA0, 0xBF, 0xC0, 0xFF];

/// So many plain bytes, from this one on.
fn plain_from(first: usize, length: usize) -> Vec<u8> {
    (first..first + length).map(|place| PLAIN[place % PLAIN.len()]).collect()
}

/// Runs of plain bytes of every length up to this.
fn runs(most: usize) -> Vec<Vec<u8>> {
    (0..=most).map(|length| plain_from(length, length)).collect()
}

/// The sequences of the characters.
fn edges() -> Vec<Vec<u8>> {
    EDGES.iter().map(|character| character.to_string().into_bytes()).collect()
}

/// The sequence with another byte in place of each but the first.
fn changes(sequence: &[u8]) -> Vec<Vec<u8>> {
    let mut all = Vec::new();
    for place in 1..sequence.len() {
        all.extend(BEHIND_THE_FIRST.map(|byte| [&sequence[..place], &[byte], &sequence[place + 1..]].concat()));
    }
    all
}

/// The calls about each of these texts.
fn asked(texts: &[Vec<u8>]) -> Calls {
    let mut calls = Calls::new();
    for text in texts {
        add_text(&mut calls, text);
    }
    calls
}

/// Plain texts of every length, mixed and of the least and the largest plain byte alone.
pub fn plain_alone(_: &mut Random) -> Calls {
    let mut calls = Calls::new();
    for length in 0..=MOST_BEFORE + MOST_BEHIND {
        for first in 0..PLAIN.len() {
            add_text(&mut calls, &plain_from(first, length));
        }
        for byte in [0x00, 0x7F] {
            add_text(&mut calls, &vec![byte; length]);
        }
    }
    calls
}

/// Plain texts of every length with one byte at every place that is not plain.
pub fn one_not_plain(_: &mut Random) -> Calls {
    let mut calls = Calls::new();
    for length in 1..=MOST_BEFORE + 8 {
        for place in 0..length {
            for byte in [0x80, 0xFF] {
                let (before, behind) = (plain_from(place, place), plain_from(length, length - 1 - place));
                add_text(&mut calls, &[&before[..], &[byte], &behind].concat());
            }
        }
    }
    calls
}

/// Every kind of sequence, good and bad, with runs of plain bytes of every length in front of it and behind it.
pub fn every_sequence(_: &mut Random) -> Calls {
    let sequences = [edges(), BAD_SEQUENCES.map(|sequence| sequence.to_vec()).to_vec()].concat();
    asked(&pairs(&pairs(&runs(MOST_BEFORE), &sequences), &runs(MOST_BEHIND)))
}

/// Sequences with another byte in place of each but the first, at the end of a text and with plain bytes behind.
pub fn changed_sequences(_: &mut Random) -> Calls {
    let changed: Vec<Vec<u8>> = edges().iter().flat_map(|sequence| changes(sequence)).collect();
    let ends = [Vec::new(), plain_from(0, MOST_BEHIND)];
    asked(&pairs(&pairs(&runs(MOST_BEFORE), &changed), &ends))
}

/// A character of each width with another behind it that is good, begun or ended alone, and runs of plain bytes of every
/// length between them, at the end of a text and with plain bytes behind.
pub fn two_sequences(_: &mut Random) -> Calls {
    let first = ["\u{7FF}", "\u{800}", "\u{10FFFF}"].map(|character| character.as_bytes().to_vec());
    let second = [vec![0xC2, 0x80], vec![0xC2], vec![0x80]];
    let ends = [Vec::new(), plain_from(0, MOST_BEHIND)];
    asked(&pairs(&pairs(&pairs(&runs(7), &first), &pairs(&runs(MOST_BEFORE), &second)), &ends))
}

/// Texts that end inside a sequence, behind runs of plain bytes of every length: alone, and as a name, a key and a Value
/// behind which the rest of the sequence stands.
pub fn cut_sequences(_: &mut Random) -> Calls {
    let mut calls = Calls::new();
    for sequence in edges() {
        for cut in 1..sequence.len() {
            let (begun, rest) = sequence.split_at(cut);
            for text in pairs(&runs(MOST_BEFORE), &[begun.to_vec()]) {
                add_cut(&mut calls, &text, rest);
            }
        }
    }
    calls
}

/// Asks about a text that ends inside a sequence, of which this is the rest.
fn add_cut(calls: &mut Calls, text: &[u8], rest: &[u8]) {
    add_text(calls, text);
    let offer = Offer { producer: true, name: text.to_vec(), format: Vec::new() };
    let frame = [wire::varint_field(SOCKET, OUTPUT), wire::delimited_field(NAME, text)].concat();
    let end = frame.len() as u64;
    add(calls, ReadOpen { message: [&frame, rest].concat(), at: 0, end, offer });
    let entry = wire::delimited_field(ENTRY, &wire::delimited_field(KEY, text));
    add(calls, Check { bytes: [&entry, rest].concat(), value: false });
    let value = wire::delimited_field(TEXT, text);
    add(calls, Check { bytes: [&value, rest].concat(), value: true });
}

/// Runs of plain bytes by turns with sequences that are good or, in some texts, bad.
pub fn random_runs(random: &mut Random) -> Calls {
    let mut calls = Calls::new();
    for _ in 0..100 {
        let mut text = Vec::new();
        for _ in 0..random.between(1, 4) {
            let length = random.between(0, 70);
            text.extend(plain(random, length).into_bytes());
            text.extend(sequence(random));
        }
        let length = random.between(0, 20);
        text.extend(plain(random, length).into_bytes());
        add_text(&mut calls, &text);
    }
    calls
}

/// The sequence of a character, now and then a bad one, or one with a byte changed.
fn sequence(random: &mut Random) -> Vec<u8> {
    let mut sequence = character(random).to_string().into_bytes();
    match random.between(0, 11) {
        0 => sequence = random.choose(&BAD_SEQUENCES).to_vec(),
        1 => {
            let place = random.between(0, sequence.len() - 1);
            sequence[place] = random.choose(&BEHIND_THE_FIRST);
        }
        _ => {}
    }
    sequence
}

#[cfg(test)]
mod tests {
    use super::*;
    use crate::text::well_formed;

    /// Whether the sequence makes a good text behind every run of plain bytes and in front of every run; that must not
    /// depend on the runs.
    fn judged(sequence: &[u8]) -> bool {
        let texts = pairs(&pairs(&runs(MOST_BEFORE), &[sequence.to_vec()]), &runs(MOST_BEHIND));
        let good = texts.iter().filter(|text| well_formed(text)).count();
        assert!(good == 0 || good == texts.len());
        good > 0
    }

    #[test]
    fn characters_are_good_among_plain_bytes_and_bad_sequences_are_bad() {
        assert!(edges().iter().all(|sequence| judged(sequence)));
        assert!(!BAD_SEQUENCES.iter().any(|sequence| judged(sequence)));
    }

    #[test]
    fn every_plain_byte_stands_at_every_place_of_eight() {
        for place in 0..8 {
            for byte in PLAIN {
                assert!(runs(MOST_BEFORE).iter().any(|run| run.get(place) == Some(&byte)));
            }
        }
    }

    #[test]
    fn random_runs_are_good_and_bad() {
        let calls = random_runs(&mut Random::new(10));
        let good = calls.iter().filter(|call| call.answer(&[]).returned == 1).count();
        assert!((20..=80).contains(&good), "{good} of {}", calls.len());
    }
}
