//! Texts: well-formed UTF-8 of every kind, texts with one bad sequence, and all short byte sequences.
//! Plain bytes are those below 128.

pub mod runs;

use super::{add, Calls};
use crate::calls::Text;
use crate::random::Random;

/// The bytes next to which the table of well-formed sequences changes its mind.
const BOUNDARIES: [u8; 26] = [
    0x00, 0x01, 0x7F, 0x80, 0x8F, 0x90, 0x9F, 0xA0, 0xAF, 0xBF, 0xC0, 0xC1, 0xC2, 0xDF, 0xE0, 0xE1, 0xEC, 0xED, 0xEE,
    0xEF, 0xF0, 0xF1, 0xF3, 0xF4, 0xF5, 0xFF,
];

/// The boundaries that matter behind the second byte of a sequence.
const CONTINUING: [u8; 6] = [0x00, 0x7F, 0x80, 0xBF, 0xC0, 0xFF];

/// Characters at the ends of the table's rows, and some that look special and are well-formed all the same.
const CHARACTERS: [char; 24] = [
    '\0',
    'a',
    'z',
    '\u{7F}',
    '\u{80}',
    '\u{E9}',
    '\u{7FF}',
    '\u{800}',
    '\u{FFF}',
    '\u{1000}',
    '\u{20AC}',
    '\u{CFFF}',
    '\u{D000}',
    '\u{D7FF}',
    '\u{E000}',
    '\u{FDD0}',
    '\u{FEFF}',
    '\u{FFFE}',
    '\u{FFFF}',
    '\u{10000}',
    '\u{3FFFF}',
    '\u{40000}',
    '\u{FFFFF}',
    '\u{10FFFF}',
];

/// Sequences that are not well-formed, whatever character or end stands behind them.
const BAD_SEQUENCES: [&[u8]; 31] = [
    &[0x80],
    &[0xBF],
    &[0xC0],
    &[0xC0, 0x80],
    &[0xC1],
    &[0xC1, 0xBF],
    &[0xC2],
    &[0xDF],
    &[0xE0],
    &[0xE0, 0x80, 0x80],
    &[0xE0, 0x9F, 0xBF],
    &[0xE0, 0xA0],
    &[0xE2, 0x82],
    &[0xEC, 0xBF],
    &[0xED, 0xA0, 0x80],
    &[0xED, 0xAF, 0xBF],
    &[0xED, 0xB0, 0x80],
    &[0xED, 0xBF, 0xBF],
    &[0xEF, 0xBF],
    &[0xF0, 0x80, 0x80, 0x80],
    &[0xF0, 0x8F, 0xBF, 0xBF],
    &[0xF0, 0x90, 0x80],
    &[0xF1, 0x80],
    &[0xF4, 0x8F, 0xBF],
    &[0xF4, 0x90, 0x80, 0x80],
    &[0xF5],
    &[0xF5, 0x80, 0x80, 0x80],
    &[0xF8, 0x88, 0x80, 0x80, 0x80],
    &[0xFC, 0x84, 0x80, 0x80, 0x80, 0x80],
    &[0xFE],
    &[0xFF],
];

fn character(random: &mut Random) -> char {
    match random.between(0, 4) {
        0 | 1 => random.choose(&['a', 'b', 'c', ' ', '7']),
        2 | 3 => random.choose(&CHARACTERS),
        _ => char::from_u32(random.between(0, 0x0010_FFFF) as u32).unwrap_or('\u{FFFD}'),
    }
}

/// A text of so many characters.
fn characters(random: &mut Random, count: usize) -> String {
    (0..count).map(|_| character(random)).collect()
}

/// So many plain bytes, the least and the largest of them more often than others.
fn plain(random: &mut Random, length: usize) -> String {
    let mut byte = || if random.one_in(8) { random.choose(&[0x00, 0x7F]) } else { random.byte() & 0x7F };
    (0..length).map(|_| char::from(byte())).collect()
}

/// A text of so many bytes, all of them plain but those of one character at any place.
fn nearly_plain(random: &mut Random, length: usize) -> String {
    let mut text = plain(random, length);
    let character = character(random).to_string();
    if character.len() <= length {
        let place = random.between(0, length - character.len());
        text.replace_range(place..place + character.len(), &character);
    }
    text
}

/// A length of one to four times eight bytes, or one more or less.
pub fn around_words(random: &mut Random) -> usize {
    8 * random.between(1, 4) + random.between(0, 2) - 1
}

/// A well-formed text, mostly short.
pub fn good(random: &mut Random) -> Vec<u8> {
    if random.one_in(6) {
        let length = around_words(random);
        return nearly_plain(random, length).into_bytes();
    }
    let count = if random.one_in(30) { random.between(20, 60) } else { random.between(0, 6) };
    characters(random, count).into_bytes()
}

/// A well-formed text of exactly so many bytes, in half of the cases nearly all of them plain.
pub fn of_length(random: &mut Random, length: usize) -> Vec<u8> {
    if random.one_in(2) {
        return nearly_plain(random, length).into_bytes();
    }
    let mut text = String::new();
    while text.len() < length {
        let next = character(random);
        if text.len() + next.len_utf8() <= length {
            text.push(next);
        }
    }
    text.into_bytes()
}

/// A text with one bad sequence in it, among a few characters of any kind or many that are plain.
pub fn bad(random: &mut Random) -> Vec<u8> {
    let sequence = random.choose(&BAD_SEQUENCES);
    let (before, behind) = if random.one_in(3) {
        let length = around_words(random);
        let place = random.between(0, length);
        (plain(random, place), plain(random, length - place))
    } else {
        let (before, behind) = (random.between(0, 4), random.between(0, 4));
        (characters(random, before), characters(random, behind))
    };
    [before.as_bytes(), sequence, behind.as_bytes()].concat()
}

fn add_text(calls: &mut Calls, bytes: &[u8]) {
    add(calls, Text { bytes: bytes.to_vec() });
}

pub fn up_to_two_bytes(_: &mut Random) -> Calls {
    let mut calls = Calls::new();
    add_text(&mut calls, &[]);
    for first in 0..=255 {
        add_text(&mut calls, &[first]);
        for second in 0..=255 {
            add_text(&mut calls, &[first, second]);
        }
    }
    calls
}

pub fn three_boundary_bytes(_: &mut Random) -> Calls {
    let mut calls = Calls::new();
    for first in BOUNDARIES {
        for second in BOUNDARIES {
            for third in BOUNDARIES {
                add_text(&mut calls, &[first, second, third]);
            }
        }
    }
    calls
}

pub fn four_boundary_bytes(_: &mut Random) -> Calls {
    let mut calls = Calls::new();
    for first in BOUNDARIES {
        for second in BOUNDARIES {
            for third in CONTINUING {
                for fourth in CONTINUING {
                    add_text(&mut calls, &[first, second, third, fourth]);
                }
            }
        }
    }
    calls
}

/// Well-formed texts, each cut at every byte.
pub fn good_and_cut(random: &mut Random) -> Calls {
    let mut calls = Calls::new();
    for _ in 0..12 {
        let text = good(random);
        for length in 0..=text.len() {
            add_text(&mut calls, &text[..length]);
        }
    }
    calls
}

/// Texts with one bad sequence, and well-formed ones with one byte changed, left out or put in.
pub fn damaged(random: &mut Random) -> Calls {
    let mut calls = Calls::new();
    for _ in 0..50 {
        add_text(&mut calls, &bad(random));
        let mut text = good(random);
        text.extend(character(random).to_string().bytes());
        let place = random.between(0, text.len() - 1);
        let byte = random.choose(&BOUNDARIES);
        add_text(&mut calls, &[&text[..place], &[byte], &text[place..]].concat());
        add_text(&mut calls, &[&text[..place], &[byte], &text[place + 1..]].concat());
        add_text(&mut calls, &[&text[..place], &text[place + 1..]].concat());
    }
    calls
}

pub fn random_texts(random: &mut Random) -> Calls {
    let mut calls = Calls::new();
    for _ in 0..60 {
        let length = random.between(0, 12);
        add_text(&mut calls, &random.bytes(length));
        let length = random.between(3, 8);
        let bytes: Vec<u8> = (0..length).map(|_| random.choose(&BOUNDARIES)).collect();
        add_text(&mut calls, &bytes);
        let mut sequence = random.bytes(4);
        sequence[0] |= 0xC0;
        sequence[1..].iter_mut().for_each(|byte| *byte = 0x80 | (*byte & 0x3F));
        let length = random.between(1, 4);
        add_text(&mut calls, &sequence[..length]);
    }
    calls
}

#[cfg(test)]
mod tests {
    use super::*;

    #[test]
    fn good_texts_are_well_formed_and_bad_ones_are_not() {
        let mut random = Random::new(1);
        for _ in 0..5000 {
            assert!(std::str::from_utf8(&good(&mut random)).is_ok());
            assert!(std::str::from_utf8(&bad(&mut random)).is_err());
        }
    }

    #[test]
    fn a_text_of_a_length_has_it_and_is_well_formed() {
        let mut random = Random::new(9);
        for length in (0..=300).cycle().take(3000) {
            let text = String::from_utf8(of_length(&mut random, length));
            assert_eq!(text.map(|text| text.len()), Ok(length));
        }
    }
}
