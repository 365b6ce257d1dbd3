//! Byte strings that are nearly the same, which no test of sameness may take for the same.

use super::texts;
use crate::random::Random;

/// Well-formed texts of every length up to five times eight bytes, and of some more up to the longest name.
pub fn every_text(random: &mut Random) -> Vec<Vec<u8>> {
    (1..=40).chain([63, 64, 65, 254, 255]).map(|length| texts::of_length(random, length)).collect()
}

/// The text itself, and what is nearly it: all that it begins with, the text with the lowest or the highest bit of one
/// byte changed, and what begins with it.
pub fn like(text: &[u8]) -> Vec<Vec<u8>> {
    let mut all: Vec<Vec<u8>> = (0..=text.len()).map(|length| text[..length].to_vec()).collect();
    for place in 0..text.len() {
        all.extend([0x01, 0x80].map(|bit| with_bit_changed(text, place, bit)));
    }
    all.extend([&[0], text].map(|more| [text, more].concat()));
    all
}

/// The text with a bit of the byte at this place changed, where it has one there.
pub fn with_bit_changed(text: &[u8], place: usize, bit: u8) -> Vec<u8> {
    text.iter().enumerate().map(|(at, byte)| if at == place { byte ^ bit } else { *byte }).collect()
}

#[cfg(test)]
mod tests {
    use super::*;

    #[test]
    fn the_text_is_there_once_among_what_is_like_it() {
        for text in every_text(&mut Random::new(8)) {
            let all = like(&text);
            assert_eq!(all.len(), 3 * text.len() + 3);
            assert_eq!(all.iter().filter(|other| **other == text).count(), 1);
        }
    }
}
