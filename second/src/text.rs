//! The model of UTF-8, which is that of the standard library. Its tests hold it to the Unicode Standard's table.

/// Whether the bytes are well-formed UTF-8.
pub fn well_formed(bytes: &[u8]) -> bool {
    std::str::from_utf8(bytes).is_ok()
}

#[cfg(test)]
mod tests {
    use super::*;
    use std::ops::RangeInclusive;

    /// Any byte of a sequence behind its first one, where the table does not narrow it.
    const ANY: RangeInclusive<u8> = 0x80..=0xBF;

    /// The rows of the table: for each byte of a sequence, the values that it may have.
    const TABLE: [&[RangeInclusive<u8>]; 9] = [
        &[0x00..=0x7F],
        &[0xC2..=0xDF, ANY],
        &[0xE0..=0xE0, 0xA0..=0xBF, ANY],
        &[0xE1..=0xEC, ANY, ANY],
        &[0xED..=0xED, 0x80..=0x9F, ANY],
        &[0xEE..=0xEF, ANY, ANY],
        &[0xF0..=0xF0, 0x90..=0xBF, ANY, ANY],
        &[0xF1..=0xF3, ANY, ANY, ANY],
        &[0xF4..=0xF4, 0x80..=0x8F, ANY, ANY],
    ];

    /// Whether the bytes are sequences of the table, one behind the other, and nothing else.
    fn by_the_table(bytes: &[u8]) -> bool {
        let mut rest = bytes;
        while !rest.is_empty() {
            let Some(row) = TABLE.iter().find(|row| begins_with(rest, row)) else {
                return false;
            };
            rest = &rest[row.len()..];
        }
        true
    }

    /// Whether the bytes begin with a sequence of this row.
    fn begins_with(bytes: &[u8], row: &[RangeInclusive<u8>]) -> bool {
        bytes.len() >= row.len() && row.iter().zip(bytes).all(|(range, byte)| range.contains(byte))
    }

    fn same_as_table(bytes: &[u8]) {
        assert_eq!(well_formed(bytes), by_the_table(bytes), "{bytes:X?}");
    }

    #[test]
    fn up_to_three_bytes_are_judged_by_the_table() {
        same_as_table(&[]);
        for first in 0..=255 {
            same_as_table(&[first]);
            for second in 0..=255 {
                same_as_table(&[first, second]);
                for third in 0..=255 {
                    same_as_table(&[first, second, third]);
                }
            }
        }
    }

    #[test]
    fn four_bytes_are_judged_by_the_table() {
        let ends = [0x00, 0x7F, 0x80, 0x8F, 0x90, 0x9F, 0xA0, 0xBF, 0xC0, 0xC2, 0xE0, 0xF0, 0xFF];
        for first in 0..=255 {
            for second in 0..=255 {
                for third in ends {
                    for fourth in ends {
                        same_as_table(&[first, second, third, fourth]);
                    }
                }
            }
        }
    }

    #[test]
    fn every_character_is_well_formed_between_others() {
        for character in '\0'..=char::MAX {
            let text = format!("a{character}\u{10FFFF}");
            assert!(well_formed(text.as_bytes()), "{text:?}");
            assert!(!well_formed(&text.as_bytes()[..text.len() - 1]), "{text:?} cut");
        }
    }
}
