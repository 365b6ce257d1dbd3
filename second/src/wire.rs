//! The model of protobuf's wire rules: varints, and fields of a tag (8 x number + wire type) and a payload.

use std::ops::Range;

use crate::bytes::{self, Sink};

/// The wire types that a field may have.
pub const VARINT: u64 = 0;
pub const EIGHT_BYTES: u64 = 1;
pub const LENGTH_DELIMITED: u64 = 2;
pub const FOUR_BYTES: u64 = 5;

/// The most bytes of a varint.
pub const MOST_VARINT: usize = 10;

/// Why bytes are unreadable.
#[derive(Clone, Copy, Debug, PartialEq)]
pub enum FaultKind {
    /// By the end of the enclosing message.
    CutShort = 1,
    /// A bad varint or tag.
    BadVarint = 2,
    WireType = 3,
    /// A field or a key that was there before.
    Repeated = 4,
    BadText = 5,
    Other = 6,
    TooDeep = 7,
}

/// Why bytes are unreadable, and the offset of the tag of the field, or of the end of the message, that is to blame.
#[derive(Clone, Copy, Debug, PartialEq)]
pub struct Fault {
    pub kind: FaultKind,
    pub at: usize,
}

/// A varint that was read: what it says, and how many bytes it has.
#[derive(Debug, PartialEq)]
pub struct Varint {
    pub value: u64,
    pub length: usize,
}

/// The varint that the bytes begin with; at most ten bytes are looked at, and the tenth has one digit left, 0 or 1.
pub fn read_varint(bytes: &[u8]) -> Result<Varint, FaultKind> {
    let mut value = 0;
    for (place, byte) in bytes.iter().take(MOST_VARINT).enumerate() {
        if place == MOST_VARINT - 1 && *byte > 1 {
            return Err(FaultKind::BadVarint);
        }
        value |= u64::from(byte % 128) << (7 * place);
        if *byte < 128 {
            return Ok(Varint { value, length: place + 1 });
        }
    }
    Err(FaultKind::CutShort)
}

/// Puts the shortest varint of this number.
pub fn put_varint(out: &mut impl Sink, mut number: u64) {
    while number >= 128 {
        out.put(&[(number % 128) as u8 + 128]);
        number /= 128;
    }
    out.put(&[number as u8]);
}

/// The shortest varint of this number.
pub fn varint(number: u64) -> Vec<u8> {
    let mut bytes = Vec::new();
    put_varint(&mut bytes, number);
    bytes
}

/// `out` after the shortest varint of the number is stored in it from `at` on, and that varint's length; `out` is as
/// it was where the varint does not fit.
pub fn store_varint(out: &[u8], at: u64, number: u64) -> (u64, Vec<u8>) {
    let varint = varint(number);
    (varint.len() as u64, bytes::copy(out, at, &varint))
}

/// Puts the tag of a field, as the shortest varint.
fn put_tag(out: &mut impl Sink, number: u64, wire_type: u64) {
    put_varint(out, 8 * number + wire_type);
}

/// Puts a field that holds a varint.
pub fn put_varint_field(out: &mut impl Sink, number: u64, value: u64) {
    put_tag(out, number, VARINT);
    put_varint(out, value);
}

/// Puts a field that holds eight bytes.
pub fn put_eight_bytes_field(out: &mut impl Sink, number: u64, bytes: [u8; 8]) {
    put_tag(out, number, EIGHT_BYTES);
    out.put(&bytes);
}

/// Puts a field that holds these bytes behind their length.
pub fn put_delimited_field(out: &mut impl Sink, number: u64, bytes: &[u8]) {
    put_tag(out, number, LENGTH_DELIMITED);
    put_varint(out, bytes.len() as u64);
    out.put(bytes);
}

/// A field that holds a varint, as it is written.
pub fn varint_field(number: u64, value: u64) -> Vec<u8> {
    let mut field = Vec::new();
    put_varint_field(&mut field, number, value);
    field
}

/// A field that holds these bytes behind their length, as it is written.
pub fn delimited_field(number: u64, bytes: &[u8]) -> Vec<u8> {
    let mut field = Vec::new();
    put_delimited_field(&mut field, number, bytes);
    field
}

/// A field that was read.
#[derive(Clone, Debug, PartialEq)]
pub struct Field {
    /// Where its tag begins.
    pub at: usize,
    pub number: u64,
    pub wire_type: u64,
    /// What the varint says, or how long a length-delimited payload is; else 0.
    pub value: u64,
    /// The varint, the fixed bytes, or what stands behind the length; the field ends where this does.
    pub payload: Range<usize>,
}

impl Field {
    pub fn fault(&self, kind: FaultKind) -> Fault {
        Fault { kind, at: self.at }
    }
}

/// The field whose tag is at `at`, in the message that ends with the bytes.
pub fn read_field(message: &[u8], at: usize) -> Result<Field, FaultKind> {
    let tag = read_varint(&message[at..])?;
    if tag.value < 8 || tag.value > u64::from(u32::MAX) {
        return Err(FaultKind::BadVarint);
    }
    let (number, wire_type) = (tag.value / 8, tag.value % 8);
    let behind_tag = at + tag.length;
    let (value, start, length) = match wire_type {
        VARINT => {
            let varint = read_varint(&message[behind_tag..])?;
            (varint.value, behind_tag, varint.length as u64)
        }
        EIGHT_BYTES => (0, behind_tag, 8),
        LENGTH_DELIMITED => {
            let length = read_varint(&message[behind_tag..])?;
            (length.value, behind_tag + length.length, length.value)
        }
        FOUR_BYTES => (0, behind_tag, 4),
        _ => return Err(FaultKind::WireType),
    };
    if length > (message.len() - start) as u64 {
        return Err(FaultKind::CutShort);
    }
    Ok(Field { at, number, wire_type, value, payload: start..start + length as usize })
}

/// The fields of a message, in order; where one cannot be read, its fault stands last.
pub struct Fields<'a> {
    /// The bytes up to the end of the message.
    message: &'a [u8],
    at: usize,
}

impl Iterator for Fields<'_> {
    type Item = Result<Field, Fault>;

    fn next(&mut self) -> Option<Result<Field, Fault>> {
        let at = self.at;
        if at >= self.message.len() {
            return None;
        }
        let field = read_field(self.message, at).map_err(|kind| Fault { kind, at });
        self.at = field.as_ref().map_or(self.message.len(), |field| field.payload.end);
        Some(field)
    }
}

/// The fields of the message at this place.
pub fn fields(bytes: &[u8], place: Range<usize>) -> Fields<'_> {
    Fields { message: &bytes[..place.end], at: place.start }
}

/// The number answered for the field at `at` in a message that ends at `end`: 0 or the kind of its fault; and its
/// number, wire type, value, payload place and the position behind it, or zeros.
pub fn field(bytes: &[u8], at: u64, end: u64) -> (u64, [u64; 5]) {
    if end > bytes.len() as u64 || at >= end {
        return (FaultKind::CutShort as u64, [0; 5]);
    }
    match read_field(&bytes[..end as usize], at as usize) {
        Err(kind) => (kind as u64, [0; 5]),
        Ok(field) => {
            let (start, behind) = (field.payload.start as u64, field.payload.end as u64);
            (0, [field.number, field.wire_type, field.value, start, behind])
        }
    }
}

#[cfg(test)]
mod tests {
    use super::*;

    #[test]
    fn varints_stand_low_digit_first() {
        assert_eq!(varint(300), [0xAC, 0x02]);
        assert_eq!(read_varint(&[0xAC, 0x02, 0xFF]), Ok(Varint { value: 300, length: 2 }));
        assert_eq!(varint(u64::MAX), [255, 255, 255, 255, 255, 255, 255, 255, 255, 1]);
    }

    #[test]
    fn the_shortest_varint_is_read_back_and_long_forms_too() {
        for power in 0..64 {
            for number in [(1 << power) - 1, 1 << power, (1 << power) + 1, u64::MAX >> power] {
                let mut bytes = varint(number);
                let shortest = bytes.len();
                assert_eq!(shortest, (64 - (number | 1).leading_zeros() as usize + 6) / 7);
                for length in shortest..=MOST_VARINT {
                    assert_eq!(read_varint(&bytes), Ok(Varint { value: number, length }));
                    bytes[length - 1] += 128;
                    assert!(read_varint(&bytes).is_err());
                    bytes.push(0);
                }
                assert_eq!(read_varint(&bytes), Err(FaultKind::BadVarint));
            }
        }
    }

    #[test]
    fn ten_bytes_that_continue_are_bad_and_fewer_are_cut_short() {
        for length in 0..14 {
            let kind = if length < 10 { FaultKind::CutShort } else { FaultKind::BadVarint };
            assert_eq!(read_varint(&vec![128; length]), Err(kind));
        }
        let mut bytes = [255; 10];
        bytes[9] = 2;
        assert_eq!(read_varint(&bytes), Err(FaultKind::BadVarint));
        bytes[9] = 1;
        assert_eq!(read_varint(&bytes), Ok(Varint { value: u64::MAX, length: 10 }));
    }

    #[test]
    fn a_varint_that_does_not_fit_changes_nothing() {
        assert_eq!(store_varint(&[7; 4], 1, 300), (2, vec![7, 0xAC, 0x02, 7]));
        assert_eq!(store_varint(&[7; 4], 3, 300), (2, vec![7; 4]));
        assert_eq!(store_varint(&[7; 4], u64::MAX, 0), (1, vec![7; 4]));
    }

    #[test]
    fn each_wire_type_has_its_own_extent() {
        assert_eq!(field(&[0x08, 0x96, 0x01], 0, 3), (0, [1, 0, 150, 1, 3]));
        assert_eq!(field(&[7, 0x11, 1, 2, 3, 4, 5, 6, 7, 8], 1, 10), (0, [2, 1, 0, 2, 10]));
        assert_eq!(field(&[0x1A, 0x82, 0x00, 5, 6, 7], 0, 6), (0, [3, 2, 2, 3, 5]));
        assert_eq!(field(&[0x25, 1, 2, 3, 4], 0, 5), (0, [4, 5, 0, 1, 5]));
        assert_eq!(field(&[0xFF, 0xFF, 0xFF, 0xFF, 0x0F], 0, 5).0, 3);
        assert_eq!(field(&[0xFA, 0xFF, 0xFF, 0xFF, 0x0F, 0], 0, 6), (0, [(1 << 29) - 1, 2, 0, 6, 6]));
    }

    #[test]
    fn the_end_of_the_message_is_the_end() {
        let bytes = [0x08, 0x96, 0x01];
        for (at, end) in [(0, 4), (3, 3), (2, 1), (0, 0), (0, 1), (0, 2), (0, u64::MAX), (u64::MAX, u64::MAX)] {
            assert_eq!(field(&bytes, at, end), (1, [0; 5]));
        }
        assert_eq!(field(&[0x11, 1, 2, 3, 4, 5, 6, 7, 8], 0, 8).0, 1);
        assert_eq!(field(&[0x25, 1, 2, 3, 4], 0, 4).0, 1);
        assert_eq!(field(&[0x0A, 2, 0], 0, 3).0, 1);
        assert_eq!(field(&[0x0A, 255, 255, 255, 255, 255, 255, 255, 255, 255, 1], 0, 11).0, 1);
    }

    #[test]
    fn tags_run_from_8_to_the_largest_of_32_bits() {
        for tag in 0..8 {
            assert_eq!(field(&[tag, 0, 0, 0, 0, 0, 0, 0, 0], 0, 9).0, 2);
        }
        assert_eq!(field(&[8, 0], 0, 2).0, 0);
        assert_eq!(field(&[0x80, 0x80, 0x80, 0x80, 0x10, 0], 0, 6).0, 2);
        for wire_type in [3, 4, 6, 7] {
            assert_eq!(field(&[8 + wire_type], 0, 1).0, 3);
        }
    }
}
