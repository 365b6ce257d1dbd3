//! The model of the limit parameter: a number that is whole, 1,000,000 to 50,000,000.

use std::ops::Range;

use crate::bytes::Buffer;
use crate::structs::{self, Value, NUMBER, UNREADABLE, VALUE};
use crate::wire::{self, Fault};

/// The key of the limit among the outermost of the parameters.
pub const KEY: &[u8] = b"max_message_bytes";

/// The least and the most that a limit may be.
pub const LEAST: f64 = 1_000_000.0;
pub const MOST: f64 = 50_000_000.0;

/// The bytes of parameters that announce a limit and nothing else.
pub const PARAMETERS: usize = 32;

/// How the parameters say a limit: not at all, well, or badly.
pub enum Announced {
    Absent,
    Good(u32),
    Bad,
}

/// How the parameters at this place say a limit, or their first fault.
pub fn announced(bytes: &[u8], parameters: Range<usize>) -> Result<Announced, Fault> {
    Ok(match structs::find(bytes, parameters, KEY)? {
        None => Announced::Absent,
        Some(entry) => good_limit(&entry.value).map_or(Announced::Bad, Announced::Good),
    })
}

/// The number answered for parameters, and how they say a limit with the limit itself where it is good.
pub fn limit(parameters: &[u8]) -> (u64, [u64; 2]) {
    match announced(parameters, 0..parameters.len()) {
        Ok(Announced::Absent) => (0, [0, 0]),
        Ok(Announced::Good(limit)) => (0, [1, limit.into()]),
        Ok(Announced::Bad) => (0, [2, 0]),
        Err(_) => (UNREADABLE, [0, 0]),
    }
}

/// The limit that a Value says; nothing where that is not a good one.
fn good_limit(value: &Value) -> Option<u32> {
    let Value::Number(bits) = value else {
        return None;
    };
    let number = f64::from_bits(*bits);
    is_good(number).then_some(number as u32)
}

/// Whether this number is a good limit.
pub fn is_good(number: f64) -> bool {
    let whole = number.fract() == 0.0;
    whole && (LEAST..=MOST).contains(&number)
}

/// The eight bytes of the double of this number, low byte first.
pub fn limit_bytes(number: u32) -> [u8; 8] {
    f64::from(number).to_le_bytes()
}

/// The parameters that announce this number as the limit and nothing else, as a client writes them.
pub fn parameters(number: u32) -> Buffer<PARAMETERS> {
    let (mut value, mut entry, mut parameters) = (Buffer::<9>::EMPTY, Buffer::<30>::EMPTY, Buffer::EMPTY);
    wire::put_eight_bytes_field(&mut value, NUMBER, limit_bytes(number));
    wire::put_delimited_field(&mut entry, structs::KEY, KEY);
    wire::put_delimited_field(&mut entry, VALUE, &value);
    wire::put_delimited_field(&mut parameters, structs::ENTRY, &entry);
    parameters
}

#[cfg(test)]
mod tests {
    use super::*;

    /// {max_message_bytes: number}
    fn with_limit(number: f64) -> Vec<u8> {
        let mut bytes = vec![0x0A, 0x1E, 0x0A, 0x11];
        bytes.extend(KEY);
        bytes.extend([0x12, 0x09, 0x11]);
        bytes.extend(number.to_le_bytes());
        bytes
    }

    #[test]
    fn k5_the_double_1000000() {
        assert_eq!(limit_bytes(1_000_000), [0x00, 0x00, 0x00, 0x00, 0x80, 0x84, 0x2E, 0x41]);
    }

    #[test]
    fn written_parameters_announce_the_limit_alone() {
        for number in [0, 1_000_000, 33_554_433, u32::MAX] {
            assert_eq!(*parameters(number), with_limit(f64::from(number)));
        }
    }

    #[test]
    fn a_double_is_made_of_exponent_and_fraction() {
        for power in 0..32 {
            for number in [1 << power, (1 << power) + ((1 << power) - 1), (1 << power) + (1 << power) / 3] {
                let fraction = u64::from(number - (1 << power)) << (52 - power);
                let bits = (1023 + power as u64) << 52 | fraction;
                assert_eq!(limit_bytes(number), bits.to_le_bytes());
            }
        }
        assert_eq!(limit_bytes(0), [0; 8]);
    }

    #[test]
    fn whole_numbers_in_range_are_good() {
        for number in [1_000_000, 1_000_001, 33_554_433, 49_999_999, 50_000_000] {
            assert_eq!(limit(&with_limit(f64::from(number))), (0, [1, number as u64]));
        }
    }

    #[test]
    fn all_other_numbers_are_bad() {
        let next = |number: f64| f64::from_bits(number.to_bits() + 1);
        let outside = [999_999.0, 50_000_001.0, 0.0, -0.0, -1_000_000.0, 4_294_967_296.0 + 2_000_000.0, 1e300];
        let fractions = [1_000_000.5, next(1_000_000.0), next(2_000_000.0), next(50_000_000.0), 49_999_999.5];
        let strange = [f64::NAN, f64::INFINITY, f64::NEG_INFINITY, f64::MIN_POSITIVE / 2.0];
        for number in outside.into_iter().chain(fractions).chain(strange) {
            assert_eq!(limit(&with_limit(number)), (0, [2, 0]), "{number}");
        }
    }

    #[test]
    fn only_an_outermost_number_is_a_limit() {
        assert_eq!(limit(&[]), (0, [0, 0]));
        assert_eq!(limit(&[0x0A]), (18, [0, 0]));
        let mut text = with_limit(0.0)[..4 + KEY.len()].to_vec();
        text[1] = 0x19;
        text.extend([0x12, 0x04, 0x1A, 0x02, b'1', b'2']);
        assert_eq!(limit(&text), (0, [2, 0]));
        let inner = with_limit(2_000_000.0);
        let nested = [&[0x0A, 0x24, 0x12, 0x22, 0x2A, 0x20][..], &inner].concat();
        assert_eq!(limit(&nested), (0, [0, 0]));
    }
}
