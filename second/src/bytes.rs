//! The model of big-endian numbers, of any width up to 8 bytes, and of copies; and where bytes are put that are written.

use std::ops::Deref;

/// A place where bytes are put one behind the other.
pub trait Sink {
    fn put(&mut self, bytes: &[u8]);
}

impl Sink for Vec<u8> {
    fn put(&mut self, bytes: &[u8]) {
        self.extend_from_slice(bytes);
    }
}

/// Up to so many bytes that need no heap. It is made for all that is ever put there.
pub struct Buffer<const MOST: usize> {
    bytes: [u8; MOST],
    length: usize,
}

impl<const MOST: usize> Buffer<MOST> {
    pub const EMPTY: Self = Buffer { bytes: [0; MOST], length: 0 };
}

impl<const MOST: usize> Sink for Buffer<MOST> {
    fn put(&mut self, bytes: &[u8]) {
        let end = self.length + bytes.len();
        self.bytes[self.length..end].copy_from_slice(bytes);
        self.length = end;
    }
}

impl<const MOST: usize> Deref for Buffer<MOST> {
    type Target = [u8];

    fn deref(&self) -> &[u8] {
        &self.bytes[..self.length]
    }
}

/// The number that these bytes say, most significant first.
pub fn number(bytes: &[u8]) -> u64 {
    bytes.iter().fold(0, |number, byte| 256 * number + u64::from(*byte))
}

/// The bytes that say this number, most significant first.
pub fn big_endian(width: usize, number: u64) -> Vec<u8> {
    number.to_be_bytes()[8 - width..].to_vec()
}

/// Whether `length` bytes from `at` on all lie in a slice of `whole` bytes.
fn lies_in(whole: usize, at: u64, length: usize) -> bool {
    u128::from(at) + length as u128 <= whole as u128
}

/// The number that the `width` bytes at `at` say; 0 where they do not all lie in the slice.
pub fn read(width: usize, bytes: &[u8], at: u64) -> u64 {
    if !lies_in(bytes.len(), at, width) {
        return 0;
    }
    let at = at as usize;
    number(&bytes[at..at + width])
}

/// `out` after `bytes` are copied into it from `at` on; `out` as it was where they do not all fit.
pub fn copy(out: &[u8], at: u64, bytes: &[u8]) -> Vec<u8> {
    if !lies_in(out.len(), at, bytes.len()) {
        return out.to_vec();
    }
    let at = at as usize;
    [&out[..at], bytes, &out[at + bytes.len()..]].concat()
}

/// `out` after the number's bytes are stored in it from `at` on; `out` as it was where they do not all fit.
pub fn store(width: usize, out: &[u8], at: u64, number: u64) -> Vec<u8> {
    copy(out, at, &big_endian(width, number))
}

#[cfg(test)]
mod tests {
    use super::*;

    #[test]
    fn numbers_stand_most_significant_byte_first() {
        assert_eq!(read(2, &[0x12, 0x34], 0), 0x1234);
        assert_eq!(read(4, &[9, 1, 2, 3, 4, 9], 1), 0x0102_0304);
        assert_eq!(read(8, &[255; 8], 0), u64::MAX);
        assert_eq!(store(2, &[0; 4], 1, 0x1234), [0, 0x12, 0x34, 0]);
    }

    #[test]
    fn what_does_not_fit_reads_as_0_and_changes_nothing() {
        for at in [1, 2, 3, 1 << 63, u64::MAX - 1, u64::MAX] {
            assert_eq!(read(2, &[1, 1], at), 0);
            assert_eq!(store(2, &[1, 1], at, 0x0202), [1, 1]);
        }
        assert_eq!(copy(&[1, 2], 2, &[]), [1, 2]);
        assert_eq!(copy(&[1, 2], u64::MAX, &[]), [1, 2]);
    }
}
