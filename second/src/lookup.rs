//! The model of the lookup of a term: in the client's parameters, and failing that in the server's default Struct.

use crate::structs::{self, UNREADABLE};

/// The numbers answered for a refused lookup, besides that for unreadable parameters.
pub const DEFAULTS_UNREADABLE: u64 = 36;
pub const NO_SUCH_TERM: u64 = 37;

/// The slices that may hold a term.
const CLIENT: u64 = 1;
const DEFAULTS: u64 = 2;

/// The number answered for a lookup, and the slice that holds the Value with the place of its bytes there.
///
/// Both Structs are read whole first. A refused lookup answers the empty part at the start of the client's slice.
pub fn lookup(client: &[u8], defaults: &[u8], key: &[u8]) -> (u64, [u64; 3]) {
    match find(client, defaults, key) {
        Ok(place) => (0, place),
        Err(refusal) => (refusal, [CLIENT, 0, 0]),
    }
}

fn find(client: &[u8], defaults: &[u8], key: &[u8]) -> Result<[u64; 3], u64> {
    let in_client = place_in(CLIENT, client, key).ok_or(UNREADABLE)?;
    let in_defaults = place_in(DEFAULTS, defaults, key).ok_or(DEFAULTS_UNREADABLE)?;
    in_client.or(in_defaults).ok_or(NO_SUCH_TERM)
}

/// The place of the Value with this key in a slice, perhaps none; nothing where the slice is unreadable.
fn place_in(slice: u64, bytes: &[u8], key: &[u8]) -> Option<Option<[u64; 3]>> {
    let found = structs::find(bytes, 0..bytes.len(), key).ok()?;
    Some(found.map(|entry| [slice, entry.place.start as u64, entry.place.len() as u64]))
}

#[cfg(test)]
mod tests {
    use super::*;

    /// Structs {a: null}, {b: true}, {: null} with no key, and one that is cut short.
    const A: &[u8] = &[0x0A, 0x07, 0x0A, 0x01, b'a', 0x12, 0x02, 0x08, 0x00];
    const B: &[u8] = &[0x0A, 0x07, 0x12, 0x02, 0x20, 0x01, 0x0A, 0x01, b'b'];
    const NO_KEY: &[u8] = &[0x0A, 0x04, 0x12, 0x02, 0x08, 0x00];
    const BAD: &[u8] = &[0x0A, 0x01];

    #[test]
    fn the_client_is_asked_first_and_then_the_defaults() {
        assert_eq!(lookup(A, B, b"a"), (0, [1, 7, 2]));
        assert_eq!(lookup(A, B, b"b"), (0, [2, 4, 2]));
        assert_eq!(lookup(B, B, b"b"), (0, [1, 4, 2]));
        assert_eq!(lookup(&[], B, b"b"), (0, [2, 4, 2]));
        assert_eq!(lookup(A, &[], b"b"), (37, [1, 0, 0]));
        assert_eq!(lookup(A, B, b""), (37, [1, 0, 0]));
        assert_eq!(lookup(&[], &[], &[0xFF]), (37, [1, 0, 0]));
    }

    #[test]
    fn no_key_is_the_empty_key() {
        assert_eq!(lookup(A, NO_KEY, b""), (0, [2, 4, 2]));
        assert_eq!(lookup(NO_KEY, A, b""), (0, [1, 4, 2]));
    }

    #[test]
    fn both_are_read_whole_before_a_term_is_found() {
        assert_eq!(lookup(A, BAD, b"a"), (36, [1, 0, 0]));
        assert_eq!(lookup(BAD, A, b"a"), (18, [1, 0, 0]));
        assert_eq!(lookup(BAD, BAD, b"a"), (18, [1, 0, 0]));
        let bad_behind = [A, BAD].concat();
        assert_eq!(lookup(&bad_behind, A, b"a"), (18, [1, 0, 0]));
    }
}
