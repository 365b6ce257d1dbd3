//! Structs and Values that are written out by hand, each with what is answered to it.

use super::*;

fn value_fault(bytes: &[u8], kind: FaultKind, at: usize) {
    assert_eq!(read_value(bytes), Err(Fault { kind, at }), "{bytes:X?}");
}

fn struct_fault(bytes: &[u8], kind: FaultKind, at: usize) {
    assert_eq!(read_struct(bytes), Err(Fault { kind, at }), "{bytes:X?}");
}

/// So many lists around a null.
fn nested(levels: usize) -> Vec<u8> {
    let mut value = vec![0x08, 0x00];
    for _ in 0..levels {
        let mut list = vec![0x0A, value.len() as u8];
        list.extend(&value);
        value = [&[0x32, list.len() as u8][..], &list].concat();
    }
    value
}

#[test]
fn each_kind_of_value_is_answered() {
    assert_eq!(value(&[0x08, 0x00]), (0, [1, 0, 0]));
    assert_eq!(value(&[0x11, 1, 2, 3, 4, 5, 6, 7, 0xF8]), (0, [2, 0xF807_0605_0403_0201, 0]));
    assert_eq!(value(&[0x1A, 0x82, 0x00, b'h', b'i']), (0, [3, 3, 2]));
    assert_eq!(value(&[0x1A, 0x00]), (0, [3, 2, 0]));
    assert_eq!(value(&[0x20, 0x00]), (0, [4, 0, 0]));
    assert_eq!(value(&[0x20, 0x81, 0x80, 0x00]), (0, [4, 1, 0]));
    assert_eq!(value(&[0x2A, 0x00]), (0, [5, 0, 0]));
    assert_eq!(value(&[0xB2, 0x00, 0x00]), (0, [6, 0, 0]));
    assert_eq!(value(&[]), (18, [0, 0, 0]));
}

#[test]
fn a_value_has_exactly_one_kind() {
    value_fault(&[], FaultKind::Other, 0);
    value_fault(&[0x08, 0x00, 0x08, 0x01], FaultKind::Repeated, 2);
    value_fault(&[0x08, 0x00, 0x20, 0x00], FaultKind::Other, 2);
    value_fault(&[0x08, 0x00, 0x1A, 0x01, 0xFF], FaultKind::BadText, 2);
    value_fault(&[0x08, 0x00, 0x18, 0xFF], FaultKind::CutShort, 2);
    value_fault(&[0x08, 0x00, 0x18, 0x00], FaultKind::WireType, 2);
    value_fault(&[0x32, 0x02, 0x0A, 0x00, 0x20, 0x02], FaultKind::Other, 4);
}

#[test]
fn null_is_0_and_bool_0_or_1() {
    value_fault(&[0x08, 0x01], FaultKind::Other, 0);
    value_fault(&[0x08, 0x80, 0x80, 0x80, 0x80, 0x10], FaultKind::Other, 0);
    value_fault(&[0x20, 0x02], FaultKind::Other, 0);
    assert_eq!(check(&[0x08, 0x80, 0x80, 0x00], true), (0, [0, 0]));
}

#[test]
fn fields_that_have_no_place_are_read_before_they_are_refused() {
    value_fault(&[0x38, 0x00], FaultKind::Other, 0);
    value_fault(&[0x38, 0x80], FaultKind::CutShort, 0);
    value_fault(&[0x3B], FaultKind::WireType, 0);
    value_fault(&[0x0B], FaultKind::WireType, 0);
    struct_fault(&[0x12, 0x00], FaultKind::Other, 0);
    struct_fault(&[0x12, 0x01], FaultKind::CutShort, 0);
    struct_fault(&[0x08, 0x00], FaultKind::WireType, 0);
    struct_fault(&[0x00, 0x00], FaultKind::BadVarint, 0);
}

#[test]
fn an_entry_lacks_its_value_at_its_end() {
    struct_fault(&[0x0A, 0x00], FaultKind::Other, 2);
    struct_fault(&[0x0A, 0x03, 0x0A, 0x01, b'k'], FaultKind::Other, 5);
    struct_fault(&[0x0A, 0x02, 0x12, 0x00], FaultKind::Other, 4);
    struct_fault(&[0x0A, 0x04, 0x18, 0x00, 0x12, 0x00], FaultKind::Other, 2);
}

#[test]
fn a_key_stands_once_in_its_struct() {
    let entry = [0x0A, 0x07, 0x0A, 0x01, b'k', 0x12, 0x02, 0x08, 0x00];
    struct_fault(&[entry, entry].concat(), FaultKind::Repeated, 11);
    let reversed = [0x0A, 0x07, 0x12, 0x02, 0x08, 0x00, 0x0A, 0x01, b'k'];
    struct_fault(&[entry, reversed].concat(), FaultKind::Repeated, 15);
    struct_fault(&[&entry[..], &[0x0A, 0x03, 0x0A, 0x01, b'k']].concat(), FaultKind::Repeated, 11);
    assert_eq!(check(&reversed, false), (0, [0, 0]));
}

#[test]
fn no_key_is_compared_at_the_end_of_its_entry() {
    let no_key = [0x0A, 0x04, 0x12, 0x02, 0x08, 0x00];
    let empty_key = [0x0A, 0x06, 0x0A, 0x00, 0x12, 0x02, 0x08, 0x00];
    struct_fault(&[no_key, no_key].concat(), FaultKind::Repeated, 12);
    struct_fault(&[&no_key[..], &empty_key].concat(), FaultKind::Repeated, 8);
    struct_fault(&[&empty_key[..], &no_key].concat(), FaultKind::Repeated, 14);
    struct_fault(&[&empty_key[..], &[0x0A, 0x00]].concat(), FaultKind::Repeated, 10);
    struct_fault(&[&empty_key[..], &[0x0A, 0x02, 0x12, 0x00]].concat(), FaultKind::Other, 12);
}

#[test]
fn key_and_value_stand_once_in_their_entry() {
    struct_fault(&[0x0A, 0x05, 0x0A, 0x00, 0x0A, 0x01, 0xFF], FaultKind::Repeated, 4);
    struct_fault(&[0x0A, 0x06, 0x12, 0x02, 0x08, 0x00, 0x12, 0x00], FaultKind::Repeated, 6);
    struct_fault(&[0x0A, 0x03, 0x0A, 0x01, 0xFF], FaultKind::BadText, 2);
}

#[test]
fn the_end_is_that_of_the_enclosing_message() {
    struct_fault(&[0x0A, 0x02, 0x12, 0x02, 0x08, 0x00], FaultKind::CutShort, 2);
    struct_fault(&[0x0A, 0x03, 0x12, 0x01, 0x08, 0x00], FaultKind::CutShort, 4);
    struct_fault(&[0x0A, 0x04, 0x12, 0x02, 0x08, 0x00, 0x0A], FaultKind::CutShort, 6);
}

#[test]
fn at_most_8_levels_nest() {
    assert_eq!(value(&nested(8)), (0, [6, 0, 0]));
    value_fault(&nested(9), FaultKind::TooDeep, 32);
    value_fault(&nested(12), FaultKind::TooDeep, 32);
    let in_struct = |value: &[u8]| {
        let entry = [&[0x12, value.len() as u8], value].concat();
        [&[0x0A, entry.len() as u8], &entry[..]].concat()
    };
    assert_eq!(check(&in_struct(&nested(7)), false), (0, [0, 0]));
    struct_fault(&in_struct(&nested(8)), FaultKind::TooDeep, 32);
    let mut second_kind = nested(8);
    second_kind.extend([0x2A, 0x00]);
    value_fault(&second_kind, FaultKind::Other, 34);
}
