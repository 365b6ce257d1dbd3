//! OPEN frames that are written out by hand, each with what is answered to it.

use super::*;

const K4: [u8; 10] = [0x0A, 0x06, 0x70, 0x72, 0x65, 0x73, 0x73, 0x37, 0x10, 0x01];

fn press7(producer: bool, limit: u32) -> Opening {
    Opening { producer, name: b"press7".to_vec(), format: Vec::new(), limit }
}

/// What a consumer-flow server hears that offers `press7` with the format `f`.
fn heard_alone(frame: &[u8]) -> (u64, [u64; 10]) {
    let offer = Offer { producer: false, name: b"press7".to_vec(), format: b"f".to_vec() };
    heard(frame, 0, frame.len() as u64, &offer)
}

fn number(frame: &[u8]) -> u64 {
    heard_alone(frame).0
}

fn fault(frame: &[u8], kind: FaultKind, at: u64) {
    assert_eq!(heard_alone(frame), (18, [0, 0, 0, 0, 0, 0, 0, 0, kind as u64, at]), "{frame:X?}");
}

/// K4 with more behind it.
fn k4_and(behind: &[u8]) -> Vec<u8> {
    [&K4[..], behind].concat()
}

#[test]
fn k4_is_written_and_heard() {
    assert_eq!(frame(&press7(true, DEFAULT_LIMIT)), Some(K4.to_vec()));
    assert_eq!(heard_alone(&K4), (0, [1, 2, 6, 0, 0, 0, 0, 50_000_000, 0, 0]));
}

#[test]
fn k5_has_44_bytes_and_the_double_1000000() {
    let frame = frame(&press7(true, 1_000_000)).unwrap();
    assert_eq!(frame.len(), 44);
    assert_eq!(frame[..10], K4);
    assert_eq!(frame[36..], [0x00, 0x00, 0x00, 0x00, 0x80, 0x84, 0x2E, 0x41]);
    assert_eq!(heard_alone(&frame), (0, [1, 2, 6, 0, 0, 12, 32, 1_000_000, 0, 0]));
}

#[test]
fn a_consumer_opens_the_output_and_a_format_stands_behind_the_socket() {
    let opening = Opening { format: b"f".to_vec(), ..press7(false, DEFAULT_LIMIT) };
    let written = frame(&opening).unwrap();
    assert_eq!(written, [&K4[..9], &[0x02, 0x1A, 0x01, b'f']].concat());
    assert_eq!(number(&written), 21);
    let offer = Offer { producer: true, name: b"press7".to_vec(), format: b"f".to_vec() };
    assert_eq!(heard(&written, 0, 13, &offer), (0, [2, 2, 6, 12, 1, 0, 0, 50_000_000, 0, 0]));
}

#[test]
fn a_bad_name_or_format_is_34_and_changes_nothing() {
    let bad: [(&[u8], &[u8]); 5] =
        [(b"", b""), (&[b'n'; 256], b""), (b"n", &[b'f'; 256]), (b"\xFF", b""), (b"n", b"\xFF")];
    for (name, format) in bad {
        let opening = Opening { name: name.to_vec(), format: format.to_vec(), ..press7(true, 0) };
        assert_eq!(store_frame(&[7; 600], 0, &opening), (34, 0, vec![7; 600]));
    }
    let longest = Opening { name: vec![b'n'; 255], format: vec![b'f'; 255], ..press7(true, DEFAULT_LIMIT) };
    assert_eq!(frame(&longest).unwrap().len(), 258 + 2 + 258);
}

#[test]
fn a_frame_that_does_not_fit_changes_nothing_and_has_its_length() {
    let opening = press7(true, DEFAULT_LIMIT);
    assert_eq!(store_frame(&[7; 12], 1, &opening), (0, 10, [&[7][..], &K4, &[7]].concat()));
    for at in [3, 12, 13, u64::MAX - 9, u64::MAX] {
        assert_eq!(store_frame(&[7; 12], at, &opening), (0, 10, vec![7; 12]));
    }
}

#[test]
fn a_frame_ends_where_it_is_said_to_end() {
    let offer = Offer { producer: false, name: b"press7".to_vec(), format: Vec::new() };
    let message = [&[0x0A, 0x00][..], &K4, &[0x1A, 0x00, 0x80]].concat();
    let at = |at, end| heard(&message, at, end, &offer);
    assert_eq!(at(2, 12), (0, [1, 4, 6, 0, 0, 0, 0, 50_000_000, 0, 0]));
    assert_eq!(at(2, 14), (0, [1, 4, 6, 14, 0, 0, 0, 50_000_000, 0, 0]));
    assert_eq!(at(2, 15), (18, [0, 0, 0, 0, 0, 0, 0, 0, 1, 14]));
    assert_eq!(at(2, 16), (18, [0, 0, 0, 0, 0, 0, 0, 0, 1, 2]));
    assert_eq!(at(u64::MAX - 1, u64::MAX), (18, [0, 0, 0, 0, 0, 0, 0, 0, 1, u64::MAX - 1]));
    for (start, end) in [(2, 2), (3, 2), (15, 15), (u64::MAX, u64::MAX), (u64::MAX, 0)] {
        assert_eq!(at(start, end), (19, [0; 10]));
    }
}

#[test]
fn fields_5_and_up_are_skipped_but_must_be_legal() {
    let behind = [0x28, 0x05, 0x31, 1, 2, 3, 4, 5, 6, 7, 8, 0x3A, 0x01, 0xFF, 0x45, 1, 2, 3, 4, 0x28, 0x05];
    assert_eq!(number(&k4_and(&behind)), 0);
    fault(&k4_and(&[0x28, 0x80]), FaultKind::CutShort, 10);
    fault(&k4_and(&[0x2B]), FaultKind::WireType, 10);
    fault(&k4_and(&[0x00, 0x00]), FaultKind::BadVarint, 10);
}

#[test]
fn at_one_field_the_tests_run_in_their_order() {
    let large = [0x10, 0x80, 0x80, 0x80, 0x80, 0x10];
    fault(&k4_and(&large), FaultKind::BadVarint, 10);
    fault(&k4_and(&[0x12, 0x00]), FaultKind::WireType, 10);
    fault(&k4_and(&[0x10, 0x01]), FaultKind::Repeated, 10);
    fault(&k4_and(&[0x0A, 0x01, 0xFF]), FaultKind::Repeated, 10);
    fault(&k4_and(&[0x0A, 0x02, 0xFF]), FaultKind::CutShort, 10);
    fault(&k4_and(&[0x1A, 0x01, 0xFF, 0x1A, 0x00]), FaultKind::BadText, 10);
    fault(&k4_and(&[0x22, 0x00, 0x22, 0x01, 0x80]), FaultKind::Repeated, 12);
    fault(&k4_and(&[0x22, 0x01, 0x80, 0x22, 0x00]), FaultKind::CutShort, 12);
    fault(&k4_and(&[0x22, 0x04, 0x0A, 0x02, 0x12, 0x00]), FaultKind::Other, 16);
}

#[test]
fn the_numbers_19_to_22_apply_in_their_order() {
    let name = &K4[..8];
    let with = |rest: &[u8]| number(&[name, rest].concat());
    let bad_limit = wire::delimited_field(PARAMETERS, &limit::parameters(999_999));
    assert_eq!(with(&[]), 19);
    assert_eq!(with(&[0x10, 0x00]), 19);
    assert_eq!(number(&[0x10, 0x01]), 19);
    assert_eq!(number(&[0x0A, 0x00, 0x10, 0x01]), 19);
    assert_eq!(with(&[&[0x10, 0x03][..], &bad_limit].concat()), 19);
    assert_eq!(with(&[0x10, 0x03]), 20);
    assert_eq!(number(&[0x0A, 0x01, b'p', 0x10, 0xFF, 0xFF, 0xFF, 0xFF, 0x0F]), 20);
    assert_eq!(with(&[0x10, 0x02, 0x1A, 0x01, b'g']), 21);
    assert_eq!(number(&[0x0A, 0x01, b'p', 0x10, 0x01]), 21);
    assert_eq!(with(&[0x10, 0x01, 0x1A, 0x01, b'g']), 22);
    assert_eq!(with(&[0x10, 0x01, 0x1A, 0x01, b'f']), 0);
    assert_eq!(with(&[0x10, 0x01, 0x1A, 0x00]), 0);
}

#[test]
fn names_and_formats_have_at_most_255_bytes() {
    for (length, refusal) in [(255, 21), (256, 19)] {
        assert_eq!(number(&[wire::delimited_field(NAME, &vec![b'n'; length]), vec![0x10, 0x01]].concat()), refusal);
    }
    for (length, refusal) in [(255, 22), (256, 19)] {
        assert_eq!(number(&k4_and(&wire::delimited_field(FORMAT, &vec![b'f'; length]))), refusal);
    }
}
