//! Tests of the watch: histories that break one clause each, and ones that come close and break none.

use super::*;
use crate::endpoint::{ACK_REPLY, NOOP, NO_BODY};

fn ready(count: u16) -> Send {
    Send::Ready { count }
}

fn data(type_data: u16) -> Send {
    Send::Data { type_data, how: 0, body: b"run".to_vec() }
}

/// A DATA without a body, to which one is lent all the same.
fn bodiless() -> Send {
    Send::Data { type_data: 0, how: NO_BODY, body: b"run".to_vec() }
}

fn empty() -> Send {
    Send::Data { type_data: 0, how: 0, body: Vec::new() }
}

/// A DATA that asks for a confirmation.
fn asking(type_data: u16) -> Send {
    Send::Data { type_data, how: ASK, body: b"run".to_vec() }
}

/// What is heard with a message of this type, flags and type-data.
fn heard_with(message_type: u8, flags: u8, type_data: u64) -> Heard {
    let mut heard = [0; 16];
    heard[..3].copy_from_slice(&[message_type.into(), flags.into(), type_data]);
    heard
}

/// What is heard with a message of this type and type-data, without flags.
fn heard(message_type: u8, type_data: u64) -> Heard {
    heard_with(message_type, 0, type_data)
}

/// A reply of this type.
fn reply(message_type: u8) -> [u8; 14] {
    [0, 1, 0, 0, 0, 8, 0x46, 0x42, 0x44, 0x50, 8 * message_type + 1, 0, 0, 100]
}

/// Notes READYs of an end, each heard by the other.
fn note_readys(histories: &mut Histories, sender: usize, counts: &[u16]) {
    for count in counts {
        histories.note_sent(sender, &ready(*count));
        histories.note_heard(1 - sender, &heard(READY, (*count).into()));
    }
}

/// Histories with these READYs of the server and of the client, each heard by the other.
fn with_readys(server: &[u16], client: &[u16]) -> Histories {
    let mut histories = Histories::default();
    note_readys(&mut histories, SERVER, server);
    note_readys(&mut histories, CLIENT, client);
    histories
}

/// Histories with a batch of two, of which an end has sent this one.
fn with_sent(sender: usize, data: &Send) -> Histories {
    let mut histories = with_readys(&[2], &[2]);
    histories.note_sent(sender, data);
    histories
}

/// Histories with a batch of two, of which an end has sent the first.
fn with_data_sent(sender: usize) -> Histories {
    with_sent(sender, &data(0))
}

/// How many messages are on their way to each end, where one is on its way to this end.
fn one_on_its_way(end: usize) -> [usize; 2] {
    ENDS.map(|other| usize::from(other == end))
}

#[test]
fn data_on_their_way_and_data_accepted_are_not_lost() {
    for sender in ENDS {
        let mut histories = with_data_sent(sender);
        histories.watch(one_on_its_way(1 - sender));
        histories.note_accepted(1 - sender, &heard(DATA, 0), Some(b"run"));
        histories.watch([0; 2]);
    }
}

/// Neither the CLOSE that it sent nor the one that refuses an OPEN asks an end to accept what comes behind it.
#[test]
fn an_end_that_has_closed_may_leave_data() {
    for sender in ENDS {
        let mut sent = with_data_sent(sender);
        sent.note_sent(1 - sender, &Send::Close { code: 0 });
        let mut replied = with_data_sent(sender);
        replied.note_reply(1 - sender, &reply(CLOSE));
        for mut histories in [sent, replied] {
            assert!(histories.has_closed(1 - sender) && !histories.neither_has_closed());
            histories.note_heard(sender, &heard(CLOSE, 0));
            histories.watch([0; 2]);
        }
    }
}

#[test]
#[should_panic(expected = "nothing is lost")]
fn data_that_never_come_to_the_server_are_lost() {
    with_data_sent(CLIENT).watch([0; 2]);
}

#[test]
#[should_panic(expected = "nothing is lost")]
fn data_that_never_come_to_the_client_are_lost() {
    with_data_sent(SERVER).watch([0; 2]);
}

#[test]
#[should_panic(expected = "nothing is lost")]
fn data_that_never_come_to_an_end_that_heard_a_close_are_lost() {
    let mut histories = with_data_sent(CLIENT);
    histories.note_sent(CLIENT, &Send::Close { code: 0 });
    histories.note_heard(SERVER, &heard(CLOSE, 0));
    histories.watch([0; 2]);
}

#[test]
#[should_panic(expected = "nothing is lost")]
fn a_confirmation_written_is_no_close() {
    let mut histories = with_data_sent(CLIENT);
    histories.note_reply(SERVER, &reply(DATA));
    histories.watch([0; 2]);
}

#[test]
#[should_panic(expected = "nothing is on its way to an end that heard a CLOSE")]
fn nothing_comes_behind_a_close() {
    let mut histories = Histories::default();
    histories.note_sent(SERVER, &Send::Close { code: 0 });
    histories.note_heard(CLIENT, &heard(CLOSE, 0));
    histories.watch([1, 0]);
}

/// A CLOSE on its way closes nobody yet, one that is heard does, and so does one that meets another.
#[test]
fn a_close_is_heard_or_meets_another() {
    for sender in ENDS {
        let mut histories = Histories::default();
        histories.note_sent(sender, &Send::Close { code: 0 });
        histories.watch(one_on_its_way(1 - sender));
        let mut met = histories.clone();
        histories.note_heard(1 - sender, &heard(CLOSE, 0));
        histories.watch([0; 2]);
        met.note_sent(1 - sender, &Send::Close { code: 0 });
        met.watch([0; 2]);
    }
}

#[test]
#[should_panic(expected = "a CLOSE that is heard was written")]
fn the_client_hears_no_close_that_the_server_has_not_written() {
    let mut histories = Histories::default();
    histories.note_heard(CLIENT, &heard(CLOSE, 0));
    histories.watch([0; 2]);
}

/// That it has written a CLOSE itself does not make the one that it heard.
#[test]
#[should_panic(expected = "a CLOSE that is heard was written")]
fn the_server_hears_no_close_that_the_client_has_not_written() {
    let mut histories = Histories::default();
    histories.note_sent(SERVER, &Send::Close { code: 0 });
    histories.note_heard(SERVER, &heard(CLOSE, 0));
    histories.watch([1, 0]);
}

#[test]
#[should_panic(expected = "a CLOSE that has arrived closes the other end")]
fn a_close_that_never_comes_to_the_server_is_told() {
    let mut histories = Histories::default();
    histories.note_sent(CLIENT, &Send::Close { code: 0 });
    histories.watch([0; 2]);
}

#[test]
#[should_panic(expected = "a CLOSE that has arrived closes the other end")]
fn a_refusal_that_never_comes_to_the_client_is_told() {
    let mut histories = Histories::default();
    histories.note_reply(SERVER, &reply(CLOSE));
    histories.watch([0; 2]);
}

/// The READYs of either end are on their way, and then heard, or left by an end that has closed.
#[test]
fn readys_on_their_way_and_readys_heard_are_not_lost() {
    for (sender, count) in [(SERVER, 0), (SERVER, 2), (CLIENT, 2)] {
        let mut histories = with_readys(if sender == CLIENT { &[2] } else { &[] }, &[]);
        histories.note_sent(sender, &ready(count));
        histories.watch(one_on_its_way(1 - sender));
        let mut left = histories.clone();
        histories.note_heard(1 - sender, &heard(READY, count.into()));
        histories.watch([0; 2]);
        left.note_sent(1 - sender, &Send::Close { code: 0 });
        left.watch(one_on_its_way(sender));
    }
}

/// What an end sends behind the other's CLOSE is not kept.
#[test]
fn an_end_that_has_closed_awaits_no_ready() {
    let mut histories = Histories::default();
    histories.note_sent(CLIENT, &Send::Close { code: 0 });
    let closed = histories.clone();
    histories.note_sent(SERVER, &ready(0));
    assert!(histories == closed);
    histories.watch(one_on_its_way(SERVER));
}

#[test]
#[should_panic(expected = "no READY is lost")]
fn a_ready_that_never_comes_to_the_client_is_lost() {
    let mut histories = Histories::default();
    histories.note_sent(SERVER, &ready(0));
    histories.watch([0; 2]);
}

#[test]
#[should_panic(expected = "no READY is lost")]
fn a_ready_that_never_comes_to_the_server_is_lost() {
    let mut histories = with_readys(&[2], &[]);
    histories.note_sent(CLIENT, &ready(1));
    histories.watch([0; 2]);
}

#[test]
#[should_panic(expected = "no READY is lost")]
fn a_ready_that_never_comes_to_an_end_that_heard_a_close_is_lost() {
    let mut histories = Histories::default();
    histories.note_sent(SERVER, &ready(0));
    histories.note_sent(SERVER, &Send::Close { code: 0 });
    histories.note_heard(CLIENT, &heard(CLOSE, 0));
    histories.watch([0; 2]);
}

#[test]
#[should_panic(expected = "READYs are heard as they were sent")]
fn readys_are_not_heard_out_of_order() {
    let mut histories = Histories::default();
    histories.note_sent(SERVER, &ready(0));
    histories.note_sent(SERVER, &ready(2));
    histories.note_heard(CLIENT, &heard(READY, 2));
}

#[test]
#[should_panic(expected = "READYs are heard as they were sent")]
fn readys_are_not_heard_twice() {
    with_readys(&[0], &[]).note_heard(CLIENT, &heard(READY, 0));
}

/// The client agreed to two, and the server hears of one.
#[test]
#[should_panic(expected = "READYs are heard as they were sent")]
fn readys_are_not_heard_with_another_count() {
    let mut histories = with_readys(&[2], &[]);
    histories.note_sent(CLIENT, &ready(2));
    histories.note_heard(SERVER, &heard(READY, 1));
}

#[test]
#[should_panic(expected = "data are accepted as they were sent")]
fn data_are_not_accepted_out_of_order() {
    let mut histories = with_data_sent(CLIENT);
    histories.note_sent(CLIENT, &data(1));
    histories.note_accepted(SERVER, &heard(DATA, 1), Some(b"run"));
}

#[test]
#[should_panic(expected = "data are accepted as they were sent")]
fn data_are_not_accepted_twice() {
    let mut histories = with_data_sent(CLIENT);
    histories.note_accepted(SERVER, &heard(DATA, 0), Some(b"run"));
    histories.note_accepted(SERVER, &heard(DATA, 0), Some(b"run"));
}

#[test]
fn bodies_are_accepted_as_they_were_sent() {
    let bodies: [(Send, Option<&[u8]>); 3] = [(bodiless(), None), (empty(), Some(b"")), (data(0), Some(b"run"))];
    for sender in ENDS {
        for (data, body) in &bodies {
            let mut histories = with_sent(sender, data);
            histories.note_accepted(1 - sender, &heard(DATA, 0), *body);
            histories.watch([0; 2]);
        }
    }
}

#[test]
#[should_panic(expected = "data are accepted as they were sent")]
fn a_missing_body_is_not_accepted_as_an_empty_one() {
    with_sent(CLIENT, &bodiless()).note_accepted(SERVER, &heard(DATA, 0), Some(b""));
}

/// What was lent beside it is no part of the data sent.
#[test]
#[should_panic(expected = "data are accepted as they were sent")]
fn a_missing_body_is_not_accepted_as_the_one_that_was_lent() {
    with_sent(SERVER, &bodiless()).note_accepted(CLIENT, &heard(DATA, 0), Some(b"run"));
}

#[test]
#[should_panic(expected = "data are accepted as they were sent")]
fn an_empty_body_is_not_accepted_as_a_missing_one() {
    with_sent(CLIENT, &empty()).note_accepted(SERVER, &heard(DATA, 0), None);
}

#[test]
#[should_panic(expected = "data are accepted as they were sent")]
fn a_body_is_not_accepted_as_a_missing_one() {
    with_sent(SERVER, &data(0)).note_accepted(CLIENT, &heard(DATA, 0), None);
}

#[test]
#[should_panic(expected = "data are accepted as they were sent")]
fn a_body_is_not_accepted_as_an_empty_one() {
    with_sent(CLIENT, &data(0)).note_accepted(SERVER, &heard(DATA, 0), Some(b""));
}

#[test]
fn as_many_data_as_agreed_are_sent_and_accepted() {
    let mut histories = Histories::default();
    for batch in [[0, 1], [2, 3]] {
        note_readys(&mut histories, SERVER, &[0, 5]);
        note_readys(&mut histories, CLIENT, &[2]);
        for number in batch {
            histories.note_sent(SERVER, &data(number));
            histories.note_accepted(CLIENT, &heard(DATA, number.into()), Some(b"run"));
        }
    }
}

#[test]
#[should_panic(expected = "no more data than it agreed to")]
fn an_end_sends_no_more_than_it_agreed_to() {
    let mut histories = with_readys(&[2], &[1]);
    histories.note_sent(SERVER, &data(0));
    histories.note_sent(SERVER, &data(1));
}

/// The client agreed to two, and the server has not heard of it.
#[test]
#[should_panic(expected = "no more data than it agreed to")]
fn an_end_accepts_no_more_than_it_agreed_to() {
    let mut histories = with_readys(&[2], &[]);
    histories.note_sent(CLIENT, &ready(2));
    histories.note_sent(CLIENT, &data(0));
    histories.note_accepted(SERVER, &heard(DATA, 0), Some(b"run"));
}

#[test]
#[should_panic(expected = "no more data than it agreed to")]
fn data_sent_and_data_accepted_count_together() {
    let mut histories = with_readys(&[1], &[1]);
    for end in ENDS {
        histories.note_sent(end, &data(0));
    }
    histories.note_accepted(CLIENT, &heard(DATA, 0), Some(b"run"));
}

#[test]
#[should_panic(expected = "no more data than it agreed to")]
fn an_offer_alone_agrees_to_nothing() {
    with_readys(&[2], &[]).note_sent(SERVER, &data(0));
}

#[test]
fn a_batch_is_held_against_the_offer_of_its_place() {
    with_readys(&[0, 5, 0, 2], &[5, 2]);
    with_readys(&[5, 2, 3], &[0, 1]);
}

#[test]
#[should_panic(expected = "a batch agreed is never more than its offer")]
fn the_client_sends_no_ready_above_its_offer() {
    with_readys(&[5, 2], &[2]).note_sent(CLIENT, &ready(3));
}

#[test]
#[should_panic(expected = "a batch agreed is never more than its offer")]
fn the_server_hears_no_ready_above_its_offer() {
    with_readys(&[5, 2], &[2]).note_heard(SERVER, &heard(READY, 3));
}

#[test]
#[should_panic(expected = "no more READYs of the client than offers")]
fn the_client_sends_no_ready_without_an_offer() {
    with_readys(&[5, 0], &[2]).note_sent(CLIENT, &ready(0));
}

#[test]
#[should_panic(expected = "no more READYs of the client than offers")]
fn the_server_hears_no_ready_without_an_offer() {
    with_readys(&[5, 0], &[2]).note_heard(SERVER, &heard(READY, 0));
}

/// Histories with a batch of three, all of which an end has sent, those of the type-data 0 and 1 with an ask.
fn with_asks(sender: usize) -> Histories {
    let mut histories = with_readys(&[3], &[3]);
    for data in [asking(0), data(7), asking(1)] {
        histories.note_sent(sender, &data);
    }
    histories
}

/// Notes that the other end accepted the first DATA of those.
fn note_first_accepted(histories: &mut Histories, sender: usize) {
    histories.note_accepted(1 - sender, &heard_with(DATA, ACK_REQUEST, 0), Some(b"run"));
}

/// Notes that the other end accepted all of those.
fn note_all_accepted(histories: &mut Histories, sender: usize) {
    note_first_accepted(histories, sender);
    histories.note_accepted(1 - sender, &heard(DATA, 7), Some(b"run"));
    histories.note_accepted(1 - sender, &heard_with(DATA, ACK_REQUEST, 1), Some(b"run"));
}

/// Notes that an end heard a confirmation of this type and type-data.
fn note_confirmed(histories: &mut Histories, end: usize, message_type: u8, type_data: u64) {
    histories.note_heard(end, &heard_with(message_type, ACK_REPLY, type_data));
}

/// Byte 6 of both ends, where so many DATA of this end are unconfirmed and none of the other.
fn unconfirmed_at(end: usize, number: u8) -> [u8; 2] {
    ENDS.map(|other| if other == end { number } else { 0 })
}

/// NOOPs that ask and DATA that do not are not counted, and neither does an acceptance confirm.
#[test]
fn data_are_unconfirmed_from_their_ask_to_their_confirmation() {
    for sender in ENDS {
        let mut histories = with_asks(sender);
        histories.note_sent(sender, &Send::Noop { type_data: 0, how: ASK });
        histories.watch_unconfirmed(unconfirmed_at(sender, 2));
        note_all_accepted(&mut histories, sender);
        histories.watch_unconfirmed(unconfirmed_at(sender, 2));
        note_confirmed(&mut histories, sender, DATA, 0);
        histories.watch_unconfirmed(unconfirmed_at(sender, 1));
        note_confirmed(&mut histories, sender, DATA, 1);
        note_confirmed(&mut histories, sender, NOOP, 0);
        histories.watch_unconfirmed([0; 2]);
    }
}

/// What the other end accepts or confirms behind a close is not awaited.
#[test]
fn a_close_either_way_leaves_nothing_unconfirmed() {
    for sender in ENDS {
        let mut closed = with_asks(sender);
        closed.note_sent(sender, &Send::Close { code: 0 });
        let mut heard_close = with_asks(sender);
        heard_close.note_sent(1 - sender, &Send::Close { code: 0 });
        heard_close.watch_unconfirmed(unconfirmed_at(sender, 2));
        heard_close.note_heard(sender, &heard(CLOSE, 0));
        let mut refused = with_asks(sender);
        refused.note_reply(sender, &reply(CLOSE));
        for mut histories in [closed, heard_close, refused] {
            histories.watch_unconfirmed([0; 2]);
            note_all_accepted(&mut histories, sender);
            assert!(histories.0[sender].accepted_there.is_empty());
        }
    }
}

#[test]
#[should_panic(expected = "byte 6 is the DATA asked less the DATA confirmed")]
fn an_ask_that_byte_6_lacks_is_told() {
    with_asks(CLIENT).watch_unconfirmed(unconfirmed_at(CLIENT, 1));
}

#[test]
#[should_panic(expected = "byte 6 is the DATA asked less the DATA confirmed")]
fn data_without_an_ask_that_byte_6_counts_is_told() {
    with_asks(SERVER).watch_unconfirmed(unconfirmed_at(SERVER, 3));
}

#[test]
#[should_panic(expected = "byte 6 is the DATA asked less the DATA confirmed")]
fn data_that_byte_6_counts_at_the_end_that_accepts_is_told() {
    with_asks(CLIENT).watch_unconfirmed([2, 2]);
}

#[test]
#[should_panic(expected = "byte 6 is the DATA asked less the DATA confirmed")]
fn a_confirmation_that_byte_6_lacks_is_told() {
    let mut histories = with_asks(SERVER);
    note_first_accepted(&mut histories, SERVER);
    note_confirmed(&mut histories, SERVER, DATA, 0);
    histories.watch_unconfirmed(unconfirmed_at(SERVER, 2));
}

#[test]
#[should_panic(expected = "byte 6 is the DATA asked less the DATA confirmed")]
fn a_close_that_leaves_byte_6_is_told() {
    let mut histories = with_asks(CLIENT);
    histories.note_sent(CLIENT, &Send::Close { code: 0 });
    histories.watch_unconfirmed(unconfirmed_at(CLIENT, 2));
}

#[test]
#[should_panic(expected = "DATA are confirmed in the order in which they asked")]
fn data_are_not_confirmed_out_of_order() {
    let mut histories = with_asks(CLIENT);
    note_all_accepted(&mut histories, CLIENT);
    note_confirmed(&mut histories, CLIENT, DATA, 1);
}

#[test]
#[should_panic(expected = "DATA are confirmed in the order in which they asked")]
fn data_are_not_confirmed_twice() {
    let mut histories = with_asks(SERVER);
    note_all_accepted(&mut histories, SERVER);
    note_confirmed(&mut histories, SERVER, DATA, 0);
    note_confirmed(&mut histories, SERVER, DATA, 0);
}

#[test]
#[should_panic(expected = "DATA are confirmed in the order in which they asked")]
fn data_without_an_ask_are_not_confirmed() {
    let mut histories = with_data_sent(CLIENT);
    histories.note_accepted(SERVER, &heard(DATA, 0), Some(b"run"));
    note_confirmed(&mut histories, CLIENT, DATA, 0);
}

#[test]
#[should_panic(expected = "DATA that are confirmed were accepted")]
fn data_on_their_way_are_not_confirmed() {
    let mut histories = with_asks(CLIENT);
    note_first_accepted(&mut histories, CLIENT);
    note_confirmed(&mut histories, CLIENT, DATA, 0);
    note_confirmed(&mut histories, CLIENT, DATA, 1);
}

#[test]
#[should_panic(expected = "data are accepted as they were sent")]
fn data_that_ask_are_not_accepted_as_ones_that_do_not() {
    with_asks(CLIENT).note_accepted(SERVER, &heard(DATA, 0), Some(b"run"));
}

#[test]
#[should_panic(expected = "data are accepted as they were sent")]
fn data_that_do_not_ask_are_not_accepted_as_ones_that_do() {
    note_first_accepted(&mut with_data_sent(SERVER), SERVER);
}
