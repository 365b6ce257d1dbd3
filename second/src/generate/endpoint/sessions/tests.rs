//! Tests of the watch on sessions in which something goes wrong that the two ends do not do by themselves.

use super::*;
use crate::endpoint::CLOSE;

/// Nothing goes wrong, and nothing is done but what is told.
const CALM: Temper = Temper { strangers: NEVER, closes: NEVER, makes: NEVER, errs: NEVER, ..EVEN };

/// Tells what a session does in phase 2, the client being the producer; all before that is delivered.
fn told(story: impl FnOnce(&mut Session)) {
    let (mut random, mut calls) = (Random::new(1), Calls::new());
    let mut session = Session::new(&mut random, &mut calls, CALM, Flow::Producer);
    let (name, format) = session.opened.clone();
    session.tell(CLIENT, &Send::Open { name, format });
    session.tell(SERVER, &Send::Ready { count: 0 });
    story(&mut session);
}

impl Session<'_> {
    /// Sends from an end; it is accepted.
    fn say(&mut self, end: usize, send: &Send) {
        let on_their_way = self.ends[1 - end].inbox.len();
        self.send_into(end, send, ENOUGH);
        assert_eq!(self.ends[1 - end].inbox.len(), on_their_way + 1);
        self.watch_step();
    }

    /// Sends from an end, and delivers all that is on its way.
    fn tell(&mut self, end: usize, send: &Send) {
        self.say(end, send);
        self.drain();
    }

    /// The server offers a batch of so many, and the client agrees to as many of them.
    fn agree(&mut self, offer: u16, count: u16) {
        self.tell(SERVER, &Send::Ready { count: offer });
        self.tell(CLIENT, &Send::Ready { count });
    }

    /// Changes the state of an end, as neither a send nor a receive does.
    fn change(&mut self, end: usize, change: fn(&mut State)) {
        let mut state = self.ends[end].state();
        change(&mut state);
        self.ends[end].block = state.block();
    }
}

fn data() -> Send {
    Send::Data { type_data: 7, how: 0, body: b"run".to_vec() }
}

/// A DATA without a body, to which one is lent all the same.
fn bodiless() -> Send {
    Send::Data { type_data: 7, how: NO_BODY, body: b"run".to_vec() }
}

fn empty() -> Send {
    Send::Data { type_data: 7, how: 0, body: Vec::new() }
}

fn asking() -> Send {
    Send::Data { type_data: 7, how: ASK, body: b"run".to_vec() }
}

/// Asserts how many DATA are unconfirmed at the client, by byte 6 of its block.
fn assert_unconfirmed(session: &Session, number: u8) {
    assert_eq!(session.ends[CLIENT].block[6], number);
}

#[test]
fn a_batch_that_nothing_disturbs_is_carried() {
    told(|session| {
        session.agree(4, 3);
        session.tell(CLIENT, &data());
        session.tell(CLIENT, &bodiless());
        session.tell(CLIENT, &empty());
        session.tell(SERVER, &Send::Noop { type_data: 1, how: ASK });
    });
}

#[test]
#[should_panic(expected = "nothing is lost")]
fn data_lost_on_their_way_are_told() {
    told(|session| {
        session.agree(2, 2);
        session.say(CLIENT, &data());
        session.ends[SERVER].inbox.clear();
        session.watch_step();
    });
}

/// NOOPs that ask are awaited beside the DATA, and not counted with them.
#[test]
fn data_are_unconfirmed_until_their_confirmation_is_heard() {
    told(|session| {
        session.agree(3, 3);
        session.say(CLIENT, &asking());
        session.say(CLIENT, &Send::Noop { type_data: 7, how: ASK });
        session.say(CLIENT, &asking());
        session.say(CLIENT, &data());
        assert_unconfirmed(session, 2);
        while !session.ends[SERVER].inbox.is_empty() {
            session.deliver(SERVER);
            session.watch_step();
            assert_unconfirmed(session, 2);
        }
        session.drain();
        assert_unconfirmed(session, 0);
    });
}

/// Neither the end that closes nor the one that hears of it has anything left to be confirmed.
#[test]
fn a_close_either_way_leaves_no_data_unconfirmed() {
    for end in ENDS {
        told(|session| {
            session.agree(2, 2);
            session.say(CLIENT, &asking());
            session.say(end, &Send::Close { code: 0 });
            assert_unconfirmed(session, if end == CLIENT { 0 } else { 1 });
            session.drain();
            assert_unconfirmed(session, 0);
        });
    }
}

/// Tells a session in which byte 6 of an end's block is another number behind a DATA of the client that asks.
fn told_of_another_number(end: usize, number: u8) {
    told(|session| {
        session.agree(2, 2);
        session.say(CLIENT, &asking());
        session.ends[end].block[6] = number;
        session.watch_step();
    });
}

#[test]
#[should_panic(expected = "byte 6 is the DATA asked less the DATA confirmed")]
fn an_end_that_does_not_count_its_ask_is_told() {
    told_of_another_number(CLIENT, 0);
}

#[test]
#[should_panic(expected = "byte 6 is the DATA asked less the DATA confirmed")]
fn an_end_that_counts_its_ask_twice_is_told() {
    told_of_another_number(CLIENT, 2);
}

#[test]
#[should_panic(expected = "byte 6 is the DATA asked less the DATA confirmed")]
fn an_end_that_counts_what_the_other_asked_is_told() {
    told_of_another_number(SERVER, 1);
}

/// The server sends a NOOP, and the client hears a confirmation of the DATA that is still on its way.
#[test]
#[should_panic(expected = "DATA that are confirmed were accepted")]
fn data_confirmed_before_they_are_accepted_are_told() {
    told(|session| {
        session.agree(2, 2);
        session.say(CLIENT, &asking());
        session.say(SERVER, &Send::Noop { type_data: 7, how: 0 });
        session.ends[CLIENT].inbox[0][REPLY - 4..REPLY - 2].copy_from_slice(&[8 * DATA + 1, ACK_REPLY]);
        while !session.ends[CLIENT].inbox.is_empty() {
            session.deliver(CLIENT);
        }
    });
}

/// Delivers two messages of one batch in the other order.
fn exchanged(first: &Send, second: &Send) {
    told(|session| {
        session.agree(2, 2);
        session.say(CLIENT, first);
        session.say(CLIENT, second);
        session.ends[SERVER].inbox.swap(0, 1);
        session.drain();
    });
}

#[test]
#[should_panic(expected = "data are accepted as they were sent")]
fn a_missing_body_that_comes_as_an_empty_one_is_told() {
    exchanged(&bodiless(), &empty());
}

#[test]
#[should_panic(expected = "data are accepted as they were sent")]
fn an_empty_body_that_comes_as_a_missing_one_is_told() {
    exchanged(&empty(), &bodiless());
}

#[test]
#[should_panic(expected = "nothing is lost")]
fn data_lost_before_a_close_are_told() {
    told(|session| {
        session.agree(2, 2);
        session.say(CLIENT, &data());
        session.say(CLIENT, &Send::Close { code: 0 });
        session.ends[SERVER].inbox.pop_front();
        session.drain();
    });
}

#[test]
#[should_panic(expected = "neither end awaits a confirmation")]
fn a_confirmation_lost_on_its_way_is_told() {
    told(|session| {
        session.say(CLIENT, &Send::Noop { type_data: 1, how: ASK });
        while session.ends[CLIENT].inbox.is_empty() {
            session.deliver(SERVER);
        }
        session.ends[CLIENT].inbox.clear();
        session.watch_step();
    });
}

#[test]
#[should_panic(expected = "no more data than it agreed to")]
fn an_end_that_sends_more_than_it_agreed_to_is_told() {
    told(|session| {
        session.agree(2, 1);
        session.change(CLIENT, |state| state.n = 2);
        session.say(CLIENT, &data());
        session.say(CLIENT, &data());
    });
}

/// The client agrees to two, and the first of these comes before its READY.
#[test]
#[should_panic(expected = "no more data than it agreed to")]
fn an_end_that_accepts_more_than_it_agreed_to_is_told() {
    told(|session| {
        session.tell(SERVER, &Send::Ready { count: 2 });
        session.say(CLIENT, &Send::Ready { count: 2 });
        session.say(CLIENT, &data());
        session.ends[SERVER].inbox.swap(0, 1);
        session.change(SERVER, |state| state.ready(2, Phase::Batch));
        session.drain();
    });
}

/// The client agrees to two, and the server hears of one.
#[test]
#[should_panic(expected = "READYs are heard as they were sent")]
fn a_ready_heard_with_another_count_is_told() {
    told(|session| {
        session.tell(SERVER, &Send::Ready { count: 2 });
        session.say(CLIENT, &Send::Ready { count: 2 });
        session.ends[SERVER].inbox[0][REPLY - 1] = 1;
        session.drain();
    });
}

#[test]
#[should_panic(expected = "no READY is lost")]
fn a_ready_lost_on_its_way_is_told() {
    told(|session| {
        session.say(SERVER, &Send::Ready { count: 0 });
        session.ends[CLIENT].inbox.clear();
        session.watch_step();
    });
}

#[test]
#[should_panic(expected = "a CLOSE that has arrived closes the other end")]
fn a_close_lost_on_its_way_is_told() {
    told(|session| {
        session.say(CLIENT, &Send::Close { code: 0 });
        session.ends[SERVER].inbox.clear();
        session.watch_step();
    });
}

/// The server sends a NOOP, and the client hears a CLOSE.
#[test]
#[should_panic(expected = "a CLOSE that is heard was written")]
fn a_close_that_nobody_wrote_is_told() {
    told(|session| {
        session.say(SERVER, &Send::Noop { type_data: 0, how: 0 });
        session.ends[CLIENT].inbox[0][REPLY - 4] = 8 * CLOSE + 1;
        session.drain();
    });
}

#[test]
#[should_panic(expected = "a batch agreed is never more than its offer")]
fn a_client_that_agrees_to_more_than_its_offer_is_told() {
    told(|session| {
        session.tell(SERVER, &Send::Ready { count: 2 });
        session.change(CLIENT, |state| state.n = 3);
        session.say(CLIENT, &Send::Ready { count: 3 });
    });
}

#[test]
#[should_panic(expected = "a batch agreed is never more than its offer")]
fn a_server_that_hears_more_than_its_offer_is_told() {
    told(|session| {
        session.tell(SERVER, &Send::Ready { count: 2 });
        session.say(CLIENT, &Send::Ready { count: 2 });
        session.ends[SERVER].inbox[0][REPLY - 1] = 3;
        session.change(SERVER, |state| state.n = 3);
        session.drain();
    });
}

#[test]
#[should_panic(expected = "no more READYs of the client than offers")]
fn a_client_that_agrees_without_an_offer_is_told() {
    told(|session| {
        session.change(CLIENT, |state| state.ready(1, Phase::Offer));
        session.say(CLIENT, &Send::Ready { count: 1 });
    });
}

/// What an end left when it closed is over where both ends are made again, and so is what they had agreed.
#[test]
fn both_ends_begin_anew_where_they_are_made_again() {
    told(|session| {
        session.agree(2, 2);
        session.say(CLIENT, &data());
        session.say(SERVER, &Send::Close { code: 0 });
        session.drain();
        session.make(Flow::Consumer);
        assert!(session.histories == Histories::default());
        let [client, server] = ENDS.map(|end| session.ends[end].state());
        assert_eq!((client.phase, client.flow), (Phase::Fresh, Flow::Consumer));
        assert_eq!(server, State::fresh(Role::Server, Flow::Producer, DEFAULT_LIMIT));
    });
}

#[test]
#[should_panic(expected = "only where nothing is on its way")]
fn no_end_is_made_again_while_something_is_on_its_way() {
    told(|session| {
        session.say(CLIENT, &Send::Noop { type_data: 1, how: 0 });
        session.make(Flow::Producer);
    });
}

#[test]
#[should_panic(expected = "one phase and one count hold for both")]
fn an_end_that_is_not_made_again_is_told() {
    told(|session| {
        let block = session.ends[SERVER].block.clone();
        session.make(Flow::Producer);
        session.ends[SERVER].block = block;
        session.watch_step();
    });
}
