//! Tests of two endpoints with each other: every schedule of sends and deliveries in which little is on its way, and in
//! which both ends are made again where nothing is.

use std::collections::HashSet;

use super::*;
use crate::open::NOT_OFFERED;

/// An end sends nothing while so many messages are on their way to the other, and asks for nothing while it awaits so
/// many confirmations.
const MOST_WAITING: usize = 2;
const MOST_ASKED: usize = 2;

/// DATA are numbered by their type-data, up to this number and then from 0 again.
const NUMBERS: u16 = 4;

/// How both ends are made, and made again: the flows of client and server, and the client's limit.
type Making = ([Flow; 2], u32);

/// The two ends, the client first, with the messages that are on their way to each.
#[derive(Clone, PartialEq, Eq, Hash)]
struct Session {
    blocks: [Vec<u8>; 2],
    inboxes: [Vec<Vec<u8>>; 2],
    next_sent: u16,
    histories: Histories,
}

impl Session {
    /// Both ends made in these blocks, with new histories.
    fn made_in(blocks: &[Vec<u8>; 2], (flows, limit): Making) -> Session {
        let make = |end: usize, role, limit| made(&blocks[end], role, flows[end] as u8, limit);
        let [client, server] = [make(CLIENT, Role::Client, limit), make(SERVER, Role::Server, 50_000_000)];
        assert_eq!([client.0, server.0], [0; 2]);
        let blocks = [client.1, server.1];
        Session { blocks, inboxes: [Vec::new(), Vec::new()], next_sent: 0, histories: Histories::default() }
    }

    fn state(&self, end: usize) -> State {
        State::read(&self.blocks[end]).expect("a block that an endpoint leaves is good")
    }

    /// The sends that are tried: first those that keep a session going.
    fn sends(&self, end: usize) -> Vec<Send> {
        let data = |how, body: &[u8]| Send::Data { type_data: self.next_sent, how, body: body.to_vec() };
        let every_data = |how| [data(how | NO_BODY, b""), data(how, b""), data(how, b"run")];
        let mut sends = vec![Send::Open { name: b"pipe".to_vec(), format: Vec::new() }];
        sends.extend(every_data(0));
        sends.extend((0..=2).map(|count| Send::Ready { count }));
        sends.extend([Send::Noop { type_data: 7, how: 0 }, Send::Close { code: 0 }]);
        if self.blocks[end][3] < MOST_ASKED as u8 {
            sends.extend(every_data(ASK));
            sends.push(Send::Noop { type_data: 8, how: ASK });
        }
        sends
    }

    /// The session after a send; nothing where that is refused.
    fn after_send(&self, end: usize, send: &Send) -> Option<Session> {
        let sent = super::sent(&self.blocks[end], send, &[0; 60]);
        if sent.number != 0 {
            return None;
        }
        let mut after = self.clone();
        after.blocks[end] = sent.block;
        after.inboxes[1 - end].push(sent.out[..sent.written as usize].to_vec());
        if let Send::Data { .. } = send {
            after.next_sent = (self.next_sent + 1) % NUMBERS;
        }
        after.histories.note_sent(end, send);
        Some(after)
    }

    /// The number that an end answers to the next message: it hears it, unless it has closed or is a server of the
    /// client's flow.
    fn expected(&self, end: usize) -> u64 {
        let [client, server] = ENDS.map(|end| self.state(end));
        if self.histories.has_closed(end) {
            IS_CLOSED
        } else if end == SERVER && server.phase == Phase::Fresh && client.flow == server.flow {
            NOT_OFFERED
        } else {
            0
        }
    }

    /// The session after the oldest message came to an end, which must answer as expected.
    fn after_delivery(&self, end: usize) -> Option<Session> {
        let mut after = self.clone();
        if after.inboxes[end].is_empty() {
            return None;
        }
        let message = after.inboxes[end].remove(0);
        let short = received(&self.blocks[end], &message, b"pipe", b"", &[0; 13]);
        let unheard = (SHORT_OUTPUT, &self.blocks[end], [0; 16]);
        assert_eq!((short.number, &short.block, short.heard), unheard, "an output that is too short: {message:?}");
        let received = received(&self.blocks[end], &message, b"pipe", b"", &[0; 14]);
        assert_eq!(received.number, self.expected(end), "{message:?}");
        after.blocks[end] = received.block;
        after.note_heard(end, &message, &received.heard);
        if received.heard[3] != 0 {
            after.histories.note_reply(end, &received.out);
            after.inboxes[1 - end].push(received.out);
        }
        Some(after)
    }

    /// Notes a message that was heard, where it is one.
    fn note_heard(&mut self, end: usize, message: &[u8], heard: &Heard) {
        if heard[0] as u8 == DATA && heard[1] != u64::from(ACK_REPLY) {
            self.histories.note_accepted(end, heard, body_heard(message, heard));
        } else {
            self.histories.note_heard(end, heard);
        }
    }

    /// Whether nothing is on its way.
    fn all_delivered(&self) -> bool {
        self.inboxes.iter().all(Vec::is_empty)
    }

    /// Watches what holds at every moment.
    fn watch(&self) {
        self.histories.watch(ENDS.map(|end| self.inboxes[end].len()));
        self.histories.watch_unconfirmed(ENDS.map(|end| self.blocks[end][6]));
        if self.all_delivered() && self.histories.neither_has_closed() {
            self.watch_rest();
        }
    }

    /// Watches two ends at rest: the send with which they go on is accepted.
    fn watch_rest(&self) {
        let [client, server] = ENDS.map(|end| self.state(end));
        agree_at_rest(&client, &server);
        let (role, send) = send_at_rest(&client);
        let end = if role == Role::Client { CLIENT } else { SERVER };
        assert!(self.after_send(end, &send).is_some(), "in phase {:?} the {role:?} may send {send:?}", client.phase);
    }

    /// All sessions that may come next; where nothing is on its way, both ends may also be made again.
    fn next(&self, makings: &[Making]) -> Vec<Session> {
        let mut next: Vec<Session> = ENDS.iter().filter_map(|end| self.after_delivery(*end)).collect();
        for end in ENDS.into_iter().filter(|end| self.inboxes[1 - end].len() < MOST_WAITING) {
            next.extend(self.sends(end).iter().filter_map(|send| self.after_send(end, send)));
        }
        if self.all_delivered() {
            next.extend(makings.iter().map(|making| Session::made_in(&self.blocks, *making)));
        }
        next
    }
}

/// The sessions that are reached from blocks of any bytes where both ends are made in these ways, all of which are
/// watched.
fn reached(makings: &[Making]) -> HashSet<Session> {
    let blocks = [vec![9; 64], vec![9; 64]];
    let mut to_try: Vec<Session> = makings.iter().map(|making| Session::made_in(&blocks, *making)).collect();
    let mut reached: HashSet<Session> = to_try.iter().cloned().collect();
    while let Some(session) = to_try.pop() {
        session.watch();
        for next in session.next(makings) {
            if reached.insert(next.clone()) {
                to_try.push(next);
            }
        }
    }
    reached
}

/// The pairs of phases of those sessions whose ends have these flows.
fn phases(sessions: &HashSet<Session>, flows: [Flow; 2]) -> HashSet<[u8; 2]> {
    let has_flows = |session: &&Session| ENDS.iter().all(|end| session.blocks[*end][1] == flows[*end] as u8);
    sessions.iter().filter(has_flows).map(|session| ENDS.map(|end| session.blocks[end][2])).collect()
}

/// How many confirmations an end of this flow awaits in those sessions, and how many DATA of its are unconfirmed.
fn awaited(sessions: &HashSet<Session>, flow: Flow) -> HashSet<[u8; 2]> {
    let blocks = sessions.iter().flat_map(|session| &session.blocks);
    blocks.filter(|block| block[1] == flow as u8).map(|block| [block[3], block[6]]).collect()
}

/// Every pair of flows, with the least and the largest limit.
fn every_making() -> Vec<Making> {
    let flows = Flow::ALL.map(|client| Flow::ALL.map(|server| [client, server])).concat();
    flows.into_iter().flat_map(|flows| [*LIMITS.start(), *LIMITS.end()].map(|limit| (flows, limit))).collect()
}

#[test]
fn the_two_ends_understand_each_other_in_every_schedule() {
    let sessions = reached(&every_making());
    for flow in Flow::ALL {
        let pairs = phases(&sessions, [flow, flow.other()]);
        assert!((0..=5).all(|phase| pairs.contains(&[phase, phase])), "every phase is reached at both ends");
    }
    let producer = awaited(&sessions, Flow::Producer);
    assert_eq!(producer, HashSet::from([[0, 0], [1, 0], [1, 1], [2, 0], [2, 1], [2, 2]]));
    assert_eq!(awaited(&sessions, Flow::Consumer), HashSet::from([[0, 0], [1, 0], [2, 0]]));
}

#[test]
fn ends_of_the_same_flow_come_no_further_than_the_open() {
    let sessions = reached(&Flow::ALL.map(|flow| ([flow; 2], 50_000_000)));
    for flow in Flow::ALL {
        assert_eq!(phases(&sessions, [flow; 2]), HashSet::from([[0, 0], [1, 0], [5, 0], [1, 5], [5, 5]]));
    }
}

/// A session in a batch of two, the client being the producer, with nothing on its way.
fn in_batch() -> Session {
    let session = Session::made_in(&[vec![9; 64], vec![9; 64]], ([Flow::Producer, Flow::Consumer], 50_000_000));
    let session = session.carried(CLIENT, &Send::Open { name: b"pipe".to_vec(), format: Vec::new() });
    session.carried(SERVER, &Send::Ready { count: 2 }).carried(CLIENT, &Send::Ready { count: 2 })
}

impl Session {
    /// The session after a send that is accepted.
    fn said(&self, end: usize, send: &Send) -> Session {
        let after = self.after_send(end, send).expect("the send is accepted");
        after.watch();
        after
    }

    /// The session after a send and the delivery of its message.
    fn carried(&self, end: usize, send: &Send) -> Session {
        let after = self.said(end, send).after_delivery(1 - end).expect("its message is on its way");
        after.watch();
        after
    }

    /// The session with nothing on its way, all of it being lost.
    fn losing_all(&self) -> Session {
        Session { inboxes: [Vec::new(), Vec::new()], ..self.clone() }
    }

    /// The session with another number in byte 6 of an end's block.
    fn with_unconfirmed(&self, end: usize, number: u8) -> Session {
        let mut session = self.clone();
        session.blocks[end][6] = number;
        session
    }

    /// The session with another count at an end.
    fn counting(&self, end: usize, n: u16) -> Session {
        let mut session = self.clone();
        session.blocks[end] = State { n, ..self.state(end) }.block();
        session
    }
}

fn data() -> Send {
    Send::Data { type_data: 0, how: 0, body: Vec::new() }
}

fn bodiless() -> Send {
    Send::Data { type_data: 0, how: NO_BODY, body: Vec::new() }
}

fn asking() -> Send {
    Send::Data { type_data: 0, how: ASK, body: Vec::new() }
}

/// Delivers the message of one send where the client made another.
fn deliver_instead(sent: &Send, delivered: &Send) {
    let [sent, delivered] = [sent, delivered].map(|send| in_batch().said(CLIENT, send));
    Session { inboxes: delivered.inboxes, ..sent }.after_delivery(SERVER);
}

#[test]
#[should_panic(expected = "data are accepted as they were sent")]
fn a_missing_body_that_comes_as_an_empty_one_is_told() {
    deliver_instead(&bodiless(), &data());
}

#[test]
#[should_panic(expected = "data are accepted as they were sent")]
fn an_empty_body_that_comes_as_a_missing_one_is_told() {
    deliver_instead(&data(), &bodiless());
}

#[test]
#[should_panic(expected = "data are accepted as they were sent")]
fn data_that_come_with_an_ask_which_was_not_sent_are_told() {
    deliver_instead(&data(), &asking());
}

#[test]
#[should_panic(expected = "nothing is lost")]
fn data_lost_on_their_way_are_told() {
    in_batch().said(CLIENT, &data()).losing_all().watch();
}

#[test]
#[should_panic(expected = "nothing is lost")]
fn data_lost_before_a_close_are_told() {
    in_batch().said(CLIENT, &data()).losing_all().carried(CLIENT, &Send::Close { code: 0 });
}

#[test]
#[should_panic(expected = "no READY is lost")]
fn a_ready_lost_on_its_way_is_told() {
    let session = in_batch().carried(CLIENT, &data()).carried(CLIENT, &data());
    session.said(SERVER, &Send::Ready { count: 0 }).losing_all().watch();
}

#[test]
#[should_panic(expected = "a CLOSE that has arrived closes the other end")]
fn a_close_lost_on_its_way_is_told() {
    in_batch().said(CLIENT, &Send::Close { code: 0 }).losing_all().watch();
}

#[test]
#[should_panic(expected = "a CLOSE that is heard was written")]
fn a_close_that_nobody_wrote_is_told() {
    let mut session = in_batch();
    let closed = session.said(CLIENT, &Send::Close { code: 0 });
    session.inboxes = closed.inboxes;
    session.after_delivery(SERVER).expect("a CLOSE is on its way").watch();
}

#[test]
#[should_panic(expected = "neither end awaits a confirmation")]
fn a_confirmation_lost_on_its_way_is_told() {
    in_batch().carried(SERVER, &Send::Noop { type_data: 8, how: ASK }).losing_all().watch();
}

#[test]
#[should_panic(expected = "neither end awaits a confirmation")]
fn a_confirmation_of_data_lost_on_its_way_is_told() {
    in_batch().carried(CLIENT, &asking()).losing_all().watch();
}

#[test]
fn a_confirmation_of_data_lowers_what_is_unconfirmed() {
    let session = in_batch().carried(CLIENT, &asking());
    assert_eq!(session.blocks[CLIENT][6], 1);
    let confirmed = session.after_delivery(CLIENT).expect("the confirmation is on its way");
    confirmed.watch();
    assert_eq!(confirmed.blocks[CLIENT][6], 0);
}

#[test]
#[should_panic(expected = "byte 6 is the DATA asked less the DATA confirmed")]
fn an_end_that_does_not_count_its_ask_is_told() {
    in_batch().said(CLIENT, &asking()).with_unconfirmed(CLIENT, 0).watch();
}

#[test]
#[should_panic(expected = "byte 6 is the DATA asked less the DATA confirmed")]
fn an_end_that_counts_what_does_not_ask_is_told() {
    in_batch().said(CLIENT, &data()).with_unconfirmed(CLIENT, 1).watch();
}

#[test]
#[should_panic(expected = "byte 6 is the DATA asked less the DATA confirmed")]
fn an_end_that_counts_what_it_accepted_is_told() {
    in_batch().carried(CLIENT, &asking()).with_unconfirmed(SERVER, 1).watch();
}

#[test]
#[should_panic(expected = "byte 6 is the DATA asked less the DATA confirmed")]
fn a_close_that_leaves_what_is_unconfirmed_is_told() {
    let session = in_batch().said(CLIENT, &asking()).said(CLIENT, &Send::Close { code: 0 });
    session.with_unconfirmed(CLIENT, 1).watch();
}

/// The confirmation comes while the DATA is still on its way.
#[test]
#[should_panic(expected = "DATA that are confirmed were accepted")]
fn data_confirmed_before_they_are_accepted_are_told() {
    let mut session = in_batch().said(CLIENT, &asking());
    let accepted = session.after_delivery(SERVER).expect("the DATA is on its way");
    session.inboxes[CLIENT] = accepted.inboxes[CLIENT].clone();
    session.after_delivery(CLIENT);
}

#[test]
#[should_panic(expected = "no more data than it agreed to")]
fn an_end_that_sends_more_than_it_agreed_to_is_told() {
    let session = in_batch().counting(CLIENT, 3);
    session.said(CLIENT, &data()).said(CLIENT, &data()).said(CLIENT, &data());
}

#[test]
#[should_panic(expected = "a batch agreed is never more than its offer")]
fn a_client_that_agrees_to_more_than_its_offer_is_told() {
    let session = in_batch().carried(CLIENT, &data()).carried(CLIENT, &data());
    session.carried(SERVER, &Send::Ready { count: 1 }).counting(CLIENT, 2).said(CLIENT, &Send::Ready { count: 2 });
}

#[test]
#[should_panic(expected = "no more READYs of the client than offers")]
fn a_client_that_agrees_without_an_offer_is_told() {
    let mut session = in_batch();
    session.blocks[CLIENT] = session.state(CLIENT).after_ready(2, Phase::Offer).block();
    session.said(CLIENT, &Send::Ready { count: 2 });
}
