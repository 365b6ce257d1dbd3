//! Sessions: a fresh client and a fresh server with a queue of messages to each, and any schedule of sends and
//! deliveries.
//!
//! Every block and message that is lent is the one that the model gave in the call before. The comparison ends at the
//! first answer that differs, so it is also the one that the library gave.
//!
//! On the way it is watched that the two ends understand each other: neither refuses a message of the other, but for an
//! OPEN for what is not offered and for what comes after its own close; a CLOSE that is heard was written, and one that
//! was written closes the other end once it has arrived; nothing comes to an end that heard a CLOSE; the data accepted
//! and the READYs heard are the first of those sent, and all of them where nothing is on its way to an end that has not
//! itself closed; a body that is missing is accepted as missing, and an empty one as empty; each end sends and accepts
//! no more than the batches that it agreed to, and none of these is more than its offer; byte 6 of each end's block is
//! the DATA that it sent with an ask less those confirmed, and 0 behind a close; the DATA confirmed are the first of
//! those sent with an ask, and of those with an ask that the other end accepted; and while neither has closed and
//! nothing is on its way, both have one phase and one count, neither awaits a confirmation, and one of them may still
//! send something other than NOOP and CLOSE. Now and then, where nothing is on its way, both ends are made again, and
//! all this holds again from there.

use std::collections::VecDeque;

use super::{blocks, reply_room, room_for, sends, REPLY};
use crate::calls::{Make, Receive, SendMessage};
use crate::endpoint::{self, Flow, Heard, Histories, Phase, Role, Send, State};
use crate::endpoint::{ACK_REPLY, ASK, BLOCK, CLIENT, DATA, ENDS, NO_BODY, OPEN, SERVER};
use crate::generate::open::{other_text, short_text};
use crate::generate::{add, Calls};
use crate::open::{DEFAULT_LIMIT, NOT_OFFERED, OTHER_FORMAT};
use crate::random::Random;

/// The room that every message but a DATA fits into.
const ENOUGH: usize = 700;

/// How a session goes: each is done one in so many times.
#[derive(Clone, Copy)]
struct Temper {
    /// The ends do not go together: the flow, name or format is not the offered one.
    strangers: u64,
    /// What is on its way is left waiting.
    waits: u64,
    /// A NOOP or DATA does not ask for a confirmation.
    no_ask: u64,
    /// An end that has something else to send sends a NOOP.
    noops: u64,
    /// A step closes.
    closes: u64,
    /// A step where nothing is on its way makes both ends again.
    makes: u64,
    /// A step gives bad arguments or too little room.
    errs: u64,
    /// A READY has a count so large that its batch will not end.
    long: u64,
    /// A body is as long as the limit allows, or a byte longer.
    large: u64,
}

const NEVER: u64 = u64::MAX;
const EVEN: Temper =
    Temper { strangers: 10, waits: 3, no_ask: 2, noops: 8, closes: 150, makes: 30, errs: 12, long: 20, large: NEVER };

/// An end: its block, and the messages that are on their way to it.
struct End {
    block: Vec<u8>,
    inbox: VecDeque<Vec<u8>>,
}

impl End {
    fn state(&self) -> State {
        State::read(&self.block).expect("a block that an endpoint leaves is good")
    }
}

struct Session<'a> {
    random: &'a mut Random,
    calls: &'a mut Calls,
    temper: Temper,
    ends: [End; 2],
    /// The names and formats: what the client opens, and what the server offers.
    opened: (Vec<u8>, Vec<u8>),
    offered: (Vec<u8>, Vec<u8>),
    /// Whether the flows go together, and whether the client has opened what the server offers.
    flows_meet: bool,
    meets: bool,
    histories: Histories,
}

impl<'a> Session<'a> {
    /// Two fresh ends, made in blocks of any bytes.
    fn new(random: &'a mut Random, calls: &'a mut Calls, temper: Temper, flow: Flow) -> Session<'a> {
        let ends = ENDS.map(|_| End { block: random.bytes(BLOCK), inbox: VecDeque::new() });
        let mut session = Session {
            random,
            calls,
            temper,
            ends,
            opened: Default::default(),
            offered: Default::default(),
            flows_meet: false,
            meets: false,
            histories: Histories::default(),
        };
        session.make(flow);
        session
    }

    /// Makes both ends in their blocks, the client with this flow. Where nothing is on its way both ends may be made
    /// again at any time, and all that is watched holds again from there, with new histories.
    fn make(&mut self, flow: Flow) {
        assert!(self.all_delivered(), "both ends are made only where nothing is on its way");
        let (limit, server_flow) = (self.limit(), self.choose_pipe(flow));
        self.make_end(CLIENT, Role::Client, flow, limit);
        self.make_end(SERVER, Role::Server, server_flow, DEFAULT_LIMIT);
        (self.flows_meet, self.meets) = (server_flow != flow, false);
        self.histories = Histories::default();
        self.watch_step();
    }

    /// Chooses what a client of this flow opens and what the server offers, and answers the server's flow. They mostly
    /// go together.
    fn choose_pipe(&mut self, flow: Flow) -> Flow {
        let random = &mut *self.random;
        let (name, format) = (short_text(random), if random.one_in(2) { Vec::new() } else { short_text(random) });
        self.opened = (name.clone(), format.clone());
        self.offered = (name, format);
        if random.one_in(self.temper.strangers) {
            match random.between(0, 3) {
                0 => return flow,
                1 => self.offered.0 = other_text(random, &self.opened.0),
                _ => self.offered.1 = other_text(random, &self.opened.1),
            }
        }
        flow.other()
    }

    /// A limit for the client.
    fn limit(&mut self) -> u32 {
        match self.temper.large {
            NEVER => blocks::limit(self.random),
            _ => self.random.choose(&[1_000_000, 1_000_001, 1_000_100]),
        }
    }

    /// Makes an end in its block.
    fn make_end(&mut self, end: usize, role: Role, flow: Flow, limit: u32) {
        let block = self.ends[end].block.clone();
        let (number, made) = endpoint::made(&block, role, flow as u8, limit);
        assert_eq!(number, 0, "an end is made whatever its block was");
        add(self.calls, Make { role, block, flow: flow as u8, limit });
        self.ends[end].block = made;
    }

    /// Whether nothing is on its way.
    fn all_delivered(&self) -> bool {
        self.ends.iter().all(|end| end.inbox.is_empty())
    }

    fn phase(&self, end: usize) -> Phase {
        self.ends[end].state().phase
    }

    /// Sends from an end into a room of so many bytes.
    fn send_into(&mut self, end: usize, send: &Send, room: usize) {
        let block = self.ends[end].block.clone();
        let sent = endpoint::sent(&block, send, &vec![0; room]);
        add(self.calls, SendMessage { block, send: send.clone(), room });
        if sent.number == 0 {
            self.ends[end].block = sent.block;
            self.ends[1 - end].inbox.push_back(sent.out[..sent.written as usize].to_vec());
            self.note(end, send);
        }
    }

    /// Notes what the watch needs to know of a send.
    fn note(&mut self, end: usize, send: &Send) {
        if let Send::Open { name, format } = send {
            let format_meets = format.is_empty() || *format == self.offered.1;
            self.meets = self.flows_meet && *name == self.offered.0 && format_meets;
        }
        self.histories.note_sent(end, send);
    }

    /// Sends from an end into a room that is mostly long enough.
    fn send(&mut self, end: usize, send: &Send) {
        let needed = sends::needed(&self.ends[end].state(), send);
        let room = if self.random.one_in(self.temper.errs) { room_for(self.random, needed) } else { needed };
        self.send_into(end, send, room);
    }

    /// Delivers the oldest message to an end, into a room that is mostly long enough for the reply; else the end is as
    /// before, and the message is delivered again later.
    fn deliver(&mut self, end: usize) {
        let Some(message) = self.ends[end].inbox.front().cloned() else {
            return;
        };
        let room = reply_room(self.random);
        let (name, format) = self.offered.clone();
        let block = self.ends[end].block.clone();
        let received = endpoint::received(&block, &message, &name, &format, &vec![0; room]);
        add(self.calls, Receive { block, message: message.clone(), name, format, room });
        let is_short = received.number == endpoint::SHORT_OUTPUT;
        assert_eq!(is_short, room < REPLY, "an output is too short just where no reply fits into it");
        if is_short {
            let is_unheard = received.block == self.ends[end].block && received.heard == [0; 16];
            assert!(is_unheard, "an output that is too short leaves the end as it was");
            return;
        }
        self.ends[end].inbox.pop_front();
        self.watch(end, &message, received.number, &received.heard);
        self.ends[end].block = received.block;
        if received.heard[3] != 0 {
            let reply = received.out[..REPLY].to_vec();
            self.histories.note_reply(end, &reply);
            self.ends[1 - end].inbox.push_back(reply);
        }
    }

    /// Watches what came of a message.
    fn watch(&mut self, end: usize, message: &[u8], number: u64, heard: &Heard) {
        match number {
            0 => self.watch_heard(end, message, heard),
            endpoint::IS_CLOSED => assert!(self.histories.has_closed(end), "only an end that has closed hears nothing"),
            NOT_OFFERED | OTHER_FORMAT => {
                assert!(end == SERVER && !self.meets, "an OPEN for what is offered is heard");
            }
            _ => panic!("an end refuses as {number} what the other sent: {message:?}"),
        }
    }

    /// Watches a message that is heard.
    fn watch_heard(&mut self, end: usize, message: &[u8], heard: &Heard) {
        let is_confirmation = heard[1] & u64::from(ACK_REPLY) != 0;
        match heard[0] as u8 {
            OPEN => assert!(self.meets, "an OPEN for what is not offered is refused"),
            DATA if !is_confirmation => self.watch_data(end, message, heard),
            _ => self.histories.note_heard(end, heard),
        }
    }

    /// Watches the data that are accepted: the next that were sent, and no more than were agreed to.
    fn watch_data(&mut self, end: usize, message: &[u8], heard: &Heard) {
        self.histories.note_accepted(end, heard, endpoint::body_heard(message, heard));
    }

    /// Watches what holds at every moment.
    fn watch_step(&mut self) {
        self.histories.watch(ENDS.map(|end| self.ends[end].inbox.len()));
        self.histories.watch_unconfirmed(ENDS.map(|end| self.ends[end].block[6]));
        self.watch_progress();
    }

    /// Where neither end has closed and nothing is on its way, they agree on phase, count and limit and await no
    /// confirmation, and the send with which they go on is accepted.
    fn watch_progress(&mut self) {
        if !self.all_delivered() || !self.histories.neither_has_closed() {
            return;
        }
        let [client, server] = ENDS.map(|end| self.ends[end].state());
        endpoint::agree_at_rest(&client, &server);
        let (role, send) = endpoint::send_at_rest(&client);
        let end = if role == Role::Client { CLIENT } else { SERVER };
        let block = self.ends[end].block.clone();
        let number = endpoint::sent(&block, &send, &[0; ENOUGH]).number;
        assert_eq!(number, 0, "in phase {:?} the {role:?} may send {send:?}", client.phase);
        add(self.calls, SendMessage { block, send, room: ENOUGH });
    }

    /// How a NOOP or DATA is sent: with an ask for a confirmation or without, and a DATA with a body or without.
    fn how(&mut self) -> u8 {
        let ask = if self.random.one_in(self.temper.no_ask) { 0 } else { ASK };
        let no_body = if self.random.one_in(3) { NO_BODY } else { 0 };
        ask | no_body | sends::unknown_options(self.random)
    }

    /// The body that is lent to a DATA, whether it is sent with one or not.
    fn body(&mut self, limit: u32) -> Vec<u8> {
        if self.random.one_in(self.temper.large) {
            let length = limit as usize - 8 + self.random.between(0, 1);
            return vec![self.random.byte(); length];
        }
        sends::body(self.random)
    }

    /// A count for a READY: mostly small, so that batches end.
    fn count(&mut self, most: u16) -> u16 {
        if self.random.one_in(self.temper.long) {
            let any = self.random.between(0, most.into()) as u16;
            return self.random.choose(&[any, most]);
        }
        self.random.choose(&[0, 1, 1, 2, 3, 5, 17]).min(most)
    }

    /// Whether an end has something other than NOOP and CLOSE to send.
    fn has_turn(&self, end: usize) -> bool {
        let state = self.ends[end].state();
        match (state.role, state.phase) {
            (_, Phase::Batch) => state.is_producer(),
            (Role::Client, phase) => matches!(phase, Phase::Fresh | Phase::Offer),
            (Role::Server, phase) => matches!(phase, Phase::Opening | Phase::Idle),
        }
    }

    /// What an end may send next; one that waits for the other has only NOOPs to send.
    fn next_send(&mut self, end: usize) -> Send {
        let state = self.ends[end].state();
        let type_data = blocks::type_data(self.random);
        let noop = self.random.one_in(self.temper.noops);
        match (state.role, state.phase) {
            (_, Phase::Closed) => {
                let mut sends = sends::one_of_each(self.random).to_vec();
                sends.swap_remove(self.random.between(0, sends.len() - 1))
            }
            (Role::Client, Phase::Fresh) => {
                let (name, format) = self.opened.clone();
                Send::Open { name, format }
            }
            (Role::Client, Phase::Offer) if !noop => Send::Ready { count: self.count(state.n) },
            (Role::Server, Phase::Idle) if !noop => Send::Ready { count: self.count(u16::MAX) },
            (Role::Server, Phase::Opening) => Send::Ready { count: self.count(u16::MAX) },
            (_, Phase::Batch) if state.is_producer() && !noop => {
                let (how, body) = (self.how(), self.body(state.limit));
                Send::Data { type_data, how, body }
            }
            _ => Send::Noop { type_data, how: self.how() },
        }
    }

    /// A send that may be refused, but neither opens nor closes.
    fn any_send(&mut self) -> Send {
        let [_, ready, data, noop, _] = sends::one_of_each(self.random);
        match self.random.between(0, 5) {
            0 => Send::Open { name: Vec::new(), format: Vec::new() },
            1 => Send::Close { code: self.random.choose(&[7, 99, 104, 255, 65_535]) },
            2 if self.temper.long != NEVER => ready,
            3 if self.temper.long != NEVER => Send::Ready { count: u16::MAX },
            4 => data,
            _ => noop,
        }
    }

    /// One step: both ends made again, a delivery, a send, or a close.
    fn step(&mut self) {
        let end = self.random.choose(&ENDS);
        if self.all_delivered() && self.random.one_in(self.temper.makes) {
            let flow = self.random.choose(&Flow::ALL);
            self.make(flow);
        } else if !self.ends[end].inbox.is_empty() && !self.random.one_in(self.temper.waits) {
            self.deliver(end);
        } else if self.random.one_in(self.temper.closes) {
            let code = self.random.choose(&[0, 1, 2, 3, 4, 5, 6, 100, 101, 102, 103]);
            self.send(end, &Send::Close { code });
        } else if self.random.one_in(self.temper.errs) {
            let send = self.any_send();
            self.send(end, &send);
        } else {
            let end = if self.has_turn(end) || self.random.one_in(8) { end } else { 1 - end };
            let send = self.next_send(end);
            self.send(end, &send);
        }
        self.watch_step();
    }

    /// Goes on for so many steps, but not long after both ends are closed.
    fn go(&mut self, steps: usize) {
        for _ in 0..steps {
            let over = ENDS.iter().all(|end| self.phase(*end) == Phase::Closed);
            if over && self.random.one_in(6) {
                return;
            }
            self.step();
        }
    }

    /// Goes on until an end is in this phase, which then closes with this code, and delivers what is on its way.
    fn close_in(&mut self, end: usize, phase: Phase, code: u16) {
        while self.phase(end) != phase {
            assert_ne!(self.phase(end), Phase::Closed, "nobody has closed yet");
            self.step();
        }
        self.send_into(end, &Send::Close { code }, REPLY);
        self.watch_step();
        self.drain();
    }

    /// Delivers until nothing is on its way.
    fn drain(&mut self) {
        while !self.all_delivered() {
            let end = self.random.choose(&ENDS);
            self.deliver(end);
            self.watch_step();
        }
    }
}

/// Adds a session of so many steps.
fn add_session(calls: &mut Calls, random: &mut Random, temper: Temper, steps: usize) {
    let flow = random.choose(&Flow::ALL);
    let mut session = Session::new(random, calls, temper, flow);
    session.go(steps);
    session.drain();
}

/// Sessions of all lengths.
pub fn sessions(random: &mut Random) -> Calls {
    let mut calls = Calls::new();
    for _ in 0..30 {
        let steps = random.between(20, 200);
        add_session(&mut calls, random, EVEN, steps);
    }
    calls
}

/// Sessions in which little is delivered and much is asked, so that confirmations are awaited up to the most, in some
/// of them by DATA alone.
pub fn of_many_confirmations(random: &mut Random) -> Calls {
    let mut calls = Calls::new();
    for _ in 0..6 {
        let steps = random.between(60, 160);
        let waits = random.choose(&[1, 2, 2]);
        let mixed = Temper { waits: 2, no_ask: 10, ..EVEN };
        let temper = random.choose(&[mixed, mixed, Temper { noops: NEVER, long: 1, ..mixed }]);
        let flow = random.choose(&Flow::ALL);
        let mut session = Session::new(random, &mut calls, temper, flow);
        session.go(40);
        session.temper.waits = waits;
        session.go(steps);
        session.drain();
    }
    calls
}

/// Now and then a session with data as long as the limit allows.
pub fn of_large_data(random: &mut Random) -> Calls {
    let mut calls = Calls::new();
    let large = if random.one_in(8) { 3 } else { NEVER };
    add_session(&mut calls, random, Temper { strangers: NEVER, large, ..EVEN }, 100);
    calls
}

/// Sessions that either end closes in each phase with each code, and in which all that is on its way is then delivered.
pub fn closed_in_every_phase(random: &mut Random) -> Calls {
    let mut calls = Calls::new();
    let temper = Temper { strangers: NEVER, closes: NEVER, long: NEVER, ..EVEN };
    for phase in [Phase::Opening, Phase::Idle, Phase::Offer, Phase::Batch] {
        for end in ENDS {
            for code in [0, 1, 2, 3, 4, 5, 6, 7, 99, 100, 101, 102, 103, 104, 65_535] {
                for flow in Flow::ALL {
                    let mut session = Session::new(random, &mut calls, temper, flow);
                    session.close_in(end, phase, code);
                }
            }
        }
    }
    calls
}

#[cfg(test)]
mod tests;
