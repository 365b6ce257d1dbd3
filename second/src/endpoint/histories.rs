//! What two ends have sent and heard since both were made, and what demand 3 says of it at every moment.
//!
//! What is over is not kept: data that were accepted, offers that were answered, READYs that were heard or that an end
//! which has itself closed no longer hears, and asks that were confirmed or that a close cleared.

use std::collections::VecDeque;

use crate::control::{self, CONTROL_FRAME};
use crate::endpoint::{Heard, Send, ACK_REQUEST, ASK, CLOSE, DATA, READY};

/// The two ends.
pub const CLIENT: usize = 0;
pub const SERVER: usize = 1;
pub const ENDS: [usize; 2] = [CLIENT, SERVER];

/// What a DATA carries: its type-data, whether it asks for a confirmation, and its body where it has one. A missing
/// body is another than an empty one.
type Item = (u64, bool, Option<Vec<u8>>);

/// What one end has sent and heard. Each READY counts where this end sent or heard it.
#[derive(Clone, Default, PartialEq, Eq, Hash)]
struct History {
    /// Whether it wrote a CLOSE, the one that refuses an OPEN included, and whether it heard one.
    has_closed: bool,
    heard_close: bool,
    /// The non-zero READYs of the server to which there is no READY of the client yet, the oldest first.
    offers: VecDeque<u64>,
    /// How many data it may still send or accept in its batch.
    left: u64,
    /// The data that the other end sent and it has not accepted, the oldest first.
    due: VecDeque<Item>,
    /// The counts of the READYs that the other end sent and it has not heard, the oldest first; none once it has itself
    /// written a CLOSE.
    readys_due: VecDeque<u64>,
    /// The type-data of the DATA with an ask whose confirmation it has not heard, the oldest first: of all that it
    /// sent, and of those that the other end accepted; none once it is closed.
    unconfirmed: VecDeque<u64>,
    accepted_there: VecDeque<u64>,
}

impl History {
    /// A CLOSE written. From here on it hears nothing.
    fn close(&mut self) {
        self.has_closed = true;
        self.readys_due.clear();
        self.await_nothing();
    }

    /// A CLOSE heard.
    fn hear_close(&mut self) {
        self.heard_close = true;
        self.await_nothing();
    }

    /// A close clears what is awaited.
    fn await_nothing(&mut self) {
        self.unconfirmed.clear();
        self.accepted_there.clear();
    }

    /// A DATA that it sent with an ask and that the other end accepted.
    fn note_accepted_there(&mut self, type_data: u64) {
        if !self.has_closed && !self.heard_close {
            self.accepted_there.push_back(type_data);
        }
    }

    /// A confirmation of DATA heard. The DATA confirmed are the first of those that it sent with an ask, in order, and
    /// a leading part of those with an ask that the other end accepted.
    fn confirm(&mut self, type_data: u64) {
        let asked = self.unconfirmed.pop_front();
        assert_eq!(asked, Some(type_data), "DATA are confirmed in the order in which they asked");
        let accepted = self.accepted_there.pop_front();
        assert_eq!(accepted, Some(type_data), "DATA that are confirmed were accepted, in this order");
    }

    /// A READY that the other end sent.
    fn await_ready(&mut self, count: u64) {
        if !self.has_closed {
            self.readys_due.push_back(count);
        }
    }

    /// A READY heard. The READYs heard are a leading part of those that the other end sent.
    fn hear_ready(&mut self, count: u64) {
        let next = self.readys_due.pop_front();
        assert_eq!(next, Some(count), "READYs are heard as they were sent");
    }

    /// A READY of the server, which offers a batch unless it is READY(0).
    fn offer(&mut self, count: u64) {
        if count != 0 {
            self.offers.push_back(count);
        }
    }

    /// A READY of the client. A batch agreed is never more than its offer: the i-th READY of the client is at most the
    /// i-th non-zero READY of the server, and there are no more of the client's than of those.
    fn agree(&mut self, count: u64) {
        let offer = self.offers.pop_front().expect("there are no more READYs of the client than offers");
        assert!(count <= offer, "a batch agreed is never more than its offer");
        self.left = count;
    }

    /// A DATA sent or accepted. Each end stays within what it agreed: the data that it sent and accepted are no more
    /// than the counts of the client's READYs, in each batch and so in all batches together.
    fn carry(&mut self) {
        let left = self.left.checked_sub(1);
        self.left = left.expect("an end sends and accepts no more data than it agreed to");
    }

    /// A DATA accepted. The data accepted are a leading part of those that the other end sent.
    fn accept(&mut self, type_data: u64, asks: bool, body: Option<&[u8]>) {
        let next = self.due.pop_front();
        let is_next = matches!(next, Some(sent) if (sent.0, sent.1, sent.2.as_deref()) == (type_data, asks, body));
        assert!(is_next, "data are accepted as they were sent");
        self.carry();
    }

    /// Nothing is lost: an end that has not itself written a CLOSE, and to which nothing is on its way, has accepted
    /// all data that the other end sent. This holds also of an end that heard a CLOSE.
    fn lost_nothing(&self, on_their_way: usize) -> bool {
        self.has_closed || on_their_way != 0 || self.due.is_empty()
    }

    /// No READY is lost: an end that has not itself written a CLOSE, and to which nothing is on its way, has heard
    /// every READY that the other end sent. This holds also of an end that heard a CLOSE.
    fn lost_no_ready(&self, on_their_way: usize) -> bool {
        on_their_way != 0 || self.readys_due.is_empty()
    }

    /// A CLOSE that is heard was written: where an end heard a CLOSE, the other end has itself written one.
    fn heard_a_close_written(&self, other: &History) -> bool {
        !self.heard_close || other.has_closed
    }

    /// A CLOSE that was written closes the other end once it has arrived: where the other end has written a CLOSE and
    /// nothing is on its way to this one, it has heard a CLOSE or written one itself.
    fn is_closed_by(&self, other: &History, on_their_way: usize) -> bool {
        !other.has_closed || on_their_way != 0 || self.heard_close || self.has_closed
    }

    /// Nothing is on its way to an end that heard a CLOSE.
    fn is_quiet(&self, on_their_way: usize) -> bool {
        !self.heard_close || on_their_way == 0
    }
}

/// The histories of both ends; new ones where both ends are made, and made again.
#[derive(Clone, Default, PartialEq, Eq, Hash)]
pub struct Histories([History; 2]);

impl Histories {
    /// Whether an end has itself written a CLOSE.
    pub fn has_closed(&self, end: usize) -> bool {
        self.0[end].has_closed
    }

    pub fn neither_has_closed(&self) -> bool {
        !ENDS.into_iter().any(|end| self.has_closed(end))
    }

    /// Notes a message that an end sent.
    pub fn note_sent(&mut self, end: usize, send: &Send) {
        match send {
            Send::Ready { count } => {
                self.note_ready(end, end, u64::from(*count));
                self.0[1 - end].await_ready(u64::from(*count));
            }
            Send::Data { type_data, how, .. } => {
                let (type_data, asks) = (u64::from(*type_data), how & ASK != 0);
                let body = send.lent().body().map(<[u8]>::to_vec);
                self.0[end].carry();
                self.0[end].unconfirmed.extend(asks.then_some(type_data));
                self.0[1 - end].due.push_back((type_data, asks, body));
            }
            Send::Close { .. } => self.0[end].close(),
            Send::Open { .. } | Send::Noop { .. } => {}
        }
    }

    /// Notes a reply that an end wrote, which is a confirmation or the CLOSE that refuses an OPEN.
    pub fn note_reply(&mut self, end: usize, reply: &[u8]) {
        let control_frame = &reply[reply.len() - CONTROL_FRAME..];
        if control::message_type(control_frame) == CLOSE {
            self.0[end].close();
        }
    }

    /// Notes a message other than data that an end heard; a DATA among these is a confirmation.
    pub fn note_heard(&mut self, end: usize, heard: &Heard) {
        match heard[0] as u8 {
            READY => {
                self.note_ready(end, 1 - end, heard[2]);
                self.0[end].hear_ready(heard[2]);
            }
            DATA => self.0[end].confirm(heard[2]),
            CLOSE => self.0[end].hear_close(),
            _ => {}
        }
    }

    /// Notes a DATA that an end accepted, with its body where one was heard.
    pub fn note_accepted(&mut self, end: usize, heard: &Heard, body: Option<&[u8]>) {
        let (type_data, asks) = (heard[2], heard[1] == u64::from(ACK_REQUEST));
        self.0[end].accept(type_data, asks, body);
        if asks {
            self.0[1 - end].note_accepted_there(type_data);
        }
    }

    /// Notes a READY that one of the ends sent, at the end itself or where the other hears it.
    fn note_ready(&mut self, end: usize, sender: usize, count: u64) {
        if sender == SERVER {
            self.0[end].offer(count);
        } else {
            self.0[end].agree(count);
        }
    }

    /// Watches what holds at every moment, where so many messages are on their way to each end.
    pub fn watch(&self, on_their_way: [usize; 2]) {
        for end in ENDS {
            let (history, other, on_their_way) = (&self.0[end], &self.0[1 - end], on_their_way[end]);
            assert!(history.lost_nothing(on_their_way), "nothing is lost on its way to an end that has not closed");
            assert!(history.lost_no_ready(on_their_way), "no READY is lost on its way to an end that has not closed");
            assert!(history.is_quiet(on_their_way), "nothing is on its way to an end that heard a CLOSE");
            assert!(history.heard_a_close_written(other), "a CLOSE that is heard was written");
            assert!(history.is_closed_by(other, on_their_way), "a CLOSE that has arrived closes the other end");
        }
    }

    /// Watches byte 6 of the block of each end: the DATA that it sent with an ask less those confirmed, and 0 behind a
    /// close.
    pub fn watch_unconfirmed(&self, bytes: [u8; 2]) {
        let asked_less_confirmed = ENDS.map(|end| self.0[end].unconfirmed.len());
        assert_eq!(bytes.map(usize::from), asked_less_confirmed, "byte 6 is the DATA asked less the DATA confirmed");
    }
}

#[cfg(test)]
mod tests;
