//! OPENs between whole endpoints: the stored vectors, what a client writes and a server hears, and random fields.

use super::drafts::Draft;
use super::{reply_room, sends, REPLY};
use crate::calls::SendMessage;
use crate::endpoint::{self, Flow, Phase, Role, Send, State, LIMITS};
use crate::generate::open::{damaged, every, offer, opening};
use crate::generate::{add, Calls};
use crate::open::{Offer, Opening, OUT_OF_RANGE};
use crate::random::Random;
use crate::vectors;

/// The fresh client that opens a pipe so.
fn client(opening: &Opening) -> State {
    let flow = if opening.producer { Flow::Producer } else { Flow::Consumer };
    State::fresh(Role::Client, flow, opening.limit)
}

/// Adds the OPEN that a client sends, and the same as a server with this offer receives it; the model must hear it and
/// take the limit over.
fn add_opened(calls: &mut Calls, random: &mut Random, opening: &Opening, offer: &Offer) {
    let client = client(opening);
    let send = Send::Open { name: opening.name.clone(), format: opening.format.clone() };
    let needed = sends::needed(&client, &send);
    let sent = endpoint::sent(&client.block(), &send, &vec![0; needed]);
    assert_eq!((sent.number, sent.written), (0, needed as u64));
    let call = sends::to_block(random, client.block(), send.clone(), &client);
    add(calls, call);
    add(calls, SendMessage { block: client.block(), send, room: needed });
    let draft = Draft::open(random, Vec::new(), offer);
    let heard = endpoint::received(&draft.state.block(), &sent.out, &offer.name, &offer.format, &[0; REPLY]);
    let opened = State { phase: Phase::Opening, limit: opening.limit, ..draft.state.clone() };
    assert_eq!((heard.number, heard.block), (0, opened.block()));
    let room = reply_room(random);
    add(calls, draft.with_bytes(sent.out, room));
}

/// Every stored OPEN frame in an OPEN to a fresh server, and those that a client writes also from one; the model must
/// hear or refuse each as it is stored.
pub fn stored(random: &mut Random) -> Calls {
    let mut calls = Calls::new();
    for vector in vectors::opens() {
        let offer = vector.offer();
        let draft = Draft::open(random, vector.bytes.clone(), &offer);
        let good_limit = || LIMITS.contains(&vector.opening().limit);
        let number = match vector.refusal() {
            Some((number, _)) => number,
            None if good_limit() => 0,
            None => OUT_OF_RANGE,
        };
        assert_eq!(draft.number(), number);
        add(&mut calls, draft.call(REPLY));
        if vector.is_written() && good_limit() {
            add_opened(&mut calls, random, &vector.opening(), &offer);
        }
    }
    calls
}

/// OPENs to servers whose offers differ from them at every byte, or not at all.
pub fn offers(random: &mut Random) -> Calls {
    let mut calls = Calls::new();
    for (frame, offer) in every::frames_and_offers(random) {
        let draft = Draft::open(random, frame, &offer);
        add(&mut calls, draft.call(REPLY));
    }
    calls
}

/// OPENs that are sent and heard.
pub fn round_trips(random: &mut Random) -> Calls {
    let mut calls = Calls::new();
    for _ in 0..80 {
        let opening = opening(random);
        let offer = offer(random, &opening);
        add_opened(&mut calls, random, &opening, &offer);
    }
    calls
}

/// OPENs of a few good and bad fields in any order, to a fresh server.
pub fn random_fields(random: &mut Random) -> Calls {
    let mut calls = Calls::new();
    for _ in 0..150 {
        let (frame, offer) = damaged::fields_and_offer(random);
        let draft = Draft::open(random, frame, &offer);
        add(&mut calls, draft.call(REPLY));
    }
    calls
}
