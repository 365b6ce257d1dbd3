//! Messages before they are put together, each with the endpoint that it comes to; and those that are valid there.

use super::blocks::{self, good_in, type_data};
use super::sends::body;
use super::{reply_room, MOST_OPEN, REPLY};
use crate::calls::Receive;
use crate::control::{SIGNATURE, VERSION};
use crate::endpoint::{self, Flow, Phase, Role, State};
use crate::endpoint::{ACK_REPLY, ACK_REQUEST, CLOSE, DATA, NOOP, OPEN, READY};
use crate::generate::bundles::Parts;
use crate::generate::{add, control, open, Calls};
use crate::open::Offer;
use crate::random::Random;

/// A message and the endpoint that it comes to, with the name and format that are offered there.
#[derive(Clone)]
pub struct Draft {
    pub state: State,
    pub parts: Parts,
    pub name: Vec<u8>,
    pub format: Vec<u8>,
}

impl Draft {
    /// A message of a control frame alone, to an endpoint where a name and a format are offered.
    pub fn new(state: State, message_type: u8, flags: u8, type_data: u16, random: &mut Random) -> Draft {
        let control = control::frame(SIGNATURE, 8 * message_type + VERSION, flags, type_data.to_be_bytes());
        let (_, offer) = open::met(random);
        Draft { state, parts: Parts::of_frames(vec![control]), name: offer.name, format: offer.format }
    }

    /// An OPEN with this frame to a fresh server that has this offer.
    pub fn open(random: &mut Random, frame: Vec<u8>, offer: &Offer) -> Draft {
        let flow = if offer.producer { Flow::Producer } else { Flow::Consumer };
        let state = good_in(random, Role::Server, flow, Phase::Fresh);
        let flags = random.choose(&[0, 0, 0, ACK_REQUEST]);
        let mut draft = Draft::new(state, OPEN, flags, type_data(random), random);
        draft.push_frame(frame);
        Draft { name: offer.name.clone(), format: offer.format.clone(), ..draft }
    }

    pub fn message_type(&self) -> u8 {
        self.parts.bodies[0][4] / 8
    }

    pub fn flags(&self) -> u8 {
        self.parts.bodies[0][5]
    }

    /// Puts other bytes in place of the control frame, with its length.
    pub fn replace_control(&mut self, control: Vec<u8>) {
        self.parts.lengths[0] = control.len() as u32;
        self.parts.bodies[0] = control;
    }

    /// Adds a data frame, with its length.
    pub fn push_frame(&mut self, frame: Vec<u8>) {
        self.parts.count += 1;
        self.parts.lengths.push(frame.len() as u32);
        self.parts.bodies.push(frame);
    }

    /// Takes the last data frame away, with its length.
    pub fn pop_frame(&mut self) {
        self.parts.count -= 1;
        self.parts.lengths.pop();
        self.parts.bodies.pop();
    }

    /// The call in which these bytes come instead of the message.
    pub fn with_bytes(&self, message: Vec<u8>, room: usize) -> Receive {
        let (name, format) = (self.name.clone(), self.format.clone());
        Receive { block: self.state.block(), message, name, format, room }
    }

    /// The call in which the message comes.
    pub fn call(&self, room: usize) -> Receive {
        self.with_bytes(self.parts.bytes(), room)
    }

    /// The call in which the message comes to another block.
    pub fn to_block(&self, block: Vec<u8>, room: usize) -> Receive {
        Receive { block, ..self.call(room) }
    }

    /// The number that the model answers.
    pub fn number(&self) -> u64 {
        let (block, message) = (self.state.block(), self.parts.bytes());
        endpoint::received(&block, &message, &self.name, &self.format, &[0; REPLY]).number
    }
}

/// The data frames of a CLOSE, which may be anything.
fn push_any_frames(draft: &mut Draft, random: &mut Random) {
    let most = random.choose(&[0, 0, 1, 3, 15]);
    for _ in 0..random.between(0, most) {
        let length = random.between(0, 12);
        draft.push_frame(random.bytes(length));
    }
}

fn close(random: &mut Random) -> Draft {
    let (role, flow) = (random.choose(&Role::ALL), random.choose(&Flow::ALL));
    let phase = random.choose(&[Phase::Opening, Phase::Idle, Phase::Offer, Phase::Batch]);
    let state = good_in(random, role, flow, phase);
    let flags = control::flags(random);
    let mut draft = Draft::new(state, CLOSE, flags, type_data(random), random);
    push_any_frames(&mut draft, random);
    draft
}

pub fn opening(random: &mut Random) -> Draft {
    loop {
        let (said, offer) = open::met(random);
        let frame = said.message(random).bytes();
        if frame.len() <= MOST_OPEN {
            return Draft::open(random, frame, &offer);
        }
    }
}

fn ready_to_client(random: &mut Random) -> Draft {
    let (flow, phase) = (random.choose(&Flow::ALL), random.choose(&[Phase::Opening, Phase::Idle]));
    let state = good_in(random, Role::Client, flow, phase);
    let count = if random.one_in(4) { 0 } else { blocks::count(random) };
    let flags = random.choose(&[0, 0, ACK_REQUEST]);
    Draft::new(state, READY, flags, count, random)
}

fn ready_to_server(random: &mut Random) -> Draft {
    let flow = random.choose(&Flow::ALL);
    let state = good_in(random, Role::Server, flow, Phase::Offer);
    let any = random.between(0, state.n.into()) as u16;
    let count = random.choose(&[0, 1, state.n - 1, state.n, any]);
    let flags = random.choose(&[0, 0, ACK_REQUEST]);
    Draft::new(state, READY, flags, count, random)
}

/// A DATA with a body, often an empty one, or without.
fn data(random: &mut Random) -> Draft {
    let role = random.choose(&Role::ALL);
    let state = good_in(random, role, Flow::Consumer, Phase::Batch);
    let flags = random.choose(&[0, ACK_REQUEST]);
    let mut draft = Draft::new(state, DATA, flags, type_data(random), random);
    if !random.one_in(3) {
        draft.push_frame(body(random));
    }
    draft
}

/// An endpoint behind the first READY.
pub fn running(random: &mut Random) -> State {
    let (role, flow) = (random.choose(&Role::ALL), random.choose(&Flow::ALL));
    let phase = random.choose(&[Phase::Idle, Phase::Offer, Phase::Batch]);
    good_in(random, role, flow, phase)
}

fn noop(random: &mut Random) -> Draft {
    let state = running(random);
    let flags = random.choose(&[0, ACK_REQUEST]);
    Draft::new(state, NOOP, flags, type_data(random), random)
}

/// A confirmation of the oldest message that asked for one.
pub fn confirmation(random: &mut Random) -> Draft {
    loop {
        let state = running(random);
        if let Some(oldest) = state.awaited.oldest() {
            return Draft::new(state, oldest.message_type, ACK_REPLY, oldest.type_data, random);
        }
    }
}

/// A message that its endpoint hears.
pub fn valid(random: &mut Random) -> Draft {
    const KINDS: [fn(&mut Random) -> Draft; 7] =
        [close, opening, ready_to_client, ready_to_server, data, noop, confirmation];
    random.choose(&KINDS)(random)
}

/// Messages that are heard; the model must accept each of them.
pub fn valid_messages(random: &mut Random) -> Calls {
    let mut calls = Calls::new();
    for _ in 0..800 {
        let draft = valid(random);
        assert_eq!(draft.number(), 0);
        let room = reply_room(random);
        add(&mut calls, draft.call(room));
    }
    calls
}

/// Messages that are valid at some endpoint and come to another, whatever that makes of them.
pub fn to_any_endpoint(random: &mut Random) -> Calls {
    let mut calls = Calls::new();
    for _ in 0..500 {
        let draft = Draft { state: blocks::good(random), ..valid(random) };
        let room = reply_room(random);
        add(&mut calls, draft.call(room));
    }
    calls
}
