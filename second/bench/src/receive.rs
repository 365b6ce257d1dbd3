//! The rows of what is received, against the model's receive.

use std::hint::black_box;

use second::bundle;
use second::control::{self, Control};
use second::endpoint::{self, Awaited, Entry, Flow, Heard, Phase, Role, State};
use second::endpoint::{ACK_REPLY, ACK_REQUEST, BLOCK, DATA, MOST_AWAITED, NOOP, OPEN};
use second::open::{DEFAULT_LIMIT, FORMAT, INPUT, NAME, PARAMETERS, SOCKET};
use second::wire;

use crate::archive;
use crate::send::SIZES;
use crate::table::{same, Group, Table, Work};
use crate::terms;
use crate::timing;

/// The bytes of a reply.
const REPLY: usize = 14;

/// The pipe that is offered and asked for.
pub const PIPE: &[u8] = b"press7";
pub const PIPE_FORMAT: &[u8] = b"press-run-1";

type Receive = fn(&mut [u8], &[u8], &[u8], &[u8], &mut [u8], &mut Heard) -> u64;

/// A message for an endpoint, and what a receive leaves. The endpoint is as it was before each call.
struct Receiving {
    before: [u8; BLOCK],
    message: Vec<u8>,
    block: [u8; BLOCK],
    out: [u8; REPLY],
    heard: Heard,
    number: u64,
}

impl Receiving {
    fn new(state: &State, message: Vec<u8>) -> Receiving {
        let mut before = [0; BLOCK];
        state.store(&mut before);
        Receiving { before, message, block: before, out: [0; REPLY], heard: [0; 16], number: 0 }
    }

    fn call(&mut self, receive: Receive) {
        self.block = black_box(self.before);
        let (block, message, out) = (black_box(&mut self.block), black_box(&self.message), black_box(&mut self.out));
        self.number = receive(block, message, PIPE, PIPE_FORMAT, out, black_box(&mut self.heard));
        black_box(self);
    }

    fn ours(&mut self) {
        self.call(archive::receive);
    }

    fn model(&mut self) {
        self.call(endpoint::receive);
    }
}

impl Work for Receiving {
    type Left = (u64, Heard, [u8; BLOCK], [u8; REPLY]);

    fn clear(&mut self) {
        (self.number, self.heard, self.out) = (u64::MAX, [u64::MAX; 16], [255; REPLY]);
    }

    fn left(&self) -> Self::Left {
        (self.number, self.heard, self.block, self.out)
    }

    fn accepted(&self) -> bool {
        self.number == 0
    }
}

/// An endpoint in a batch of this flow that awaits so many confirmations of NOOPs.
fn in_batch(flow: Flow, awaited: usize) -> State {
    let awaited: Awaited = (0..awaited as u16).map(|type_data| Entry { message_type: NOOP, type_data }).collect();
    State { phase: Phase::Batch, n: 1000, awaited, ..State::fresh(Role::Client, flow, DEFAULT_LIMIT) }
}

fn message(message_type: u8, flags: u8, frames: &[&[u8]]) -> Vec<u8> {
    let control = control::frame(&Control { message_type, flags, type_data: 0 }).expect("a type of 1 to 5");
    bundle::of_frames(&[&[&control[..]], frames].concat())
}

/// A body to a consumer that awaits nothing.
fn data(size: usize) -> Receiving {
    Receiving::new(&in_batch(Flow::Consumer, 0), message(DATA, 0, &[&vec![0x5A; size]]))
}

/// An OPEN with name, socket, format and six terms, to a server that offers just that.
fn open() -> Receiving {
    let mut frame = Vec::new();
    wire::put_delimited_field(&mut frame, NAME, PIPE);
    wire::put_varint_field(&mut frame, SOCKET, INPUT);
    wire::put_delimited_field(&mut frame, FORMAT, PIPE_FORMAT);
    wire::put_delimited_field(&mut frame, PARAMETERS, &terms::structure(&terms::CLIENT[..6]));
    let server = State::fresh(Role::Server, Flow::Consumer, DEFAULT_LIMIT);
    Receiving::new(&server, message(OPEN, 0, &[&frame]))
}

pub fn add_rows(table: &mut Table) -> Result<(), String> {
    let mut works: Vec<(String, Receiving)> = Vec::new();
    works.extend(SIZES.map(|(name, size)| (format!("receive DATA, {name}"), data(size))));
    let bodiless = message(DATA, 0, &[]);
    works.push(("receive DATA, no body".into(), Receiving::new(&in_batch(Flow::Consumer, 0), bodiless)));
    let asks = message(NOOP, ACK_REQUEST, &[]);
    works.push(("receive NOOP that asks, with its reply".into(), Receiving::new(&in_batch(Flow::Producer, 0), asks)));
    for awaited in [1, MOST_AWAITED] {
        let confirms = Receiving::new(&in_batch(Flow::Producer, awaited), message(NOOP, ACK_REPLY, &[]));
        works.push((format!("receive a confirmation, of {awaited} awaited"), confirms));
    }
    works.push(("receive OPEN, 6 terms".into(), open()));
    for (title, mut work) in works {
        table.add(Group::Receive, &title, &mut work, Receiving::ours, ("second", Receiving::model))?;
    }
    Ok(())
}

/// How many times as long the archive takes for the largest body as for the smallest.
pub fn growth() -> Result<f64, String> {
    let [(_, smallest), .., (_, largest)] = SIZES;
    let mut works = (data(smallest), data(largest));
    same("receive DATA", &mut works.1, Receiving::ours, Receiving::model)?;
    Ok(timing::compare(&mut works, |works| works.0.ours(), |works| works.1.ours()).ratio)
}
