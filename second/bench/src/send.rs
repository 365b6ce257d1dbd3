//! The rows of what is sent: DATA against memcpy of its body, and each send against the model's.

use std::hint::black_box;

use second::endpoint::{self, Flow, Phase, Role, Send, State, ASK, BLOCK, NO_BODY};
use second::open::DEFAULT_LIMIT;

use crate::archive;
use crate::receive::{PIPE, PIPE_FORMAT};
use crate::table::{Group, Table, Work};

/// The bodies of DATA; the largest makes a message of just the limit, its control frame of 8 bytes counted in.
pub const SIZES: [(&str, usize); 4] =
    [("100 B", 100), ("1 KB", 1_000), ("1 MB", 1_000_000), ("50 MB", DEFAULT_LIMIT as usize - 8)];

/// The least body that counts as a large one, and the bytes of a DATA in front of its body.
const LARGE: usize = 1_000_000;
const HEAD: usize = 18;

/// The most bytes of an OPEN.
const MOST_OPEN: usize = 570;

type Sends = fn(&mut [u8], Send<&[u8]>, &mut [u8]) -> Result<usize, u64>;

/// A send of an endpoint, and what it leaves. The endpoint is as it was before each call.
struct Sending<'a> {
    before: [u8; BLOCK],
    send: Send<&'a [u8]>,
    block: [u8; BLOCK],
    out: Vec<u8>,
    written: Result<usize, u64>,
}

impl<'a> Sending<'a> {
    fn new(state: &State, send: Send<&'a [u8]>, room: usize) -> Sending<'a> {
        let mut before = [0; BLOCK];
        state.store(&mut before);
        Sending { before, send, block: before, out: vec![0; room], written: Ok(0) }
    }

    fn call(&mut self, sends: Sends) {
        self.block = black_box(self.before);
        let (block, send, out) = (black_box(&mut self.block), black_box(self.send.clone()), black_box(&mut self.out));
        self.written = sends(block, send, out);
        black_box(self);
    }

    fn ours(&mut self) {
        self.call(archive::send);
    }

    fn model(&mut self) {
        self.call(endpoint::send);
    }
}

impl Work for Sending<'_> {
    type Left = (Result<usize, u64>, [u8; BLOCK], Vec<u8>);

    fn clear(&mut self) {
        self.written = Err(u64::MAX);
        self.out.fill(255);
    }

    fn left(&self) -> Self::Left {
        (self.written, self.block, self.out.clone())
    }

    fn accepted(&self) -> bool {
        self.written.is_ok()
    }
}

/// A send of DATA against the mere copy of its body, of which only the copied bytes are looked at.
struct Copying<'a> {
    sending: Sending<'a>,
    body: &'a [u8],
}

impl Copying<'_> {
    fn ours(&mut self) {
        self.sending.ours();
    }

    fn memcpy(&mut self) {
        let (body, out) = (black_box(self.body), black_box(&mut self.sending.out));
        out[HEAD..HEAD + body.len()].copy_from_slice(body);
        black_box(self);
    }
}

impl Work for Copying<'_> {
    type Left = Vec<u8>;

    fn clear(&mut self) {
        self.sending.clear();
    }

    fn left(&self) -> Vec<u8> {
        self.sending.out[HEAD..].to_vec()
    }

    fn accepted(&self) -> bool {
        self.sending.accepted()
    }
}

pub fn add_rows(table: &mut Table) -> Result<(), String> {
    let fresh = State::fresh(Role::Client, Flow::Producer, 1_000_000);
    let batch = State { phase: Phase::Batch, n: 1000, limit: DEFAULT_LIMIT, ..fresh.clone() };
    for (name, size) in SIZES {
        let body = vec![0x5A; size];
        let sending = || Sending::new(&batch, Send::Data { type_data: 7, how: 0, body: &body }, HEAD + size);
        let title = format!("send DATA, {name}");
        let group = if size >= LARGE { Group::LargeSend } else { Group::Other };
        let mut copying = Copying { sending: sending(), body: &body };
        table.add(group, &title, &mut copying, Copying::ours, ("memcpy", Copying::memcpy))?;
        table.add(Group::Other, &title, &mut sending(), Sending::ours, ("second", Sending::model))?;
    }
    let mut bodiless = Sending::new(&batch, Send::Data { type_data: 7, how: NO_BODY, body: &[] }, HEAD);
    table.add(Group::Other, "send DATA, no body", &mut bodiless, Sending::ours, ("second", Sending::model))?;
    let mut noop = Sending::new(&batch, Send::Noop { type_data: 7, how: ASK }, HEAD);
    table.add(Group::Other, "send NOOP that asks", &mut noop, Sending::ours, ("second", Sending::model))?;
    let open = Send::Open { name: PIPE, format: PIPE_FORMAT };
    let mut open = Sending::new(&fresh, open, MOST_OPEN);
    table.add(Group::Other, "send OPEN", &mut open, Sending::ours, ("second", Sending::model))
}
