//! The calls of an endpoint, and moves of its state, on copies: nothing that is lent changes, and the answer is whole.

use crate::endpoint::{self, Heard, Phase, Role, Send, State, BLOCK};

/// The whole answer to a send: number, block and `out` afterwards, and the bytes of `out` that are the message.
#[derive(Debug, PartialEq)]
pub struct Sent {
    pub number: u64,
    pub block: Vec<u8>,
    pub out: Vec<u8>,
    pub written: u64,
}

/// The whole answer to a receive: number, block and `out` afterwards, and what is heard.
#[derive(Debug, PartialEq)]
pub struct Received {
    pub number: u64,
    pub block: Vec<u8>,
    pub out: Vec<u8>,
    pub heard: Heard,
}

/// The number answered where an endpoint is made in this block, and the block afterwards.
pub fn made(block: &[u8], role: Role, flow: u8, limit: u32) -> (u64, Vec<u8>) {
    let mut block = block.to_vec();
    (endpoint::make(&mut block, role, flow, limit), block)
}

/// What comes of a send.
pub fn sent(block: &[u8], send: &Send, out: &[u8]) -> Sent {
    let (mut block, mut out) = (block.to_vec(), out.to_vec());
    let (number, written) = match endpoint::send(&mut block, send.lent(), &mut out) {
        Ok(written) => (0, written as u64),
        Err(number) => (number, 0),
    };
    Sent { number, block, out, written }
}

/// What comes of a message.
pub fn received(block: &[u8], message: &[u8], name: &[u8], format: &[u8], out: &[u8]) -> Received {
    let (mut block, mut out) = (block.to_vec(), out.to_vec());
    let mut heard = [0; 16];
    let number = endpoint::receive(&mut block, message, name, format, &mut out, &mut heard);
    Received { number, block, out, heard }
}

impl State {
    /// The block that says this state.
    pub fn block(&self) -> Vec<u8> {
        let mut block = vec![0; BLOCK];
        self.store(&mut block);
        block
    }

    /// The state after a CLOSE.
    pub fn closed(&self) -> State {
        let mut state = self.clone();
        state.close();
        state
    }

    /// The state after a READY.
    pub fn after_ready(&self, count: u16, phase: Phase) -> State {
        let mut state = self.clone();
        state.ready(count, phase);
        state
    }
}
