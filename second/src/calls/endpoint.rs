//! The calls of an endpoint: making one, sending and receiving, and what its block says.

use super::{Answer, Argument, Call, Function, Written};
use crate::bytes;
use crate::endpoint::{self, Role, Send};
use crate::open::DEFAULT_LIMIT;

/// Makes an endpoint of this role; a server's limit is not given.
pub struct Make {
    pub role: Role,
    pub block: Vec<u8>,
    pub flow: u8,
    pub limit: u32,
}

impl Call for Make {
    fn function(&self) -> Function {
        match self.role {
            Role::Client => Function::MakeClient,
            Role::Server => Function::MakeServer,
        }
    }

    fn arguments(&self) -> Vec<(&'static str, Argument<'_>)> {
        let mut arguments =
            vec![("block", Argument::InPlace(&self.block)), ("flow", Argument::Number(self.flow.into()))];
        if self.role == Role::Client {
            arguments.push(("limit", Argument::Number(self.limit.into())));
        }
        arguments
    }

    fn answer(&self, _: &[Vec<u8>]) -> Answer {
        let limit = match self.role {
            Role::Client => self.limit,
            Role::Server => DEFAULT_LIMIT,
        };
        Answer::bytes(endpoint::made(&self.block, self.role, self.flow, limit))
    }
}

pub struct SendMessage {
    pub block: Vec<u8>,
    pub send: Send,
    pub room: usize,
}

impl Call for SendMessage {
    fn function(&self) -> Function {
        match self.send {
            Send::Open { .. } => Function::SendOpen,
            Send::Ready { .. } => Function::SendReady,
            Send::Data { .. } => Function::SendData,
            Send::Noop { .. } => Function::SendNoop,
            Send::Close { .. } => Function::SendClose,
        }
    }

    fn arguments(&self) -> Vec<(&'static str, Argument<'_>)> {
        let number = |number: u16| Argument::Number(number.into());
        let mut arguments = vec![("block", Argument::InPlace(&self.block))];
        match &self.send {
            Send::Open { name, format } => {
                arguments.extend([("name", Argument::Input(name)), ("format", Argument::Input(format))]);
            }
            Send::Ready { count } => arguments.push(("count", number(*count))),
            Send::Data { type_data, how, body } => {
                arguments.extend([("type_data", number(*type_data)), ("how", number((*how).into()))]);
                arguments.push(("body", Argument::Input(body)));
            }
            Send::Noop { type_data, how } => {
                arguments.extend([("type_data", number(*type_data)), ("how", number((*how).into()))]);
            }
            Send::Close { code } => arguments.push(("code", number(*code))),
        }
        arguments.extend([("out", Argument::Room(self.room)), ("written", Argument::Numbers(1))]);
        arguments
    }

    fn answer(&self, before: &[Vec<u8>]) -> Answer {
        let sent = endpoint::sent(&self.block, &self.send, &before[0]);
        let written = vec![Written::Bytes(sent.block), Written::Bytes(sent.out), Written::Numbers(vec![sent.written])];
        Answer { returned: sent.number, written }
    }
}

/// Receives a message; the name and the format are those that a server offers.
pub struct Receive {
    pub block: Vec<u8>,
    pub message: Vec<u8>,
    pub name: Vec<u8>,
    pub format: Vec<u8>,
    pub room: usize,
}

impl Call for Receive {
    fn function(&self) -> Function {
        Function::Receive
    }

    fn arguments(&self) -> Vec<(&'static str, Argument<'_>)> {
        vec![
            ("block", Argument::InPlace(&self.block)),
            ("message", Argument::Input(&self.message)),
            ("name", Argument::Input(&self.name)),
            ("format", Argument::Input(&self.format)),
            ("out", Argument::Room(self.room)),
            ("heard", Argument::Numbers(16)),
        ]
    }

    fn answer(&self, before: &[Vec<u8>]) -> Answer {
        let received = endpoint::received(&self.block, &self.message, &self.name, &self.format, &before[0]);
        let heard = Written::Numbers(received.heard.to_vec());
        let written = vec![Written::Bytes(received.block), Written::Bytes(received.out), heard];
        Answer { returned: received.number, written }
    }
}

/// A part of a block that the header has a function for.
#[derive(Clone, Copy)]
pub enum Part {
    Phase,
    Awaited,
    Unconfirmed,
    Count,
    Limit,
}

impl Part {
    pub const ALL: [Part; 5] = [Part::Phase, Part::Awaited, Part::Unconfirmed, Part::Count, Part::Limit];

    /// Where it stands in a block, and in how many bytes.
    fn place(self) -> (u64, usize) {
        match self {
            Part::Phase => (2, 1),
            Part::Awaited => (3, 1),
            Part::Unconfirmed => (6, 1),
            Part::Count => (4, 2),
            Part::Limit => (8, 4),
        }
    }
}

/// What a block, good or bad, says in one of its parts.
pub struct Says {
    pub part: Part,
    pub block: [u8; endpoint::BLOCK],
}

impl Call for Says {
    fn function(&self) -> Function {
        match self.part {
            Part::Phase => Function::Phase,
            Part::Awaited => Function::Awaited,
            Part::Unconfirmed => Function::Unconfirmed,
            Part::Count => Function::Count,
            Part::Limit => Function::BlockLimit,
        }
    }

    fn arguments(&self) -> Vec<(&'static str, Argument<'_>)> {
        vec![("block", Argument::Input(&self.block))]
    }

    fn answer(&self, _: &[Vec<u8>]) -> Answer {
        let (at, width) = self.part.place();
        Answer::number(bytes::read(width, &self.block, at))
    }
}
