//! The calls about the OPEN frame.

use super::{Answer, Argument, Call, Function, Written};
use crate::open::{self, Offer, Opening};

pub struct ReadOpen {
    pub message: Vec<u8>,
    pub at: u64,
    pub end: u64,
    pub offer: Offer,
}

impl Call for ReadOpen {
    fn function(&self) -> Function {
        Function::Open
    }

    fn arguments(&self) -> Vec<(&'static str, Argument<'_>)> {
        vec![
            ("message", Argument::Input(&self.message)),
            ("at", Argument::Number(self.at)),
            ("end", Argument::Number(self.end)),
            ("producer", Argument::Number(self.offer.producer.into())),
            ("name", Argument::Input(&self.offer.name)),
            ("format", Argument::Input(&self.offer.format)),
            ("heard", Argument::Numbers(10)),
        ]
    }

    fn answer(&self, _: &[Vec<u8>]) -> Answer {
        Answer::numbers(open::heard(&self.message, self.at, self.end, &self.offer))
    }
}

pub struct WriteOpen {
    pub room: usize,
    pub at: u64,
    pub opening: Opening,
}

impl Call for WriteOpen {
    fn function(&self) -> Function {
        Function::OpenFrame
    }

    fn arguments(&self) -> Vec<(&'static str, Argument<'_>)> {
        vec![
            ("out", Argument::Room(self.room)),
            ("at", Argument::Number(self.at)),
            ("producer", Argument::Number(self.opening.producer.into())),
            ("name", Argument::Input(&self.opening.name)),
            ("format", Argument::Input(&self.opening.format)),
            ("limit", Argument::Number(self.opening.limit.into())),
            ("frame_length", Argument::Numbers(1)),
        ]
    }

    fn answer(&self, before: &[Vec<u8>]) -> Answer {
        let (returned, length, out) = open::store_frame(&before[0], self.at, &self.opening);
        Answer { returned, written: vec![Written::Bytes(out), Written::Numbers(vec![length])] }
    }
}
