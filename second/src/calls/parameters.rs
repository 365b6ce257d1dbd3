//! The calls about UTF-8, protobuf fields, Structs and Values, lookups and the limit parameter.

use super::{Answer, Argument, Call, Function};
use crate::{limit, lookup, structs, text, wire};

pub struct ReadValue {
    pub bytes: Vec<u8>,
}

impl Call for ReadValue {
    fn function(&self) -> Function {
        Function::Value
    }

    fn arguments(&self) -> Vec<(&'static str, Argument<'_>)> {
        vec![("bytes", Argument::Input(&self.bytes)), ("value", Argument::Numbers(3))]
    }

    fn answer(&self, _: &[Vec<u8>]) -> Answer {
        Answer::numbers(structs::value(&self.bytes))
    }
}

pub struct Lookup {
    pub client: Vec<u8>,
    pub defaults: Vec<u8>,
    pub key: Vec<u8>,
}

impl Call for Lookup {
    fn function(&self) -> Function {
        Function::Lookup
    }

    fn arguments(&self) -> Vec<(&'static str, Argument<'_>)> {
        vec![
            ("client", Argument::Input(&self.client)),
            ("defaults", Argument::Input(&self.defaults)),
            ("key", Argument::Input(&self.key)),
            ("place", Argument::Numbers(3)),
        ]
    }

    fn answer(&self, _: &[Vec<u8>]) -> Answer {
        Answer::numbers(lookup::lookup(&self.client, &self.defaults, &self.key))
    }
}

pub struct Text {
    pub bytes: Vec<u8>,
}

impl Call for Text {
    fn function(&self) -> Function {
        Function::Text
    }

    fn arguments(&self) -> Vec<(&'static str, Argument<'_>)> {
        vec![("bytes", Argument::Input(&self.bytes))]
    }

    fn answer(&self, _: &[Vec<u8>]) -> Answer {
        Answer::number(text::well_formed(&self.bytes).into())
    }
}

pub struct FieldAt {
    pub bytes: Vec<u8>,
    pub at: u64,
    pub end: u64,
}

impl Call for FieldAt {
    fn function(&self) -> Function {
        Function::Field
    }

    fn arguments(&self) -> Vec<(&'static str, Argument<'_>)> {
        vec![
            ("bytes", Argument::Input(&self.bytes)),
            ("at", Argument::Number(self.at)),
            ("end", Argument::Number(self.end)),
            ("field", Argument::Numbers(5)),
        ]
    }

    fn answer(&self, _: &[Vec<u8>]) -> Answer {
        Answer::numbers(wire::field(&self.bytes, self.at, self.end))
    }
}

pub struct StoreVarint {
    pub room: usize,
    pub at: u64,
    pub number: u64,
}

impl Call for StoreVarint {
    fn function(&self) -> Function {
        Function::Varint
    }

    fn arguments(&self) -> Vec<(&'static str, Argument<'_>)> {
        vec![
            ("out", Argument::Room(self.room)),
            ("at", Argument::Number(self.at)),
            ("number", Argument::Number(self.number)),
        ]
    }

    fn answer(&self, before: &[Vec<u8>]) -> Answer {
        Answer::bytes(wire::store_varint(&before[0], self.at, self.number))
    }
}

/// Checks a Value, or else a Struct.
pub struct Check {
    pub bytes: Vec<u8>,
    pub value: bool,
}

impl Call for Check {
    fn function(&self) -> Function {
        Function::Check
    }

    fn arguments(&self) -> Vec<(&'static str, Argument<'_>)> {
        vec![
            ("bytes", Argument::Input(&self.bytes)),
            ("value", Argument::Number(self.value.into())),
            ("fault", Argument::Numbers(2)),
        ]
    }

    fn answer(&self, _: &[Vec<u8>]) -> Answer {
        Answer::numbers(structs::check(&self.bytes, self.value))
    }
}

pub struct LimitBytes {
    pub number: u32,
}

impl Call for LimitBytes {
    fn function(&self) -> Function {
        Function::LimitBytes
    }

    fn arguments(&self) -> Vec<(&'static str, Argument<'_>)> {
        vec![("number", Argument::Number(self.number.into())), ("bytes", Argument::FixedRoom(8))]
    }

    fn answer(&self, _: &[Vec<u8>]) -> Answer {
        Answer::bytes((0, limit::limit_bytes(self.number).to_vec()))
    }
}

pub struct Limit {
    pub parameters: Vec<u8>,
}

impl Call for Limit {
    fn function(&self) -> Function {
        Function::Limit
    }

    fn arguments(&self) -> Vec<(&'static str, Argument<'_>)> {
        vec![("parameters", Argument::Input(&self.parameters)), ("limit", Argument::Numbers(2))]
    }

    fn answer(&self, _: &[Vec<u8>]) -> Answer {
        Answer::numbers(limit::limit(&self.parameters))
    }
}
