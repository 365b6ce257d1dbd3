//! The calls that are compared: what each lends to the library, and what the model answers to it.

mod endpoint;
mod open;
mod parameters;

pub use endpoint::{Make, Part, Receive, Says, SendMessage};
pub use open::{ReadOpen, WriteOpen};
pub use parameters::{Check, FieldAt, Limit, LimitBytes, Lookup, ReadValue, StoreVarint, Text};

use crate::bundle;
use crate::bytes;
use crate::control::{self, Control};
use crate::line;

/// A function of the library. Its code is its place in `FUNCTION_NAMES`, as in the host's own table.
#[derive(Clone, Copy)]
pub enum Function {
    Frame,
    Read8,
    Read16,
    Read32,
    Read64,
    Store16,
    Store32,
    Store64,
    Copy,
    Contents,
    HandOut,
    Control,
    WriteOne,
    WriteTwo,
    Line,
    Value,
    Lookup,
    Text,
    Field,
    Varint,
    Check,
    LimitBytes,
    Limit,
    Open,
    OpenFrame,
    MakeClient,
    MakeServer,
    SendOpen,
    SendReady,
    SendData,
    SendNoop,
    SendClose,
    Receive,
    Interface,
    Phase,
    Awaited,
    Unconfirmed,
    Count,
    BlockLimit,
}

pub const FUNCTION_NAMES: [&str; 39] = [
    "fbdp_frame",
    "probe_read8",
    "probe_read16",
    "probe_read32",
    "probe_read64",
    "probe_store16",
    "probe_store32",
    "probe_store64",
    "probe_copy",
    "probe_contents",
    "probe_hand_out",
    "probe_control",
    "probe_write without a body",
    "probe_write with a body",
    "probe_line",
    "fbdp_value",
    "fbdp_lookup",
    "probe_text",
    "probe_field",
    "probe_varint",
    "probe_check",
    "probe_limit_bytes",
    "probe_limit",
    "probe_open",
    "probe_open_frame",
    "fbdp_make_client",
    "fbdp_make_server",
    "fbdp_send_open",
    "fbdp_send_ready",
    "fbdp_send_data",
    "fbdp_send_noop",
    "fbdp_send_close",
    "fbdp_receive",
    "fbdp_interface_3",
    "fbdp_phase",
    "fbdp_awaited",
    "fbdp_unconfirmed",
    "fbdp_count",
    "fbdp_limit",
];

impl Function {
    pub fn name(self) -> &'static str {
        FUNCTION_NAMES[self as usize]
    }
}

/// An argument of a call.
pub enum Argument<'a> {
    Number(u64),
    /// A slice that is only read.
    Input(&'a [u8]),
    /// A slice that is read and may be written.
    InPlace(&'a [u8]),
    /// A slice of so many bytes that may be written; the message carries its length.
    Room(usize),
    /// A slice of so many bytes that may be written; its length is fixed by the header.
    FixedRoom(usize),
    /// An array of so many numbers that is written.
    Numbers(usize),
}

/// What a slice that may be written or an array of numbers holds after the call.
pub enum Written {
    Bytes(Vec<u8>),
    Numbers(Vec<u64>),
}

/// The whole answer to a call: the number returned, and each slice that may be written and array of numbers, in the
/// order of the arguments.
pub struct Answer {
    pub returned: u64,
    pub written: Vec<Written>,
}

impl Answer {
    fn number(returned: u64) -> Answer {
        Answer { returned, written: Vec::new() }
    }

    fn numbers((returned, numbers): (u64, impl Into<Vec<u64>>)) -> Answer {
        Answer { returned, written: vec![Written::Numbers(numbers.into())] }
    }

    fn bytes((returned, bytes): (u64, Vec<u8>)) -> Answer {
        Answer { returned, written: vec![Written::Bytes(bytes)] }
    }
}

/// One call of one function with its arguments.
pub trait Call {
    fn function(&self) -> Function;

    /// The arguments in the order of the header, each with its name there.
    fn arguments(&self) -> Vec<(&'static str, Argument<'_>)>;

    /// What comes of the call by the model, given what each room held before it.
    fn answer(&self, before: &[Vec<u8>]) -> Answer;
}

/// The number of the interface, which takes no arguments.
pub struct Interface;

impl Call for Interface {
    fn function(&self) -> Function {
        Function::Interface
    }

    fn arguments(&self) -> Vec<(&'static str, Argument<'_>)> {
        Vec::new()
    }

    fn answer(&self, _: &[Vec<u8>]) -> Answer {
        Answer::number(3)
    }
}

/// The width of a big-endian number.
#[derive(Clone, Copy)]
pub enum Width {
    One,
    Two,
    Four,
    Eight,
}

impl Width {
    /// The widths of numbers that are read, and of those that are stored.
    pub const READ: [Width; 4] = [Width::One, Width::Two, Width::Four, Width::Eight];
    pub const STORED: [Width; 3] = [Width::Two, Width::Four, Width::Eight];

    pub fn bytes(self) -> usize {
        match self {
            Width::One => 1,
            Width::Two => 2,
            Width::Four => 4,
            Width::Eight => 8,
        }
    }

    /// The largest number of this width.
    pub fn most(self) -> u64 {
        u64::MAX >> (64 - 8 * self.bytes())
    }
}

pub struct Read {
    pub width: Width,
    pub bytes: Vec<u8>,
    pub at: u64,
}

impl Call for Read {
    fn function(&self) -> Function {
        match self.width {
            Width::One => Function::Read8,
            Width::Two => Function::Read16,
            Width::Four => Function::Read32,
            Width::Eight => Function::Read64,
        }
    }

    fn arguments(&self) -> Vec<(&'static str, Argument<'_>)> {
        vec![("bytes", Argument::Input(&self.bytes)), ("at", Argument::Number(self.at))]
    }

    fn answer(&self, _: &[Vec<u8>]) -> Answer {
        Answer::number(bytes::read(self.width.bytes(), &self.bytes, self.at))
    }
}

pub struct Store {
    pub width: Width,
    pub room: usize,
    pub at: u64,
    pub number: u64,
}

impl Call for Store {
    fn function(&self) -> Function {
        match self.width {
            Width::One => unreachable!("no number of one byte is stored"),
            Width::Two => Function::Store16,
            Width::Four => Function::Store32,
            Width::Eight => Function::Store64,
        }
    }

    fn arguments(&self) -> Vec<(&'static str, Argument<'_>)> {
        vec![
            ("out", Argument::Room(self.room)),
            ("at", Argument::Number(self.at)),
            ("number", Argument::Number(self.number)),
        ]
    }

    fn answer(&self, before: &[Vec<u8>]) -> Answer {
        Answer::bytes((0, bytes::store(self.width.bytes(), &before[0], self.at, self.number)))
    }
}

pub struct Copy {
    pub room: usize,
    pub at: u64,
    pub bytes: Vec<u8>,
}

impl Call for Copy {
    fn function(&self) -> Function {
        Function::Copy
    }

    fn arguments(&self) -> Vec<(&'static str, Argument<'_>)> {
        vec![
            ("out", Argument::Room(self.room)),
            ("at", Argument::Number(self.at)),
            ("bytes", Argument::Input(&self.bytes)),
        ]
    }

    fn answer(&self, before: &[Vec<u8>]) -> Answer {
        Answer::bytes((0, bytes::copy(&before[0], self.at, &self.bytes)))
    }
}

pub struct FrameAt {
    pub bundle: Vec<u8>,
    pub index: u32,
}

impl Call for FrameAt {
    fn function(&self) -> Function {
        Function::Frame
    }

    fn arguments(&self) -> Vec<(&'static str, Argument<'_>)> {
        vec![
            ("bundle", Argument::Input(&self.bundle)),
            ("index", Argument::Number(self.index.into())),
            ("place", Argument::Numbers(3)),
        ]
    }

    fn answer(&self, _: &[Vec<u8>]) -> Answer {
        Answer::numbers(bundle::frame(&self.bundle, self.index))
    }
}

pub struct Contents {
    pub bundle: Vec<u8>,
}

impl Call for Contents {
    fn function(&self) -> Function {
        Function::Contents
    }

    fn arguments(&self) -> Vec<(&'static str, Argument<'_>)> {
        vec![("bundle", Argument::Input(&self.bundle)), ("contents", Argument::Numbers(4))]
    }

    fn answer(&self, _: &[Vec<u8>]) -> Answer {
        Answer::numbers(bundle::contents(&self.bundle))
    }
}

pub struct HandOut {
    pub bundle: Vec<u8>,
    pub position: u64,
}

impl Call for HandOut {
    fn function(&self) -> Function {
        Function::HandOut
    }

    fn arguments(&self) -> Vec<(&'static str, Argument<'_>)> {
        vec![
            ("bundle", Argument::Input(&self.bundle)),
            ("position", Argument::Number(self.position)),
            ("handed", Argument::Numbers(4)),
        ]
    }

    fn answer(&self, _: &[Vec<u8>]) -> Answer {
        Answer::numbers(bundle::handed_out(&self.bundle, self.position as usize))
    }
}

pub struct ReadControl {
    pub frame: Vec<u8>,
}

impl Call for ReadControl {
    fn function(&self) -> Function {
        Function::Control
    }

    fn arguments(&self) -> Vec<(&'static str, Argument<'_>)> {
        vec![("frame", Argument::Input(&self.frame)), ("control", Argument::Numbers(3))]
    }

    fn answer(&self, _: &[Vec<u8>]) -> Answer {
        Answer::numbers(control::heard(&self.frame))
    }
}

/// Writes a control frame alone, or a control frame and a body.
pub struct Write {
    pub room: usize,
    pub control: Control,
    pub body: Option<Vec<u8>>,
}

impl Call for Write {
    fn function(&self) -> Function {
        match self.body {
            None => Function::WriteOne,
            Some(_) => Function::WriteTwo,
        }
    }

    fn arguments(&self) -> Vec<(&'static str, Argument<'_>)> {
        let mut arguments = vec![
            ("out", Argument::Room(self.room)),
            ("type", Argument::Number(self.control.message_type.into())),
            ("flags", Argument::Number(self.control.flags.into())),
            ("type_data", Argument::Number(self.control.type_data.into())),
        ];
        if let Some(body) = &self.body {
            arguments.push(("body", Argument::Input(body)));
        }
        arguments
    }

    fn answer(&self, before: &[Vec<u8>]) -> Answer {
        let mut out = before[0].clone();
        let written = bundle::write(&mut out, &self.control, self.body.as_deref());
        Answer::bytes((written as u64, out))
    }
}

pub struct Line {
    pub input: Vec<u8>,
}

impl Call for Line {
    fn function(&self) -> Function {
        Function::Line
    }

    fn arguments(&self) -> Vec<(&'static str, Argument<'_>)> {
        vec![("input", Argument::Input(&self.input)), ("line", Argument::FixedRoom(96))]
    }

    fn answer(&self, before: &[Vec<u8>]) -> Answer {
        Answer::bytes(line::write(&before[0], &self.input))
    }
}
