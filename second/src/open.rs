//! The model of the OPEN frame: what a server hears in one, and the one that a client writes.

use std::ops::Range;

use crate::bytes::{self, Buffer};
use crate::limit::{self, Announced};
use crate::structs::{self, Rules, UNREADABLE};
use crate::text;
use crate::wire::{self, Fault, FaultKind, Field, LENGTH_DELIMITED, VARINT};

/// The numbers answered for a frame that can be read and is refused.
pub const OUT_OF_RANGE: u64 = 19;
pub const NO_SUCH_SOCKET: u64 = 20;
pub const NOT_OFFERED: u64 = 21;
pub const OTHER_FORMAT: u64 = 22;

/// The number answered where a client gives a bad name or format.
pub const BAD_GIVEN: u64 = 34;

/// The fields of an OPEN frame; those of higher numbers are skipped.
pub const NAME: u64 = 1;
pub const SOCKET: u64 = 2;
pub const FORMAT: u64 = 3;
pub const PARAMETERS: u64 = 4;

const IN_OPEN: &Rules =
    &[(NAME, LENGTH_DELIMITED), (SOCKET, VARINT), (FORMAT, LENGTH_DELIMITED), (PARAMETERS, LENGTH_DELIMITED)];

/// The sockets of a pipe.
pub const INPUT: u64 = 1;
pub const OUTPUT: u64 = 2;

/// The most bytes of a name and of a format.
pub const MOST_TEXT: usize = 255;

/// The limit where none is announced.
pub const DEFAULT_LIMIT: u32 = 50_000_000;

/// What a server offers, and whether its flow is that of a producer.
#[derive(Clone)]
pub struct Offer<Bytes = Vec<u8>> {
    pub producer: bool,
    pub name: Bytes,
    pub format: Bytes,
}

impl<Bytes> Offer<Bytes> {
    /// The socket that is offered.
    pub fn socket(&self) -> u64 {
        if self.producer {
            OUTPUT
        } else {
            INPUT
        }
    }
}

impl Offer {
    /// The same offer with its bytes lent.
    pub fn lent(&self) -> Offer<&[u8]> {
        Offer { producer: self.producer, name: &self.name, format: &self.format }
    }
}

/// What a client opens a pipe with, and whether its flow is that of a producer.
#[derive(Clone)]
pub struct Opening<Bytes = Vec<u8>> {
    pub producer: bool,
    pub name: Bytes,
    pub format: Bytes,
    pub limit: u32,
}

impl<Bytes> Opening<Bytes> {
    /// The socket that is opened.
    pub fn socket(&self) -> u64 {
        if self.producer {
            INPUT
        } else {
            OUTPUT
        }
    }
}

impl Opening {
    /// The same opening with its bytes lent.
    pub fn lent(&self) -> Opening<&[u8]> {
        Opening { producer: self.producer, name: &self.name, format: &self.format, limit: self.limit }
    }
}

/// The fields of an OPEN frame that can be read, by their numbers from 1 on, and how its parameters say a limit.
struct Frame {
    fields: [Option<Field>; PARAMETERS as usize],
    announced: Announced,
}

impl Frame {
    fn field(&self, number: u64) -> Option<&Field> {
        self.fields[number as usize - 1].as_ref()
    }

    /// The place of a field's payload; the empty place at 0 where there is no such field.
    fn place(&self, number: u64) -> Range<usize> {
        self.field(number).map_or(0..0, |field| field.payload.clone())
    }

    /// What the socket says; 0 where it is absent.
    fn socket(&self) -> u64 {
        self.field(SOCKET).map_or(0, |field| field.value)
    }
}

/// The frame at this place of the message, or its first fault.
fn read(message: &[u8], place: Range<usize>) -> Result<Frame, Fault> {
    let mut frame = Frame { fields: [None, None, None, None], announced: Announced::Absent };
    for field in wire::fields(message, place) {
        let field = field?;
        if field.number > PARAMETERS {
            continue;
        }
        allowed(message, &field, &frame)?;
        if field.number == PARAMETERS {
            frame.announced = limit::announced(message, field.payload.clone())?;
        }
        let place = field.number as usize - 1;
        frame.fields[place] = Some(field);
    }
    Ok(frame)
}

/// Refuses a field that may not stand behind what the frame holds already.
fn allowed(message: &[u8], field: &Field, before: &Frame) -> Result<(), Fault> {
    let oversized = field.value > u64::from(u32::MAX);
    if field.number == SOCKET && field.wire_type == VARINT && oversized {
        return Err(field.fault(FaultKind::BadVarint));
    }
    structs::stands_in(IN_OPEN, field)?;
    if before.field(field.number).is_some() {
        return Err(field.fault(FaultKind::Repeated));
    }
    let is_text = matches!(field.number, NAME | FORMAT);
    if is_text && !text::well_formed(&message[field.payload.clone()]) {
        return Err(field.fault(FaultKind::BadText));
    }
    Ok(())
}

/// The limit that holds for a frame which the offer meets; else the first of 19 to 22 that applies.
fn met(message: &[u8], frame: &Frame, offer: Offer<&[u8]>) -> Result<u32, u64> {
    let (name, format) = (&message[frame.place(NAME)], &message[frame.place(FORMAT)]);
    let socket = frame.socket();
    let limit = match frame.announced {
        Announced::Absent => DEFAULT_LIMIT,
        Announced::Good(limit) => limit,
        Announced::Bad => return Err(OUT_OF_RANGE),
    };
    if name.is_empty() || name.len() > MOST_TEXT || format.len() > MOST_TEXT || socket == 0 {
        return Err(OUT_OF_RANGE);
    }
    if socket > OUTPUT {
        return Err(NO_SUCH_SOCKET);
    }
    if name != offer.name || socket != offer.socket() {
        return Err(NOT_OFFERED);
    }
    if !format.is_empty() && format != offer.format {
        return Err(OTHER_FORMAT);
    }
    Ok(limit)
}

/// The place from `at` up to `end`, without bytes where it ends before it begins; one that ends behind the message is
/// cut short at its first field.
fn frame_place(message: &[u8], at: u64, end: u64) -> Result<Range<usize>, Fault> {
    if at >= end {
        return Ok(0..0);
    }
    if end > message.len() as u64 {
        return Err(Fault { kind: FaultKind::CutShort, at: at as usize });
    }
    Ok(at as usize..end as usize)
}

/// What is heard of an OPEN frame: socket, places of name, format and parameters, and the limit that holds.
pub struct Heard {
    pub socket: u64,
    pub places: [Range<usize>; 3],
    pub limit: u32,
}

impl Heard {
    /// Socket, places and lengths in a row.
    pub fn numbers(&self) -> [u64; 7] {
        let [name, format, parameters] = self.places.clone().map(|place| (place.start as u64, place.len() as u64));
        [self.socket, name.0, name.1, format.0, format.1, parameters.0, parameters.1]
    }
}

/// Why an OPEN frame is refused: it cannot be read, or another number applies.
pub enum Refusal {
    Unreadable(Fault),
    Number(u64),
}

impl Refusal {
    pub fn number(&self) -> u64 {
        match self {
            Refusal::Unreadable(_) => UNREADABLE,
            Refusal::Number(number) => *number,
        }
    }
}

/// What a server with this offer hears of the OPEN frame from `at` up to `end`.
pub fn hear(message: &[u8], at: u64, end: u64, offer: Offer<&[u8]>) -> Result<Heard, Refusal> {
    let frame = frame_place(message, at, end).and_then(|place| read(message, place)).map_err(Refusal::Unreadable)?;
    let limit = met(message, &frame, offer).map_err(Refusal::Number)?;
    Ok(Heard { socket: frame.socket(), places: [NAME, FORMAT, PARAMETERS].map(|number| frame.place(number)), limit })
}

/// The number answered for the OPEN frame from `at` up to `end`, and what is heard: socket, places of name, format and
/// parameters, limit, or zeros where it is refused; behind them the kind and place of the fault of an unreadable one.
pub fn heard(message: &[u8], at: u64, end: u64, offer: &Offer) -> (u64, [u64; 10]) {
    let mut answer = [0; 10];
    match hear(message, at, end, offer.lent()) {
        Ok(heard) => {
            answer[..7].copy_from_slice(&heard.numbers());
            answer[7] = heard.limit.into();
            (0, answer)
        }
        Err(refusal) => {
            if let Refusal::Unreadable(fault) = refusal {
                answer[8..].copy_from_slice(&[fault.kind as u64, fault.at as u64]);
            }
            (refusal.number(), answer)
        }
    }
}

/// The most bytes of a client's OPEN frame: name and format behind a tag and two bytes of length, the socket, and the
/// parameters behind a tag and one byte of length.
const MOST_WRITTEN: usize = 2 * (3 + MOST_TEXT) + 2 + 2 + limit::PARAMETERS;

/// The OPEN frame of a client; nothing where its name or format is bad.
pub fn written(opening: Opening<&[u8]>) -> Option<Buffer<MOST_WRITTEN>> {
    let good = |text: &[u8]| text.len() <= MOST_TEXT && text::well_formed(text);
    if opening.name.is_empty() || !good(opening.name) || !good(opening.format) {
        return None;
    }
    let mut frame = Buffer::EMPTY;
    wire::put_delimited_field(&mut frame, NAME, opening.name);
    wire::put_varint_field(&mut frame, SOCKET, opening.socket());
    if !opening.format.is_empty() {
        wire::put_delimited_field(&mut frame, FORMAT, opening.format);
    }
    if opening.limit != DEFAULT_LIMIT {
        wire::put_delimited_field(&mut frame, PARAMETERS, &limit::parameters(opening.limit));
    }
    Some(frame)
}

/// The same as bytes of their own.
pub fn frame(opening: &Opening) -> Option<Vec<u8>> {
    written(opening.lent()).map(|frame| frame.to_vec())
}

/// The number answered for a client's OPEN frame, its length, and `out` after it is stored from `at` on; `out` is as it
/// was where the frame does not fit.
pub fn store_frame(out: &[u8], at: u64, opening: &Opening) -> (u64, u64, Vec<u8>) {
    match frame(opening) {
        None => (BAD_GIVEN, 0, out.to_vec()),
        Some(frame) => (0, frame.len() as u64, bytes::copy(out, at, &frame)),
    }
}

#[cfg(test)]
mod tests;
