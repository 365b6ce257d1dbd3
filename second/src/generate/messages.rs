//! Messages as they are written: fields in any order and form, put together whatever they are.

use crate::random::Random;
use crate::wire::{self, EIGHT_BYTES, FOUR_BYTES, LENGTH_DELIMITED, MOST_VARINT, VARINT};

/// What a message is read as.
#[derive(Clone, Copy, Debug, PartialEq)]
pub enum Form {
    Open,
    Struct,
    Entry,
    Value,
    List,
}

#[derive(Clone)]
pub struct Message {
    pub form: Form,
    pub parts: Vec<Part>,
}

#[derive(Clone)]
pub enum Part {
    Field(Field),
    /// Bytes of any kind.
    Raw(Vec<u8>),
    /// No bytes; the place where a rule is broken.
    Mark,
}

/// A field; `long_tag` bytes more than needed are in its tag.
#[derive(Clone)]
pub struct Field {
    pub number: u64,
    pub long_tag: usize,
    pub payload: Payload,
}

/// What stands behind a tag; `long` bytes more than needed are in its varint or its length.
#[derive(Clone)]
pub enum Payload {
    Varint { value: u64, long: usize },
    Eight([u8; 8]),
    Four([u8; 4]),
    Bytes { bytes: Vec<u8>, long: usize },
    Message { message: Message, long: usize },
}

impl Payload {
    pub fn wire_type(&self) -> u64 {
        match self {
            Payload::Varint { .. } => VARINT,
            Payload::Eight(_) => EIGHT_BYTES,
            Payload::Bytes { .. } | Payload::Message { .. } => LENGTH_DELIMITED,
            Payload::Four(_) => FOUR_BYTES,
        }
    }
}

/// Bytes, and the offset of the mark where there is one among them.
#[derive(Default)]
pub struct Written {
    pub bytes: Vec<u8>,
    pub mark: Option<usize>,
}

/// The varint of this number with so many bytes more than the shortest one, but at most ten in all.
pub fn long_varint(number: u64, long: usize) -> Vec<u8> {
    let mut bytes = wire::varint(number);
    while bytes.len() < MOST_VARINT.min(wire::varint(number).len() + long) {
        *bytes.last_mut().expect("a varint has a byte") += 128;
        bytes.push(0);
    }
    bytes
}

/// How many bytes more than needed a varint has; mostly none.
pub fn long(random: &mut Random) -> usize {
    match random.between(0, 15) {
        0 => random.between(1, 2),
        1 => random.between(3, 9),
        _ => 0,
    }
}

/// The bytes with the one at `place` changed, in every way that is likely to matter.
pub fn damages(random: &mut Random, bytes: &[u8], place: usize) -> Vec<Vec<u8>> {
    let right = bytes[place];
    let wrong = [random.byte(), right.wrapping_add(1), right.wrapping_sub(1), right ^ 0x80, right ^ 0x08, 0, 255];
    let damaged = wrong.map(|wrong| [&bytes[..place], &[wrong], &bytes[place + 1..]].concat());
    damaged.to_vec()
}

/// The bytes with one of them left out, moved to another place, and one more put in.
pub fn shifts(random: &mut Random, bytes: &[u8]) -> [Vec<u8>; 3] {
    let place = random.between(0, bytes.len() - 1);
    let mut left_out = bytes.to_vec();
    let taken = left_out.remove(place);
    let mut moved = left_out.clone();
    moved.insert(random.between(0, moved.len()), taken);
    let put_in = random.choose(&[0, 1, 2, 0x0A, 0x12, 0x80, 0xFF]);
    [left_out, moved, [&bytes[..place], &[put_in], &bytes[place..]].concat()]
}

impl Message {
    pub fn new(form: Form) -> Message {
        Message { form, parts: Vec::new() }
    }

    /// Adds a field, now and then in a long form.
    pub fn add(&mut self, random: &mut Random, number: u64, payload: Payload) {
        self.parts.push(Part::Field(Field { number, long_tag: long(random), payload }));
    }

    pub fn fields(&self) -> impl Iterator<Item = &Field> {
        self.parts.iter().filter_map(|part| match part {
            Part::Field(field) => Some(field),
            Part::Raw(_) | Part::Mark => None,
        })
    }

    pub fn bytes(&self) -> Vec<u8> {
        self.written().bytes
    }

    pub fn written(&self) -> Written {
        let mut written = Written::default();
        for part in &self.parts {
            match part {
                Part::Field(field) => written.put_field(field),
                Part::Raw(bytes) => written.bytes.extend(bytes),
                Part::Mark => written.mark = Some(written.bytes.len()),
            }
        }
        written
    }
}

impl Written {
    fn put_field(&mut self, field: &Field) {
        let tag = 8 * field.number + field.payload.wire_type();
        self.bytes.extend(long_varint(tag, field.long_tag));
        match &field.payload {
            Payload::Varint { value, long } => self.bytes.extend(long_varint(*value, *long)),
            Payload::Eight(bytes) => self.bytes.extend(bytes),
            Payload::Four(bytes) => self.bytes.extend(bytes),
            Payload::Bytes { bytes, long } => self.put_delimited(bytes, *long),
            Payload::Message { message, long } => {
                let inner = message.written();
                self.put_delimited(&inner.bytes, *long);
                let start = self.bytes.len() - inner.bytes.len();
                self.mark = self.mark.or(inner.mark.map(|mark| start + mark));
            }
        }
    }

    fn put_delimited(&mut self, bytes: &[u8], long: usize) {
        self.bytes.extend(long_varint(bytes.len() as u64, long));
        self.bytes.extend(bytes);
    }
}

/// The way to a message inside another: the parts to go through.
pub type Path = Vec<usize>;

impl Message {
    /// The ways to this message and to all messages inside it.
    pub fn paths(&self) -> Vec<Path> {
        let mut paths = vec![Path::new()];
        for (place, part) in self.parts.iter().enumerate() {
            if let Part::Field(Field { payload: Payload::Message { message, .. }, .. }) = part {
                let inner = message.paths();
                paths.extend(inner.into_iter().map(|path| [&[place], &path[..]].concat()));
            }
        }
        paths
    }

    /// The message at the end of a way, and how many Structs and lists it lies in, itself included.
    pub fn inside(&mut self, path: &[usize]) -> (&mut Message, usize) {
        let own = usize::from(matches!(self.form, Form::Struct | Form::List));
        let Some((place, rest)) = path.split_first() else {
            return (self, own);
        };
        match &mut self.parts[*place] {
            Part::Field(Field { payload: Payload::Message { message, .. }, .. }) => {
                let (message, level) = message.inside(rest);
                (message, own + level)
            }
            _ => unreachable!("a way leads through messages"),
        }
    }
}

#[cfg(test)]
mod tests {
    use super::*;

    #[test]
    fn long_forms_have_at_most_ten_bytes() {
        assert_eq!(long_varint(300, 0), [0xAC, 0x02]);
        assert_eq!(long_varint(300, 2), [0xAC, 0x82, 0x80, 0x00]);
        assert_eq!(long_varint(0, 20).len(), 10);
        assert_eq!(long_varint(u64::MAX, 1), wire::varint(u64::MAX));
    }

    #[test]
    fn the_mark_is_told_from_the_start_of_the_outermost_message() {
        let inner = Message { form: Form::Value, parts: vec![Part::Raw(vec![8, 0]), Part::Mark, Part::Raw(vec![9])] };
        let payload = Payload::Message { message: inner, long: 1 };
        let field = Part::Field(Field { number: 16, long_tag: 0, payload });
        let written = Message { form: Form::List, parts: vec![Part::Raw(vec![7]), field] }.written();
        assert_eq!((written.bytes, written.mark), (vec![7, 0x82, 0x01, 0x83, 0x00, 8, 0, 9], Some(7)));
    }
}
