//! The model of Struct, Value and list: what one holds, or its first fault.

use std::ops::Range;

use crate::text;
use crate::wire::{self, Fault, FaultKind, Field, EIGHT_BYTES, LENGTH_DELIMITED, VARINT};

/// The number answered for what is unreadable.
pub const UNREADABLE: u64 = 18;

/// The most Structs and lists that may nest.
pub const MOST_LEVELS: usize = 8;

/// What a Value holds; of a text, a Struct and a list the place.
#[derive(Debug, PartialEq)]
pub enum Value {
    Null,
    /// The double's 64 bits.
    Number(u64),
    Text(Range<usize>),
    Bool(bool),
    Struct(Range<usize>),
    List(Range<usize>),
}

/// An entry of a Struct: its key, its Value, and the place of that Value's bytes without tag and length.
#[derive(Debug, PartialEq)]
pub struct Entry<'a> {
    pub key: &'a [u8],
    pub value: Value,
    pub place: Range<usize>,
}

/// The field of a Struct.
pub const ENTRY: u64 = 1;

/// The fields of an entry.
pub const KEY: u64 = 1;
pub const VALUE: u64 = 2;

/// The fields of a Value, one for each kind.
pub const NULL: u64 = 1;
pub const NUMBER: u64 = 2;
pub const TEXT: u64 = 3;
pub const BOOL: u64 = 4;
pub const STRUCT: u64 = 5;
pub const LIST: u64 = 6;

/// The fields that may stand in a message of each form: number and wire type.
pub type Rules = [(u64, u64)];

const IN_STRUCT: &Rules = &[(ENTRY, LENGTH_DELIMITED)];
const IN_ENTRY: &Rules = &[(KEY, LENGTH_DELIMITED), (VALUE, LENGTH_DELIMITED)];
const IN_LIST: &Rules = &[(1, LENGTH_DELIMITED)];
const IN_VALUE: &Rules = &[
    (NULL, VARINT),
    (NUMBER, EIGHT_BYTES),
    (TEXT, LENGTH_DELIMITED),
    (BOOL, VARINT),
    (STRUCT, LENGTH_DELIMITED),
    (LIST, LENGTH_DELIMITED),
];

/// The entry with this key in the Struct at this place, all of which is read; its place and that of a fault are offsets
/// into the bytes.
pub fn find<'a>(bytes: &'a [u8], place: Range<usize>, key: &[u8]) -> Result<Option<Entry<'a>>, Fault> {
    let mut found = None;
    for entry in entries(bytes, place) {
        let entry = entry?;
        if entry.key == key {
            found = Some(entry);
        }
    }
    Ok(found)
}

/// The entries of the Struct at this place, in order; nothing counts behind the first fault.
pub fn entries(bytes: &[u8], place: Range<usize>) -> impl Iterator<Item = Result<Entry<'_>, Fault>> {
    Reader { bytes }.entries(place, 1)
}

/// All entries of a lent Struct, in order.
pub fn read_struct(bytes: &[u8]) -> Result<Vec<Entry<'_>>, Fault> {
    entries(bytes, 0..bytes.len()).collect()
}

/// The Values of the list at this place, in order; nothing counts behind the first fault.
pub fn items(bytes: &[u8], place: Range<usize>) -> impl Iterator<Item = Result<Value, Fault>> + '_ {
    Reader { bytes }.items(place, 1)
}

/// What a lent Value holds; its own Struct or list is level 1.
pub fn read_value(bytes: &[u8]) -> Result<Value, Fault> {
    Reader { bytes }.value(0..bytes.len(), 0)
}

/// How many keys of a Struct are kept while it is read.
const KEPT_KEYS: usize = 16;

/// The keys of the entries of a Struct that were read: the first are kept, and the others read again when asked for, so
/// that no Struct needs more memory than another.
struct Keys<'a> {
    bytes: &'a [u8],
    kept: [&'a [u8]; KEPT_KEYS],
    count: usize,
    /// The place of the entries whose keys are not kept.
    others: Range<usize>,
}

impl<'a> Keys<'a> {
    /// Adds the key of the entry that this field is.
    fn add(&mut self, key: &'a [u8], entry: &Field) {
        if self.count < KEPT_KEYS {
            self.kept[self.count] = key;
            self.count += 1;
        } else {
            self.others = self.others.start.min(entry.at)..entry.payload.end;
        }
    }

    fn have(&self, key: &[u8]) -> bool {
        let mut others = wire::fields(self.bytes, self.others.clone()).flatten();
        self.kept[..self.count].contains(&key) || others.any(|entry| self.key_of(entry.payload) == key)
    }

    /// The key of an entry that was read, which is the empty one where it says none.
    fn key_of(&self, entry: Range<usize>) -> &'a [u8] {
        let key = wire::fields(self.bytes, entry).flatten().find(|field| field.number == KEY);
        key.map_or(&[], |key| &self.bytes[key.payload])
    }
}

/// Reads messages out of the lent bytes. A place is that of a message, a level the number of Structs and lists that
/// nest there, the message itself included.
#[derive(Clone, Copy)]
struct Reader<'a> {
    bytes: &'a [u8],
}

impl<'a> Reader<'a> {
    fn entries(self, place: Range<usize>, level: usize) -> impl Iterator<Item = Result<Entry<'a>, Fault>> {
        let mut keys = Keys { bytes: self.bytes, kept: [&[]; KEPT_KEYS], count: 0, others: place.end..place.end };
        wire::fields(self.bytes, place).map(move |field| {
            let field = field?;
            stands_in(IN_STRUCT, &field)?;
            let entry = self.entry(field.payload.clone(), &keys, level)?;
            keys.add(entry.key, &field);
            Ok(entry)
        })
    }

    /// An entry, whose key none of the entries before has.
    fn entry(self, place: Range<usize>, before: &Keys, level: usize) -> Result<Entry<'a>, Fault> {
        let end = place.end;
        let mut key = None;
        let mut value = None;
        for field in wire::fields(self.bytes, place) {
            let field = field?;
            stands_in(IN_ENTRY, &field)?;
            let repeated = if field.number == KEY { key.is_some() } else { value.is_some() };
            if repeated {
                return Err(field.fault(FaultKind::Repeated));
            }
            if field.number == KEY {
                key = Some(self.key(&field, before)?);
            } else {
                value = Some((self.value(field.payload.clone(), level)?, field.payload));
            }
        }
        let at_end = |kind| Fault { kind, at: end };
        if key.is_none() && before.have(&[]) {
            return Err(at_end(FaultKind::Repeated));
        }
        let (value, place) = value.ok_or(at_end(FaultKind::Other))?;
        Ok(Entry { key: key.unwrap_or_default(), value, place })
    }

    fn key(self, field: &Field, before: &Keys) -> Result<&'a [u8], Fault> {
        let key = &self.bytes[field.payload.clone()];
        if before.have(key) {
            return Err(field.fault(FaultKind::Repeated));
        }
        if !text::well_formed(key) {
            return Err(field.fault(FaultKind::BadText));
        }
        Ok(key)
    }

    /// What a Value holds; `level` is that of the Struct or list around it, 0 where there is none.
    fn value(self, place: Range<usize>, level: usize) -> Result<Value, Fault> {
        let end = place.end;
        let mut held = None;
        for field in wire::fields(self.bytes, place) {
            let field = field?;
            stands_in(IN_VALUE, &field)?;
            let held_before = held.as_ref().map(|(number, _)| *number);
            self.allowed_in_value(&field, held_before)?;
            held = Some((field.number, self.held(&field, level)?));
        }
        match held {
            Some((_, value)) => Ok(value),
            None => Err(Fault { kind: FaultKind::Other, at: end }),
        }
    }

    /// Refuses a field that may not stand in its Value, given the number of the field that stood there before.
    fn allowed_in_value(self, field: &Field, held_before: Option<u64>) -> Result<(), Fault> {
        if held_before == Some(field.number) {
            return Err(field.fault(FaultKind::Repeated));
        }
        if field.number == TEXT && !text::well_formed(&self.bytes[field.payload.clone()]) {
            return Err(field.fault(FaultKind::BadText));
        }
        let in_range = match field.number {
            NULL => field.value == 0,
            BOOL => field.value <= 1,
            _ => true,
        };
        if held_before.is_some() || !in_range {
            return Err(field.fault(FaultKind::Other));
        }
        Ok(())
    }

    /// What a field of a Value holds.
    fn held(self, field: &Field, level: usize) -> Result<Value, Fault> {
        let payload = field.payload.clone();
        if matches!(field.number, STRUCT | LIST) && level == MOST_LEVELS {
            return Err(field.fault(FaultKind::TooDeep));
        }
        Ok(match field.number {
            NULL => Value::Null,
            NUMBER => Value::Number(little_endian(&self.bytes[payload])),
            TEXT => Value::Text(payload),
            BOOL => Value::Bool(field.value == 1),
            STRUCT => {
                self.entries(payload.clone(), level + 1).try_for_each(|entry| entry.map(drop))?;
                Value::Struct(payload)
            }
            _ => {
                self.items(payload.clone(), level + 1).try_for_each(|item| item.map(drop))?;
                Value::List(payload)
            }
        })
    }

    fn items(self, place: Range<usize>, level: usize) -> impl Iterator<Item = Result<Value, Fault>> + 'a {
        wire::fields(self.bytes, place).map(move |field| {
            let field = field?;
            stands_in(IN_LIST, &field)?;
            self.value(field.payload, level)
        })
    }
}

/// Refuses a field with a number that has no place in its message, or with another wire type than its own.
pub fn stands_in(rules: &Rules, field: &Field) -> Result<(), Fault> {
    match rules.iter().find(|(number, _)| *number == field.number) {
        None => Err(field.fault(FaultKind::Other)),
        Some((_, wire_type)) if *wire_type != field.wire_type => Err(field.fault(FaultKind::WireType)),
        Some(_) => Ok(()),
    }
}

fn little_endian(bytes: &[u8]) -> u64 {
    bytes.iter().rev().fold(0, |number, byte| 256 * number + u64::from(*byte))
}

/// The number answered for a lent Struct or Value, and the kind and offset of its first fault or zeros.
pub fn check(bytes: &[u8], value: bool) -> (u64, [u64; 2]) {
    let fault = if value { read_value(bytes).err() } else { read_struct(bytes).err() };
    match fault {
        None => (0, [0, 0]),
        Some(fault) => (UNREADABLE, [fault.kind as u64, fault.at as u64]),
    }
}

/// The number answered for a lent Value, and its kind and what a scalar says; zeros where it is unreadable.
pub fn value(bytes: &[u8]) -> (u64, [u64; 3]) {
    let answer = match read_value(bytes) {
        Err(_) => return (UNREADABLE, [0; 3]),
        Ok(Value::Null) => [1, 0, 0],
        Ok(Value::Number(bits)) => [2, bits, 0],
        Ok(Value::Text(place)) => [3, place.start as u64, place.len() as u64],
        Ok(Value::Bool(truth)) => [4, truth.into(), 0],
        Ok(Value::Struct(_)) => [5, 0, 0],
        Ok(Value::List(_)) => [6, 0, 0],
    };
    (0, answer)
}

#[cfg(test)]
mod tests;
