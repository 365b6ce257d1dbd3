//! Messages in which exactly one rule is broken, at a place that is marked; the rules are those of Structs and Values.

use super::fields::bad_varint;
use super::messages::{long, long_varint, Field, Form, Message, Part, Payload, Written};
use super::{texts, trees};
use crate::open::SOCKET;
use crate::random::Random;
use crate::structs::{BOOL, KEY, LIST, MOST_LEVELS, NULL, NUMBER, STRUCT, TEXT, VALUE};
use crate::wire::{self, FaultKind, EIGHT_BYTES, FOUR_BYTES, LENGTH_DELIMITED, VARINT};

/// A message in which a rule is to be broken, and the Structs and lists that it lies in, itself included.
pub struct Place<'a> {
    pub message: &'a mut Message,
    level: usize,
    pub random: &'a mut Random,
}

/// A rule, the fault that its breach is, and how it is broken in a message: false where that cannot be done there.
pub struct Rule {
    pub kind: FaultKind,
    pub broken: fn(&mut Place) -> bool,
}

pub const RULES: &[Rule] = &[
    Rule { kind: FaultKind::CutShort, broken: tag_cut_short },
    Rule { kind: FaultKind::CutShort, broken: payload_cut_short },
    Rule { kind: FaultKind::BadVarint, broken: bad_tag },
    Rule { kind: FaultKind::BadVarint, broken: field_zero },
    Rule { kind: FaultKind::BadVarint, broken: tag_too_large },
    Rule { kind: FaultKind::BadVarint, broken: bad_payload },
    Rule { kind: FaultKind::WireType, broken: no_wire_type },
    Rule { kind: FaultKind::WireType, broken: other_wire_type },
    Rule { kind: FaultKind::Other, broken: number_without_place },
    Rule { kind: FaultKind::Repeated, broken: key_of_another_entry },
    Rule { kind: FaultKind::Repeated, broken: second_key },
    Rule { kind: FaultKind::Repeated, broken: second_value },
    Rule { kind: FaultKind::Repeated, broken: same_kind_again },
    Rule { kind: FaultKind::BadText, broken: bad_key },
    Rule { kind: FaultKind::BadText, broken: bad_text },
    Rule { kind: FaultKind::Other, broken: no_value },
    Rule { kind: FaultKind::Other, broken: no_kind },
    Rule { kind: FaultKind::Other, broken: other_kind },
    Rule { kind: FaultKind::Other, broken: null_not_0 },
    Rule { kind: FaultKind::Other, broken: bool_above_1 },
    Rule { kind: FaultKind::Other, broken: other_kind_too_deep },
    Rule { kind: FaultKind::TooDeep, broken: too_deep },
];

/// Breaks the rule at a random place of the message, and says whether it has such a place.
pub fn break_rule(rule: &Rule, message: &mut Message, random: &mut Random) -> bool {
    let mut paths = message.paths();
    while !paths.is_empty() {
        let path = paths.swap_remove(random.between(0, paths.len() - 1));
        let (message, level) = message.inside(&path);
        if (rule.broken)(&mut Place { message, level, random }) {
            return true;
        }
    }
    false
}

/// A Struct or a Value in which the rule is broken, and which of the two it is.
pub fn broken(rule: &Rule, random: &mut Random) -> (Form, Written) {
    loop {
        let mut message = trees::any(random);
        if break_rule(rule, &mut message, random) {
            return (message.form, message.written());
        }
    }
}

/// A payload of this wire type that can be read whatever field it is in.
pub fn payload(random: &mut Random, wire_type: u64) -> Payload {
    match wire_type {
        VARINT => Payload::Varint { value: random.number() >> random.between(0, 63), long: long(random) },
        EIGHT_BYTES => Payload::Eight(random.number().to_le_bytes()),
        FOUR_BYTES => Payload::Four((random.number() as u32).to_le_bytes()),
        _ => {
            let length = random.between(0, 4);
            let bytes = random.bytes(length);
            trees::delimited(random, bytes)
        }
    }
}

impl Place<'_> {
    /// Puts a broken part somewhere into the message, now and then in place of another part.
    pub fn insert(&mut self, part: Part) {
        let parts = &mut self.message.parts;
        let place = self.random.between(0, parts.len());
        if place < parts.len() && self.random.one_in(2) {
            parts.remove(place);
        }
        parts.splice(place..place, [Part::Mark, part]);
    }

    /// Puts a broken part behind the part at `place`, at any distance.
    pub fn insert_behind(&mut self, place: usize, part: Part) {
        let place = self.random.between(place + 1, self.message.parts.len());
        self.message.parts.splice(place..place, [Part::Mark, part]);
    }

    /// A field in a form of its own.
    pub fn field(&mut self, number: u64, payload: Payload) -> Part {
        Part::Field(Field { number, long_tag: long(self.random), payload })
    }

    /// The largest field number that may stand in the message.
    fn most_number(&self) -> usize {
        match self.message.form {
            Form::Struct | Form::List => 1,
            Form::Entry => 2,
            Form::Open => 4,
            Form::Value => 6,
        }
    }

    /// A field number that may stand in the message.
    fn number(&mut self) -> u64 {
        self.random.between(1, self.most_number()) as u64
    }

    /// A field number of any kind, mostly one that may stand in the message.
    fn any_number(&mut self) -> u64 {
        if self.random.one_in(3) {
            return self.random.choose(&[2, 3, 7, 16, (1 << 29) - 1]);
        }
        self.number()
    }

    /// The place of the first field with this number.
    fn find(&self, number: u64) -> Option<usize> {
        let is_it = |part: &Part| matches!(part, Part::Field(field) if field.number == number);
        self.message.parts.iter().position(is_it)
    }

    /// The place of the field with this number in a message of this form.
    pub fn find_in(&self, form: Form, number: u64) -> Option<usize> {
        if self.message.form == form {
            self.find(number)
        } else {
            None
        }
    }

    /// Gives the field at `place` another payload, and marks it.
    pub fn replace(&mut self, place: usize, payload: Payload) {
        if let Part::Field(field) = &mut self.message.parts[place] {
            field.payload = payload;
        }
        self.message.parts.insert(place, Part::Mark);
    }
}

fn tag_cut_short(place: &mut Place) -> bool {
    let length = place.random.between(1, 9);
    let bytes = place.random.bytes(length).iter().map(|byte| byte | 0x80).collect();
    place.message.parts.extend([Part::Mark, Part::Raw(bytes)]);
    true
}

/// The last field lacks a byte or more, now and then almost 2^64.
fn payload_cut_short(place: &mut Place) -> bool {
    let wire_type = place.random.choose(&[VARINT, EIGHT_BYTES, LENGTH_DELIMITED, LENGTH_DELIMITED, FOUR_BYTES]);
    let number = place.any_number();
    let random = &mut *place.random;
    let there = random.between(0, 3);
    let missing = if random.one_in(4) { u64::MAX - random.number() % 300 } else { random.number() % 4 + 1 };
    let mut bytes = long_varint(8 * number + wire_type, long(random));
    match wire_type {
        VARINT => bytes.extend(vec![0x80; 3 * there]),
        LENGTH_DELIMITED => {
            let length = long_varint(missing.saturating_add(there as u64), long(random));
            if random.one_in(4) {
                bytes.extend(&length[..length.len() - 1]);
            } else {
                bytes.extend([length, vec![0x08; there]].concat());
            }
        }
        _ => bytes.extend(vec![0x08; there]),
    }
    place.message.parts.extend([Part::Mark, Part::Raw(bytes)]);
    true
}

fn bad_tag(place: &mut Place) -> bool {
    let bytes = bad_varint(place.random);
    place.insert(Part::Raw(bytes));
    true
}

fn field_zero(place: &mut Place) -> bool {
    let wire_type = place.random.between(0, 7) as u64;
    let bytes = [&long_varint(wire_type, long(place.random))[..], &[0]].concat();
    place.insert(Part::Raw(bytes));
    true
}

/// Tags above 2^32-1, of which some look good in 32 bits.
fn tag_too_large(place: &mut Place) -> bool {
    let high = 1 << place.random.between(32, 63);
    let low = 8 * place.number() + place.random.choose(&[0, 1, 2, 2, 2, 5]);
    let bytes = [&wire::varint(high + low)[..], &[0]].concat();
    place.insert(Part::Raw(bytes));
    true
}

/// A varint or a length that is no number.
fn bad_payload(place: &mut Place) -> bool {
    let tag = 8 * place.any_number() + place.random.choose(&[VARINT, LENGTH_DELIMITED]);
    let bytes = [wire::varint(tag), bad_varint(place.random)].concat();
    place.insert(Part::Raw(bytes));
    true
}

/// The wire types that no field may have.
fn no_wire_type(place: &mut Place) -> bool {
    let tag = 8 * place.any_number() + place.random.choose(&[3, 4, 6, 7]);
    let bytes = long_varint(tag, long(place.random));
    place.insert(Part::Raw(bytes));
    true
}

/// A field of the message with a wire type that is another's.
fn other_wire_type(place: &mut Place) -> bool {
    let number = place.number();
    let own = match (place.message.form, number) {
        (Form::Value, NULL | BOOL) | (Form::Open, SOCKET) => VARINT,
        (Form::Value, NUMBER) => EIGHT_BYTES,
        _ => LENGTH_DELIMITED,
    };
    let others: Vec<u64> =
        [VARINT, EIGHT_BYTES, LENGTH_DELIMITED, FOUR_BYTES].into_iter().filter(|other| *other != own).collect();
    let wire_type = place.random.choose(&others);
    let payload = payload(place.random, wire_type);
    let field = place.field(number, payload);
    place.insert(field);
    true
}

fn number_without_place(place: &mut Place) -> bool {
    if place.message.form == Form::Open {
        return false;
    }
    let first = place.most_number() + 1;
    let number = match place.random.between(0, 3) {
        0 => first as u64,
        1 => place.random.between(first, 40) as u64,
        2 => place.number() + place.random.choose(&[16, 32, 256, 1 << 16, 1 << 28]),
        _ => (1 << 29) - 1,
    };
    let wire_type = place.random.choose(&[VARINT, EIGHT_BYTES, LENGTH_DELIMITED, FOUR_BYTES]);
    let payload = payload(place.random, wire_type);
    let field = place.field(number, payload);
    place.insert(field);
    true
}

/// One more entry behind another, with that one's key and perhaps without a Value.
fn key_of_another_entry(place: &mut Place) -> bool {
    let mut keys = trees::keys(place.message);
    if place.message.form != Form::Struct || keys.is_empty() {
        return false;
    }
    let first = place.random.between(0, keys.len() - 1);
    let key = keys.swap_remove(first);
    let value = trees::value(place.random, 0);
    let mut entry = trees::entry(place.random, key, value);
    if place.random.one_in(4) {
        entry.parts.retain(|part| matches!(part, Part::Field(field) if field.number == KEY));
    }
    let is_key = |part: &Part| matches!(part, Part::Field(field) if field.number == KEY);
    let fault = entry.parts.iter().position(is_key).unwrap_or(entry.parts.len());
    entry.parts.insert(fault, Part::Mark);
    let payload = trees::nested(place.random, entry);
    let field = place.field(1, payload);
    let behind = place.random.between(first + 1, place.message.parts.len());
    place.message.parts.insert(behind, field);
    true
}

fn second_key(place: &mut Place) -> bool {
    let Some(first) = place.find_in(Form::Entry, KEY) else {
        return false;
    };
    let key = match place.random.between(0, 3) {
        0 => texts::bad(place.random),
        1 => Vec::new(),
        _ => trees::key(place.random),
    };
    let payload = trees::delimited(place.random, key);
    let field = place.field(KEY, payload);
    place.insert_behind(first, field);
    true
}

fn second_value(place: &mut Place) -> bool {
    let Some(first) = place.find_in(Form::Entry, VALUE) else {
        return false;
    };
    let value = if place.random.one_in(3) { Message::new(Form::Value) } else { trees::value(place.random, 0) };
    let payload = trees::nested(place.random, value);
    let field = place.field(VALUE, payload);
    place.insert_behind(first, field);
    true
}

/// The kind of a Value once more, with something that may or may not be allowed there.
fn same_kind_again(place: &mut Place) -> bool {
    let Some(Part::Field(Field { number, payload: first, .. })) = place.message.parts.first() else {
        return false;
    };
    if place.message.form != Form::Value {
        return false;
    }
    let (number, wire_type, first) = (*number, first.wire_type(), first.clone());
    let again = if place.random.one_in(2) { first } else { payload(place.random, wire_type) };
    let field = place.field(number, again);
    place.insert_behind(0, field);
    true
}

fn bad_key(place: &mut Place) -> bool {
    let Some(key) = place.find_in(Form::Entry, KEY) else {
        return false;
    };
    let text = texts::bad(place.random);
    let payload = trees::delimited(place.random, text);
    place.replace(key, payload);
    true
}

/// A text that is not UTF-8, alone in its Value or behind another kind.
fn bad_text(place: &mut Place) -> bool {
    if place.message.form != Form::Value {
        return false;
    }
    if place.find(TEXT).is_some() || place.random.one_in(4) {
        place.message.parts.clear();
    }
    let text = texts::bad(place.random);
    let payload = trees::delimited(place.random, text);
    let field = place.field(TEXT, payload);
    place.message.parts.extend([Part::Mark, field]);
    true
}

fn no_value(place: &mut Place) -> bool {
    let Some(value) = place.find_in(Form::Entry, VALUE) else {
        return false;
    };
    place.message.parts.remove(value);
    place.message.parts.push(Part::Mark);
    true
}

fn no_kind(place: &mut Place) -> bool {
    if place.message.form != Form::Value {
        return false;
    }
    place.message.parts = vec![Part::Mark];
    true
}

/// A second kind in a Value, a Struct or list now and then where there is no level left for it.
fn other_kind(place: &mut Place) -> bool {
    let Some(Part::Field(Field { number: first, .. })) = place.message.parts.first() else {
        return false;
    };
    if place.message.form != Form::Value {
        return false;
    }
    let first = *first;
    let (mut number, mut payload) = (first, Payload::Four([0; 4]));
    while number == first {
        let levels = place.random.between(0, 1);
        (number, payload) = trees::kind(place.random, levels);
    }
    let field = place.field(number, payload);
    place.insert_behind(0, field);
    true
}

fn null_not_0(place: &mut Place) -> bool {
    let Some(null) = place.find_in(Form::Value, NULL) else {
        return false;
    };
    let value = place.random.choose(&[1, 2, 127, 128, 256, 1 << 31, 1 << 32, 1 << 63, u64::MAX]);
    let payload = trees::varint(place.random, value);
    place.replace(null, payload);
    true
}

fn bool_above_1(place: &mut Place) -> bool {
    let Some(truth) = place.find_in(Form::Value, BOOL) else {
        return false;
    };
    let value =
        place.random.choose(&[2, 3, 128, 129, 256, 257, 1 << 32, (1 << 32) + 1, 1 << 63, (1 << 63) + 1, u64::MAX]);
    let payload = trees::varint(place.random, value);
    place.replace(truth, payload);
    true
}

/// A Struct or list on level 9, itself readable or not.
fn too_deep(place: &mut Place) -> bool {
    if place.message.form != Form::Value {
        return false;
    }
    let value = Message { form: Form::Value, parts: vec![Part::Mark, place.deep_field()] };
    place.replace_on_last_level(value);
    true
}

/// A Struct or list on level 9 that is a second kind as well.
fn other_kind_too_deep(place: &mut Place) -> bool {
    if place.message.form != Form::Value {
        return false;
    }
    let mut value = trees::value(place.random, 0);
    value.parts.extend([Part::Mark, place.deep_field()]);
    place.replace_on_last_level(value);
    true
}

impl Place<'_> {
    /// A field of a Value that holds a Struct or list of any bytes.
    fn deep_field(&mut self) -> Part {
        let length = self.random.choose(&[0, 0, 0, 1, 2, 3]);
        let bytes = self.random.bytes(length);
        let number = self.random.choose(&[STRUCT, LIST]);
        let payload = trees::delimited(self.random, bytes);
        self.field(number, payload)
    }

    /// Puts this Value in place of the message, inside as many Structs and lists as may still nest.
    fn replace_on_last_level(&mut self, mut value: Message) {
        for _ in self.level..MOST_LEVELS {
            value = inside_one_more_level(self.random, value);
        }
        *self.message = value;
    }
}

/// The Value of a Struct or list that holds only this Value.
fn inside_one_more_level(random: &mut Random, value: Message) -> Message {
    if random.one_in(2) {
        let mut structure = Message::new(Form::Struct);
        let key = trees::key(random);
        trees::add_entry(random, &mut structure, key, value);
        let payload = trees::nested(random, structure);
        return trees::value_of(random, STRUCT, payload);
    }
    let mut list = Message::new(Form::List);
    let payload = trees::nested(random, value);
    list.add(random, 1, payload);
    let payload = trees::nested(random, list);
    trees::value_of(random, LIST, payload)
}

#[cfg(test)]
mod tests {
    use super::*;
    use crate::structs;
    use crate::wire::Fault;

    #[test]
    fn every_breach_is_found_where_it_is_marked() {
        let mut random = Random::new(4);
        for (place, rule) in RULES.iter().enumerate() {
            for _ in 0..2000 {
                let (form, written) = broken(rule, &mut random);
                let bytes = &written.bytes;
                let fault = match form {
                    Form::Struct => structs::read_struct(bytes).err(),
                    _ => structs::read_value(bytes).err(),
                };
                let expected = Fault { kind: rule.kind, at: written.mark.expect("a breach is marked") };
                assert_eq!(fault, Some(expected), "rule {place} in {form:?} {bytes:02X?}");
            }
        }
    }
}
