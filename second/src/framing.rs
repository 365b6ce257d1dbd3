//! How one call and its answer stand in the messages between this program and the host; host.c says the same.

use crate::calls::{Argument, Call, Written};

/// The bytes before and behind whatever is lent.
pub const GUARD: usize = 32;

/// The number by which each word of an area differs from the one before it.
const WORD_STEP: u64 = 0x9E37_79B9_7F4A_7C15;

/// A lent area as it is before the call: a guard, `length` bytes and a guard, all filled from the pattern.
pub fn area(pattern: u64, length: usize) -> Vec<u8> {
    let whole = GUARD + length + GUARD;
    let mut area = Vec::with_capacity(whole + 8);
    let mut word = pattern;
    while area.len() < whole {
        area.extend(word.to_le_bytes());
        word = word.wrapping_add(WORD_STEP);
    }
    area.truncate(whole);
    area
}

/// Adds a call to a request.
pub fn put_request(request: &mut Vec<u8>, call: &dyn Call, pattern: u64) {
    request.push(call.function() as u8);
    request.extend(pattern.to_le_bytes());
    for (_, argument) in call.arguments() {
        match argument {
            Argument::Number(number) => request.extend(number.to_le_bytes()),
            Argument::Input(bytes) | Argument::InPlace(bytes) => {
                request.extend((bytes.len() as u32).to_le_bytes());
                request.extend(bytes);
            }
            Argument::Room(length) => request.extend((length as u32).to_le_bytes()),
            Argument::FixedRoom(_) | Argument::Numbers(_) => {}
        }
    }
}

/// Adds to `answers` what the host sends back for a call if the library answers as the model does.
pub fn put_expected(answers: &mut Vec<u8>, call: &dyn Call, pattern: u64) {
    let arguments = call.arguments();
    let before: Vec<Vec<u8>> = arguments.iter().filter_map(|(_, argument)| before(argument, pattern)).collect();
    let answer = call.answer(&before);
    answers.push(call.function() as u8);
    answers.push(0);
    answers.extend(answer.returned.to_le_bytes());
    for written in &answer.written {
        let bytes = match written {
            Written::Bytes(bytes) => bytes.clone(),
            Written::Numbers(numbers) => numbers.iter().flat_map(|number| number.to_le_bytes()).collect(),
        };
        let mut area = area(pattern, bytes.len());
        area[GUARD..GUARD + bytes.len()].copy_from_slice(&bytes);
        answers.extend(area);
    }
}

/// What a lent room holds before the call; nothing for any other argument.
fn before(argument: &Argument, pattern: u64) -> Option<Vec<u8>> {
    match argument {
        Argument::Room(length) | Argument::FixedRoom(length) => {
            Some(area(pattern, *length)[GUARD..GUARD + length].to_vec())
        }
        Argument::Number(_) | Argument::Input(_) | Argument::InPlace(_) | Argument::Numbers(_) => None,
    }
}

/// One of the parts that an answer is made of.
pub struct Part {
    pub name: String,
    pub kind: Kind,
    pub length: usize,
}

pub enum Kind {
    /// The function's code.
    Code,
    /// The lent argument, counted from 1, that is an input and was changed; 0 for none.
    Changed,
    /// Numbers of 8 bytes.
    Numbers,
    Bytes,
    Guard,
}

/// The parts of the answer to a call, in order.
pub fn parts(call: &dyn Call) -> Vec<Part> {
    let part = |name: &str, kind, length| Part { name: name.to_string(), kind, length };
    let mut parts =
        vec![part("function", Kind::Code, 1), part("changed", Kind::Changed, 1), part("returned", Kind::Numbers, 8)];
    for (name, argument) in call.arguments() {
        let (kind, length) = match argument {
            Argument::Number(_) | Argument::Input(_) => continue,
            Argument::InPlace(bytes) => (Kind::Bytes, bytes.len()),
            Argument::Room(length) | Argument::FixedRoom(length) => (Kind::Bytes, length),
            Argument::Numbers(count) => (Kind::Numbers, 8 * count),
        };
        parts.push(part(&format!("guard before {name}"), Kind::Guard, GUARD));
        parts.push(part(name, kind, length));
        parts.push(part(&format!("guard behind {name}"), Kind::Guard, GUARD));
    }
    parts
}

#[cfg(test)]
mod tests {
    use super::*;
    use crate::calls::{Contents, Interface, Make, Receive, SendMessage, Store, Width, WriteOpen};
    use crate::endpoint::{Role, Send};
    use crate::open::Opening;

    fn expected(call: &dyn Call) -> Vec<u8> {
        let mut answers = Vec::new();
        put_expected(&mut answers, call, 1);
        answers
    }

    #[test]
    fn an_answer_is_as_long_as_its_parts() {
        let opening = Opening { producer: true, name: b"n".to_vec(), format: Vec::new(), limit: 0 };
        let (block, name, format) = (vec![9; 63], b"n".to_vec(), Vec::new());
        let opens = Send::Open { name: name.clone(), format: format.clone() };
        let calls: [Box<dyn Call>; 7] = [
            Box::new(Interface),
            Box::new(Contents { bundle: vec![0, 0] }),
            Box::new(Store { width: Width::Two, room: 5, at: 1, number: 0x1234 }),
            Box::new(WriteOpen { room: 7, at: 0, opening }),
            Box::new(Make { role: Role::Server, block: block.clone(), flow: 1, limit: 0 }),
            Box::new(SendMessage { block: block.clone(), send: opens, room: 5 }),
            Box::new(Receive { block, message: vec![0, 0], name, format, room: 5 }),
        ];
        for call in calls {
            let length: usize = parts(call.as_ref()).iter().map(|part| part.length).sum();
            assert_eq!(expected(call.as_ref()).len(), length);
        }
    }

    #[test]
    fn what_is_changed_in_place_comes_back_between_its_guards() {
        let answer = expected(&Make { role: Role::Server, block: vec![9; 64], flow: 1, limit: 0 });
        let mut area = area(1, 64);
        area[GUARD..GUARD + 64].fill(0);
        area[GUARD..GUARD + 2].copy_from_slice(&[2, 1]);
        area[GUARD + 8..GUARD + 12].copy_from_slice(&[0x02, 0xFA, 0xF0, 0x80]);
        assert_eq!(answer[10..], area);
    }

    #[test]
    fn only_the_stored_bytes_differ_from_the_pattern() {
        let answer = expected(&Store { width: Width::Two, room: 5, at: 1, number: 0x1234 });
        let mut area = area(1, 5);
        area[GUARD + 1..GUARD + 3].copy_from_slice(&[0x12, 0x34]);
        assert_eq!(answer[10..], area);
    }
}
