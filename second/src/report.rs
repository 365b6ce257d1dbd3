//! How a call is told to the reader: its arguments, and what the model and the library answered.

use crate::calls::{Argument, Call};
use crate::framing::{parts, Kind, Part};

/// The most bytes of an argument that are told whole, and how many of a longer one's start and end are.
const WHOLE_ARGUMENT: usize = 512;
const ARGUMENT_START: usize = 128;
const ARGUMENT_END: usize = 32;

/// The most bytes of an answer that are told whole, and how many of a longer one are told around the difference.
const WHOLE_ANSWER: usize = 64;
const BEFORE_DIFFERENCE: usize = 8;
const FROM_DIFFERENCE: usize = 32;

/// A call with the name of its generator and its arguments, one to a line.
pub fn call(generator: &str, call: &dyn Call) -> String {
    let mut text = format!("function:  {}\ngenerator: {generator}\n", call.function().name());
    for (name, argument) in call.arguments() {
        let label = format!("{name}:");
        text += &format!("{label:<10} {}\n", argument_text(&argument));
    }
    text
}

/// What the model and the library answered to a call, one to a line.
pub fn answers(call: &dyn Call, model: &[u8], library: &[u8]) -> String {
    let (mut by_model, mut by_library) = (Vec::new(), Vec::new());
    let mut at = 0;
    for part in parts(call) {
        let whole = at..at + part.length;
        by_model.extend(part_text(call, &part, &model[whole.clone()], &library[whole.clone()]));
        by_library.extend(part_text(call, &part, &library[whole.clone()], &model[whole]));
        at += part.length;
    }
    format!("model:     {}\nlibrary:   {}\n", by_model.join(", "), by_library.join(", "))
}

fn argument_text(argument: &Argument) -> String {
    match argument {
        Argument::Number(number) => format!("{number} ({number:#x})"),
        Argument::Input(bytes) | Argument::InPlace(bytes) => given_text(bytes),
        Argument::Room(length) | Argument::FixedRoom(length) => format!("room for {length} bytes"),
        Argument::Numbers(count) => format!("{count} numbers"),
    }
}

/// The bytes of an argument, a long one cut to its start and its end.
fn given_text(bytes: &[u8]) -> String {
    if bytes.len() <= WHOLE_ARGUMENT {
        return format!("{} bytes: {}", bytes.len(), hex(bytes));
    }
    let (start, end) = (&bytes[..ARGUMENT_START], &bytes[bytes.len() - ARGUMENT_END..]);
    format!("{} bytes: {} .. {}", bytes.len(), hex(start), hex(end))
}

/// What one side says in one part of an answer; nothing for the parts that matter only where they differ.
fn part_text(call: &dyn Call, part: &Part, own: &[u8], other: &[u8]) -> Option<String> {
    let differs = own != other;
    match part.kind {
        Kind::Code => differs.then(|| format!("function code {}", own[0])),
        Kind::Changed => differs.then(|| changed_text(call, own[0])),
        Kind::Numbers => Some(format!("{} = {}", part.name, numbers_text(own))),
        Kind::Bytes => Some(format!("{} = {}", part.name, bytes_text(&part.name, own, other))),
        Kind::Guard => differs.then(|| format!("{} = {}", part.name, hex(own))),
    }
}

/// Which lent argument, counted from 1, was changed although it is an input.
fn changed_text(call: &dyn Call, changed: u8) -> String {
    let arguments = call.arguments();
    let mut lent = arguments.iter().filter(|(_, argument)| !matches!(argument, Argument::Number(_)));
    match changed.checked_sub(1).map(|place| lent.nth(place.into())) {
        None => "no input changed".to_string(),
        Some(Some((name, _))) => format!("input {name} changed"),
        Some(None) => format!("lent argument {changed} changed"),
    }
}

fn numbers_text(bytes: &[u8]) -> String {
    let number = |bytes: &[u8]| bytes.iter().rev().fold(0, |number, byte| number << 8 | u64::from(*byte));
    bytes.chunks(8).map(|bytes| number(bytes).to_string()).collect::<Vec<_>>().join(" ")
}

/// The bytes of one side, a long part cut to what lies around the first difference.
fn bytes_text(name: &str, own: &[u8], other: &[u8]) -> String {
    if name == "line" {
        return format!("\"{}\"", own.escape_ascii());
    }
    if own.len() <= WHOLE_ANSWER {
        return hex(own);
    }
    let difference = own.iter().zip(other).position(|(own, other)| own != other).unwrap_or(0);
    let start = difference.saturating_sub(BEFORE_DIFFERENCE);
    let end = own.len().min(difference + FROM_DIFFERENCE);
    format!("{} bytes, from {start} on: {} ..", own.len(), hex(&own[start..end]))
}

fn hex(bytes: &[u8]) -> String {
    bytes.iter().map(|byte| format!("{byte:02X}")).collect::<Vec<_>>().join(" ")
}

#[cfg(test)]
mod tests {
    use super::*;
    use crate::calls::Contents;
    use crate::framing::put_expected;

    #[test]
    fn a_difference_is_told_with_both_answers() {
        let contents = Contents { bundle: vec![0, 0] };
        let mut model = Vec::new();
        put_expected(&mut model, &contents, 7);
        let mut library = model.clone();
        library[1] = 1;
        library[2] = 0;
        assert_eq!(
            answers(&contents, &model, &library),
            "model:     no input changed, returned = 10, contents = 0 0 0 0\n\
             library:   input bundle changed, returned = 0, contents = 0 0 0 0\n"
        );
        assert_eq!(
            call("some", &contents),
            "function:  probe_contents\ngenerator: some\nbundle:    2 bytes: 00 00\ncontents:  4 numbers\n"
        );
    }
}
