//! The terms of the parameters that are read: Structs as a client sends them and a server keeps them.

use second::structs::{BOOL, ENTRY, KEY, NULL, NUMBER, TEXT, VALUE};
use second::wire;

/// What a term holds.
pub enum Held {
    Nothing,
    Number(f64),
    Text(&'static str),
    Truth(bool),
}

use Held::{Nothing, Number, Text, Truth};

pub type Term = (&'static str, Held);

/// A client's terms, the limit first.
pub const CLIENT: [Term; 12] = [
    ("max_message_bytes", Number(1_000_000.0)),
    ("press", Text("press seven, hall two")),
    ("makeready_hours", Number(1.25)),
    ("sheets_per_hour", Number(11_500.0)),
    ("perfecting", Truth(true)),
    ("varnish", Nothing),
    ("job", Text("2024-0815 spring catalogue")),
    ("sheets", Number(48_000.0)),
    ("customer", Text("Verlag am Markt")),
    ("paper", Text("coated matt 135")),
    ("grammage", Number(135.0)),
    ("plates", Number(8.0)),
];

/// A server's defaults.
pub const DEFAULTS: [Term; 12] = [
    ("makeready_hours", Number(1.0)),
    ("sheets_per_hour", Number(10_000.0)),
    ("perfecting", Truth(false)),
    ("varnish", Nothing),
    ("colours_front", Number(4.0)),
    ("colours_back", Number(4.0)),
    ("waste_share", Number(0.0135)),
    ("wash_ups", Number(2.0)),
    ("dryer", Truth(true)),
    ("humidity", Number(0.55)),
    ("ink", Text("process, low migration")),
    ("remark", Nothing),
];

/// Terms with keys of 40 bytes, of which the last alone differs.
pub const ALIKE: [Term; 12] = [
    ("sheets_delivered_by_press_nine_in_hour_a", Number(11_500.0)),
    ("sheets_delivered_by_press_nine_in_hour_b", Number(11_600.0)),
    ("sheets_delivered_by_press_nine_in_hour_c", Number(11_700.0)),
    ("sheets_delivered_by_press_nine_in_hour_d", Number(11_800.0)),
    ("sheets_delivered_by_press_nine_in_hour_e", Number(11_900.0)),
    ("sheets_delivered_by_press_nine_in_hour_f", Number(12_000.0)),
    ("sheets_delivered_by_press_nine_in_hour_g", Number(12_100.0)),
    ("sheets_delivered_by_press_nine_in_hour_h", Number(12_200.0)),
    ("sheets_delivered_by_press_nine_in_hour_i", Number(12_300.0)),
    ("sheets_delivered_by_press_nine_in_hour_j", Number(12_400.0)),
    ("sheets_delivered_by_press_nine_in_hour_k", Number(12_500.0)),
    ("sheets_delivered_by_press_nine_in_hour_l", Number(12_600.0)),
];

/// The Struct of these terms.
pub fn structure(terms: &[Term]) -> Vec<u8> {
    let mut structure = Vec::new();
    for (key, held) in terms {
        let mut entry = Vec::new();
        wire::put_delimited_field(&mut entry, KEY, key.as_bytes());
        wire::put_delimited_field(&mut entry, VALUE, &value(held));
        wire::put_delimited_field(&mut structure, ENTRY, &entry);
    }
    structure
}

fn value(held: &Held) -> Vec<u8> {
    let mut value = Vec::new();
    match held {
        Nothing => wire::put_varint_field(&mut value, NULL, 0),
        Number(number) => wire::put_eight_bytes_field(&mut value, NUMBER, number.to_le_bytes()),
        Text(text) => wire::put_delimited_field(&mut value, TEXT, text.as_bytes()),
        Truth(truth) => wire::put_varint_field(&mut value, BOOL, (*truth).into()),
    }
    value
}
