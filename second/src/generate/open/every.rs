//! OPEN frames of all combinations of a few fields, of all lengths, sockets, limits and places that matter.

use super::add_frame;
use crate::calls::ReadOpen;
use crate::generate::messages::{long_varint, Field, Form, Message, Part, Payload};
use crate::generate::small::{pairs, sequences};
use crate::generate::{add, alike, limits, structs, texts, trees, Calls};
use crate::limit;
use crate::open::{Offer, FORMAT, INPUT, NAME, OUTPUT, PARAMETERS, SOCKET};
use crate::random::Random;
use crate::structs::NULL;
use crate::wire;

/// Fields that an OPEN frame may have, and some that it may not: names, sockets, formats, parameters, fields that are
/// skipped, and what is no field.
pub const FIELDS: [&[u8]; 41] = [
    b"\x0A\x01n",
    b"\x0A\x00",
    b"\x0A\x01m",
    b"\x0A\x01\xFF",
    b"\x8A\x00\x81\x00n",
    b"\x08\x01",
    b"\x10\x01",
    b"\x10\x02",
    b"\x10\x00",
    b"\x10\x03",
    b"\x90\x80\x00\x81\x00",
    b"\x10\xFF\xFF\xFF\xFF\x0F",
    b"\x10\x81\x80\x80\x80\x10",
    b"\x12\x01\x01",
    b"\x15\x01\x00\x00\x00",
    b"\x1A\x01f",
    b"\x1A\x00",
    b"\x1A\x01g",
    b"\x1A\x01\xFF",
    b"\x18\x00",
    b"\x22\x00",
    b"\x22\x06\x0A\x04\x12\x02\x08\x00",
    b"\x22\x02\x0A\x00",
    b"\x22\x01\x80",
    b"\x22\x20\x0A\x1E\x0A\x11max_message_bytes\x12\x09\x11\x00\x00\x00\x00\x80\x84\x2E\x41",
    b"\x22\x20\x0A\x1E\x0A\x11max_message_bytes\x12\x09\x11\x00\x00\x00\x00\x7E\x84\x2E\x41",
    b"\x22\x19\x0A\x17\x0A\x11max_message_bytes\x12\x02\x08\x00",
    b"\x21\x00\x00\x00\x00\x00\x00\x00\x00",
    b"\x28\x01",
    b"\x29\x01\x02\x03\x04\x05\x06\x07\x08",
    b"\x2A\x01\xFF",
    b"\x2D\x01\x02\x03\x04",
    b"\x2B",
    b"\x0B",
    b"\x17",
    b"\x00\x00",
    b"\x8A\x80\x80\x80\x10\x00",
    b"\x80\x80\x80\x80\x80\x80\x80\x80\x80\x80\x00",
    b"\x10\xFF\xFF\xFF\xFF\xFF\xFF\xFF\xFF\xFF\x02",
    b"\x1A\x7F",
    b"\x80",
];

/// The offer that frames of these fields may meet.
pub fn offer(random: &mut Random) -> Offer {
    Offer { producer: random.one_in(2), name: b"n".to_vec(), format: b"f".to_vec() }
}

/// The good socket for an offer.
fn good_socket(offer: &Offer) -> Vec<u8> {
    wire::varint_field(SOCKET, offer.socket())
}

/// Frames of up to three such fields, and frames of a good name and socket with any two more among them.
pub fn few_fields(random: &mut Random) -> Calls {
    let mut calls = Calls::new();
    for frame in sequences(&FIELDS.map(|field| field.to_vec()), 3) {
        let offer = offer(random);
        add_frame(&mut calls, random, &frame, &offer);
    }
    for first in FIELDS {
        for second in FIELDS {
            let offer = offer(random);
            let (name, socket) = (FIELDS[0], &good_socket(&offer)[..]);
            for frame in [
                [name, socket, first, second],
                [name, first, socket, second],
                [first, name, second, socket],
                [first, second, socket, name],
            ] {
                add_frame(&mut calls, random, &frame.concat(), &offer);
            }
        }
    }
    calls
}

/// All orders of all or some of the pieces, each at most once.
fn orders(pieces: &[Vec<u8>]) -> Vec<Vec<u8>> {
    let mut all = vec![Vec::new()];
    for (place, piece) in pieces.iter().enumerate() {
        let others = [&pieces[..place], &pieces[place + 1..]].concat();
        all.extend(pairs(std::slice::from_ref(piece), &orders(&others)));
    }
    all
}

/// Every subset and order of the four fields and two that are skipped, in short and in long forms.
pub fn subsets_and_orders(random: &mut Random) -> Calls {
    let mut calls = Calls::new();
    for long in [0, 3] {
        let field = |number, payload| {
            let field = Field { number, long_tag: long, payload };
            Message { form: Form::Open, parts: vec![Part::Field(field)] }.bytes()
        };
        let delimited = |number, bytes: &[u8]| field(number, Payload::Bytes { bytes: bytes.to_vec(), long });
        let pieces = [
            delimited(NAME, b"n"),
            field(SOCKET, Payload::Varint { value: INPUT, long }),
            delimited(FORMAT, b"f"),
            delimited(PARAMETERS, &limit::parameters(2_000_000)),
            delimited(5, b"\xFF"),
            field(16, Payload::Four([0x0A; 4])),
        ];
        for frame in orders(&pieces) {
            let offer = offer(random);
            add_frame(&mut calls, random, &frame, &offer);
        }
    }
    calls
}

/// Names, sockets, formats and limits, good, bad and absent, in all combinations, with offers that they meet or not.
pub fn numbers_in_order(random: &mut Random) -> Calls {
    let mut calls = Calls::new();
    let texts = |number: u64| [0, 1, 255, 256].map(|length| wire::delimited_field(number, &vec![b'n'; length]));
    let sockets = [0, 1, 2, 3, u64::from(u32::MAX)].map(|socket| wire::varint_field(SOCKET, socket));
    let parameters = [0, 1_000_000].map(|limit| wire::delimited_field(PARAMETERS, &limit::parameters(limit)));
    let mut frames = vec![Vec::new()];
    for pieces in [&texts(NAME)[..], &sockets, &texts(FORMAT), &parameters] {
        let pieces = [&[Vec::new()], pieces].concat();
        frames = pairs(&frames, &pieces);
    }
    for frame in frames {
        add_every_offer(&mut calls, random, &frame);
    }
    calls
}

/// Asks about a frame with every offer of either flow and texts of a few lengths.
fn add_every_offer(calls: &mut Calls, random: &mut Random, frame: &[u8]) {
    for producer in [false, true] {
        for name in [0, 1, 255, 256] {
            for format in [0, 1, 255, 256] {
                let offer = Offer { producer, name: vec![b'n'; name], format: vec![b'n'; format] };
                add_frame(calls, random, frame, &offer);
            }
        }
    }
}

/// Names and formats of every length up to 300 bytes and of some more, with characters of up to four bytes.
pub fn lengths(random: &mut Random) -> Calls {
    let mut calls = Calls::new();
    for length in (0..=300).chain([511, 512, 16_383, 16_384, 65_536, 65_537, 65_791]) {
        let text = texts::of_length(random, length);
        for (name, format) in [(text.clone(), Vec::new()), (b"n".to_vec(), text)] {
            let fields = [(NAME, &name), (FORMAT, &format)].map(|(number, text)| wire::delimited_field(number, text));
            let offer = Offer { producer: random.one_in(2), name, format };
            let frame = [fields.concat(), good_socket(&offer)].concat();
            add_frame(&mut calls, random, &frame, &offer);
        }
    }
    calls
}

/// Sockets at every boundary and in every form, alone and with another in front or behind.
pub fn sockets(random: &mut Random) -> Calls {
    let mut calls = Calls::new();
    let mut sockets: Vec<u64> = (0..=6).chain([127, 128, 129, 255, 256, 257, u64::MAX - 1, u64::MAX]).collect();
    for power in [16, 31, 32, 33, 63] {
        sockets.extend([(1 << power) - 1, 1 << power, (1 << power) + 1, (1 << power) + 2]);
    }
    for socket in sockets {
        for long in 0..10 {
            let field = [&[0x10][..], &long_varint(socket, long)].concat();
            let other = wire::varint_field(SOCKET, random.choose(&[0, 1, 2, 3, u64::MAX]));
            for fields in [field.clone(), [&field[..], &other].concat(), [other, field].concat()] {
                let offer = offer(random);
                add_frame(&mut calls, random, &[&fields[..], b"\x0A\x01n"].concat(), &offer);
            }
        }
    }
    calls
}

/// Parameters with a limit that is each of the doubles that matter, that is no number, or that stands elsewhere.
pub fn announced_limits(random: &mut Random) -> Calls {
    let mut values: Vec<Message> =
        limits::every_double().into_iter().map(|bits| limits::number(random, bits)).collect();
    values.extend((0..40).map(|_| limits::hidden_limit(random)));
    let null = trees::varint(random, 0);
    values.push(trees::value_of(random, NULL, null));
    let mut calls = Calls::new();
    for value in values {
        for key in [limit::KEY, b"max_message_byte", b"max_message_bytes\0", b""] {
            let mut parameters = Message::new(Form::Struct);
            trees::add_entry(random, &mut parameters, key.to_vec(), value.clone());
            let parameters = wire::delimited_field(PARAMETERS, &parameters.bytes());
            let offer = offer(random);
            let frame = [FIELDS[0], &good_socket(&offer), &parameters].concat();
            add_frame(&mut calls, random, &frame, &offer);
        }
    }
    calls
}

/// Frames of a name and a format, each with offers that are the same or that differ from it at every byte, and that are
/// shorter or longer.
pub fn frames_and_offers(random: &mut Random) -> Vec<(Vec<u8>, Offer)> {
    let mut all = Vec::new();
    for text in alike::every_text(random) {
        let socket = wire::varint_field(SOCKET, OUTPUT);
        let frame = [wire::delimited_field(NAME, &text), socket, wire::delimited_field(FORMAT, &text)].concat();
        for other in alike::like(&text) {
            let offer = |name: &[u8], format: &[u8]| Offer { producer: true, name: name.into(), format: format.into() };
            all.extend([offer(&text, &other), offer(&other, &text)].map(|offer| (frame.clone(), offer)));
        }
    }
    all
}

pub fn offers(random: &mut Random) -> Calls {
    let mut calls = Calls::new();
    for (frame, offer) in frames_and_offers(random) {
        add_frame(&mut calls, random, &frame, &offer);
    }
    calls
}

/// Frames with as many parameters as fit into them, all of different keys or the last one repeated from the start.
pub fn many_parameters(random: &mut Random) -> Calls {
    let mut calls = Calls::new();
    for count in [50, 200, 420] {
        let mut keys = structs::similar_keys(random, count);
        for last in [limit::KEY.to_vec(), keys[0].clone()] {
            keys[count - 1] = last;
            let parameters = structs::struct_of_keys(random, &keys).bytes();
            let parameters = wire::delimited_field(PARAMETERS, &parameters);
            let offer = offer(random);
            let frame = [FIELDS[0], &good_socket(&offer), &parameters].concat();
            add_frame(&mut calls, random, &frame, &offer);
        }
    }
    calls
}

/// Every place and end in a short message, and those that are far outside it.
pub fn places(random: &mut Random) -> Calls {
    let mut calls = Calls::new();
    let frame: &[u8] = b"\x0A\x01n\x10\x01\x1A\x01f\x22\x06\x0A\x04\x12\x02\x08\x00";
    let far = [1 << 31, 1 << 32, (1 << 32) + 8, (1 << 63) - 1, 1 << 63, (1 << 63) + 8, u64::MAX - 7, u64::MAX];
    for message in [Vec::new(), vec![0x0A], frame.to_vec(), [frame, frame].concat(), [b"\x80", frame].concat()] {
        let places: Vec<u64> = (0..=message.len() as u64 + 2).chain(far).collect();
        for at in &places {
            for end in &places {
                let offer = Offer { producer: false, ..offer(random) };
                add(&mut calls, ReadOpen { message: message.clone(), at: *at, end: *end, offer });
            }
        }
    }
    calls
}
