//! The calls that are compared, in sets: the exhaustive ones are made once, the generated ones again and again.

mod alike;
mod broken;
mod bundles;
mod bytes;
mod control;
mod endpoint;
mod fields;
mod indexes;
mod limits;
mod lines;
mod lookups;
mod messages;
mod open;
mod readers;
mod small;
mod stored;
mod structs;
mod texts;
mod trees;
mod writers;

use crate::calls::{Call, Contents, FrameAt, HandOut, Interface, Line, ReadControl};
use crate::random::Random;

pub type Calls = Vec<Box<dyn Call>>;

/// Calls of one kind.
pub struct Set {
    pub kind: &'static str,
    pub make: fn(&mut Random) -> Calls,
}

pub const EXHAUSTIVE: &[Set] = &[
    Set { kind: "the number of the interface", make: interface },
    Set { kind: "every place to read from", make: bytes::every_read },
    Set { kind: "every place to store at", make: bytes::every_store },
    Set { kind: "every place to copy to", make: bytes::every_copy },
    Set { kind: "every control byte", make: control::every_control_byte },
    Set { kind: "every value of each signature byte", make: control::every_signature_byte },
    Set { kind: "every length of a control frame", make: control::every_length },
    Set { kind: "every index", make: indexes::every_index },
    Set { kind: "every frame count", make: indexes::every_frame_count },
    Set { kind: "every position of a reader", make: readers::every_position },
    Set { kind: "every type and room for a control frame alone", make: writers::every_room_for_one },
    Set { kind: "every room for a control frame and a body", make: writers::every_room_for_two },
    Set { kind: "every room for a control frame and a long body", make: writers::every_room_for_long_bodies },
    Set { kind: "bodies with lengths around powers of two", make: writers::bodies_around_powers },
    Set { kind: "inputs around the longest", make: lines::around_the_longest_input },
    Set { kind: "Structs and Values serialized by Google's protobuf", make: stored::every_struct },
    Set { kind: "OPEN frames serialized by Google's protobuf", make: stored::every_open },
    Set { kind: "every text of up to two bytes", make: texts::up_to_two_bytes },
    Set { kind: "texts of three boundary bytes", make: texts::three_boundary_bytes },
    Set { kind: "texts of four boundary bytes", make: texts::four_boundary_bytes },
    Set { kind: "plain texts of every length", make: texts::runs::plain_alone },
    Set { kind: "plain texts but for one byte", make: texts::runs::one_not_plain },
    Set { kind: "every sequence among plain bytes", make: texts::runs::every_sequence },
    Set { kind: "changed sequences among plain bytes", make: texts::runs::changed_sequences },
    Set { kind: "two sequences among plain bytes", make: texts::runs::two_sequences },
    Set { kind: "sequences cut behind plain bytes", make: texts::runs::cut_sequences },
    Set { kind: "every form of a tag", make: fields::every_tag },
    Set { kind: "tags around the least and the largest", make: fields::tags_around_the_ends },
    Set { kind: "every form of a varint or length", make: fields::every_payload },
    Set { kind: "lengths around the end of the message", make: fields::lengths_around_the_end },
    Set { kind: "every place and end of a field", make: fields::every_place },
    Set { kind: "every place to store a varint at", make: fields::every_store },
    Set { kind: "every Value of up to two bytes", make: small::up_to_two_bytes },
    Set { kind: "every Value of a few fields", make: small::every_few_fields },
    Set { kind: "every Struct of a few entries", make: small::every_few_entries },
    Set { kind: "Structs of hundreds of keys", make: structs::hundreds_of_keys },
    Set { kind: "long lists and texts", make: structs::long_lists },
    Set { kind: "every pair of small Structs", make: lookups::every_small_pair },
    Set { kind: "keys that differ at every byte", make: lookups::keys_alike },
    Set { kind: "limits around every boundary", make: limits::every_limit },
    Set { kind: "keys that differ from the limit's at every byte", make: limits::keys_alike },
    Set { kind: "doubles around powers of two", make: limits::every_limit_bytes },
    Set { kind: "every OPEN frame of a few fields", make: open::every::few_fields },
    Set { kind: "every subset and order of the fields of OPEN", make: open::every::subsets_and_orders },
    Set { kind: "every refusal of OPEN with every other", make: open::every::numbers_in_order },
    Set { kind: "names and formats of every length", make: open::every::lengths },
    Set { kind: "sockets of every form", make: open::every::sockets },
    Set { kind: "limits of OPEN around every boundary", make: open::every::announced_limits },
    Set { kind: "offers that differ at every byte", make: open::every::offers },
    Set { kind: "OPEN frames of hundreds of parameters", make: open::every::many_parameters },
    Set { kind: "every place and end of an OPEN frame", make: open::every::places },
    Set { kind: "every room for an OPEN frame", make: open::writers::every_room },
    Set { kind: "OPEN frames of every length to write", make: open::writers::every_length },
    Set { kind: "OPEN frames of every limit, written and read", make: open::writers::every_limit },
    Set { kind: "the marked cases and the slips", make: endpoint::marked::cases },
    Set { kind: "OPENs serialized by Google's protobuf", make: endpoint::opens::stored },
    Set { kind: "OPENs to offers that differ at every byte", make: endpoint::opens::offers },
    Set { kind: "every flow and limit to make", make: endpoint::making::every_flow_and_limit },
    Set { kind: "blocks of every length to make", make: endpoint::making::every_length },
    Set { kind: "blocks of every length", make: endpoint::blocks::every_length },
    Set { kind: "every byte of a block", make: endpoint::blocks::every_byte },
    Set { kind: "what a block says", make: endpoint::blocks::what_they_say },
    Set { kind: "every mixture of NOOPs and DATA to be confirmed", make: endpoint::unconfirmed::every_mixture },
    Set { kind: "every other number in bytes 6 and 7", make: endpoint::unconfirmed::other_numbers },
    Set { kind: "DATA behind the entries that are awaited", make: endpoint::unconfirmed::data_behind },
    Set { kind: "every message to every kind of block", make: endpoint::every::messages },
    Set { kind: "every control byte to every kind of block", make: endpoint::every::control_bytes },
    Set { kind: "every flags byte to every kind of block", make: endpoint::every::flags },
    Set { kind: "DATA with every number of data frames", make: endpoint::every::bodies },
    Set { kind: "every confirmation", make: endpoint::every::confirmations },
    Set { kind: "every send from every kind of block", make: endpoint::every::sends },
    Set { kind: "every number that says how to send", make: endpoint::every::options },
    Set { kind: "every code of CLOSE", make: endpoint::every::codes },
    Set { kind: "counts of READY around what is offered", make: endpoint::every::counts },
    Set { kind: "every room for sends and replies", make: endpoint::every::rooms },
    Set { kind: "every name and format to open", make: endpoint::sends::every_opening },
    Set { kind: "sizes around the limit", make: endpoint::sizes::around_the_limit },
    Set { kind: "messages that are too large and more", make: endpoint::sizes::with_other_causes },
    Set { kind: "sizes of some megabytes", make: endpoint::sizes::of_some_megabytes },
    Set { kind: "sizes around the largest limit", make: endpoint::sizes::around_the_largest },
    Set { kind: "OPEN frames around the longest", make: endpoint::sizes::long_opens },
    Set { kind: "sessions closed in every phase", make: endpoint::sessions::closed_in_every_phase },
];

pub const GENERATED: &[Set] = &[
    Set { kind: "valid bundles", make: bundles::valid_bundles },
    Set { kind: "bundles with a wrong frame count", make: bundles::wrong_counts },
    Set { kind: "bundles of too many frames", make: bundles::too_many_frames },
    Set { kind: "bundles with a wrong length", make: bundles::wrong_lengths },
    Set { kind: "bundles with lengths that wrap around", make: bundles::wrapping_lengths },
    Set { kind: "bundles with a byte missing or extra", make: bundles::wrong_ends },
    Set { kind: "control frames of another length", make: bundles::wrong_control_lengths },
    Set { kind: "wrong signatures", make: bundles::wrong_signatures },
    Set { kind: "every version", make: bundles::every_version },
    Set { kind: "every type", make: bundles::every_type },
    Set { kind: "bundles damaged at every byte", make: bundles::damaged },
    Set { kind: "bundles cut at every byte", make: bundles::cut },
    Set { kind: "bundles with bytes behind", make: bundles::bytes_behind },
    Set { kind: "random bytes", make: bundles::random_bytes },
    Set { kind: "random bytes behind a plausible count", make: bundles::plausible_count },
    Set { kind: "random bytes behind plausible lengths", make: bundles::plausible_lengths },
    Set { kind: "bundles read whole", make: readers::whole_readings },
    Set { kind: "random control frames", make: control::random_frames },
    Set { kind: "random places to read from", make: bytes::random_reads },
    Set { kind: "random places to store at", make: bytes::random_stores },
    Set { kind: "random places to copy to", make: bytes::random_copies },
    Set { kind: "random messages to write", make: writers::random_writes },
    Set { kind: "well-formed texts, cut at every byte", make: texts::good_and_cut },
    Set { kind: "damaged texts", make: texts::damaged },
    Set { kind: "random texts", make: texts::random_texts },
    Set { kind: "random runs of plain bytes between sequences", make: texts::runs::random_runs },
    Set { kind: "random fields", make: fields::random_fields },
    Set { kind: "random bytes read as a field", make: fields::random_bytes },
    Set { kind: "random varints to store", make: fields::random_stores },
    Set { kind: "Structs and Values of every level", make: structs::every_level },
    Set { kind: "Structs and Values with one rule broken", make: structs::one_rule_broken },
    Set { kind: "Structs and Values with some rules broken", make: structs::some_rules_broken },
    Set { kind: "Structs and Values damaged at every byte", make: structs::damaged },
    Set { kind: "Structs and Values with a byte moved", make: structs::shifted },
    Set { kind: "Structs and Values cut at every byte", make: structs::cut },
    Set { kind: "random bytes read as a Struct or Value", make: structs::random_bytes },
    Set { kind: "random fields read as a Struct or Value", make: structs::plausible_fields },
    Set { kind: "Structs of many keys", make: structs::many_keys },
    Set { kind: "lookups in readable Structs", make: lookups::readable },
    Set { kind: "lookups in unreadable Structs", make: lookups::unreadable_structs },
    Set { kind: "limits among other parameters", make: limits::random_limits },
    Set { kind: "parameters without a good limit", make: limits::no_limits },
    Set { kind: "random doubles", make: limits::random_limit_bytes },
    Set { kind: "valid OPEN frames", make: open::valid_frames },
    Set { kind: "OPEN frames with one rule broken", make: open::broken::one_rule_broken },
    Set { kind: "OPEN frames refused for one cause", make: open::broken::one_cause },
    Set { kind: "OPEN frames with some causes and broken rules", make: open::broken::some_causes_and_rules },
    Set { kind: "OPEN frames damaged at every byte", make: open::damaged::damaged },
    Set { kind: "OPEN frames with a byte moved", make: open::damaged::shifted },
    Set { kind: "OPEN frames cut at every byte", make: open::damaged::cut },
    Set { kind: "random bytes read as an OPEN frame", make: open::damaged::random_bytes },
    Set { kind: "random fields read as an OPEN frame", make: open::damaged::random_fields },
    Set { kind: "random OPEN frames to write", make: open::writers::random_writes },
    Set { kind: "OPEN frames written and read", make: open::writers::round_trips },
    Set { kind: "endpoints to make", make: endpoint::making::random_makes },
    Set { kind: "blocks that are bad for one cause", make: endpoint::blocks::one_cause },
    Set { kind: "damaged and random blocks", make: endpoint::blocks::damaged },
    Set { kind: "sends that fit", make: endpoint::sends::fitting_sends },
    Set { kind: "sends a step off", make: endpoint::sends::steps_off },
    Set { kind: "random sends", make: endpoint::sends::random_sends },
    Set { kind: "messages that are heard", make: endpoint::drafts::valid_messages },
    Set { kind: "messages to any endpoint", make: endpoint::drafts::to_any_endpoint },
    Set { kind: "messages refused for one cause", make: endpoint::broken::one_cause },
    Set { kind: "OPENs refused for their frame", make: endpoint::broken::refused_opens },
    Set { kind: "OPENs sent and heard", make: endpoint::opens::round_trips },
    Set { kind: "OPENs of random fields", make: endpoint::opens::random_fields },
    Set { kind: "messages with some causes", make: endpoint::broken::some_causes },
    Set { kind: "messages damaged at every byte", make: endpoint::damaged::damaged },
    Set { kind: "messages with a byte moved", make: endpoint::damaged::shifted },
    Set { kind: "messages cut at every byte", make: endpoint::damaged::cut },
    Set { kind: "messages with bytes behind", make: endpoint::damaged::bytes_behind },
    Set { kind: "random bytes to any endpoint", make: endpoint::damaged::random_bytes },
    Set { kind: "sessions", make: endpoint::sessions::sessions },
    Set { kind: "sessions of many confirmations", make: endpoint::sessions::of_many_confirmations },
    Set { kind: "sessions of large data", make: endpoint::sessions::of_large_data },
];

/// Adds a call.
fn add(calls: &mut Calls, call: impl Call + 'static) {
    calls.push(Box::new(call));
}

fn interface(_: &mut Random) -> Calls {
    vec![Box::new(Interface)]
}

/// Adds what is asked about a bundle that may be bad: some frame of it, what a reader hands out at some position, its
/// contents and its line.
fn add_bundle(calls: &mut Calls, random: &mut Random, bundle: Vec<u8>) {
    let index = random.between(0, 17) as u32;
    add(calls, FrameAt { bundle: bundle.clone(), index });
    let position = readers::position(random);
    add(calls, HandOut { bundle: bundle.clone(), position });
    add(calls, Contents { bundle: bundle.clone() });
    add(calls, Line { input: bundle });
}

/// Adds what is asked about a bundle whose first frame matters, and about that frame alone.
fn add_control(calls: &mut Calls, random: &mut Random, bundle: Vec<u8>, control: Vec<u8>) {
    add(calls, ReadControl { frame: control });
    add_bundle(calls, random, bundle);
}
