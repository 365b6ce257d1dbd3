//! The model: documents 01 and 02 read on their own, as plain Rust that works in place on what it is lent.
#![forbid(unsafe_code)]

pub mod bundle;
pub mod bytes;
pub mod control;
pub mod endpoint;
pub mod limit;
pub mod line;
pub mod lookup;
pub mod open;
pub mod structs;
pub mod text;
pub mod wire;
