//! Times the calls of the archive against plain Rust: the model of the second program, memcpy, or the standard library,
//! all in this process. Before anything is timed, both sides are held to the same answers.
#![no_main]
#![deny(unsafe_code)]

mod archive;
mod lookup;
mod receive;
mod send;
mod table;
mod terms;
mod text;
mod timing;

use std::ffi::c_int;

use table::{Group, Table};

/// How many times as long a receive of the largest body may take for its cost to count as independent of the body.
const MOST_GROWTH: f64 = 1.2;

/// The least ratios that are aimed at: to plain Rust for receives, to memcpy for large sends, and to the standard
/// library for UTF-8.
const LEAST_OF_RUST: f64 = 1.0;
const LEAST_OF_MEMCPY: f64 = 0.8;
const LEAST_OF_FROM_UTF8: f64 = 0.9;

/// C's own entry, since the emulator that stands in for an x86-64 machine cannot answer what Rust's asks at its start.
#[no_mangle]
#[allow(unsafe_code)]
pub extern "C" fn main() -> c_int {
    match run() {
        Ok(()) => 0,
        Err(difference) => {
            println!("bench: {difference}");
            1
        }
    }
}

/// Prints the table and which aims are met; else where the two sides differ.
fn run() -> Result<(), String> {
    println!("archives with the sum {}", option_env!("BENCH_ARCHIVES").unwrap_or("unknown"));
    let mut table = Table::new();
    receive::add_rows(&mut table)?;
    send::add_rows(&mut table)?;
    lookup::add_rows(&mut table)?;
    text::add_rows(&mut table)?;
    let growth = receive::growth()?;
    println!();
    println!("receive of DATA: the largest body takes {growth:.2} of the time of the smallest");
    let verdict = if growth <= MOST_GROWTH { "met" } else { "MISSED" };
    println!("aim: the cost of a receive does not depend on the size of the body (up to {MOST_GROWTH:.1}): {verdict}");
    table.print_aim("a receive is at least as fast as plain Rust", Group::Receive, LEAST_OF_RUST);
    table.print_aim("a send of 1 MB and more reaches memcpy", Group::LargeSend, LEAST_OF_MEMCPY);
    table.print_aim("the test of UTF-8 reaches from_utf8", Group::Text, LEAST_OF_FROM_UTF8);
    Ok(())
}
