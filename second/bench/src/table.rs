//! The table: a line for each row as soon as it is timed, and what the rows say about an aim.

use crate::timing::{self, Times};

/// What both sides of a row work on: each side makes one call, and leaves there what it answered.
pub trait Work {
    type Left: PartialEq;

    /// Takes away what a call may have left.
    fn clear(&mut self);

    /// All that a call answered and wrote.
    fn left(&self) -> Self::Left;

    /// Whether the call was accepted, as all calls that are timed must be.
    fn accepted(&self) -> bool;
}

/// The rows that an aim speaks of.
#[derive(Clone, Copy, PartialEq)]
pub enum Group {
    Receive,
    /// A send of 1 MB and more against memcpy.
    LargeSend,
    /// The test of UTF-8 against the standard library's.
    Text,
    Other,
}

struct Row {
    group: Group,
    title: String,
    ratio: f64,
}

pub struct Table {
    rows: Vec<Row>,
}

impl Table {
    /// A table with its head printed.
    pub fn new() -> Table {
        println!(
            "| {:<50} | {:<13} | {:>11} | {:>11} | ratio | {:>12} |",
            "call", "peer", "ours, ns", "peer, ns", "spread"
        );
        println!("|{:-<52}|{:-<15}|{:->13}|{:->13}|{:->7}|{:->14}|", "", "", ":", ":", ":", ":");
        Table { rows: Vec::new() }
    }

    /// Times a row and prints it, if both sides leave the same.
    pub fn add<W: Work>(
        &mut self,
        group: Group,
        title: &str,
        work: &mut W,
        ours: impl Fn(&mut W),
        (peer, other): (&str, impl Fn(&mut W)),
    ) -> Result<(), String> {
        same(title, work, &ours, &other)?;
        let Times { ours, other, ratio, spread: (low, high) } = timing::compare(work, ours, other);
        println!(
            "| {title:<50} | {peer:<13} | {ours:>11.1} | {other:>11.1} | {ratio:>5.2} | {low:>4.2} to {high:>4.2} |"
        );
        self.rows.push(Row { group, title: title.to_string(), ratio });
        Ok(())
    }

    /// Prints whether the rows of a group reach this ratio, and which do not.
    pub fn print_aim(&self, aim: &str, group: Group, least: f64) {
        let missed = self.rows.iter().filter(|row| row.group == group && row.ratio < least);
        let missed: Vec<String> = missed.map(|row| format!("{} ({:.2})", row.title, row.ratio)).collect();
        match &missed[..] {
            [] => println!("aim: {aim} (ratio of {least:.1}): met"),
            _ => println!("aim: {aim} (ratio of {least:.1}): MISSED by {}", missed.join(", ")),
        }
    }
}

/// Makes the call once on each side, and says where it is refused or the sides leave different answers.
pub fn same<W: Work>(title: &str, work: &mut W, ours: impl Fn(&mut W), other: impl Fn(&mut W)) -> Result<(), String> {
    work.clear();
    ours(work);
    if !work.accepted() {
        return Err(format!("{title}: the archive refuses it"));
    }
    let left = work.left();
    work.clear();
    other(work);
    if work.left() != left {
        return Err(format!("{title}: the archive and its peer answer differently"));
    }
    Ok(())
}
