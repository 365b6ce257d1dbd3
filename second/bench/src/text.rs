//! The rows of UTF-8, against the standard library's.

use std::hint::black_box;

use second::open::MOST_TEXT;

use crate::archive;
use crate::table::{Group, Table, Work};

/// A line of run reports in one byte per character, and one with characters of one to four bytes.
const ASCII: &str = "press seven, job 2024-0815: 48000 sheets, 650 waste, 17.5 minutes stopped; ";
const MIXED: &str = "Bogenlänge 1020 × 720 mm, Größe geprüft – Umschlag „Frühjahr“: 印刷済み 🖨 ok; ";

/// A text, and whether it is found to be well-formed.
struct Judging {
    text: String,
    good: bool,
}

impl Judging {
    fn call(&mut self, well_formed: fn(&[u8]) -> bool) {
        self.good = well_formed(black_box(self.text.as_bytes()));
        black_box(self);
    }
}

impl Work for Judging {
    type Left = bool;

    fn clear(&mut self) {
        self.good = false;
    }

    fn left(&self) -> bool {
        self.good
    }

    fn accepted(&self) -> bool {
        self.good
    }
}

/// So many bytes of this line again and again, ended by spaces where a character would not fit.
fn text(line: &str, length: usize) -> String {
    let mut text = String::new();
    for character in line.chars().cycle() {
        if text.len() + character.len_utf8() > length {
            break;
        }
        text.push(character);
    }
    let missing = length - text.len();
    text + &" ".repeat(missing)
}

/// Texts as long as a usual name, the longest name and the longest OPEN frame, and in between.
pub fn add_rows(table: &mut Table) -> Result<(), String> {
    for (title, line, length) in [
        ("UTF-8, 16 bytes of ASCII", ASCII, 16),
        ("UTF-8, 64 bytes of ASCII", ASCII, 64),
        ("UTF-8, 64 bytes of mixed text", MIXED, 64),
        ("UTF-8, 255 bytes of ASCII", ASCII, MOST_TEXT),
        ("UTF-8, 255 bytes of mixed text", MIXED, MOST_TEXT),
        ("UTF-8, 4 KB of ASCII", ASCII, 4096),
        ("UTF-8, 4 KB of mixed text", MIXED, 4096),
    ] {
        let mut judging = Judging { text: text(line, length), good: false };
        let ours = |judging: &mut Judging| judging.call(archive::well_formed);
        let peer = |judging: &mut Judging| judging.call(|bytes| std::str::from_utf8(bytes).is_ok());
        table.add(Group::Text, title, &mut judging, ours, ("from_utf8", peer))?;
    }
    Ok(())
}
