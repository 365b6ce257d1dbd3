//! The rows of lookups, against the model's.

use std::hint::black_box;

use second::lookup;

use crate::archive;
use crate::table::{Group, Table, Work};
use crate::terms::{self, Term, ALIKE, CLIENT, DEFAULTS};

type Lookup = fn(&[u8], &[u8], &[u8]) -> (u64, [u64; 3]);

/// A term that is looked up, and what is answered.
struct Asking {
    client: Vec<u8>,
    defaults: Vec<u8>,
    key: &'static str,
    answer: (u64, [u64; 3]),
}

impl Asking {
    fn call(&mut self, lookup: Lookup) {
        self.answer = lookup(black_box(&self.client), black_box(&self.defaults), black_box(self.key.as_bytes()));
        black_box(self);
    }
}

impl Work for Asking {
    type Left = (u64, [u64; 3]);

    fn clear(&mut self) {
        self.answer = (u64::MAX, [0; 3]);
    }

    fn left(&self) -> Self::Left {
        self.answer
    }

    fn accepted(&self) -> bool {
        self.answer.0 == 0
    }
}

/// The key of the last of these terms.
fn last_key(terms: &[Term; 12]) -> &'static str {
    terms[terms.len() - 1].0
}

pub fn add_rows(table: &mut Table) -> Result<(), String> {
    for (title, client, defaults, key) in [
        ("the last of 12 in the client's parameters", CLIENT, DEFAULTS, last_key(&CLIENT)),
        ("the last of 12 in the defaults", CLIENT, DEFAULTS, last_key(&DEFAULTS)),
        ("12 keys alike in the client's parameters", ALIKE, DEFAULTS, last_key(&ALIKE)),
        ("12 keys alike in the defaults", CLIENT, ALIKE, last_key(&ALIKE)),
    ] {
        let (client, defaults) = (terms::structure(&client), terms::structure(&defaults));
        let mut asking = Asking { client, defaults, key, answer: (0, [0; 3]) };
        let title = format!("lookup, {title}");
        let (ours, model) =
            (|asking: &mut Asking| asking.call(archive::lookup), |asking: &mut Asking| asking.call(lookup::lookup));
        table.add(Group::Other, &title, &mut asking, ours, ("second", model))?;
    }
    Ok(())
}
