//! What Google's protobuf serialized: stored Structs and Values, and OPEN frames; the head of each file says how they
//! stand there.

use crate::open::{Offer, Opening, INPUT, OUTPUT};

/// What the stored files hold.
const STRUCTS: &str = include_str!("../vectors/structs.txt");
const OPENS: &str = include_str!("../vectors/opens.txt");

/// A line of a file: what was serialized, and the words behind its bytes.
pub struct Vector {
    form: &'static str,
    pub bytes: Vec<u8>,
    words: Vec<&'static str>,
}

impl Vector {
    /// Whether it is a Value, and else a Struct.
    pub fn is_value(&self) -> bool {
        self.form.ends_with("value")
    }

    /// The outermost keys of a Struct, each with its Value's own serialization.
    pub fn terms(&self) -> Vec<(Vec<u8>, Vec<u8>)> {
        let terms = self.words.get(1).copied().unwrap_or_default();
        let pairs = terms.split(',').filter_map(|pair| pair.split_once(':'));
        pairs.map(|(key, value)| (from_hex(key), from_hex(value))).collect()
    }

    /// Whether an OPEN frame is the very one that a client writes.
    pub fn is_written(&self) -> bool {
        self.form == "written"
    }

    /// What was put into an OPEN frame that is not refused.
    pub fn opening(&self) -> Opening {
        let Offer { name, format, .. } = self.offer();
        Opening { producer: self.number(0) == INPUT, name, format, limit: self.number(3) as u32 }
    }

    /// The offer of the very name, format and socket that were put into an OPEN frame, if there is such a socket.
    pub fn offer(&self) -> Offer {
        Offer { producer: self.number(0) == OUTPUT, name: from_hex(self.words[1]), format: from_hex(self.words[2]) }
    }

    /// The number with which an OPEN frame is refused and the kind of its fault, 0 where that is none; nothing where
    /// the frame is not refused.
    pub fn refusal(&self) -> Option<(u64, u64)> {
        (self.form == "refused-open").then(|| (self.number(3), self.number(4)))
    }

    fn number(&self, word: usize) -> u64 {
        self.words[word].parse().expect("a number stands in decimal")
    }
}

/// All Structs and Values, in the order of their file.
pub fn structs() -> Vec<Vector> {
    vectors(STRUCTS)
}

/// All OPEN frames, in the order of their file.
pub fn opens() -> Vec<Vector> {
    vectors(OPENS)
}

fn vectors(stored: &'static str) -> Vec<Vector> {
    stored.lines().filter(|line| !line.starts_with('#')).map(vector).collect()
}

fn vector(line: &'static str) -> Vector {
    let mut words = line.split(' ');
    let mut next = || words.next().expect("a line has a form and bytes");
    let (form, bytes) = (next(), from_hex(next()));
    Vector { form, bytes, words: words.collect() }
}

/// The bytes that stand in hexadecimal; `-` for none.
fn from_hex(digits: &str) -> Vec<u8> {
    let digits = digits.trim_start_matches('-');
    let byte = |at| u8::from_str_radix(&digits[at..at + 2], 16).expect("bytes stand in hexadecimal");
    (0..digits.len()).step_by(2).map(byte).collect()
}

#[cfg(test)]
mod tests {
    use super::*;
    use crate::limit;
    use crate::lookup;
    use crate::open;
    use crate::structs::{self, Entry, Value};

    fn to_hex(bytes: &[u8]) -> String {
        if bytes.is_empty() {
            return "-".to_string();
        }
        bytes.iter().map(|byte| format!("{byte:02x}")).collect()
    }

    /// What a Value holds, in the text form of the file.
    fn contents(bytes: &[u8], value: &Value) -> String {
        match value {
            Value::Null => "n".to_string(),
            Value::Number(bits) => format!("d{bits:016x}"),
            Value::Text(place) => format!("t{}", to_hex(&bytes[place.clone()])),
            Value::Bool(truth) => format!("b{}", u8::from(*truth)),
            Value::Struct(place) => struct_contents(bytes, structs::entries(bytes, place.clone()).flatten().collect()),
            Value::List(place) => {
                let values = structs::items(bytes, place.clone()).flatten();
                let values: Vec<String> = values.map(|value| contents(bytes, &value)).collect();
                format!("[{}]", values.join(","))
            }
        }
    }

    fn struct_contents(bytes: &[u8], mut entries: Vec<Entry>) -> String {
        entries.sort_by_key(|entry| entry.key);
        let pair = |entry: &Entry| format!("{}:{}", to_hex(entry.key), contents(bytes, &entry.value));
        let pairs: Vec<String> = entries.iter().map(pair).collect();
        format!("{{{}}}", pairs.join(","))
    }

    /// The contents that the model reads, in the text form of the file.
    fn read_contents(vector: &Vector) -> String {
        let bytes = &vector.bytes;
        if vector.is_value() {
            return contents(bytes, &structs::read_value(bytes).expect("a readable Value"));
        }
        struct_contents(bytes, structs::read_struct(bytes).expect("a readable Struct"))
    }

    fn vectors_of(forms: [&str; 2]) -> Vec<Vector> {
        let of_them: Vec<Vector> =
            structs().into_iter().chain(opens()).filter(|vector| forms.contains(&vector.form)).collect();
        assert!(of_them.len() > 10);
        of_them
    }

    #[test]
    fn the_model_reads_what_google_wrote() {
        for vector in vectors_of(["struct", "value"]) {
            assert_eq!(read_contents(&vector), vector.words[0]);
        }
    }

    #[test]
    fn every_term_is_found_as_its_own_serialization() {
        let mut found = 0;
        for vector in vectors_of(["struct", "struct"]) {
            let bytes = &vector.bytes;
            for (key, value) in vector.terms() {
                let (number, [slice, at, length]) = lookup::lookup(bytes, &[], &key);
                assert_eq!((number, slice), (0, 1));
                assert_eq!(bytes[at as usize..][..length as usize], value);
                assert_eq!(lookup::lookup(&[], bytes, &key), (0, [2, at, length]));
                found += 1;
            }
            assert_eq!(vector.terms().len(), structs::read_struct(bytes).unwrap().len());
        }
        assert!(found > 400);
    }

    #[test]
    fn what_document_01_narrows_is_refused() {
        for vector in vectors_of(["refused-struct", "refused-value"]) {
            let (number, [kind, _]) = structs::check(&vector.bytes, vector.is_value());
            assert_eq!((number, kind.to_string().as_str()), (18, vector.words[0]));
        }
    }

    #[test]
    fn the_parameters_of_an_open_frame_are_what_google_wrote() {
        for vector in vectors_of(["written", "open"]) {
            let bytes = &vector.bytes;
            let (number, heard) = open::heard(bytes, 0, bytes.len() as u64, &vector.offer());
            if !limit::is_good(f64::from(vector.opening().limit)) {
                assert_eq!(number, open::OUT_OF_RANGE);
                continue;
            }
            let place = heard[5] as usize..(heard[5] + heard[6]) as usize;
            let contents = match structs::entries(bytes, place.clone()).collect() {
                Ok(entries) if place != (0..0) => struct_contents(bytes, entries),
                _ => "-".to_string(),
            };
            assert_eq!((number, contents.as_str()), (0, vector.words[4]));
        }
    }

    #[test]
    fn every_line_is_of_a_known_form() {
        let known = vectors_of(["struct", "value"]).len() + vectors_of(["refused-struct", "refused-value"]).len();
        assert_eq!(structs().len(), known);
        let known = vectors_of(["written", "open"]).len() + vectors_of(["refused-open", "refused-open"]).len();
        assert_eq!(opens().len(), known);
    }
}
