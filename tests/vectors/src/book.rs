//! The vectors gathered so far, and the two files they are written to.

use crate::rules::Rule;
use std::collections::HashSet;

struct Vector {
    name: String,
    file: Vec<u8>,
    /// The message number of the text look-up.
    message: u64,
    /// Reply number and place of the file check.
    number: u32,
    place: u32,
    /// Reply number of the text look-up, and the label if it is granted.
    look: u32,
    label: Option<Vec<u8>>,
}

#[derive(Default)]
pub struct Book {
    vectors: Vec<Vector>,
    names: HashSet<String>,
}

impl Book {
    fn add(&mut self, vector: Vector) {
        let plain = |b: u8| b.is_ascii_lowercase() || b.is_ascii_digit() || b == b'-';
        assert!(vector.name.bytes().all(plain), "name {}", vector.name);
        assert!(self.names.insert(vector.name.clone()), "name twice: {}", vector.name);
        self.vectors.push(vector);
    }

    /// A sound file and a message that it has.
    pub fn sound(&mut self, name: impl Into<String>, file: Vec<u8>, message: u64, label: &[u8]) {
        let label = Some(label.to_vec());
        self.add(Vector { name: name.into(), file, message, number: 0, place: 0, look: 0, label });
    }

    /// A sound file and a message number that it has not: "15 no such message".
    pub fn no_message(&mut self, name: impl Into<String>, file: Vec<u8>, message: u64) {
        self.add(Vector {
            name: name.into(),
            file,
            message,
            number: 0,
            place: 0,
            look: 15,
            label: None,
        });
    }

    /// A file that is refused, asked for message 0.
    pub fn refused(&mut self, name: impl Into<String>, file: Vec<u8>, number: u32, place: u32) {
        self.refused_asking(name, file, 0, number, place);
    }

    /// A file that is refused for a rule that its item at this byte breaks,
    /// asked for message 0.
    pub fn breaks(&mut self, name: impl Into<String>, file: Vec<u8>, rule: Rule, item: u32) {
        self.refused(name, file, rule.number, item + rule.offset);
    }

    /// "Text look-up: the file check, 15": the look-up gives the number of the
    /// file check, whatever is asked for.
    pub fn refused_asking(
        &mut self,
        name: impl Into<String>,
        file: Vec<u8>,
        message: u64,
        number: u32,
        place: u32,
    ) {
        self.add(Vector {
            name: name.into(),
            file,
            message,
            number,
            place,
            look: number,
            label: None,
        });
    }

    /// The records, one after another: name length (u32) and name, file length
    /// (u32), message number (u64), file; all numbers little-endian.
    pub fn data(&self) -> Vec<u8> {
        let mut data = Vec::new();
        for v in &self.vectors {
            data.extend_from_slice(&(v.name.len() as u32).to_le_bytes());
            data.extend_from_slice(v.name.as_bytes());
            data.extend_from_slice(&(v.file.len() as u32).to_le_bytes());
            data.extend_from_slice(&v.message.to_le_bytes());
            data.extend_from_slice(&v.file);
        }
        data
    }

    /// One line a vector: `NAME N P L H`.
    pub fn lines(&self) -> String {
        let mut lines = String::new();
        for v in &self.vectors {
            let label = match &v.label {
                None => "-".to_string(),
                Some(bytes) => bytes.iter().map(|b| format!("{b:02x}")).collect(),
            };
            lines += &format!("{} {} {} {} {}\n", v.name, v.number, v.place, v.look, label);
        }
        lines
    }
}
