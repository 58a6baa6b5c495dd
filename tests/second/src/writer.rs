//! The text form, written: a right file's one text.

use crate::score::{self, Action, ErrorWord, Group, Item, Score, Synchrony, What};
use crate::text::{Reply, ERROR_WORDS, GRAINS, SYNCHRONIES};

/// A text room that holds the text of every right file.
pub const TEXT_ROOM: usize = 262_144;

/// A file into a room for the text.
pub fn write(file: &[u8], room: usize) -> Reply {
    let score = match score::read(file) {
        Ok(score) => score,
        Err(refusal) => return Reply::refused(refusal.number, refusal.place),
    };
    let text = text(&score);
    if room < text.len() {
        return Reply::refused(2, 0);
    }
    Reply::granted(text)
}

fn text(score: &Score) -> Vec<u8> {
    let mut writer = Writer {
        labels: &score.labels,
        text: b"messages\n".to_vec(),
    };
    for (number, label) in score.labels.iter().enumerate() {
        writer.message(number, label);
    }
    for (index, duration) in score.durations.iter().enumerate() {
        let number = index + 1;
        writer.line(0, &format!("event {} # {number}", beats(*duration)));
        // A sequence is the top items of one part, so the next has another part.
        for sequence in &score.sequences {
            if sequence.event == number {
                writer.line(2, &format!("part {}", sequence.part));
                writer.items(&sequence.items, 4);
            }
        }
    }
    writer.text
}

struct Writer<'s> {
    labels: &'s [Vec<u8>],
    text: Vec<u8>,
}

impl Writer<'_> {
    fn line(&mut self, blanks: usize, words: &str) {
        self.begin(blanks, words);
        self.text.push(b'\n');
    }

    fn begin(&mut self, blanks: usize, words: &str) {
        self.text.resize(self.text.len() + blanks, b' ');
        self.text.extend_from_slice(words.as_bytes());
    }

    fn message(&mut self, number: usize, label: &[u8]) {
        self.begin(2, &format!("{number} "));
        self.text.extend(quoted(label));
        self.text.push(b'\n');
    }

    /// By recursion: a right file is at most 8 deep.
    fn items(&mut self, items: &[Item], blanks: usize) {
        for item in items {
            let delay = beats(item.delay);
            match &item.what {
                What::Action(action) => self.action(&delay, action, blanks),
                What::Group(group) => self.group(&delay, group, blanks),
            }
        }
    }

    fn action(&mut self, delay: &str, action: &Action, blanks: usize) {
        self.begin(blanks, &format!("{delay} send {} # ", action.message));
        self.text.extend_from_slice(&self.labels[action.message]);
        self.text.push(b'\n');
    }

    fn group(&mut self, delay: &str, group: &Group, blanks: usize) {
        let synchrony = match group.synchrony {
            Synchrony::Loose => SYNCHRONIES[0],
            Synchrony::Tight => SYNCHRONIES[1],
        };
        let error = match group.error {
            ErrorWord::Local => ERROR_WORDS[0],
            ErrorWord::Global => ERROR_WORDS[1],
            ErrorWord::Partial => ERROR_WORDS[2],
            ErrorWord::Causal => ERROR_WORDS[3],
        };
        self.line(blanks, &format!("{delay} group {synchrony} {error} {{"));
        self.items(&group.body, blanks + 2);
        self.line(blanks, "}");
    }
}

/// The label as it stands in the list.
pub fn quoted(label: &[u8]) -> Vec<u8> {
    let mut quoted = vec![b'"'];
    for &byte in label {
        if byte == b'"' || byte == b'\\' {
            quoted.push(b'\\');
        }
        quoted.push(byte);
    }
    quoted.push(b'"');
    quoted
}

/// In lowest terms, without `/1`.
fn beats(grains: i128) -> String {
    let grains = grains as u64;
    let common = common_divisor(grains, GRAINS);
    let (numerator, denominator) = (grains / common, GRAINS / common);
    if denominator == 1 {
        return numerator.to_string();
    }
    format!("{numerator}/{denominator}")
}

pub fn common_divisor(mut a: u64, mut b: u64) -> u64 {
    while b != 0 {
        (a, b) = (b, a % b);
    }
    a
}
