//! A score spelled out as tokens, each number and word in one of the ways that
//! read alike, and tokens laid out with blanks wherever blanks may stand.

use crate::random::Random;
use crate::score::{Entry, Tables};
use crate::text::{ERROR_WORDS, GRAINS, SYNCHRONIES};
use crate::writer::{common_divisor, quoted};

#[derive(Clone, Copy, PartialEq)]
pub enum Role {
    Messages,
    ListNumber,
    Label,
    Event,
    Duration,
    PartWord,
    Part,
    Delay,
    Send,
    Message,
    Group,
    Synchrony,
    ErrorWord,
    Open,
    Close,
    /// The text's end: nothing follows, not even a blank.
    End,
}

#[derive(Clone)]
pub struct Token {
    pub role: Role,
    pub bytes: Vec<u8>,
    /// No blank stands before it, even where one is needed.
    pub glued: bool,
}

impl Token {
    pub fn new(role: Role, bytes: &[u8]) -> Token {
        Token {
            role,
            bytes: bytes.to_vec(),
            glued: false,
        }
    }
}

// -------------------------------------------------------------- spelling

/// The tokens of a score whose groups end where they should; its figures and
/// labels may be wrong.
pub fn spelled(random: &mut Random, tables: &Tables) -> Vec<Token> {
    let mut speller = Speller {
        zeros: random.pick(&[0, 0, 10, 50]),
        fractions: random.pick(&[0, 20, 60]),
        missing: random.pick(&[0, 50, 100, 100]),
        repeated: random.pick(&[0, 0, 20, 100]),
        empty_parts: random.pick(&[0, 0, 10, 40]),
        tokens: Vec::new(),
        random,
    };
    speller.score(tables);
    speller.tokens
}

/// How often of 100 times each liberty is taken.
struct Speller<'r> {
    random: &'r mut Random,
    tokens: Vec<Token>,
    /// Zeros in front of a number.
    zeros: u64,
    /// A fraction not in lowest terms.
    fractions: u64,
    /// No word where the word says what none would.
    missing: u64,
    /// `part` again before an item of the same part.
    repeated: u64,
    /// `part` with no item.
    empty_parts: u64,
}

impl Speller<'_> {
    fn put(&mut self, role: Role, bytes: &[u8]) {
        self.tokens.push(Token::new(role, bytes));
    }

    fn score(&mut self, tables: &Tables) {
        self.put(Role::Messages, b"messages");
        for (number, label) in labels(tables).iter().enumerate() {
            self.number(Role::ListNumber, number as u64);
            self.put(Role::Label, &quoted(label));
        }
        let mut next = 0;
        for (index, &duration) in tables.durations.iter().enumerate() {
            self.put(Role::Event, b"event");
            self.beats(Role::Duration, duration);
            next = self.event_items(tables, next, index as u16 + 1);
        }
    }

    /// This event's items from `index` on; gives the index after them.
    fn event_items(&mut self, tables: &Tables, mut index: usize, event: u16) -> usize {
        let mut part = None;
        while index < tables.items.len() && tables.items[index].event == event {
            let next = tables.items[index].part;
            if part != Some(next) || self.random.percent(self.repeated) {
                self.some_empty_parts();
                self.part(u64::from(next));
            }
            part = Some(next);
            index = self.top_item(tables, index);
        }
        self.some_empty_parts();
        index
    }

    fn part(&mut self, part: u64) {
        self.put(Role::PartWord, b"part");
        self.number(Role::Part, part);
    }

    fn some_empty_parts(&mut self) {
        while self.random.percent(self.empty_parts) {
            let any = self.random.below(16);
            let part = self.random.pick(&[any, any, any, 16, 99, 255]);
            self.part(part);
        }
    }

    /// An item and all within it; gives the index after them.
    fn top_item(&mut self, tables: &Tables, mut index: usize) -> usize {
        let mut ends = Vec::new();
        loop {
            let entry = tables.items[index];
            index += 1;
            self.item(entry);
            if entry.kind == 1 {
                ends.push(index + usize::from(entry.last));
            }
            while ends.last() == Some(&index) {
                ends.pop();
                self.put(Role::Close, b"}");
            }
            if ends.is_empty() {
                return index;
            }
        }
    }

    fn item(&mut self, entry: Entry) {
        self.beats(Role::Delay, entry.delay);
        if entry.kind == 0 {
            self.put(Role::Send, b"send");
            self.number(Role::Message, u64::from(entry.last));
            return;
        }
        self.put(Role::Group, b"group");
        self.choice(Role::Synchrony, &SYNCHRONIES, entry.synchrony);
        self.choice(Role::ErrorWord, &ERROR_WORDS, entry.error);
        self.put(Role::Open, b"{");
    }

    fn choice(&mut self, role: Role, words: &[&str], which: u8) {
        if which == 0 && self.random.percent(self.missing) {
            return;
        }
        self.put(role, words[usize::from(which)].as_bytes());
    }

    fn number(&mut self, role: Role, value: u64) {
        let digits = self.digits(value);
        self.put(role, digits.as_bytes());
    }

    fn digits(&mut self, value: u64) -> String {
        let width = if self.random.percent(self.zeros) {
            self.random.between(1, 10) as usize
        } else {
            1
        };
        format!("{value:0width$}")
    }

    fn beats(&mut self, role: Role, grains: u32) {
        let common = common_divisor(u64::from(grains), GRAINS);
        let (mut numerator, mut denominator) = (u64::from(grains) / common, GRAINS / common);
        if self.random.percent(self.fractions) {
            // As far as both fit their fields.
            let most = u64::from(u32::MAX) / numerator.max(denominator);
            let any = self.random.between(1, most);
            let times = self.random.pick(&[1, 2, 3, 7, common, any, most]);
            numerator *= times.min(most);
            denominator *= times.min(most);
        } else if denominator == 1 {
            return self.number(role, numerator);
        }
        let numerator = self.digits(numerator);
        let denominator = self.digits(denominator);
        self.put(role, format!("{numerator}/{denominator}").as_bytes());
    }
}

pub fn labels(tables: &Tables) -> Vec<Vec<u8>> {
    let label = |&(start, length): &(u16, u16)| {
        let start = usize::from(start);
        tables.text[start..start + usize::from(length)].to_vec()
    };
    tables.messages.iter().map(label).collect()
}

pub fn set_labels(tables: &mut Tables, labels: &[Vec<u8>]) {
    tables.messages.clear();
    tables.text.clear();
    for label in labels {
        tables.add_message(label);
    }
}

// ---------------------------------------------------------------- layout

#[derive(Clone, Copy, PartialEq)]
enum Layout {
    /// Nothing where nothing is needed.
    Bare,
    /// One blank or one line between any two.
    Plain,
    /// Blanks of all kinds, comments among them.
    Wild,
    /// A comment between any two.
    Comments,
}

pub fn laid_out(random: &mut Random, tokens: &[Token]) -> Vec<u8> {
    let layout = random.pick(&[
        Layout::Bare,
        Layout::Bare,
        Layout::Plain,
        Layout::Wild,
        Layout::Wild,
        Layout::Comments,
    ]);
    let mut out = Vec::new();
    for token in tokens {
        if token.role == Role::End {
            return out;
        }
        if !token.glued {
            let needed = goes_on(out.last(), token.bytes.first());
            gap(random, layout, needed, &mut out);
        }
        out.extend_from_slice(&token.bytes);
    }
    gap(random, layout, false, &mut out);
    if layout != Layout::Bare && random.percent(20) {
        // The text's end ends a comment too.
        comment(random, &mut out);
        out.pop();
    }
    out
}

/// Whether the second byte would go on with the first one's word or number.
pub fn goes_on(before: Option<&u8>, after: Option<&u8>) -> bool {
    let both = |sort: fn(&u8) -> bool| before.is_some_and(sort) && after.is_some_and(sort);
    both(u8::is_ascii_digit) || both(u8::is_ascii_lowercase)
}

fn gap(random: &mut Random, layout: Layout, needed: bool, out: &mut Vec<u8>) {
    match layout {
        Layout::Bare => {
            if needed {
                one_gap(random, out);
            }
        }
        Layout::Plain => out.push(random.pick(b"      \n")),
        Layout::Wild => {
            for _ in 0..random.pick(&[usize::from(needed), 1, 1, 2, 5]) {
                one_gap(random, out);
            }
        }
        Layout::Comments => comment(random, out),
    }
}

fn one_gap(random: &mut Random, out: &mut Vec<u8>) {
    if random.percent(25) {
        comment(random, out);
    } else {
        out.push(random.pick(b"    \t\r\n\n"));
    }
}

/// What a reader might stumble over within a comment.
const REMARKS: &[&[u8]] = &[
    b"",
    b"",
    b" ",
    b" a",
    b"\"",
    b"\\",
    b"\\\"",
    b"{",
    b"}",
    b"} # {",
    b"##",
    b"\r",
    b"event 1",
    b" send 65536",
    b"1/0",
    b"\x00",
    b"\x7f\x80\xff",
    b" \xc3\xa9t\xc3\xa9",
];

pub fn comment(random: &mut Random, out: &mut Vec<u8>) {
    out.push(b'#');
    out.extend_from_slice(random.pick(REMARKS));
    if random.percent(10) {
        for _ in 0..random.below(30) {
            let byte = random.below(256) as u8;
            out.push(if byte == b'\n' { b'#' } else { byte });
        }
    }
    out.push(b'\n');
}
