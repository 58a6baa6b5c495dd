//! Random cases for the text form: texts to be read and files to be written,
//! each with the length of the room that is lent.

use crate::random::Random;
use crate::score::{Tables, LONGEST_LABEL};
use crate::text::{self, Reply, FILE_ROOM};
use crate::tokens::{self, comment, laid_out, spelled, Token};
use crate::writer::{self, TEXT_ROOM};
use crate::{bounds, damage, scatter, scores, slips};

#[derive(Clone, Copy, PartialEq)]
pub enum Kind {
    Read,
    Write,
}

pub struct Case {
    pub kind: Kind,
    pub room: usize,
    pub input: Vec<u8>,
}

/// Of so many seeds in a row one is big, the others share out the sorts below.
const TURNS: u64 = 125;

impl Case {
    pub fn of_seed(seed: u64) -> Case {
        let random = &mut Random::new(seed);
        let (round, turn) = (seed / TURNS, seed % TURNS);
        let text = match turn {
            0 => big(random, round),
            1..=20 => sound(random),
            21..=68 => slipped(random, turn - 21),
            69..=80 => smudged(random),
            81..=96 => at_a_limit(random, (16 * round + turn - 81) % bounds::SORTS),
            97..=99 => wrong_twice(random),
            100..=103 => written(random),
            104 if round.is_multiple_of(2) => return Case::write(random, largest),
            104..=108 => return Case::write(random, |random| scores::invent(random).tables),
            109..=114 => return Case::write(random, piece),
            _ => return Case::refused_file(random, 10 * round + turn - 115),
        };
        let more = FILE_ROOM + random.index(60_000);
        Case {
            kind: Kind::Read,
            room: match random.below(20) {
                0 => random.pick(&[0, 1, 36, FILE_ROOM / 2, FILE_ROOM - 1]),
                1 => FILE_ROOM - 1,
                2 => FILE_ROOM + 1,
                3..=5 => more,
                6 => TEXT_ROOM,
                _ => FILE_ROOM,
            },
            input: text,
        }
    }

    /// A sound file to be written, with about as much room as its text takes.
    fn write(random: &mut Random, score: fn(&mut Random) -> Tables) -> Case {
        let mut tables = score(random);
        if random.percent(10) {
            grow(random, &mut tables);
        }
        let input = tables.encode();
        let length = writer::write(&input, usize::MAX).written.len();
        let room = random.pick(&[
            length,
            length,
            length - 1,
            length + 1,
            length + 1_000,
            TEXT_ROOM,
            TEXT_ROOM,
            length / 2,
            0,
        ]);
        Case {
            kind: Kind::Write,
            room,
            input,
        }
    }

    /// A file that is mostly not to be written, whatever the room.
    fn refused_file(random: &mut Random, turn: u64) -> Case {
        let tables = piece(random);
        let input = match turn % 6 {
            0 | 2 | 4 => scatter::wrong_file(random, turn / 2),
            1 => damage::fine(random, tables),
            _ => damage::damaged(random, tables),
        };
        Case {
            kind: Kind::Write,
            room: random.pick(&[0, 100, 1_000, 10_000, TEXT_ROOM, TEXT_ROOM]),
            input,
        }
    }

    /// What must come of it.
    pub fn expected(&self) -> Reply {
        match self.kind {
            Kind::Read => text::read(&self.input, self.room),
            Kind::Write => writer::write(&self.input, self.room),
        }
    }

    /// Kind, room and length, then the input.
    pub fn record(&self) -> Vec<u8> {
        let mut record = vec![match self.kind {
            Kind::Read => 0,
            Kind::Write => 1,
        }];
        record.extend((self.room as u32).to_le_bytes());
        record.extend((self.input.len() as u32).to_le_bytes());
        record.extend_from_slice(&self.input);
        record
    }
}

/// The reply's figures on a line, and what was written on the next.
pub fn lines(reply: &Reply) -> Vec<u8> {
    let Reply {
        number,
        place,
        line,
        column,
        written,
    } = reply;
    let size = written.len();
    let mut lines = format!("{number} {place} {line} {column} {size}\n").into_bytes();
    if *number == 0 {
        lines.extend_from_slice(written);
        lines.push(b'\n');
    }
    lines
}

// ---------------------------------------------------------------- pieces

/// The longest file that is still a small case.
const SMALL: usize = 1_200;

/// A small sound score with messages, actions and groups, often with labels
/// that a text must take care of.
pub fn piece(random: &mut Random) -> Tables {
    let mut tables = loop {
        let tables = scores::invent(random).tables;
        let has = |kind: u8| tables.items.iter().any(|item| item.kind == kind);
        if has(0) && has(1) && tables.encode().len() < SMALL {
            break tables;
        }
    };
    if random.percent(40) {
        odd_labels(random, &mut tables);
    }
    tables
}

/// Half of the labels become odd.
pub fn odd_labels(random: &mut Random, tables: &mut Tables) {
    let mut labels = tokens::labels(tables);
    for label in &mut labels {
        if random.percent(50) {
            *label = odd_label(random);
        }
    }
    tokens::set_labels(tables, &labels);
}

/// Bytes that a text spells otherwise, or that stand for something outside.
pub fn odd_label(random: &mut Random) -> Vec<u8> {
    let alphabet: &[u8] = random.pick(&[
        &b"\"\\"[..],
        b"\\",
        b"\"",
        b"\"\\#{} /a0",
        b"# ",
        b"\x80\xff\xc3\xa9",
        b"n\\\"\xff",
    ]);
    let longest = random.pick(&[1, 2, 3, 5, LONGEST_LABEL as u64]);
    let length = random.between(1, longest);
    (0..length).map(|_| random.pick(alphabet)).collect()
}

/// One of the largest scores.
fn largest(random: &mut Random) -> Tables {
    loop {
        let tables = scores::invent(random).tables;
        if tables.items.len() > 1_500 {
            return tables;
        }
    }
}

pub fn largest_grown(random: &mut Random) -> Tables {
    let mut tables = largest(random);
    grow(random, &mut tables);
    tables
}

/// As long a text as there is for so many items, or nearly: all labels spelled with
/// backslashes, and every delay an odd fraction.
fn grow(random: &mut Random, tables: &mut Tables) {
    for item in &mut tables.items {
        item.delay = random.between(5_030_000, 5_040_000) as u32;
    }
    for duration in &mut tables.durations {
        *duration = random.between(5_030_000, 5_040_000) as u32;
    }
    for byte in &mut tables.text {
        *byte = random.pick(b"\"\\");
    }
}

fn spelled_piece(random: &mut Random) -> Vec<Token> {
    let tables = piece(random);
    spelled(random, &tables)
}

// ----------------------------------------------------------------- texts

/// A text of a sound score, and that score.
pub fn sound_text(random: &mut Random) -> (Tables, Vec<u8>) {
    let mut tables = piece(random);
    match random.below(20) {
        0 => tables.items.clear(),
        1 => {
            tables.items.clear();
            tokens::set_labels(&mut tables, &[]);
        }
        _ => {}
    }
    let tokens = spelled(random, &tables);
    let text = laid_out(random, &tokens);
    (tables, text)
}

fn sound(random: &mut Random) -> Vec<u8> {
    sound_text(random).1
}

fn slipped(random: &mut Random, sort: u64) -> Vec<u8> {
    let mut tokens = spelled_piece(random);
    slips::slip(random, &mut tokens, sort);
    laid_out(random, &tokens)
}

fn smudged(random: &mut Random) -> Vec<u8> {
    let mut text = if random.percent(25) {
        written(random)
    } else {
        sound(random)
    };
    for _ in 0..random.pick(&[1, 1, 1, 2]) {
        slips::smudge(random, &mut text);
    }
    text
}

fn at_a_limit(random: &mut Random, sort: u64) -> Vec<u8> {
    let mut tables = piece(random);
    bounds::move_to_a_limit(random, &mut tables, sort);
    let tokens = spelled(random, &tables);
    laid_out(random, &tokens)
}

/// What the file check would refuse, and a slip or two: a 16 comes first.
pub fn wrong_twice(random: &mut Random) -> Vec<u8> {
    let mut tables = piece(random);
    for _ in 0..random.pick(&[1, 1, 2]) {
        // Some limits leave no label behind that the next could take.
        if !tables.messages.is_empty() && !tables.durations.is_empty() {
            let sort = random.below(bounds::SORTS);
            bounds::move_to_a_limit(random, &mut tables, sort);
        }
    }
    let mut tokens = spelled(random, &tables);
    for _ in 0..random.pick(&[0, 1, 1, 2]) {
        let sort = random.below(slips::SORTS);
        slips::slip(random, &mut tokens, sort);
    }
    laid_out(random, &tokens)
}

/// What the writer makes, often laid out otherwise; now and then of the largest.
fn written(random: &mut Random) -> Vec<u8> {
    let tables = if random.percent(10) {
        scores::invent(random).tables
    } else {
        piece(random)
    };
    let text = writer::write(&tables.encode(), usize::MAX).written;
    if random.percent(40) {
        return text;
    }
    relaid(random, &text)
}

/// The written lines with other ends, other blanks in front, and other comments.
fn relaid(random: &mut Random, text: &[u8]) -> Vec<u8> {
    let end: &[u8] = random.pick(&[&b"\n"[..], b"\r\n", b" \n", b"\n\n", b"#\n", b"\t# }\"\n"]);
    let front: Option<&[u8]> = random.pick(&[None, Some(b""), Some(b"\t"), Some(b"\r  ")]);
    let uncommented = random.percent(50);
    let remarks = random.pick(&[0, 0, 10]);
    let mut out = Vec::new();
    for line in text.split(|&byte| byte == b'\n') {
        if random.percent(remarks) {
            comment(random, &mut out);
        }
        let words = line.trim_ascii_start();
        match front {
            None => out.extend_from_slice(&line[..line.len() - words.len()]),
            Some(front) => out.extend_from_slice(front),
        }
        let length = if uncommented {
            comment_start(words)
        } else {
            words.len()
        };
        out.extend_from_slice(&words[..length]);
        out.extend_from_slice(end);
    }
    out
}

/// Where the comment of a written line begins; a message's line has none.
fn comment_start(words: &[u8]) -> usize {
    let message = words.split(|&byte| byte == b' ').nth(1);
    if message.is_some_and(|label| label.starts_with(b"\"")) {
        return words.len();
    }
    let sharp = words.iter().position(|&byte| byte == b'#');
    sharp.unwrap_or(words.len())
}

// ------------------------------------------------------------------- big

pub const BIG: usize = 100_000;

/// Something of 100,000 bytes or more, or as many of a thing; the sorts take
/// turns.
fn big(random: &mut Random, turn: u64) -> Vec<u8> {
    match turn % 9 {
        0 => big_label(random),
        1 => big_word(random),
        2 => big_number(random),
        3 => big_blank(random),
        4 => open_braces(random),
        5 => closed_braces(random),
        6 => many(random),
        7 => largest_written(random),
        _ => big_escapes(random),
    }
}

/// One text of several stretches.
pub fn joined(pieces: &[&[u8]]) -> Vec<u8> {
    pieces.concat()
}

pub fn big_label(random: &mut Random) -> Vec<u8> {
    let label = vec![random.pick(b"a #{\xff\x01"); BIG];
    let end: &[u8] = random.pick(&[&b"\"event 1"[..], b"\"event 1", b"", b"\n\"", b"\\n\""]);
    joined(&[b"messages 0 \"", &label, end])
}

pub fn big_escapes(random: &mut Random) -> Vec<u8> {
    let label = random.pick(&[&b"\\\""[..], b"\\\\"]).repeat(BIG);
    let end: &[u8] = random.pick(&[&b"\"event 1"[..], b"\"event 1", b"\\", b"\\x\""]);
    joined(&[b"messages\n0 \"", &label, end])
}

/// Letters that are no word, alone or behind one, where any word may stand.
pub fn big_word(random: &mut Random) -> Vec<u8> {
    let mut tokens = spelled_piece(random);
    let place = random.index(tokens.len());
    let letters = vec![random.pick(b"asz"); BIG];
    let word = tokens[place].bytes[0].is_ascii_lowercase();
    if word && random.percent(50) {
        tokens[place].bytes.extend(letters);
    } else {
        tokens[place].bytes = letters;
    }
    laid_out(random, &tokens)
}

pub fn big_number(random: &mut Random) -> Vec<u8> {
    let digits = vec![random.pick(b"019"); BIG];
    let front: &[u8] = random.pick(&[
        &b"messages\n  "[..],
        b"messages\nevent ",
        b"messages\nevent 1/",
        b"messages\nevent 1\npart ",
        b"messages\nevent 1\npart 0\n\t",
        b"messages\nevent 1\npart 0\n0 send ",
    ]);
    joined(&[front, &digits, b" send 0"])
}

/// Blanks, lines or one comment between two tokens; what follows may be wrong.
fn big_blank(random: &mut Random) -> Vec<u8> {
    let blanks = match random.below(4) {
        0 => vec![random.pick(b" \t\r"); BIG],
        1 => vec![b'\n'; BIG],
        2 => b"#\n".repeat(BIG),
        _ => joined(&[b"#", &vec![random.pick(b"#\"{\\ \xff"); BIG], b"\n"]),
    };
    let end: &[u8] = random.pick(&[&b"event 1"[..], b"event 1", b"X", b"event 1/ 2", b"event "]);
    joined(&[b"messages ", &blanks, end])
}

/// Groups in groups, closed nowhere, or but for one, or with something else.
pub fn open_braces(random: &mut Random) -> Vec<u8> {
    let groups = b"0group{".repeat(BIG / 2);
    let end: &[u8] = random.pick(&[&b""[..], b"\n", b"}", b"{", b"event 1"]);
    joined(&[b"messages event 1 part 0 ", &groups, end])
}

/// As many groups in groups, all closed, and sometimes one more brace.
pub fn closed_braces(random: &mut Random) -> Vec<u8> {
    let count = random.pick(&[BIG / 2, 65_535, 65_536, 65_537]);
    let groups = b"0group{".repeat(count);
    let closed = b"}".repeat(count + random.pick(&[0, 0, 0, 1]));
    joined(&[b"messages event 1 part 0 ", &groups, &closed, b"\n"])
}

/// More of a thing than sixteen bits count, or `part` with no item very often.
pub fn many(random: &mut Random) -> Vec<u8> {
    let count = random.pick(&[65_536, 65_537, 66_000]);
    match random.below(4) {
        0 => many_messages(random, count),
        1 => joined(&[b"messages\n", &b"event1".repeat(count)]),
        2 => {
            let actions = b"0send0 ".repeat(count);
            joined(&[b"messages 0\"a\" event 1 part 0 ", &actions])
        }
        _ => joined(&[b"messages event 1 ", &b"part7".repeat(count)]),
    }
}

fn many_messages(random: &mut Random, count: usize) -> Vec<u8> {
    let mut text = b"messages ".to_vec();
    let label = random.pick(&["\"\"", "\"a\""]);
    for number in 0..count {
        text.extend(format!("{number}{label}").into_bytes());
    }
    text.extend_from_slice(random.pick(&[&b"event 1"[..], b"event 1", b"0"]));
    text
}

fn largest_written(random: &mut Random) -> Vec<u8> {
    let tables = largest_grown(random);
    writer::write(&tables.encode(), usize::MAX).written
}
