//! Random cases for `place_in_text`: texts that are all refused, mostly by the file
//! check, each with a place that is asked.

use crate::items::Way;
use crate::mutant;
use crate::place_faults::{self, Aim};
use crate::place_layouts;
use crate::places::place_in_text;
use crate::random::Random;
use crate::score::{
    Tables, CONTENTS, EVENT_BYTES, ITEM_BYTES, MESSAGE_BYTES, MOST_EVENTS, MOST_ITEMS,
    MOST_MESSAGES, MOST_TEXT,
};
use crate::slips;
use crate::text::{self, Reply, FILE_ROOM};
use crate::texts::{self, joined, piece, BIG};
use crate::tokens::{self, spelled, Token};

pub struct Case {
    pub asked: u32,
    pub text: Vec<u8>,
}

/// What must be said of a case.
#[derive(Clone, Copy, PartialEq, Debug)]
pub struct Said {
    pub number: u64,
    pub place: usize,
    /// Line and column of the refusal, and of what made the byte that is asked.
    pub refusal: (usize, usize),
    pub asked: (usize, usize),
}

/// Of so many seeds in a row one is big, the others share out the sorts below.
const TURNS: u64 = 120;

/// A text has fewer bytes than this.
pub const LONGEST: usize = 600_000;

/// No kind of record that `texts` has.
const KIND: u8 = 2;

impl Case {
    /// Made by no wrong rule, so that each is tried on the same cases.
    pub fn of_seed(seed: u64) -> Case {
        mutant::under(mutant::NONE, || Case::made(seed))
    }

    fn made(seed: u64) -> Case {
        let random = &mut Random::new(seed);
        let (round, turn) = (seed / TURNS, seed % TURNS);
        let aim = match turn {
            0 => return big(random, round),
            1..=20 => return at_fault(random),
            21..=26 => Aim::Events,
            27..=31 => Aim::NoEvent,
            32..=36 => Aim::Items,
            37..=42 => Aim::Messages,
            43..=47 => Aim::TextBytes,
            48..=56 => Aim::Duration,
            57..=66 => Aim::Item(Way::PartAbove15),
            67..=77 => Aim::Item(Way::Delay),
            78..=85 => Aim::Item(Way::PartFalls),
            86..=94 => Aim::Item(Way::TooDeep),
            95..=104 => Aim::Item(Way::Message),
            105..=109 => Aim::Item(Way::TooMany),
            _ => Aim::Label,
        };
        refused(random, aim)
    }

    /// A text, and a place of the file that it makes; of one at fault, of the file that
    /// it might have made.
    fn new(random: &mut Random, text: Vec<u8>, file: &Tables) -> Case {
        Case {
            asked: asked(random, file),
            text,
        }
    }

    pub fn said(&self) -> Said {
        let Reply {
            number,
            place,
            line,
            column,
            ..
        } = text::read(&self.text, FILE_ROOM);
        let refusal = match number {
            0 => (0, 0),
            16 => (line, column),
            _ => place_in_text(&self.text, place),
        };
        Said {
            number,
            place,
            refusal,
            asked: place_in_text(&self.text, self.asked as usize),
        }
    }

    /// As the records of `texts`, with the place that is asked for the room.
    pub fn record(&self) -> Vec<u8> {
        let mut record = vec![KIND];
        record.extend(self.asked.to_le_bytes());
        record.extend((self.text.len() as u32).to_le_bytes());
        record.extend_from_slice(&self.text);
        record
    }
}

impl Said {
    pub fn line(&self) -> String {
        let Said {
            number,
            place,
            refusal: (line, column),
            asked: (l, c),
        } = self;
        format!("{number} {place} {line} {column} {l} {c}\n")
    }
}

// ----------------------------------------------------------------- texts

fn laid_out(random: &mut Random, tokens: &[Token]) -> Vec<u8> {
    if random.percent(40) {
        return tokens::laid_out(random, tokens);
    }
    place_layouts::laid_out(random, tokens).text
}

/// A text that the file check refuses for this.
fn refused(random: &mut Random, aim: Aim) -> Case {
    let (number, place) = aim.reply();
    loop {
        let score = place_faults::score(random, aim);
        let tokens = spelled(random, &score);
        let text = laid_out(random, &tokens);
        let reply = text::read(&text, FILE_ROOM);
        let there = place.is_none_or(|place| reply.place == place);
        if reply.number == number && there && text.len() < LONGEST {
            return of_readable(random, text);
        }
    }
}

/// A case of a text that has no fault of its own, unless it has.
fn of_readable(random: &mut Random, text: Vec<u8>) -> Case {
    let file = text::tables(&text).unwrap_or_default();
    Case::new(random, text, &file)
}

/// What the file check would refuse too, now and then.
const BESIDE: [Aim; 4] = [
    Aim::Duration,
    Aim::Label,
    Aim::Item(Way::Delay),
    Aim::Item(Way::Message),
];

/// A text with a fault of its own.
fn at_fault(random: &mut Random) -> Case {
    loop {
        let score = if random.percent(30) {
            let aim = random.pick(&BESIDE);
            place_faults::score(random, aim)
        } else {
            piece(random)
        };
        let mut tokens = spelled(random, &score);
        if random.percent(80) {
            let sort = random.below(slips::SORTS);
            slips::slip(random, &mut tokens, sort);
        }
        let mut text = laid_out(random, &tokens);
        if random.percent(25) {
            slips::smudge(random, &mut text);
        }
        if text::tables(&text).is_err() && text.len() < LONGEST {
            return Case::new(random, text, &score);
        }
    }
}

// ------------------------------------------------------------------- big

/// 100,000 bytes or more of a thing, or more of it than sixteen bits count; the sorts
/// take turns.
fn big(random: &mut Random, turn: u64) -> Case {
    loop {
        let text = match turn % 9 {
            0 => texts::big_label(random),
            1 => texts::closed_braces(random),
            2 => blanks_before(random, b"event 0"),
            3 => texts::many(random),
            4 => texts::big_escapes(random),
            5 => texts::open_braces(random),
            6 => blanks_before(random, b"0 \"\" event 1"),
            7 => many_on_a_line(random),
            _ => texts::big_number(random),
        };
        if text::read(&text, FILE_ROOM).number != 0 && text.len() < LONGEST {
            return of_readable(random, text);
        }
    }
}

/// Blanks, lines or comments, and then what is refused.
fn blanks_before(random: &mut Random, what: &[u8]) -> Vec<u8> {
    let blanks = match random.below(5) {
        0 => vec![random.pick(b" \t\r"); BIG],
        1 => vec![b'\n'; BIG],
        2 => b"#\n".repeat(BIG),
        3 => b"# 0 \"a\" event 1\r\n\n".repeat(BIG / 10),
        _ => joined(&[b"#", &vec![random.pick(b"#\"{\\ \xff"); BIG], b"\n"]),
    };
    joined(&[b"messages ", &blanks, what, b"\n"])
}

/// 20,000 events, each with an item, on a few lines.
fn many_on_a_line(random: &mut Random) -> Vec<u8> {
    let event: &[u8] = random.pick(&[&b"event1part0 0group{}"[..], b"event 1 part 7 0 group { } "]);
    let line = joined(&[&event.repeat(2_000), b"#}\n"]);
    joined(&[b"messages\n", &line.repeat(10), b"event 1"])
}

// ---------------------------------------------------------------- places

/// Where each table of the file begins: the contents, the four bodies, and what isn't
/// there any more.
pub fn borders(file: &Tables) -> [usize; 6] {
    let events = CONTENTS;
    let items = events + EVENT_BYTES * file.durations.len();
    let messages = items + ITEM_BYTES * file.items.len();
    let text = messages + MESSAGE_BYTES * file.messages.len();
    [0, events, items, messages, text, text + file.text.len()]
}

/// Which of the four counts the file check refuses.
pub fn wrong_counts(file: &Tables) -> [bool; 4] {
    let events = file.durations.len() as u64;
    [
        events == 0 || events > MOST_EVENTS,
        file.items.len() as u64 > MOST_ITEMS,
        file.messages.len() as u64 > MOST_MESSAGES,
        file.text.len() as u64 > MOST_TEXT,
    ]
}

/// The first byte of a count, often of a wrong one.
fn count(random: &mut Random, file: &Tables) -> usize {
    let wrong: Vec<usize> = (0..4).filter(|&body| wrong_counts(file)[body]).collect();
    let body = if wrong.is_empty() || random.percent(50) {
        random.index(4)
    } else {
        random.pick(&wrong)
    };
    8 * body + 4
}

/// A place in one of the tables, mostly where something made it, or anywhere in the
/// file; at a border, in the contents, a count, past the end, or any.
fn asked(random: &mut Random, file: &Tables) -> u32 {
    let borders = borders(file);
    let end = borders[5];
    let table = random.pick(&[0, 1, 1, 2, 2, 2, 3, 3, 4]);
    let (first, next) = (borders[table], borders[table + 1]);
    let place = match random.below(100) {
        0..=44 if next > first => first + random.index(next - first),
        0..=59 => random.index(end),
        60..=77 => random.pick(&borders[1..]) - 1 + random.pick(&[0, 0, 1, 1, 2]),
        78..=84 => random.index(CONTENTS),
        85..=90 => count(random, file) + random.index(4),
        91..=94 => end + random.pick(&[0, 1, 3, 4, 11, 12, 1_000]),
        95..=96 => random.pick(&[1 << 16, 1 << 31, u32::MAX as usize - 1, u32::MAX as usize]),
        _ => random.below(1 << 32) as usize,
    };
    place as u32
}
