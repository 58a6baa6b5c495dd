//! Random cases for unfolding: extended scores, each with the length of the room
//! that is lent.

use crate::additions::{add_chain, at_the_end, curve, group, looped};
use crate::extended::{Extended, Fault, Figure, Point};
use crate::extended_faults::{self as faults, CONTENTS_SORTS};
use crate::extended_file_faults as file_faults;
use crate::extended_limits as limits;
use crate::extended_specials as specials;
use crate::figures::{invent, piece};
use crate::random::Random;
use crate::scores;
use crate::text::FILE_ROOM;
use crate::unfold::unfold;

pub struct Case {
    pub room: usize,
    pub input: Vec<u8>,
}

/// What sort of case a seed's is. A number says which of the sorts of its kind,
/// that take turns.
#[derive(Clone, Copy, PartialEq, Debug)]
pub enum Plan {
    Big(u64),
    /// With loops and curves, or with neither.
    Sound,
    Ordinary,
    Special(u64),
    AtALimit(u64),
    Fault(u64),
    Contents(u64),
    FileFault(u64),
    Scattered,
    WrongTwice,
}

/// So many seeds in a row share out the plans.
const TURNS: u64 = 125;

impl Plan {
    pub fn of_seed(seed: u64) -> Plan {
        let (round, turn) = (seed / TURNS, seed % TURNS);
        // Which sort it is, where so many turns from `first` on have sorts.
        let sort = |first: u64, turns: u64, sorts: u64| (turns * round + turn - first) % sorts;
        match turn {
            0..=1 => Plan::Big(sort(0, 2, BIG_SORTS)),
            2..=45 => Plan::Sound,
            46..=52 => Plan::Ordinary,
            53..=58 => Plan::Special(sort(53, 6, specials::SORTS)),
            59..=76 => Plan::AtALimit(sort(59, 18, limits::SORTS)),
            77..=92 => Plan::Fault(sort(77, 16, faults::SORTS)),
            93..=97 => Plan::Contents(sort(93, 5, faults::CONTENTS_SORTS)),
            98..=112 => Plan::FileFault(sort(98, 15, file_faults::SORTS)),
            113..=117 => Plan::Scattered,
            _ => Plan::WrongTwice,
        }
    }

    /// Is nothing to come before what the plan is there to show?
    fn needs_room(self) -> bool {
        matches!(
            self,
            Plan::Big(_)
                | Plan::Special(_)
                | Plan::AtALimit(_)
                | Plan::Fault(_)
                | Plan::Contents(_)
                | Plan::FileFault(_)
        )
    }
}

impl Case {
    pub fn of_seed(seed: u64) -> Case {
        let random = &mut Random::new(seed);
        let plan = Plan::of_seed(seed);
        let input = match plan {
            Plan::Big(sort) => big(random, sort),
            Plan::Sound => invent(random).score.encode(),
            Plan::Ordinary => Extended::of_tables(scores::invent(random).tables).encode(),
            Plan::Special(sort) => specials::special(random, sort).encode(),
            Plan::AtALimit(sort) => limits::at_a_limit(random, sort).encode(),
            Plan::Fault(sort) => spoiled(random, sort),
            Plan::Contents(sort) => spoiled_contents(random, sort),
            Plan::FileFault(sort) => spoiled_file(random, sort),
            Plan::Scattered => scattered(random),
            Plan::WrongTwice => wrong_twice(random),
        };
        let room = if plan.needs_room() {
            enough(random)
        } else {
            any_room(random)
        };
        Case { room, input }
    }

    /// What must come of it.
    pub fn expected(&self) -> Result<Vec<u8>, Fault> {
        unfold(&self.input, self.room)
    }

    /// Room and length, then the input.
    pub fn record(&self) -> Vec<u8> {
        let mut record = (self.room as u32).to_le_bytes().to_vec();
        record.extend((self.input.len() as u32).to_le_bytes());
        record.extend_from_slice(&self.input);
        record
    }
}

/// Number, place and size on a line, and the file that is written on the next.
pub fn lines(reply: &Result<Vec<u8>, Fault>) -> Vec<u8> {
    match reply {
        Ok(file) => {
            let mut lines = format!("0 0 {}\n", file.len()).into_bytes();
            lines.extend_from_slice(file);
            lines.push(b'\n');
            lines
        }
        Err(fault) => format!("{} {} 0\n", fault.number, fault.place).into_bytes(),
    }
}

// ------------------------------------------------------------------ room

fn enough(random: &mut Random) -> usize {
    let more = FILE_ROOM + random.index(60_000);
    random.pick(&[FILE_ROOM, FILE_ROOM, FILE_ROOM, FILE_ROOM + 1, more])
}

fn any_room(random: &mut Random) -> usize {
    match random.below(25) {
        0 => random.pick(&[0, 1, 32, FILE_ROOM / 2, FILE_ROOM - 2]),
        1 => FILE_ROOM - 1,
        _ => enough(random),
    }
}

// ----------------------------------------------------------------- wrong

fn spoiled(random: &mut Random, sort: u64) -> Vec<u8> {
    let mut score = piece(random).score;
    faults::spoil(random, &mut score, sort);
    score.encode()
}

fn spoiled_contents(random: &mut Random, sort: u64) -> Vec<u8> {
    let mut file = piece(random).score.encode();
    faults::spoil_contents(random, &mut file, sort);
    file
}

fn spoiled_file(random: &mut Random, sort: u64) -> Vec<u8> {
    let mut score = piece(random).score;
    file_faults::spoil_file(random, &mut score, sort);
    score.encode()
}

fn scattered(random: &mut Random) -> Vec<u8> {
    let mut file = if random.percent(80) {
        piece(random).score.encode()
    } else {
        invent(random).score.encode()
    };
    faults::scatter_bytes(random, &mut file);
    if random.percent(10) {
        let sort = random.below(CONTENTS_SORTS);
        faults::spoil_contents(random, &mut file, sort);
    }
    file
}

/// A limit, something that can't be unfolded, something that the file check finds:
/// two of them or all three, so that their order shows.
fn wrong_twice(random: &mut Random) -> Vec<u8> {
    let left_out = random.below(4);
    let limit = random.below(limits::SORTS);
    let mut score = match left_out {
        0 => piece(random).score,
        _ => limits::at_a_limit(random, limit),
    };
    if left_out != 1 {
        let sort = random.below(file_faults::SORTS);
        file_faults::spoil_file(random, &mut score, sort);
    }
    if left_out != 2 {
        let sort = random.below(faults::SORTS);
        faults::spoil(random, &mut score, sort);
    }
    let mut file = score.encode();
    if random.percent(5) {
        let sort = random.below(CONTENTS_SORTS);
        faults::spoil_contents(random, &mut file, sort);
    }
    file
}

// ------------------------------------------------------------------- big

/// How many sorts of big inputs there are.
pub const BIG_SORTS: u64 = 11;

/// Something that is far past a limit, often with a fault far behind. None has
/// 1,500,000 bytes.
fn big(random: &mut Random, sort: u64) -> Vec<u8> {
    let mut score = small(random);
    match sort {
        0 => nested_groups(random, &mut score),
        1 => nested_loops(random, &mut score),
        2 => nested_anyhow(random, &mut score),
        3 => many_points(random, &mut score),
        4 => many_curves(random, &mut score),
        5 => many_points_left_over(random, &mut score),
        6 => score.text.resize(100_000, b't'),
        7 => (0..66_000).for_each(|_| score.add_message(b"m")),
        8 => score.durations.resize(70_000, 5_040),
        9 => many_items(random, &mut score),
        _ => wide_group(random, &mut score),
    }
    if random.percent(40) {
        let sort = random.below(faults::SORTS);
        faults::spoil(random, &mut score, sort);
    }
    score.encode()
}

/// One event and nothing else.
fn small(random: &mut Random) -> Extended {
    Extended {
        durations: vec![random.pick(&[1, 5_040])],
        ..Extended::default()
    }
}

fn nested_groups(random: &mut Random, score: &mut Extended) {
    let count = random.pick(&[2_048, 2_049, 10_000, 65_536]);
    add_chain(score, &vec![group(random); count]);
    overrun_inmost(random, score);
}

fn nested_loops(random: &mut Random, score: &mut Extended) {
    let count = random.pick(&[1_000, 10_000, 65_536]);
    let passes = random.pick(&[1, 2, 256]);
    add_chain(score, &vec![looped(random, passes); count]);
    overrun_inmost(random, score);
}

fn nested_anyhow(random: &mut Random, score: &mut Extended) {
    let mut chain = Vec::new();
    for _ in 0..random.pick(&[500, 10_000, 60_000]) {
        let figure = match random.below(2) {
            0 => group(random),
            _ => looped(random, 256),
        };
        chain.push(figure);
    }
    chain.push(curve(random, 5_040, 1));
    add_chain(score, &chain);
    score.points.push(Point { value: 5, span: 0 });
    overrun_inmost(random, score);
}

/// Now and then one of the inmost groups or loops ends past the others.
fn overrun_inmost(random: &mut Random, score: &mut Extended) {
    let index = score.items.len() - 1 - random.index(5);
    if random.percent(30) {
        let item = &mut score.items[index];
        item.entry.last = item.entry.last.wrapping_add(1);
    }
}

/// A curve with as many points as sixteen bits count, and one that asks for more.
fn many_points(random: &mut Random, score: &mut Extended) {
    let count = random.pick(&[65_535, 65_535, 65_534]);
    let step = random.pick(&[1, 5_040]);
    let figure = curve(random, step, 65_535);
    score.items.push(at_the_end(score, figure));
    let span = random.pick(&[step, step, u32::MAX - u32::MAX % step]);
    score.points.resize(count - 1, Point { value: 3, span });
    score.points.push(Point { value: 4, span: 0 });
}

fn many_curves(random: &mut Random, score: &mut Extended) {
    let count = random.pick(&[1_024, 1_025, 20_000]);
    let figure = curve(random, 7, 1);
    let figure = at_the_end(score, figure);
    score.items.resize(count, figure);
    for index in 0..count {
        let value = random.pick(&[index as i32 % 300, 0]);
        score.points.push(Point { value, span: 0 });
    }
}

fn many_points_left_over(random: &mut Random, score: &mut Extended) {
    let figure = group(random);
    score.items.push(at_the_end(score, figure));
    let count = random.pick(&[65_536, 70_000]);
    score.points.resize(count, Point::default());
}

/// More top items than sixteen bits count.
fn many_items(random: &mut Random, score: &mut Extended) {
    let count = random.pick(&[2_050, 65_536, 65_537]);
    let empty = group(random);
    let figure = random.pick(&[Figure::default(), empty]);
    let figure = at_the_end(score, figure);
    score.items.resize(count, figure);
}

/// As many as a group can hold.
fn wide_group(random: &mut Random, score: &mut Extended) {
    let (one, other) = (group(random), looped(random, 256));
    let mut figure = random.pick(&[one, other]);
    figure.entry.last = u16::MAX;
    score.items.push(at_the_end(score, figure));
    let mut inner = at_the_end(score, group(random));
    inner.entry.event = 0;
    score.items.resize(65_536, inner);
}
