//! Extended scores with one thing wrong that can't be unfolded (17): in the items
//! and points, in the contents, or anywhere in the bytes.

use crate::additions::{at_the_end, curve};
use crate::extended::{Extended, Figure, Point, ACTION, CONTENTS, CURVE, GROUP, LOOP};
use crate::random::Random;
use crate::score::LONGEST_TIME;

// ------------------------------------------------------ items and points

/// How many sorts of faults in the items and points there are.
pub const SORTS: u64 = 34;

pub fn spoil(random: &mut Random, score: &mut Extended, sort: u64) {
    match sort {
        0 => set_kind(random, score, 4),
        1 => set_kind(random, score, 255),
        2..=4 => ends_past_its_holder(random, score),
        5 => ends_past_the_table(random, score),
        6 => on(random, score, LOOP, |item| item.times = 0),
        7 => on(random, score, LOOP, |item| item.times = 257),
        8 => on(random, score, LOOP, |item| item.times = 512),
        9 => on(random, score, LOOP, |item| item.each = LONGEST_TIME + 1),
        10 => on(random, score, LOOP, |item| item.each = u32::MAX),
        11 => on(random, score, CURVE, |item| item.each = 0),
        12 => on(random, score, CURVE, |item| item.each = LONGEST_TIME + 1),
        13 => on(random, score, CURVE, |item| item.times = 0),
        14 => on(random, score, CURVE, |item| item.times += 1),
        15 => on(random, score, CURVE, |item| item.times -= 1),
        16 => on(random, score, CURVE, |item| item.times = u16::MAX),
        17 => on(random, score, CURVE, |item| item.entry.last = 1),
        18 => on(random, score, CURVE, |item| item.entry.last = u16::MAX),
        19 => points_left_over(random, score),
        20 => last_curve_asks_for_more(score),
        21..=25 => span(random, score, sort - 21),
        26 => on(random, score, ACTION, |item| item.each = 1),
        27 => on(random, score, GROUP, |item| item.each = 1 << 24),
        28 => on(random, score, ACTION, |item| item.times = 256),
        29 => on(random, score, GROUP, |item| item.times = 1),
        _ => pad(random, score, sort - 30),
    }
}

/// One of the items of a kind, if there is one.
fn place_of(random: &mut Random, score: &Extended, kind: u8) -> Option<usize> {
    let places: Vec<usize> = (0..score.items.len())
        .filter(|&index| score.items[index].entry.kind == kind)
        .collect();
    if places.is_empty() {
        return None;
    }
    Some(random.pick(&places))
}

/// A change to one of the items of a kind.
pub fn on(random: &mut Random, score: &mut Extended, kind: u8, change: fn(&mut Figure)) {
    if let Some(index) = place_of(random, score, kind) {
        change(&mut score.items[index]);
    }
}

fn set_kind(random: &mut Random, score: &mut Extended, kind: u8) {
    if !score.items.is_empty() {
        let index = random.index(score.items.len());
        score.items[index].entry.kind = kind;
    }
}

/// Where each item's holder ends: the inmost group or loop around it, or the table.
fn holders_ends(score: &Extended) -> Vec<usize> {
    let count = score.items.len();
    let mut ends = vec![count; count];
    for (index, item) in score.items.iter().enumerate() {
        let end = (index + 1 + item.within()).min(count);
        // Inner ones come later, and are the nearer.
        ends[index + 1..end].fill(end);
    }
    ends
}

/// A group or loop that ends one item or more past what holds it.
fn ends_past_its_holder(random: &mut Random, score: &mut Extended) {
    let kind = random.pick(&[GROUP, LOOP]);
    let Some(index) = place_of(random, score, kind) else {
        return;
    };
    let ends = holders_ends(score);
    let inner = |&place: &usize| ends[place] < score.items.len() && score.items[place].holds();
    let inners: Vec<usize> = (0..score.items.len()).filter(inner).collect();
    let index = if inners.is_empty() {
        index
    } else {
        random.pick(&inners)
    };
    let most = ends[index] - index - 1;
    let more = random.pick(&[1, 1, 1, 2, 300]);
    score.items[index].entry.last = (most + more) as u16;
}

fn ends_past_the_table(random: &mut Random, score: &mut Extended) {
    let kind = random.pick(&[GROUP, LOOP]);
    let Some(index) = place_of(random, score, kind) else {
        return;
    };
    let most = score.items.len() - index - 1;
    let last = random.pick(&[most + 1, most + 1, 65_535]);
    score.items[index].entry.last = last as u16;
}

fn points_left_over(random: &mut Random, score: &mut Extended) {
    let span = random.pick(&[0, 0, 5_040, u32::MAX]);
    for _ in 0..random.pick(&[1, 1, 2, 1_000]) {
        score.points.push(Point { value: 7, span });
    }
}

fn last_curve_asks_for_more(score: &mut Extended) {
    let last = score.items.iter_mut().rfind(|item| item.points() > 0);
    if let Some(item) = last {
        item.times += 1;
    }
}

/// A curve of three points, one of whose spans is wrong.
fn span(random: &mut Random, score: &mut Extended, sort: u64) {
    let step = random.pick(&[2, 7, 5_040, LONGEST_TIME]);
    let steps = random.between(1, 9) as u32;
    let mut spans = [step * steps, step, 0];
    match sort {
        0 => spans[random.index(2)] = 0,
        1 => spans[0] += random.pick(&[1, step - 1]),
        2 => spans[1] = random.pick(&[1, step - 1]),
        3 => spans[2] = random.pick(&[1, step, step, u32::MAX]),
        _ => spans[1] = u32::MAX - u32::MAX % step - 1,
    }
    let values = [3, -3, 4];
    let first = score.points.len();
    for (value, span) in values.into_iter().zip(spans) {
        score.points.push(Point { value, span });
    }
    let figure = curve(random, step, score.points.len() - first);
    let figure = at_the_end(score, figure);
    score.items.push(figure);
}

/// Either byte of the two, on each kind in turn.
fn pad(random: &mut Random, score: &mut Extended, kind: u64) {
    if let Some(index) = place_of(random, score, kind as u8) {
        score.items[index].pad = random.pick(&[1, 256, 255, 65_280, 65_535]);
    }
}

// ----------------------------------------------------------- in the bytes

/// How many sorts of wrong contents there are.
pub const CONTENTS_SORTS: u64 = 18;

pub fn spoil_contents(random: &mut Random, file: &mut Vec<u8>, sort: u64) {
    match sort {
        0..=9 => contents_word(random, file, sort as usize),
        10 => file.push(random.below(256) as u8),
        11 => drop(file.pop()),
        12 => {
            let length = random.pick(&[0, 1, 32, CONTENTS - 1, CONTENTS - 1]);
            file.truncate(length);
        }
        13 => {
            let length = random.index(file.len() + 1);
            file.truncate(length);
        }
        14 => grow_count(file, 1, 1 << 30),
        15 => grow_count(file, 3, 1 << 30),
        16 => grow_count(file, 5, 1 << 30),
        _ => grow_count(file, 9, 1 << 29),
    }
}

/// So many entries more that their bytes are a multiple of 2^32: right to who cuts
/// the sum to 32 bits.
fn grow_count(file: &mut [u8], word: usize, more: u32) {
    change_word(file, word, |old| old.wrapping_add(more));
}

/// One offset or count.
fn contents_word(random: &mut Random, file: &mut [u8], word: usize) {
    change_word(file, word, |old| wrong_word(random, old));
}

fn change_word(file: &mut [u8], word: usize, change: impl FnOnce(u32) -> u32) {
    let place = 4 * word;
    if let Some(bytes) = file.get_mut(place..place + 4) {
        let old = u32::from_le_bytes([bytes[0], bytes[1], bytes[2], bytes[3]]);
        bytes.copy_from_slice(&change(old).to_le_bytes());
    }
}

fn wrong_word(random: &mut Random, old: u32) -> u32 {
    random.pick(&[
        0,
        old.wrapping_add(1),
        old.wrapping_sub(1),
        old.wrapping_add(4),
        old ^ 0x0100_0000,
        old ^ 0x8000_0000,
        u32::MAX,
        u32::MAX,
    ])
}

/// A few bytes anywhere, or all of them.
pub fn scatter_bytes(random: &mut Random, file: &mut Vec<u8>) {
    if random.percent(10) {
        let length = random.below(400);
        *file = (0..length).map(|_| random.below(256) as u8).collect();
        return;
    }
    let from = if random.percent(90) { CONTENTS } else { 0 };
    if file.len() <= from {
        return;
    }
    if random.percent(10) {
        for byte in &mut file[from..] {
            *byte = random.below(256) as u8;
        }
        return;
    }
    for _ in 0..random.pick(&[1, 1, 1, 2, 5]) {
        let place = from + random.index(file.len() - from);
        let any = random.below(256) as u8;
        file[place] = random.pick(&[0, 1, 2, 3, 127, 255, any, any]);
    }
}
