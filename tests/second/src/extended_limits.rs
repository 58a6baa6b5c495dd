//! Extended scores that unfold into a score at a limit or past it. Each limit
//! comes three times: kept, passed by one, and well passed.

use crate::additions::{
    action, add, add_beside, add_chain, add_groups, add_ladder, add_line, curve, end_values, group,
    looped,
};
use crate::extended::{Extended, Figure, Point, ACTION, GROUP, MOST_PASSES};
use crate::extended_specials::steep;
use crate::figures::{base, base_without_curves, word, Sketch};
use crate::random::Random;
use crate::score::{
    DEEPEST, LONGEST_TIME, MOST_ACTIONS, MOST_EVENTS, MOST_ITEMS, MOST_MESSAGES, MOST_TEXT,
};

/// How many sorts there are: three for each limit.
pub const SORTS: u64 = 3 * 24;

/// Is the limit of this sort kept?
#[derive(Clone, Copy, PartialEq)]
pub enum Past {
    Kept,
    ByOne,
    Well,
}

impl Past {
    pub fn of_sort(sort: u64) -> Past {
        match sort % 3 {
            0 => Past::Kept,
            1 => Past::ByOne,
            _ => Past::Well,
        }
    }

    /// One of the three: kept, passed by one, well passed.
    fn pick<T>(self, kept: T, by_one: T, well: T) -> T {
        match self {
            Past::Kept => kept,
            Past::ByOne => by_one,
            Past::Well => well,
        }
    }
}

pub fn at_a_limit(random: &mut Random, sort: u64) -> Extended {
    let past = Past::of_sort(sort);
    match sort / 3 {
        0 => events(random, past),
        1 => no_event(random, past),
        2 => items_by_groups(random, past),
        3 => items_by_passes(random, past),
        4 => items_by_values(random, past),
        5 => actions_by_actions(random, past),
        6 => actions_by_passes(random, past),
        7 => actions_by_values(random, past),
        8 => messages_in_the_list(random, past),
        9..=10 => messages_by_values(random, past),
        11 => messages_by_two_curves(random, past),
        12 => text_in_the_list(random, past),
        13 => text_by_values(random, past),
        14..=17 => depth(random, past, sort / 3 - 14),
        18 => passes(random, past),
        19 => period(random, past),
        20 => longest_step(random, past),
        21 => shortest_step(random, past),
        22 => sums_that_wrap(random, past),
        _ => loops_in_loops(random, past),
    }
}

// ---------------------------------------------------------------- pieces

/// As long a list as is asked for, of labels that are no numbers, and no action.
fn base_with_labels(random: &mut Random, count: u64) -> Extended {
    let mut score = base_without_curves(random).score;
    score.messages.truncate(count as usize);
    for item in &mut score.items {
        if item.entry.kind == ACTION {
            item.entry.kind = GROUP;
            item.entry.last = 0;
        }
    }
    let end = score.messages.last();
    let used = end.map_or(0, |&(start, length)| start + length);
    score.text.truncate(usize::from(used));
    while (score.messages.len() as u64) < count {
        let label = word(random);
        score.add_message(&label);
    }
    score
}

fn with_a_message(random: &mut Random, mut sketch: Sketch) -> Sketch {
    if sketch.score.messages.is_empty() {
        let label = word(random);
        sketch.score.add_message(&label);
    }
    sketch
}

// ---------------------------------------------------------------- counts

fn events(random: &mut Random, past: Past) -> Extended {
    let mut score = base(random).score;
    let well = random.pick(&[44, 65_280, 65_281]);
    let count = MOST_EVENTS + past.pick(0, 1, well);
    score.durations.resize(count as usize, 5_040);
    if random.percent(50) {
        add_groups(random, &mut score, 1);
    }
    score
}

fn no_event(random: &mut Random, past: Past) -> Extended {
    let mut score = base(random).score;
    score.durations.truncate(past.pick(1, 0, 0));
    if past == Past::Kept || random.percent(50) {
        score.items.clear();
        score.points.clear();
    }
    score
}

fn items_by_groups(random: &mut Random, past: Past) -> Extended {
    let Sketch {
        mut score, items, ..
    } = base(random);
    let more = past.pick(0, 1, 500);
    add_groups(random, &mut score, MOST_ITEMS - items + more);
    score
}

/// A loop of many passes with one or more groups in each, and groups for the rest.
fn items_by_passes(random: &mut Random, past: Past) -> Extended {
    let Sketch {
        mut score, items, ..
    } = base(random);
    let mut left = MOST_ITEMS - items;
    while left > 10 && random.percent(90) {
        let within = random.between(0, 6);
        let most = ((left - 1) / (1 + within)).min(u64::from(MOST_PASSES));
        let passes = random.pick(&[most, most, 1 + most / 2]);
        let figure = looped(random, passes as u16);
        let body: Vec<Figure> = (0..within).map(|_| group(random)).collect();
        add(&mut score, figure, &body);
        left -= 1 + passes * (1 + within);
    }
    add_groups(random, &mut score, left + past.pick(0, 1, 30));
    score
}

/// As many values as may be, and groups for the rest.
fn items_by_values(random: &mut Random, past: Past) -> Extended {
    let sketch = base_without_curves(random);
    let mut score = sketch.score;
    let values = MOST_ACTIONS as u64 - sketch.actions;
    let step = random.pick(&[1, 5_040, 60_000]);
    let value = random.pick(&[0, 7, -7, i32::MIN]);
    add_line(random, &mut score, step, (value, value), values);
    let left = MOST_ITEMS - sketch.items - values - 1;
    add_groups(random, &mut score, left + past.pick(0, 1, 30));
    score
}

fn actions_by_actions(random: &mut Random, past: Past) -> Extended {
    let sketch = base(random);
    let Sketch {
        mut score, actions, ..
    } = with_a_message(random, sketch);
    let mut left = MOST_ACTIONS as u64 - actions + past.pick(0, 1, 300);
    while left > 0 {
        let within = random.between(1, 60).min(left);
        let figure = group(random);
        add(&mut score, figure, &vec![action(); within as usize]);
        left -= within;
    }
    score
}

fn actions_by_passes(random: &mut Random, past: Past) -> Extended {
    let sketch = base(random);
    let Sketch {
        mut score, actions, ..
    } = with_a_message(random, sketch);
    let left = MOST_ACTIONS as u64 - actions;
    let within = random.between(4, 9);
    let passes = left / within;
    let figure = looped(random, passes as u16);
    add(&mut score, figure, &vec![action(); within as usize]);
    for _ in 0..left - passes * within + past.pick(0, 1, 300) {
        add(&mut score, action(), &[]);
    }
    score
}

/// More values than messages may be: many of them are alike.
fn actions_by_values(random: &mut Random, past: Past) -> Extended {
    let Sketch {
        mut score, actions, ..
    } = base(random);
    let values = MOST_ACTIONS as u64 - actions + past.pick(0, 1, 300);
    let step = random.pick(&[1, 5_040, LONGEST_TIME / 2]);
    let first = random.between(0, 400) as i32 - 200;
    let last = first + random.between(0, 400) as i32 - 200;
    add_line(random, &mut score, step, (first, last), values);
    score
}

// -------------------------------------------------------------- the list

fn messages_in_the_list(random: &mut Random, past: Past) -> Extended {
    let more = past.pick(0, 1, random.pick(&[100, 65_024]));
    let mut score = base_with_labels(random, 0);
    for _ in 0..MOST_MESSAGES + more {
        score.add_message(b"n");
    }
    score
}

/// Labels that are no values, values that are in the list, and values that are
/// not, together just as many.
fn messages_by_values(random: &mut Random, past: Past) -> Extended {
    let labels = random.pick(&[0, 1, 100, 500, 510, MOST_MESSAGES - 1]);
    let mut score = base_with_labels(random, labels);
    let count = MOST_MESSAGES - labels + past.pick(0, 1, 40);
    let first = random.between(0, 2_000) as i32 - 1_000;
    add_ladder(random, &mut score, first, count);
    let values = end_values(&score);
    let found = random.pick(&[0, 1, count / 2, count]);
    for value in values.into_iter().take(found as usize) {
        score.add_message(value.to_string().as_bytes());
    }
    score
}

/// Two curves that share some of their values.
fn messages_by_two_curves(random: &mut Random, past: Past) -> Extended {
    let labels = random.pick(&[0, 3, 200]);
    let mut score = base_with_labels(random, labels);
    let count = MOST_MESSAGES - labels + past.pick(0, 1, 40);
    let first = random.between(1, count - 1);
    let shared = random.between(0, first);
    let low = random.between(0, 600) as i32 - 300;
    let step = random.pick(&[1, 2_520]);
    let middle = low + first as i32 - 1;
    let high = low + count as i32 - 1;
    let second = count - first + shared;
    add_line(random, &mut score, step, (low, middle), first);
    let (from, to) = (middle + 1 - shared as i32, high);
    let ends = random.pick(&[(from, to), (to, from)]);
    add_line(random, &mut score, step, ends, second);
    score
}

/// 512 labels of 48 bytes; past it a byte or more that nobody uses.
fn text_in_the_list(random: &mut Random, past: Past) -> Extended {
    let mut score = base_with_labels(random, 0);
    for _ in 0..MOST_MESSAGES {
        score.add_message(&[random.pick(b"t0-\xff"); 48]);
    }
    let more = past.pick(0, 1, random.pick(&[100, 40_960]));
    score.text.resize((MOST_TEXT + more) as usize, b'5');
    score
}

/// The values bring the text to its limit or past it. With so few messages one
/// of the labels is too long, which the file check says where the limit is kept.
fn text_by_values(random: &mut Random, past: Past) -> Extended {
    let mut score = base_with_labels(random, 0);
    let (value, length) =
        random.pick(&[(5, 1), (-5, 2), (1_000, 4), (i32::MAX, 10), (i32::MIN, 11)]);
    let count = random.between(1, 5);
    add_line(random, &mut score, 5_040, (value, value), count);
    let left = MOST_TEXT - length + past.pick(0, 1, 40);
    match random.below(3) {
        0 => score.add_message(&vec![b'5'; left as usize]),
        1 => score.text.resize(left as usize, b'-'),
        _ => {
            for _ in 0..MOST_MESSAGES - 2 {
                score.add_message(&[b'x'; 48]);
            }
            let rest = left as usize - score.text.len();
            score.add_message(&vec![b'y'; rest]);
        }
    }
    score
}

// ----------------------------------------------------------------- depth

/// A chain of groups and loops, with something of the sort inmost, as deep as may
/// be or one deeper.
fn depth(random: &mut Random, past: Past, inmost: u64) -> Extended {
    let sketch = base(random);
    let mut score = with_a_message(random, sketch).score;
    let (inner, depths) = match inmost {
        0 => (action(), 1),
        1 => (group(random), 1),
        2 => (looped(random, 2), 2),
        _ => (curve(random, 1, 1), 2),
    };
    let mut left = past.pick(DEEPEST, DEEPEST + 1, 20) - depths;
    let mut chain = Vec::new();
    let loops = random.pick(&[0, 50, 100]);
    while left > 0 {
        if left > 1 && random.percent(loops) {
            let passes = random.pick(&[1, 1, 2]);
            chain.push(looped(random, passes));
            left -= 2;
        } else {
            chain.push(group(random));
            left -= 1;
        }
    }
    chain.push(inner);
    add_chain(&mut score, &chain);
    if random.percent(30) {
        add_beside(&mut score, &chain);
    }
    if inner.points() > 0 {
        score.points.push(Point { value: 8, span: 0 });
    }
    score
}

// -------------------------------------------------- loops' and curves' own

fn passes(random: &mut Random, past: Past) -> Extended {
    let sketch = base(random);
    let mut score = with_a_message(random, sketch).score;
    let well = random.pick(&[0, 258, 512, u16::MAX]);
    let passes = past.pick(MOST_PASSES, MOST_PASSES + 1, well);
    let figure = looped(random, passes);
    let within = random.between(0, 3);
    add(&mut score, figure, &vec![action(); within as usize]);
    score
}

fn period(random: &mut Random, past: Past) -> Extended {
    let sketch = base(random);
    let mut score = with_a_message(random, sketch).score;
    let mut figure = looped(random, 3);
    figure.each = past.pick(LONGEST_TIME, LONGEST_TIME + 1, u32::MAX);
    add(&mut score, figure, &[action()]);
    score
}

fn longest_step(random: &mut Random, past: Past) -> Extended {
    let mut score = base(random).score;
    let step = past.pick(LONGEST_TIME, LONGEST_TIME + 1, u32::MAX);
    let count = past.pick(random.between(1, 20), random.between(1, 20), 2);
    let ends = random.pick(&[(0, 100), (i32::MAX, i32::MIN), (5, 5)]);
    add_line(random, &mut score, step, ends, count);
    score
}

/// A step of 1, and none.
fn shortest_step(random: &mut Random, past: Past) -> Extended {
    let mut score = base(random).score;
    let count = past.pick(random.between(1, 20), random.between(1, 20), 1);
    add_line(random, &mut score, 1, (0, -100), count);
    let last = score.items.len() - 1;
    score.items[last].each = past.pick(1, 0, 0);
    score
}

// ------------------------------------------------------------- very large

/// Spans of 2^32 - 1 grains: far too many values, whose count is 0 or small to
/// who cuts it to 32 or 64 bits; or the most that may be with the longest steps.
fn sums_that_wrap(random: &mut Random, past: Past) -> Extended {
    let mut score = base_without_curves(random).score;
    if past == Past::Kept {
        steep(random, &mut score);
        return score;
    }
    let step = past.pick(1, 1, random.pick(&[1, 3, 5, 15, 257, 65_537]));
    let more = past.pick(0, 0, random.pick(&[0, 1, 2, 255]));
    let spans = past.pick(1, 1, random.pick(&[1, 2, 256]));
    let mut points = vec![
        Point {
            value: random.pick(&[0, i32::MIN]),
            span: u32::MAX,
        };
        spans
    ];
    if more > 0 {
        points.push(Point {
            value: 1,
            span: more * step,
        });
    }
    points.push(Point {
        value: i32::MAX,
        span: 0,
    });
    let figure = curve(random, step, points.len());
    let around = random.pick(&[0, 0, 1, 2, 3]);
    let mut chain: Vec<Figure> = (0..around).map(|_| looped(random, 256)).collect();
    chain.push(figure);
    add_chain(&mut score, &chain);
    score.points.extend(points);
    score
}

/// 256 passes within 256 within 256; or as few as may be.
fn loops_in_loops(random: &mut Random, past: Past) -> Extended {
    let sketch = base(random);
    let mut score = with_a_message(random, sketch).score;
    let kept: &[&[u16]] = &[
        &[1, 1, 1, 1],
        &[2, 3, 5],
        &[10, 12, 3],
        &[16, 25],
        &[4, 4, 4, 4],
    ];
    let by_one: &[&[u16]] = &[&[256; 3]];
    let well: &[&[u16]] = &[&[256; 4], &[256; 8], &[256; 30], &[1; 5]];
    let row = random.pick(past.pick(kept, by_one, well));
    let mut chain: Vec<Figure> = row.iter().map(|&passes| looped(random, passes)).collect();
    if row.len() < 4 && random.percent(70) {
        let empty = group(random);
        chain.push(random.pick(&[action(), action(), empty]));
    }
    add_chain(&mut score, &chain);
    if random.percent(30) {
        add_beside(&mut score, &chain);
    }
    score
}
