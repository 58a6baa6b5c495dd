//! Sound extended scores that are special in one way.

use crate::additions::{add, add_chain, add_ladder, add_line, curve, end_values, looped};
use crate::extended::{Extended, Figure, Point};
use crate::figures::{base_without_curves, sketch, Bounds};
use crate::random::Random;
use crate::score::{LONGEST_TIME, MOST_ACTIONS, MOST_ITEMS, MOST_MESSAGES};

/// How many sorts there are; all of them are accepted.
pub const SORTS: u64 = 7;

pub fn special(random: &mut Random, sort: u64) -> Extended {
    let mut score = base_without_curves(random).score;
    match sort {
        0 => steep(random, &mut score),
        1 => longest_spans(random, &mut score),
        2 => all_in_the_list(random, &mut score),
        3 => alike(random, &mut score),
        4 => below_zero(random, &mut score),
        5 => curves_in_loops(random, &mut score),
        _ => return full(random),
    }
    score
}

/// j x step x (w - v) passes 2^63: the longest steps between the farthest values.
pub fn steep(random: &mut Random, score: &mut Extended) {
    let count = random.between(430, 499);
    let step = LONGEST_TIME - random.below(3) as u32;
    let ends = random.pick(&[(i32::MIN, i32::MAX), (i32::MAX, i32::MIN)]);
    add_line(random, score, step, ends, count);
}

/// The largest multiple of the step below 2^32, in more than 800 steps; few of
/// the values differ.
fn longest_spans(random: &mut Random, score: &mut Extended) {
    let step = LONGEST_TIME - random.below(3) as u32 * random.below(200_000) as u32;
    let count = u32::MAX / step + 1;
    let first = random.pick(&[0, 200, -200, i32::MIN, i32::MAX - 399]);
    let last = first.saturating_add(random.below(400) as i32);
    let ends = random.pick(&[(first, last), (last, first)]);
    add_line(random, score, step, ends, u64::from(count));
}

/// Every value is in the list, at the end or in front, some of them twice.
fn all_in_the_list(random: &mut Random, score: &mut Extended) {
    let count = random.between(2, 200);
    let first = random.between(0, 400) as i32 - 200;
    add_ladder(random, score, first, count);
    let mut values = end_values(score);
    if random.percent(50) {
        values.reverse();
    }
    for value in values {
        for _ in 0..random.pick(&[1, 1, 1, 2]) {
            score.add_message(value.to_string().as_bytes());
        }
    }
}

/// Several curves over the same values, and values that come again in one.
fn alike(random: &mut Random, score: &mut Extended) {
    let low = random.between(0, 20) as i32 - 10;
    for _ in 0..random.between(2, 6) {
        let step = random.pick(&[1, 3, 5_040]);
        let mut points = Vec::new();
        for _ in 0..random.between(1, 5) {
            let value = low + random.below(12) as i32;
            let span = step * random.between(1, 20) as u32;
            points.push(Point { value, span });
        }
        points.push(Point {
            value: low,
            span: 0,
        });
        let figure = curve(random, step, points.len());
        add(score, figure, &[]);
        score.points.extend(points);
    }
}

/// Falling curves whose steps don't divide the fall.
fn below_zero(random: &mut Random, score: &mut Extended) {
    for _ in 0..random.between(1, 4) {
        let count = random.between(3, 60);
        let first = random.between(0, 40) as i32 - 20;
        let fall = random.between(1, 100) as i32;
        let step = random.pick(&[1, 7, 2_520]);
        add_line(random, score, step, (first, first - fall), count);
    }
}

/// A curve and a group of actions within loops.
fn curves_in_loops(random: &mut Random, score: &mut Extended) {
    let rows: &[&[u16]] = &[&[2], &[7], &[2, 3], &[4, 4], &[2, 2, 2], &[16]];
    let row = random.pick(rows);
    let mut chain: Vec<Figure> = row.iter().map(|&passes| looped(random, passes)).collect();
    let value = random.below(200) as i32 - 100;
    let points = vec![
        Point { value, span: 63 },
        Point {
            value: value.wrapping_neg(),
            span: 21,
        },
        Point {
            value: random.pick(&[value, i32::MIN, i32::MAX]),
            span: 0,
        },
    ];
    let step = random.pick(&[7, 21]);
    chain.push(curve(random, step, points.len()));
    add_chain(score, &chain);
    score.points.extend(points);
}

/// One of the largest scores.
fn full(random: &mut Random) -> Extended {
    let labels = random.below(MOST_MESSAGES + 1);
    let bounds = Bounds {
        items: MOST_ITEMS,
        actions: MOST_ACTIONS as u64,
        labels,
        values: MOST_MESSAGES - labels,
    };
    loop {
        let sketch = sketch(random, bounds);
        if sketch.items > 1_000 {
            return sketch.score;
        }
    }
}
