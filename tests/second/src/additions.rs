//! Groups, loops and curves to be added at the end of a sound extended score,
//! at its last event and part, where anything may follow.

use crate::extended::{Extended, Figure, Point, CURVE, GROUP, LOOP};
use crate::random::Random;
use crate::score::{Entry, LAST_PART, LONGEST_TIME};

/// A group with any words that holds nothing.
pub fn group(random: &mut Random) -> Figure {
    Figure {
        entry: Entry {
            kind: GROUP,
            synchrony: random.below(2) as u8,
            error: random.below(4) as u8,
            ..Entry::default()
        },
        ..Figure::default()
    }
}

/// A loop of so many empty passes.
pub fn looped(random: &mut Random, passes: u16) -> Figure {
    let mut figure = group(random);
    figure.entry.kind = LOOP;
    figure.each = random.pick(&[0, 1, 5_040, LONGEST_TIME]);
    figure.times = passes;
    figure
}

/// A curve that takes so many points.
pub fn curve(random: &mut Random, step: u32, points: usize) -> Figure {
    let mut figure = group(random);
    figure.entry.kind = CURVE;
    figure.each = step;
    figure.times = points as u16;
    figure
}

/// An action that sends the first message.
pub fn action() -> Figure {
    Figure::default()
}

/// The last event and part, where anything may be added at the table's end.
pub fn at_the_end(score: &Extended, figure: Figure) -> Figure {
    let entry = Entry {
        part: LAST_PART,
        event: score.durations.len() as u16,
        ..figure.entry
    };
    Figure { entry, ..figure }
}

/// A top item at the end, and what it holds.
pub fn add(score: &mut Extended, figure: Figure, body: &[Figure]) {
    let mut top = at_the_end(score, figure);
    if top.holds() {
        top.entry.last = body.len() as u16;
    }
    score.items.push(top);
    for inner in body {
        let mut inner = at_the_end(score, *inner);
        inner.entry.event = 0;
        score.items.push(inner);
    }
}

pub fn add_groups(random: &mut Random, score: &mut Extended, count: u64) {
    for _ in 0..count {
        let figure = group(random);
        add(score, figure, &[]);
    }
}

/// One straight curve of so many values, at least one.
pub fn add_line(
    random: &mut Random,
    score: &mut Extended,
    step: u32,
    ends: (i32, i32),
    count: u64,
) {
    let closing = Point {
        value: ends.1,
        span: 0,
    };
    let span = (count - 1) as u32 * step;
    let opening = Point {
        value: ends.0,
        span,
    };
    let points = if count == 1 {
        vec![closing]
    } else {
        vec![opening, closing]
    };
    let figure = curve(random, step, points.len());
    add(score, figure, &[]);
    score.points.extend(points);
}

/// A curve whose values go up or down by one at every step, from `first` on.
pub fn add_ladder(random: &mut Random, score: &mut Extended, first: i32, count: u64) {
    let step = random.pick(&[1, 7, 5_040, 630_000]);
    let rise = random.pick(&[1, -1]);
    let last = first + rise * (count as i32 - 1);
    add_line(random, score, step, (first, last), count);
}

/// Every value of the last curve, which goes by ones.
pub fn end_values(score: &Extended) -> Vec<i32> {
    let last = score.points.len() - 1;
    let closing = score.points[last].value;
    let opening = match score.points.get(last.wrapping_sub(1)) {
        Some(point) if point.span > 0 => point.value,
        _ => closing,
    };
    (opening.min(closing)..=opening.max(closing)).collect()
}

/// Each holds the next.
pub fn add_chain(score: &mut Extended, chain: &[Figure]) {
    for (index, figure) in chain.iter().enumerate() {
        let mut figure = at_the_end(score, *figure);
        if index > 0 {
            figure.entry.event = 0;
        }
        if figure.holds() {
            figure.entry.last = (chain.len() - index - 1) as u16;
        }
        score.items.push(figure);
    }
}

/// An action beside the inmost of the chain that was added, held by the others.
pub fn add_beside(score: &mut Extended, chain: &[Figure]) {
    let top = score.items.len() - chain.len();
    for holder in &mut score.items[top..top + chain.len() - 1] {
        holder.entry.last += 1;
    }
    let mut figure = at_the_end(score, action());
    if chain.len() > 1 {
        figure.entry.event = 0;
    }
    score.items.push(figure);
}
