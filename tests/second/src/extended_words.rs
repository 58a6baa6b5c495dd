//! Unfolding against values written by hand: files byte by byte, the values of
//! curves, their messages; and what the cases of `extended` must show.

use crate::extended::{Extended, Fault, Figure, Point, Why, ACTION, CURVE, GROUP, LOOP};
use crate::extended_cases::{lines, Case, Plan, BIG_SORTS};
use crate::extended_faults as faults;
use crate::extended_file_faults as file_faults;
use crate::extended_limits::{self as limits, Past};
use crate::extended_refusals::extended_refusals;
use crate::extended_specials as specials;
use crate::figures::{self, piece};
use crate::random::Random;
use crate::score::{self, Entry};
use crate::scores;
use crate::text::FILE_ROOM;
use crate::unfold::unfold;
use crate::words::Tally;

pub fn extended_words(tally: &mut Tally) {
    whole_files(tally);
    loop_in_a_loop(tally);
    curve_values(tally);
    curve_in_a_loop(tally);
    long_curves(tally);
    found_in_the_list(tally);
    text_that_grows(tally);
    extended_refusals(tally);
    records_and_lines(tally);
    sound_ones(tally);
    sorts(tally);
    plans(tally);
    shown(tally);
}

// ----------------------------------------------------------------- bytes

/// One beat; a tight causal loop of part 3 after 6 grains: two passes, 100 grains
/// apart, each with message 0 after 2 grains.
#[rustfmt::skip]
pub const LOOP_SCORE: [u8; 89] = [
    40, 0, 0, 0, 1, 0, 0, 0,
    44, 0, 0, 0, 2, 0, 0, 0,
    84, 0, 0, 0, 1, 0, 0, 0,
    88, 0, 0, 0, 1, 0, 0, 0,
    89, 0, 0, 0, 0, 0, 0, 0,
    176, 19, 0, 0,
    2, 1, 3, 3, 6, 0, 0, 0, 1, 0, 1, 0, 100, 0, 0, 0, 2, 0, 0, 0,
    0, 0, 0, 3, 2, 0, 0, 0, 0, 0, 0, 0, 0, 0, 0, 0, 0, 0, 0, 0,
    0, 0, 1, 0,
    97,
];

#[rustfmt::skip]
const LOOP_FILE: [u8; 101] = [
    32, 0, 0, 0, 1, 0, 0, 0,
    36, 0, 0, 0, 5, 0, 0, 0,
    96, 0, 0, 0, 1, 0, 0, 0,
    100, 0, 0, 0, 1, 0, 0, 0,
    176, 19, 0, 0,
    1, 1, 3, 3, 6, 0, 0, 0, 1, 0, 4, 0,
    1, 1, 3, 3, 0, 0, 0, 0, 0, 0, 1, 0,
    0, 0, 0, 3, 2, 0, 0, 0, 0, 0, 0, 0,
    1, 1, 3, 3, 100, 0, 0, 0, 0, 0, 1, 0,
    0, 0, 0, 3, 2, 0, 0, 0, 0, 0, 0, 0,
    0, 0, 1, 0,
    97,
];

/// One beat; a tight partial curve of part 2 after 4 grains, from 0 to 5 in 30
/// grains, a step of 10: 10 x 5 / 30 is 1 and something, 20 x 5 / 30 is 3 and
/// something.
#[rustfmt::skip]
pub const RISING_SCORE: [u8; 80] = [
    40, 0, 0, 0, 1, 0, 0, 0,
    44, 0, 0, 0, 1, 0, 0, 0,
    64, 0, 0, 0, 0, 0, 0, 0,
    64, 0, 0, 0, 0, 0, 0, 0,
    64, 0, 0, 0, 2, 0, 0, 0,
    176, 19, 0, 0,
    3, 1, 2, 2, 4, 0, 0, 0, 1, 0, 0, 0, 10, 0, 0, 0, 2, 0, 0, 0,
    0, 0, 0, 0, 30, 0, 0, 0,
    5, 0, 0, 0, 0, 0, 0, 0,
];

#[rustfmt::skip]
const RISING_FILE: [u8; 116] = [
    32, 0, 0, 0, 1, 0, 0, 0,
    36, 0, 0, 0, 5, 0, 0, 0,
    96, 0, 0, 0, 4, 0, 0, 0,
    112, 0, 0, 0, 4, 0, 0, 0,
    176, 19, 0, 0,
    1, 1, 2, 2, 4, 0, 0, 0, 1, 0, 4, 0,
    0, 0, 0, 2, 0, 0, 0, 0, 0, 0, 0, 0,
    0, 0, 0, 2, 10, 0, 0, 0, 0, 0, 1, 0,
    0, 0, 0, 2, 10, 0, 0, 0, 0, 0, 2, 0,
    0, 0, 0, 2, 10, 0, 0, 0, 0, 0, 3, 0,
    0, 0, 1, 0,
    1, 0, 1, 0,
    2, 0, 1, 0,
    3, 0, 1, 0,
    48, 49, 51, 53,
];

/// From 1 to -1: -20 / 30 goes down to -1, -40 / 30 to -2, so 1, 0, -1, -1. The
/// list has `a`, then `0`.
#[rustfmt::skip]
const FALLING_SCORE: [u8; 90] = [
    40, 0, 0, 0, 1, 0, 0, 0,
    44, 0, 0, 0, 1, 0, 0, 0,
    64, 0, 0, 0, 2, 0, 0, 0,
    72, 0, 0, 0, 2, 0, 0, 0,
    74, 0, 0, 0, 2, 0, 0, 0,
    176, 19, 0, 0,
    3, 0, 0, 0, 0, 0, 0, 0, 1, 0, 0, 0, 10, 0, 0, 0, 2, 0, 0, 0,
    0, 0, 1, 0,
    1, 0, 1, 0,
    97, 48,
    1, 0, 0, 0, 30, 0, 0, 0,
    255, 255, 255, 255, 0, 0, 0, 0,
];

#[rustfmt::skip]
const FALLING_FILE: [u8; 117] = [
    32, 0, 0, 0, 1, 0, 0, 0,
    36, 0, 0, 0, 5, 0, 0, 0,
    96, 0, 0, 0, 4, 0, 0, 0,
    112, 0, 0, 0, 5, 0, 0, 0,
    176, 19, 0, 0,
    1, 0, 0, 0, 0, 0, 0, 0, 1, 0, 4, 0,
    0, 0, 0, 0, 0, 0, 0, 0, 0, 0, 2, 0,
    0, 0, 0, 0, 10, 0, 0, 0, 0, 0, 1, 0,
    0, 0, 0, 0, 10, 0, 0, 0, 0, 0, 3, 0,
    0, 0, 0, 0, 10, 0, 0, 0, 0, 0, 3, 0,
    0, 0, 1, 0,
    1, 0, 1, 0,
    2, 0, 1, 0,
    3, 0, 2, 0,
    97, 48, 49, 45, 49,
];

/// One beat and nothing else, and its file.
#[rustfmt::skip]
pub const BARE_SCORE: [u8; 44] = [
    40, 0, 0, 0, 1, 0, 0, 0,
    44, 0, 0, 0, 0, 0, 0, 0,
    44, 0, 0, 0, 0, 0, 0, 0,
    44, 0, 0, 0, 0, 0, 0, 0,
    44, 0, 0, 0, 0, 0, 0, 0,
    176, 19, 0, 0,
];

#[rustfmt::skip]
const BARE_FILE: [u8; 36] = [
    32, 0, 0, 0, 1, 0, 0, 0,
    36, 0, 0, 0, 0, 0, 0, 0,
    36, 0, 0, 0, 0, 0, 0, 0,
    36, 0, 0, 0, 0, 0, 0, 0,
    176, 19, 0, 0,
];

fn whole_files(tally: &mut Tally) {
    let rows: &[(&str, &[u8], &[u8])] = &[
        ("a loop", &LOOP_SCORE, &LOOP_FILE),
        ("a rising curve", &RISING_SCORE, &RISING_FILE),
        ("a falling curve", &FALLING_SCORE, &FALLING_FILE),
        ("an event alone", &BARE_SCORE, &BARE_FILE),
    ];
    for (name, input, file) in rows {
        let unfolded = unfold(input, FILE_ROOM);
        let right = unfolded.is_ok_and(|unfolded| unfolded == *file);
        tally.note(&format!("extended: {name}, byte by byte"), right);
    }
}

// ---------------------------------------------------------------- pieces

/// Kind, synchrony, error word, part, delay, event and last.
type Row = (u8, u8, u8, u8, u32, u16, u16);

fn entry((kind, synchrony, error, part, delay, event, last): Row) -> Entry {
    Entry {
        kind,
        synchrony,
        error,
        part,
        delay,
        event,
        last,
    }
}

fn figure(row: Row, each: u32, times: u16) -> Figure {
    Figure {
        entry: entry(row),
        each,
        times,
        pad: 0,
    }
}

/// One beat, and these items at it.
pub fn one_beat(items: Vec<Figure>) -> Extended {
    Extended {
        durations: vec![5_040],
        items,
        ..Extended::default()
    }
}

pub fn action(event: u16, message: u16) -> Figure {
    figure((ACTION, 0, 0, 0, 0, event, message), 0, 0)
}

pub fn group(event: u16, last: u16) -> Figure {
    figure((GROUP, 0, 0, 0, 0, event, last), 0, 0)
}

pub fn looped(event: u16, passes: u16, last: u16) -> Figure {
    figure((LOOP, 0, 0, 0, 0, event, last), 7, passes)
}

pub fn curve(event: u16, step: u32, points: u16) -> Figure {
    figure((CURVE, 0, 0, 0, 0, event, 0), step, points)
}

pub fn points(list: &[(i32, u32)]) -> Vec<Point> {
    let point = |&(value, span): &(i32, u32)| Point { value, span };
    list.iter().map(point).collect()
}

/// Events of 5 and 7 grains, so that items begin at 48. A group that holds an
/// action at 48 and 68, a loop that holds a group at 88 and 108, a curve of two
/// points at 128 and one of one point at 148.
pub fn six_items() -> Extended {
    let mut score = Extended {
        durations: vec![5, 7],
        items: vec![
            group(1, 1),
            action(0, 0),
            looped(1, 2, 1),
            group(0, 0),
            curve(2, 4, 2),
            curve(2, 3, 1),
        ],
        points: points(&[(1, 8), (2, 0), (3, 0)]),
        ..Extended::default()
    };
    score.add_message(b"a");
    score
}

/// Number and place.
fn reply(score: &Extended) -> (u64, usize) {
    figures_of(&unfold(&score.encode(), FILE_ROOM))
}

pub fn figures_of(unfolded: &Result<Vec<u8>, Fault>) -> (u64, usize) {
    match unfolded {
        Ok(_) => (0, 0),
        Err(fault) => (fault.number, fault.place),
    }
}

pub fn note(tally: &mut Tally, name: &str, score: &Extended, expected: (u64, usize)) {
    let (number, place) = expected;
    let right = reply(score) == expected;
    tally.note(&format!("extended: {name}: {number} at {place}"), right);
}

/// The labels that the unfolded file's actions send, in page order.
fn sent(score: &Extended) -> Option<Vec<String>> {
    let file = unfold(&score.encode(), FILE_ROOM).ok()?;
    let labels = score::read(&file).ok()?.labels;
    let items = score::u32_at(&file, 12) as usize;
    let first = score::u32_at(&file, 8) as usize;
    let rows = file[first..].chunks_exact(12).take(items);
    let actions = rows.filter(|row| row[0] == ACTION);
    let label = |row: &[u8]| {
        let number = usize::from(row[10]) + 256 * usize::from(row[11]);
        String::from_utf8_lossy(&labels[number]).into_owned()
    };
    Some(actions.map(label).collect())
}

fn sends(score: &Extended, labels: &[&str]) -> bool {
    sent(score).is_some_and(|sent| sent == labels)
}

// ----------------------------------------------------------------- loops

/// Two passes 50 grains apart, each with a loop of three passes 7 apart and an
/// empty group.
fn loop_in_a_loop(tally: &mut Tally) {
    let mut score = one_beat(vec![
        figure((LOOP, 0, 0, 9, 0, 1, 3), 50, 2),
        figure((LOOP, 1, 1, 9, 1, 0, 1), 7, 3),
        figure((ACTION, 0, 0, 9, 4, 0, 0), 0, 0),
        figure((GROUP, 0, 2, 9, 9, 0, 0), 0, 0),
    ]);
    score.add_message(b"m");
    let rows: [Row; 19] = [
        (1, 0, 0, 9, 0, 1, 18),
        (1, 0, 0, 9, 0, 0, 8),
        (1, 1, 1, 9, 1, 0, 6),
        (1, 1, 1, 9, 0, 0, 1),
        (0, 0, 0, 9, 4, 0, 0),
        (1, 1, 1, 9, 7, 0, 1),
        (0, 0, 0, 9, 4, 0, 0),
        (1, 1, 1, 9, 7, 0, 1),
        (0, 0, 0, 9, 4, 0, 0),
        (1, 0, 2, 9, 9, 0, 0),
        (1, 0, 0, 9, 50, 0, 8),
        (1, 1, 1, 9, 1, 0, 6),
        (1, 1, 1, 9, 0, 0, 1),
        (0, 0, 0, 9, 4, 0, 0),
        (1, 1, 1, 9, 7, 0, 1),
        (0, 0, 0, 9, 4, 0, 0),
        (1, 1, 1, 9, 7, 0, 1),
        (0, 0, 0, 9, 4, 0, 0),
        (1, 0, 2, 9, 9, 0, 0),
    ];
    let mut tables = score::Tables {
        durations: vec![5_040],
        items: rows.into_iter().map(entry).collect(),
        ..score::Tables::default()
    };
    tables.add_message(b"m");
    let unfolded = unfold(&score.encode(), FILE_ROOM);
    let right = unfolded.is_ok_and(|file| file == tables.encode());
    tally.note("extended: a loop in a loop", right);
}

// ---------------------------------------------------------------- curves

/// Step, points and the values by hand.
type Values = (u32, &'static [(i32, u32)], &'static [&'static str]);

const CURVES: &[Values] = &[
    (1, &[(7, 0)], &["7"]),
    (5_040_000, &[(-7, 0)], &["-7"]),
    (1, &[(5, 3), (5, 0)], &["5", "5", "5", "5"]),
    (10, &[(0, 10), (9, 0)], &["0", "9"]),
    (10, &[(0, 20), (9, 0)], &["0", "4", "9"]),
    (10, &[(0, 20), (-5, 0)], &["0", "-3", "-5"]),
    (10, &[(0, 20), (-1, 0)], &["0", "-1", "-1"]),
    (10, &[(3, 40), (0, 0)], &["3", "2", "1", "0", "0"]),
    (10, &[(-3, 40), (0, 0)], &["-3", "-3", "-2", "-1", "0"]),
    (2, &[(0, 2), (1, 4), (-1, 0)], &["0", "1", "0", "-1"]),
    (
        1,
        &[(i32::MIN, 2), (i32::MAX, 0)],
        &["-2147483648", "-1", "2147483647"],
    ),
    (
        1,
        &[(i32::MAX, 2), (i32::MIN, 0)],
        &["2147483647", "-1", "-2147483648"],
    ),
];

fn curve_values(tally: &mut Tally) {
    for (step, list, values) in CURVES {
        let mut score = one_beat(vec![curve(1, *step, list.len() as u16)]);
        score.points = points(list);
        let name = format!("extended: a curve through {list:?} by {step}");
        tally.note(&name, sends(&score, values));
    }
}

/// Every pass of a loop has the same points, which are taken once.
fn curve_in_a_loop(tally: &mut Tally) {
    let mut score = one_beat(vec![looped(1, 3, 1), curve(0, 10, 2), curve(1, 10, 1)]);
    score.points = points(&[(1, 10), (2, 0), (3, 0)]);
    let right = sends(&score, &["1", "2", "1", "2", "1", "2", "3"]);
    tally.note("extended: a curve in a loop", right);
}

/// The longest span of the longest step; and products past 2^63.
fn long_curves(tally: &mut Tally) {
    // 852 steps, from 0 to 2: the first half is 0, the second 1.
    let mut score = one_beat(vec![curve(1, 5_040_000, 2)]);
    score.points = points(&[(0, 852 * 5_040_000), (2, 0)]);
    let values = sent(&score).unwrap_or_default();
    let all = |from: usize, to: usize, value: &str| values[from..to].iter().all(|v| v == value);
    let right = values.len() == 853 && all(0, 426, "0") && all(426, 852, "1") && values[852] == "2";
    tally.note("extended: the longest span", right);

    // 510 steps; 4,294,967,295 / 510 is 8,421,504 and a half.
    for (ends, expected) in [
        (
            (i32::MIN, i32::MAX),
            [
                (0, "-2147483648"),
                (1, "-2139062144"),
                (255, "-1"),
                (509, "2139062142"),
                (510, "2147483647"),
            ],
        ),
        (
            (i32::MAX, i32::MIN),
            [
                (0, "2147483647"),
                (1, "2139062142"),
                (255, "-1"),
                (509, "-2139062144"),
                (510, "-2147483648"),
            ],
        ),
    ] {
        score.points = points(&[(ends.0, 510 * 5_040_000), (ends.1, 0)]);
        let values = sent(&score).unwrap_or_default();
        let there = |(place, value): &(usize, &str)| values[*place] == *value;
        let right = values.len() == 511 && expected.iter().all(there);
        tally.note("extended: a product past 2^63", right);
    }
}

// -------------------------------------------------------------- the list

/// Labels, points (by steps of 10), and the numbers that the values' actions get;
/// the new labels' bytes.
type Listed = (
    &'static [&'static str],
    &'static [(i32, u32)],
    &'static [u16],
    &'static str,
);

const LISTED: &[Listed] = &[
    (&["5"], &[(5, 0)], &[0], ""),
    (&["a", "5", "5"], &[(5, 10), (5, 0)], &[1, 1], ""),
    (&["a"], &[(5, 10), (6, 10), (5, 0)], &[1, 2, 1], "56"),
    (&["007", "7 ", " 7", "+7", "70"], &[(7, 0)], &[5], "7"),
    (&["-0", "00", "+0"], &[(0, 0)], &[3], "0"),
    (&["1", "-", "- 1", "-1"], &[(-1, 0)], &[3], ""),
    (&["-1"], &[(1, 10), (-1, 0)], &[1, 0], "1"),
    (&["1", "2"], &[(12, 0)], &[2], "12"),
    (&["12"], &[(1, 10), (2, 10), (12, 0)], &[1, 2, 0], "12"),
];

fn found_in_the_list(tally: &mut Tally) {
    for (labels, list, numbers, added) in LISTED {
        let mut score = one_beat(vec![curve(1, 10, list.len() as u16)]);
        score.points = points(list);
        labels
            .iter()
            .for_each(|label| score.add_message(label.as_bytes()));
        let text = [&score.text[..], added.as_bytes()].concat();
        let file = unfold(&score.encode(), FILE_ROOM).unwrap_or_default();
        // The group stands at 36, its actions from 48 on.
        let number = |at: usize| file.get(at + 10..at + 12);
        let right = file.ends_with(&text)
            && score::u32_at(&file, 28) == text.len() as u64
            && numbers.iter().enumerate().all(|(index, expected)| {
                number(48 + 12 * index) == Some(&expected.to_le_bytes()[..])
            });
        tally.note(&format!("extended: {list:?} with {labels:?} there"), right);
    }
    curves_share_messages(tally);
}

/// The second curve finds what the first added; an action between them names a
/// message that only the second adds.
fn curves_share_messages(tally: &mut Tally) {
    let mut score = one_beat(vec![curve(1, 10, 2), action(1, 2), curve(1, 10, 3)]);
    score.points = points(&[(8, 10), (9, 0), (9, 10), (8, 10), (7, 0)]);
    let right = sends(&score, &["8", "9", "7", "9", "8", "7"]);
    tally.note("extended: two curves share their messages", right);
    score.items[1] = action(1, 3);
    // Behind the first curve's group and two actions, at 72.
    note(tally, "no fourth message", &score, (26, 82));
}

/// An entry that doesn't lie within the text as it then stands is no value's
/// message; it may be, later. Of 5, 6 and 56 the last is found, and three messages
/// stand in the list, of which the second doesn't begin where the first ends.
fn text_that_grows(tally: &mut Tally) {
    let mut score = one_beat(vec![action(1, 2), curve(1, 10, 3)]);
    score.messages.push((0, 2));
    score.points = points(&[(5, 10), (6, 10), (56, 0)]);
    note(tally, "56 found as the text grows", &score, (8, 100));
    score.items[0] = action(1, 3);
    note(tally, "so there is no message 3", &score, (26, 46));
    // Before its time it isn't found: 56, 5, 6, and the old entry.
    score.points = points(&[(56, 10), (5, 10), (6, 0)]);
    note(tally, "56 before the text grows", &score, (8, 100));
    score.items[0] = action(1, 4);
    note(tally, "so there is no message 4", &score, (26, 46));
    // Behind the text the points begin; 309 is 53 + 256, and 53 the byte of `5`.
    let mut score = one_beat(vec![action(1, 2), curve(1, 10, 2)]);
    score.messages.push((0, 1));
    score.points = points(&[(309, 10), (5, 0)]);
    note(tally, "an entry over the points", &score, (8, 88));
}

// ----------------------------------------------------------------- cases

fn records_and_lines(tally: &mut Tally) {
    let case = Case {
        room: 52_256,
        input: vec![7, 8, 9],
    };
    // 52,256 is 32 + 204 x 256.
    let right = case.record() == [32, 204, 0, 0, 3, 0, 0, 0, 7, 8, 9];
    tally.note("extended: a record", right);
    let refused = lines(&unfold(&six_items_with_a_pad(), FILE_ROOM));
    tally.note("extended: a refusal's line", refused == b"17 148 0\n");
    let granted = lines(&unfold(&BARE_SCORE, FILE_ROOM));
    let expected = [&b"0 0 36\n"[..], &BARE_FILE, b"\n"].concat();
    tally.note("extended: a file's lines", granted == expected);
}

fn six_items_with_a_pad() -> Vec<u8> {
    let mut score = six_items();
    score.items[5].pad = 1;
    score.encode()
}

/// A score with no loop or curve unfolds to itself; invented ones are accepted,
/// and come to as many items and actions as were counted.
fn sound_ones(tally: &mut Tally) {
    let itself = (1..=600).all(|seed| {
        let tables = scores::invent(&mut Random::new(seed)).tables;
        let file = tables.encode();
        unfold(&Extended::of_tables(tables).encode(), FILE_ROOM) == Ok(file)
    });
    tally.note("extended: without loop or curve", itself);
    let counted = (1..=600).all(|seed| {
        let sketch = figures::invent(&mut Random::new(seed));
        let file = unfold(&sketch.score.encode(), FILE_ROOM).unwrap_or_default();
        let actions = sent(&sketch.score).map(|sent| sent.len() as u64);
        actions == Some(sketch.actions) && score::u32_at(&file, 12) == sketch.items
    });
    tally.note("extended: invented ones", counted);
    for sort in 0..specials::SORTS {
        let accepted = (1..=20).all(|seed| {
            let score = specials::special(&mut Random::new(seed), sort);
            reply(&score) == (0, 0)
        });
        tally.note(&format!("extended: special sort {sort}"), accepted);
    }
}

/// Every sort does what it is there for, whatever the seed.
fn sorts(tally: &mut Tally) {
    for sort in 0..limits::SORTS {
        let kept = Past::of_sort(sort) == Past::Kept;
        let right = (1..=20).all(|seed| {
            let score = limits::at_a_limit(&mut Random::new(seed), sort);
            let (number, _) = reply(&score);
            kept != (number == 17 || number == 18)
        });
        tally.note(&format!("extended: sort {sort} of limits"), right);
    }
    for sort in 0..faults::SORTS {
        let right = (1..=20).all(|seed| {
            let random = &mut Random::new(seed);
            let mut score = piece(random).score;
            faults::spoil(random, &mut score, sort);
            reply(&score).0 == 17
        });
        tally.note(&format!("extended: sort {sort} of faults"), right);
    }
    for sort in 0..file_faults::SORTS {
        let numbers: Vec<u64> = (1..=20)
            .map(|seed| {
                let random = &mut Random::new(seed);
                let mut score = piece(random).score;
                file_faults::spoil_file(random, &mut score, sort);
                reply(&score).0
            })
            .collect();
        let right =
            numbers.iter().any(|number| OF_THE_FILE.contains(number)) && !numbers.contains(&17);
        tally.note(&format!("extended: sort {sort} of the file's"), right);
    }
}

/// Every sort of case is among 1,000 seeds, and among any 3,000 in a row.
fn plans(tally: &mut Tally) {
    let mut all = vec![
        Plan::Sound,
        Plan::Ordinary,
        Plan::Scattered,
        Plan::WrongTwice,
    ];
    all.extend((0..BIG_SORTS).map(Plan::Big));
    all.extend((0..specials::SORTS).map(Plan::Special));
    all.extend((0..limits::SORTS).map(Plan::AtALimit));
    all.extend((0..faults::SORTS).map(Plan::Fault));
    all.extend((0..faults::CONTENTS_SORTS).map(Plan::Contents));
    all.extend((0..file_faults::SORTS).map(Plan::FileFault));
    for (first, count) in [(1, 1_000), (1, 3_000), (62, 3_000), (1 << 60, 3_000)] {
        let plans: Vec<Plan> = (first..first + count).map(Plan::of_seed).collect();
        let right = all.iter().all(|plan| plans.contains(plan));
        let name = format!("extended: every sort among {count} seeds from {first} on");
        tally.note(&name, right);
    }
}

/// Every rule that refuses an extended score.
const RULES: &[Why] = &[
    Why::Room,
    Why::Short,
    Why::Offset,
    Why::Length,
    Why::PointsLeftOver,
    Why::Kind,
    Why::EndsPastItsHolder,
    Why::Period,
    Why::Passes,
    Why::Step,
    Why::NoPoints,
    Why::TooFewPoints,
    Why::LastOfACurve,
    Why::Span,
    Why::LastSpan,
    Why::Each,
    Why::Times,
    Why::Pad,
    Why::Events,
    Why::Items,
    Why::Actions,
    Why::Messages,
    Why::Text,
    Why::Depth,
];

/// What the unfolded file's own check can find: "3, 4, 5, 20, 25 and 27 never come from
/// it".
const OF_THE_FILE: [u64; 7] = [6, 8, 21, 22, 23, 24, 26];

/// 1,000 cases show every number that can come, none that can't, and every rule.
fn shown(tally: &mut Tally) {
    let cases: Vec<Case> = (1..=1_000).map(Case::of_seed).collect();
    let replies: Vec<_> = cases.iter().map(Case::expected).collect();
    let mut numbers: Vec<u64> = replies.iter().map(|reply| figures_of(reply).0).collect();
    let all = [&[0, 2, 17, 18][..], &OF_THE_FILE].concat();
    for &number in &all {
        let found = numbers.contains(&number);
        tally.note(&format!("extended: a case gets {number}"), found);
    }
    numbers.retain(|number| *number == 0);
    tally.note("extended: four of ten are accepted", numbers.len() >= 400);
    let other = |reply: &Result<Vec<u8>, Fault>| !all.contains(&figures_of(reply).0);
    tally.note("extended: no other number", !replies.iter().any(other));
    for why in RULES {
        let found = replies
            .iter()
            .any(|reply| matches!(reply, Err(fault) if fault.why == *why));
        tally.note(&format!("extended: {why:?}"), found);
    }
    let long = cases.iter().all(|case| case.input.len() < 1_500_000);
    tally.note("extended: none of 1,500,000 bytes", long);
}
