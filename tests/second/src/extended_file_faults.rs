//! Extended scores with one thing wrong that the unfolded file's own check finds
//! (6, 8, 21 to 24 and 26), and some that are just not wrong.

use crate::additions::{at_the_end, curve};
use crate::extended::{Extended, Figure, Point, ACTION, CURVE, GROUP, LOOP};
use crate::extended_faults::on;
use crate::figures::word;
use crate::random::Random;
use crate::score::{LAST_PART, LONGEST_TIME, MOST_MESSAGES};

/// How many sorts of faults there are that show in the unfolded file.
pub const SORTS: u64 = 35;

pub fn spoil_file(random: &mut Random, score: &mut Extended, sort: u64) {
    match sort {
        0 => duration(random, score, 0),
        1 => duration(random, score, LONGEST_TIME + 1),
        2 => part_of_a_top_item(random, score),
        3..=4 => part_within(random, score),
        5 => on(random, score, ACTION, |item| item.entry.delay = u32::MAX),
        6 => on(random, score, GROUP, too_late),
        7 => on(random, score, LOOP, too_late),
        8 => on(random, score, CURVE, too_late),
        9 => event_of_a_top_item(random, score, 0),
        10 => event_of_a_top_item(random, score, score.durations.len() as u16 + 1),
        11 => events_fall(score),
        12 => parts_fall(random, score),
        13..=14 => event_within(random, score),
        15 => on(random, score, ACTION, |item| item.entry.synchrony = 1),
        16 => on(random, score, ACTION, |item| item.entry.error = 3),
        17 => on(random, score, GROUP, |item| item.entry.synchrony = 2),
        18 => on(random, score, LOOP, |item| item.entry.synchrony = 2),
        19 => on(random, score, LOOP, |item| item.entry.error = 4),
        20 => on(random, score, CURVE, |item| item.entry.synchrony = 255),
        21 => on(random, score, CURVE, |item| item.entry.error = 4),
        22 => on(random, score, ACTION, |item| item.entry.last = u16::MAX),
        23..=24 => message_number(random, score),
        25 => entry_start(random, score),
        26 => entry_length(random, score),
        27 => label_byte(random, score),
        28 => text_left_over(random, score, true),
        29 => text_left_over(random, score, false),
        30..=32 => entry_past_the_text(random, score),
        33 => entry_over_the_points(random, score),
        _ => full_list_and_an_entry_past_the_text(random, score),
    }
}

fn too_late(item: &mut Figure) {
    item.entry.delay = LONGEST_TIME + 1;
}

fn duration(random: &mut Random, score: &mut Extended, value: u32) {
    if !score.durations.is_empty() {
        let index = random.index(score.durations.len());
        score.durations[index] = value;
    }
}

fn tops(score: &Extended) -> Vec<usize> {
    let mut tops = Vec::new();
    let mut index = 0;
    while index < score.items.len() {
        tops.push(index);
        index += 1 + score.items[index].within();
    }
    tops
}

/// The last top item and all within it.
fn part_of_a_top_item(random: &mut Random, score: &mut Extended) {
    let part = random.pick(&[LAST_PART, LAST_PART + 1, LAST_PART + 1, 255]);
    if let Some(&top) = tops(score).last() {
        for item in &mut score.items[top..] {
            item.entry.part = part;
        }
    }
}

/// One of the items that a group or loop holds.
fn place_within(random: &mut Random, score: &Extended) -> Option<usize> {
    let tops = tops(score);
    let inner = |place: &usize| !tops.contains(place);
    let places: Vec<usize> = (0..score.items.len()).filter(inner).collect();
    if places.is_empty() {
        return None;
    }
    Some(random.pick(&places))
}

fn part_within(random: &mut Random, score: &mut Extended) {
    if let Some(index) = place_within(random, score) {
        let part = &mut score.items[index].entry.part;
        *part = random.pick(&[part.wrapping_add(1), part.wrapping_sub(1), 16, 255]);
    }
}

fn event_within(random: &mut Random, score: &mut Extended) {
    if let Some(index) = place_within(random, score) {
        score.items[index].entry.event = random.pick(&[1, 1, 256, 65_535]);
    }
}

fn event_of_a_top_item(random: &mut Random, score: &mut Extended, event: u16) {
    let tops = tops(score);
    if !tops.is_empty() {
        score.items[random.pick(&tops)].entry.event = event;
    }
}

/// A last top item at the first event, behind one at a later event.
fn events_fall(score: &mut Extended) {
    score.durations.push(5_040);
    let late = at_the_end(score, empty_group());
    let mut early = late;
    early.entry.event = 1;
    score.items.extend([late, early]);
}

fn parts_fall(random: &mut Random, score: &mut Extended) {
    let high = at_the_end(score, empty_group());
    let mut low = high;
    low.entry.part = random.pick(&[0, 14]);
    score.items.extend([high, low]);
}

fn empty_group() -> Figure {
    let mut figure = Figure::default();
    figure.entry.kind = GROUP;
    figure
}

// -------------------------------------------------------------- the list

/// The score's items and points, but no list: its actions become empty groups and
/// its curves single values that are told.
fn without_a_list(score: &mut Extended) {
    score.messages.clear();
    score.text.clear();
    score.points.clear();
    for item in &mut score.items {
        if item.entry.kind == ACTION || item.entry.kind == CURVE {
            item.entry.kind = GROUP;
            item.entry.last = 0;
            item.each = 0;
            item.times = 0;
        }
    }
}

/// A top curve of just these values, one step from each to the next.
fn add_values(random: &mut Random, score: &mut Extended, values: &[i32]) {
    let step = random.pick(&[1, 5_040, LONGEST_TIME]);
    let figure = curve(random, step, values.len());
    let figure = at_the_end(score, figure);
    score.items.push(figure);
    let last = values.len() - 1;
    for (index, &value) in values.iter().enumerate() {
        let span = if index == last { 0 } else { step };
        score.points.push(Point { value, span });
    }
}

fn add_action(score: &mut Extended, message: usize) {
    let mut figure = at_the_end(score, Figure::default());
    figure.entry.last = message as u16;
    score.items.push(figure);
}

/// An action before or behind a curve names the last message that the curve adds,
/// or the one after it.
fn message_number(random: &mut Random, score: &mut Extended) {
    without_a_list(score);
    let labels = random.below(4) as usize;
    for _ in 0..labels {
        let label = word(random);
        score.add_message(&label);
    }
    let values = [4, -4, 4, i32::MIN, 0];
    let count = random.between(1, 5) as usize;
    let different = [1, 2, 2, 3, 4][count - 1];
    let number = labels + different - random.index(2);
    if random.percent(50) {
        add_action(score, number);
    }
    add_values(random, score, &values[..count]);
    add_action(score, number);
}

fn entry_start(random: &mut Random, score: &mut Extended) {
    if !score.messages.is_empty() {
        let index = random.index(score.messages.len());
        let start = &mut score.messages[index].0;
        *start = random.pick(&[
            0,
            start.wrapping_add(1),
            start.wrapping_sub(1),
            24_576,
            65_535,
        ]);
    }
}

fn entry_length(random: &mut Random, score: &mut Extended) {
    if !score.messages.is_empty() {
        let index = random.index(score.messages.len());
        let length = &mut score.messages[index].1;
        *length = random.pick(&[0, *length + 1, *length - 1, 49, 65_535]);
    }
    if random.percent(30) {
        score.add_message(&[b'l'; 49]);
    }
}

fn label_byte(random: &mut Random, score: &mut Extended) {
    if score.text.is_empty() {
        score.add_message(b"label");
    }
    let index = random.index(score.text.len());
    score.text[index] = random.pick(&[0, 10, 31, 31, 127, 127, 128, 255]);
}

/// Text that no entry uses, with values behind it or none.
fn text_left_over(random: &mut Random, score: &mut Extended, values: bool) {
    without_a_list(score);
    for _ in 0..random.below(3) {
        let label = word(random);
        score.add_message(&label);
    }
    let more: &[u8] = random.pick(&[&b"5"[..], b"x", b"-12"]);
    if values {
        add_values(random, score, &[5, 12, -12]);
    }
    score.text.extend_from_slice(more);
}

/// An entry that lies past the text and comes to lie within it as values are
/// added: the digits of `one` and `two` are then those of `both`. An action names
/// the last message there is, or the one after it.
fn entry_past_the_text(random: &mut Random, score: &mut Extended) {
    without_a_list(score);
    let labels = random.below(3) as usize;
    for _ in 0..labels {
        let label = word(random);
        score.add_message(&label);
    }
    let first_digits = score.text.len() as u16;
    let (one, two, both) = random.pick(&[(5, 6, 56), (-1, 0, -10), (12, 34, 1_234)]);
    let length = both.to_string().len() as u16;
    score.messages.push((first_digits, length));
    let mut values = vec![one, two, both];
    if random.percent(30) {
        // Before its time it is no value's message, and so is added too.
        values.insert(0, both);
    }
    if random.percent(30) {
        values.push(one);
    }
    let added = if values[0] == both { 3 } else { 2 };
    let number = labels + 1 + added - random.index(2);
    if random.percent(50) {
        add_action(score, number);
    }
    add_values(random, score, &values);
    add_action(score, number);
}

/// An entry just behind the text, where the points begin; the first point's value
/// looks like digits there, and those digits are a value to be added.
fn entry_over_the_points(random: &mut Random, score: &mut Extended) {
    without_a_list(score);
    if random.percent(50) {
        score.add_message(b"t");
    }
    let behind = score.text.len() as u16;
    let old = score.messages.len() + 1;
    score.messages.push((behind, 4));
    // The bytes '1', '2', '3', '4' are this number, and they are the digits of 1234.
    let digits = i32::from_le_bytes(*b"1234");
    let number = old + 2 - random.index(2);
    add_action(score, number);
    add_values(random, score, &[digits, 1_234]);
}

/// The same with so long a list that one message more would be past the limit.
fn full_list_and_an_entry_past_the_text(random: &mut Random, score: &mut Extended) {
    without_a_list(score);
    let added = 2;
    let more = random.index(2);
    for _ in 0..MOST_MESSAGES as usize - added - 1 + more {
        score.add_message(b"n");
    }
    let behind = score.text.len() as u16;
    score.messages.push((behind, 2));
    add_values(random, score, &[8, 9, 89]);
}
