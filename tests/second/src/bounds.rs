//! Scores at the limits of the file check and past them, as a text can tell
//! them: nothing here makes a text that can't be read.

use crate::damage;
use crate::random::Random;
use crate::score::{
    Entry, Tables, LONGEST_LABEL, LONGEST_TIME, MOST_EVENTS, MOST_ITEMS, MOST_MESSAGES, MOST_TEXT,
};
use crate::tokens::{labels, set_labels};

/// How many sorts of limits there are.
pub const SORTS: u64 = 23;

pub fn move_to_a_limit(random: &mut Random, tables: &mut Tables, sort: u64) {
    match sort {
        0..=1 => events(random, tables),
        2 => items(random, tables),
        3 => messages(random, tables),
        4..=5 => label_bytes(random, tables),
        6 => several_counts(random, tables),
        7..=8 => nested(random, tables),
        9..=10 => part(random, tables),
        11 => part_falls(random, tables),
        12..=13 => delay(random, tables),
        14..=15 => duration(random, tables),
        16..=17 => message_number(random, tables),
        18 => damage::many_actions(random, tables),
        _ => label(random, tables),
    }
}

/// At a limit, one past it, or well past it.
fn about(random: &mut Random, most: u64) -> usize {
    random.pick(&[most, most, most + 1, most + 1, most + 100]) as usize
}

// ---------------------------------------------------------------- counts

fn events(random: &mut Random, tables: &mut Tables) {
    if random.percent(30) {
        tables.durations.clear();
        tables.items.clear();
        return;
    }
    let count = about(random, MOST_EVENTS);
    tables.durations.resize(count, 5_040);
    if random.percent(50) {
        // The last event, which may be one too many, has an item.
        tables.items.push(empty_group(tables));
    }
}

fn empty_group(tables: &Tables) -> Entry {
    Entry {
        kind: 1,
        part: 15,
        event: tables.durations.len() as u16,
        ..Entry::default()
    }
}

fn items(random: &mut Random, tables: &mut Tables) {
    let count = about(random, MOST_ITEMS);
    tables.items.resize(count, empty_group(tables));
}

fn messages(random: &mut Random, tables: &mut Tables) {
    let count = about(random, MOST_MESSAGES);
    while tables.messages.len() < count {
        tables.add_message(b"n");
    }
}

/// As many label bytes as may be or more, in labels of one length.
fn label_bytes(random: &mut Random, tables: &mut Tables) {
    let mut left = about(random, MOST_TEXT);
    let length = random.pick(&[48, 48, 49, 100, 25_000]);
    let mut labels = Vec::new();
    while left > 0 {
        let next = left.min(length);
        labels.push(vec![random.pick(b"z\"\\"); next]);
        left -= next;
    }
    set_labels(tables, &labels);
    tables.items.retain(|item| item.event != 0);
    for item in &mut tables.items {
        item.kind = 1;
        item.last = 0;
    }
}

fn several_counts(random: &mut Random, tables: &mut Tables) {
    for count in [events, items, messages] {
        if random.percent(60) {
            count(random, tables);
        }
    }
}

// ----------------------------------------------------------------- items

fn nested(random: &mut Random, tables: &mut Tables) {
    let groups = random.pick(&[7, 8, 8, 9, 10, 50, 1_000, 2_040, 2_100]);
    chain(random, tables, groups);
}

/// A chain of groups under the last event, with something or nothing inmost.
pub fn chain(random: &mut Random, tables: &mut Tables, groups: usize) {
    let action = random.percent(50);
    let count = groups + usize::from(action);
    for index in 0..groups {
        let first = index == 0;
        tables.items.push(Entry {
            synchrony: random.below(2) as u8,
            error: random.below(4) as u8,
            last: (count - index - 1) as u16,
            event: if first { empty_group(tables).event } else { 0 },
            ..empty_group(tables)
        });
    }
    if action {
        tables.items.push(Entry {
            part: 15,
            ..Entry::default()
        });
    }
}

/// The top items; each with what is within it ends where the next begins.
fn tops(tables: &Tables) -> Vec<usize> {
    (0..tables.items.len())
        .filter(|&index| tables.items[index].event != 0)
        .collect()
}

fn part(random: &mut Random, tables: &mut Tables) {
    let tops = tops(tables);
    if tops.is_empty() {
        return;
    }
    // Mostly an event's last part, so that only the number can be wrong.
    let which = random.index(tops.len());
    let event = tables.items[tops[which]].event;
    let of_event = |&&top: &&usize| tables.items[top].event == event;
    let last = *tops.iter().rfind(of_event).unwrap_or(&tops[which]);
    let top = random.pick(&[last, last, last, tops[which]]);
    damage::rename_part(tables, top, random.pick(&[15, 15, 16, 16, 99, 255]));
}

/// At the last event a part stands before a lower one.
fn part_falls(random: &mut Random, tables: &mut Tables) {
    let first = empty_group(tables);
    let part = random.pick(&[0, 14, 15]);
    tables.items.push(first);
    tables.items.push(Entry { part, ..first });
}

fn delay(random: &mut Random, tables: &mut Tables) {
    if !tables.items.is_empty() {
        let index = random.index(tables.items.len());
        tables.items[index].delay = random.pick(&[
            0,
            1,
            LONGEST_TIME - 1,
            LONGEST_TIME,
            LONGEST_TIME,
            LONGEST_TIME + 1,
            LONGEST_TIME + 1,
            u32::MAX,
        ]);
    }
}

fn duration(random: &mut Random, tables: &mut Tables) {
    let index = random.index(tables.durations.len());
    tables.durations[index] = random.pick(&[
        0,
        0,
        1,
        LONGEST_TIME - 1,
        LONGEST_TIME,
        LONGEST_TIME + 1,
        LONGEST_TIME + 1,
        u32::MAX,
    ]);
}

fn message_number(random: &mut Random, tables: &mut Tables) {
    let actions: Vec<usize> = (0..tables.items.len())
        .filter(|&index| tables.items[index].kind == 0)
        .collect();
    if !actions.is_empty() {
        let count = tables.messages.len() as u16;
        let number = random.pick(&[count - 1, count, count, count + 1, 511, 512, 65_535]);
        tables.items[random.pick(&actions)].last = number;
    }
}

// ---------------------------------------------------------------- labels

/// One label is empty, too long, or has a byte that may not be, or just not so.
fn label(random: &mut Random, tables: &mut Tables) {
    let mut labels = labels(tables);
    let index = random.index(labels.len());
    let label = &mut labels[index];
    match random.below(5) {
        0 => label.clear(),
        1 | 2 => {
            let length = random.pick(&[
                LONGEST_LABEL - 1,
                LONGEST_LABEL,
                LONGEST_LABEL,
                LONGEST_LABEL + 1,
                2 * LONGEST_LABEL,
                200,
            ]);
            *label = vec![random.pick(b"l\"\\\xff\x80"); length];
        }
        _ => {
            let at = random.index(label.len());
            label[at] = random.pick(b"\x00\x09\x0d\x1f\x1f\x20\x7e\x7f\x7f\x80\xff\"\\");
        }
    }
    set_labels(tables, &labels);
}
