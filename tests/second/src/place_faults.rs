//! Scores that the file check refuses, each for what is aimed at, as a text can tell
//! them. Often something else is wrong as well that the check comes to later.

use crate::bounds;
use crate::item_faults::{self, Style};
use crate::item_pages::{Page, Spot};
use crate::items::Way;
use crate::random::Random;
use crate::score::{
    Entry, Tables, LONGEST_LABEL, LONGEST_TIME, MOST_EVENTS, MOST_ITEMS, MOST_MESSAGES, MOST_TEXT,
};
use crate::texts::{odd_label, odd_labels, piece};
use crate::tokens::{labels, set_labels};

/// What the score is to be refused for.
#[derive(Clone, Copy, PartialEq, Debug)]
pub enum Aim {
    Events,
    NoEvent,
    Items,
    Messages,
    TextBytes,
    Duration,
    /// An item, in a way that a text can tell.
    Item(Way),
    Label,
}

impl Aim {
    /// The number, and the place where it is a count's.
    pub fn reply(self) -> (u64, Option<usize>) {
        match self {
            Aim::Events | Aim::NoEvent => (4, Some(4)),
            Aim::Items => (4, Some(12)),
            Aim::Messages => (4, Some(20)),
            Aim::TextBytes => (4, Some(28)),
            Aim::Duration => (6, None),
            Aim::Item(way) => (way.rule(), None),
            Aim::Label => (8, None),
        }
    }
}

/// A score that mostly gets this reply; where the file check comes to something else
/// first, it gets another.
pub fn score(random: &mut Random, aim: Aim) -> Tables {
    let mut tables = match aim {
        Aim::Item(way) => item(random, way),
        _ => piece(random),
    };
    match aim {
        Aim::Events => events(random, &mut tables),
        Aim::NoEvent => no_event(random, &mut tables),
        Aim::Items => items(random, &mut tables),
        Aim::Messages => messages(random, &mut tables),
        Aim::TextBytes => text_bytes(random, &mut tables),
        Aim::Duration => duration(random, &mut tables),
        Aim::Item(_) => {}
        Aim::Label => label(random, &mut tables),
    }
    if random.percent(15) {
        another_count(random, &mut tables, aim);
    }
    if random.percent(40) {
        for _ in 0..random.pick(&[1, 1, 2]) {
            another(random, &mut tables);
        }
    }
    tables
}

/// A later count is past its limit too.
fn another_count(random: &mut Random, tables: &mut Tables, aim: Aim) {
    match aim {
        Aim::Events if random.percent(50) => items(random, tables),
        Aim::Events | Aim::NoEvent | Aim::Items => messages(random, tables),
        Aim::Messages => tables.add_message(&[b'x'; 25_000]),
        _ => {}
    }
}

/// Something else, anywhere; mostly what comes late in the file.
fn another(random: &mut Random, tables: &mut Tables) {
    match random.below(20) {
        0..=8 => label(random, tables),
        9..=11 => delay(random, tables),
        12..=14 => message_number(random, tables),
        15..=17 => part(random, tables),
        _ => duration(random, tables),
    }
}

/// The first, the last or any of so many.
fn early_or_late(random: &mut Random, count: usize) -> usize {
    let any = random.index(count);
    random.pick(&[0, count - 1, any, any])
}

// ---------------------------------------------------------------- counts

/// One past the limit, or a few, or well past it.
fn past(random: &mut Random, most: u64) -> usize {
    (most + random.pick(&[1, 1, 1, 2, 10, 100])) as usize
}

/// The top items, each with what is within it.
fn tops(items: &[Entry]) -> Vec<Vec<Entry>> {
    let mut tops: Vec<Vec<Entry>> = Vec::new();
    for item in items {
        match tops.last_mut() {
            Some(top) if item.event == 0 => top.push(*item),
            _ => tops.push(vec![*item]),
        }
    }
    tops
}

/// One of them again, under the last event.
fn add_top(random: &mut Random, tables: &mut Tables, tops: &[Vec<Entry>]) {
    let first = tables.items.len();
    let top = &tops[random.index(tops.len())];
    tables.items.extend_from_slice(top);
    for item in &mut tables.items[first..] {
        item.part = 15;
    }
    tables.items[first].event = tables.durations.len() as u16;
}

fn events(random: &mut Random, tables: &mut Tables) {
    let tops = tops(&tables.items);
    let count = past(random, MOST_EVENTS);
    let with_items = random.pick(&[0, 5, 20]);
    while tables.durations.len() < count {
        let duration = random.pick(&[1, 2_520, 5_040, 5_040, 12_600]);
        tables.durations.push(duration);
        if random.percent(with_items) {
            add_top(random, tables, &tops);
        }
    }
}

fn no_event(random: &mut Random, tables: &mut Tables) {
    tables.durations.clear();
    tables.items.clear();
    if random.percent(25) {
        set_labels(tables, &[]);
    }
}

/// In groups as they were, or all in each other.
fn items(random: &mut Random, tables: &mut Tables) {
    let tops = tops(&tables.items);
    if tops.is_empty() {
        return;
    }
    let count = past(random, MOST_ITEMS);
    if random.percent(20) {
        return bounds::chain(random, tables, count);
    }
    while tables.items.len() < count {
        add_top(random, tables, &tops);
    }
}

fn messages(random: &mut Random, tables: &mut Tables) {
    let count = past(random, MOST_MESSAGES);
    let odd = random.pick(&[0, 0, 50]);
    while tables.messages.len() < count {
        if random.percent(odd) {
            tables.add_message(&odd_label(random));
        } else {
            tables.add_message(b"n");
        }
    }
}

/// Label bytes past the limit, in labels of one length, with empty ones between. The
/// first byte past it often begins a label, since that length goes into the limit.
fn text_bytes(random: &mut Random, tables: &mut Tables) {
    let even = random.pick(&[64, 96, 128, 256, MOST_TEXT]);
    let odd = random.between(60, 300);
    let length = random.pick(&[even, even, odd, odd, 25_000]) as usize;
    let empty = random.pick(&[0, 5]);
    let mut left = past(random, MOST_TEXT);
    let mut labels = Vec::new();
    while left > 0 {
        let next = left.min(length);
        labels.push(vec![random.pick(b"z\"\\#{ \xff"); next]);
        left -= next;
        if random.percent(empty) {
            labels.push(Vec::new());
        }
    }
    set_labels(tables, &labels);
}

// --------------------------------------------------------------- entries

fn duration(random: &mut Random, tables: &mut Tables) {
    if tables.durations.is_empty() {
        return;
    }
    let index = early_or_late(random, tables.durations.len());
    tables.durations[index] = random.pick(&[0, 0, LONGEST_TIME + 1, 1 << 31, u32::MAX]);
}

/// What else can be wrong with an item of a text; no page is long for it.
const MORE_WAYS: [Way; 5] = [
    Way::PartAbove15,
    Way::Delay,
    Way::PartFalls,
    Way::TooDeep,
    Way::Message,
];

/// An item at fault at any depth, sometimes in two ways.
fn item(random: &mut Random, way: Way) -> Tables {
    loop {
        let style = random.pick(&[
            Style::Anywhere,
            Style::Anywhere,
            Style::Anywhere,
            Style::First,
            Style::Last,
            Style::Deep,
        ]);
        let mut ways = vec![way];
        if random.percent(25) {
            ways.push(random.pick(&MORE_WAYS));
        }
        let Some(mut page) = item_faults::page_for(random, &ways, style) else {
            continue;
        };
        if style == Style::Anywhere && way != Way::TooMany {
            page.spot = at_any_depth(random, &page, &ways);
        }
        for way in ways {
            item_faults::spoil(random, &mut page.tables, page.spot, way);
        }
        if random.percent(40) {
            odd_labels(random, &mut page.tables);
        }
        return page.tables;
    }
}

/// One of the items that can be so, as often at one depth of the page as at another.
fn at_any_depth(random: &mut Random, page: &Page, ways: &[Way]) -> Spot {
    let fits = |spot: &Spot| ways.iter().all(|way| item_faults::fits(*way, *spot));
    let spots: Vec<Spot> = page.spots.iter().copied().filter(fits).collect();
    let deepest = spots.iter().map(|spot| spot.depth).max().unwrap_or(1);
    let depth = random.between(1, deepest as u64) as usize;
    let at_depth = |spot: &Spot| spot.depth == depth;
    let there: Vec<Spot> = spots.into_iter().filter(at_depth).collect();
    if there.is_empty() {
        return page.spot;
    }
    random.pick(&there)
}

fn delay(random: &mut Random, tables: &mut Tables) {
    if !tables.items.is_empty() {
        let index = early_or_late(random, tables.items.len());
        tables.items[index].delay = random.pick(&[LONGEST_TIME + 1, u32::MAX]);
    }
}

fn message_number(random: &mut Random, tables: &mut Tables) {
    let count = tables.messages.len() as u16;
    let mut actions = tables.items.iter_mut().filter(|item| item.is_action());
    let last = random.percent(50);
    let action = if last {
        actions.next_back()
    } else {
        actions.next()
    };
    if let Some(action) = action {
        action.last = random.pick(&[count, u16::MAX]);
    }
}

/// A text has only a top item's part.
fn part(random: &mut Random, tables: &mut Tables) {
    let mut tops = tables.items.iter_mut().filter(|item| item.event != 0);
    if let Some(top) = tops.next_back() {
        top.part = random.pick(&[16, 99, 255]);
    }
}

/// One label is empty, too long, or has a byte that may not be.
fn label(random: &mut Random, tables: &mut Tables) {
    let mut labels = labels(tables);
    if labels.is_empty() {
        return;
    }
    let index = early_or_late(random, labels.len());
    let label = &mut labels[index];
    match random.below(4) {
        0 => label.clear(),
        1 => {
            let length = random.pick(&[LONGEST_LABEL + 1, LONGEST_LABEL + 1, 200]);
            *label = vec![random.pick(b"l\"\\\xff#}"); length];
        }
        _ => {
            let at = random.index(label.len() + 1);
            label.insert(at, random.pick(b"\x00\x09\x0d\x1f\x7f\x7f"));
        }
    }
    set_labels(tables, &labels);
}
