//! Sound pages for an item that is to be put at fault, and where each item stands.
//! Where the fault is its depth or its being one action too many, the page has that
//! fault already.

use crate::item_faults::Style;
use crate::items::Way;
use crate::random::Random;
use crate::score::{Entry, Tables, DEEPEST, MOST_ACTIONS};
use crate::scores;

/// So many actions are as many as may be.
pub const FULL: usize = MOST_ACTIONS;

/// Not so many items that a few more could be too many.
const ENOUGH: usize = 1_000;

/// Where an item stands.
#[derive(Clone, Copy)]
pub struct Spot {
    pub index: usize,
    pub depth: usize,
    pub action: bool,
    /// The index where the group that holds it ends, or the table.
    pub end: usize,
    /// The top item before.
    pub before: Option<Entry>,
}

pub struct Page {
    pub tables: Tables,
    pub spots: Vec<Spot>,
    /// The item that is to be at fault.
    pub spot: Spot,
}

/// A page for an item that is to be against the rules in these ways.
pub fn page(random: &mut Random, ways: &[Way], style: Style) -> Page {
    let mut tables = score(random);
    let deep = ways.contains(&Way::TooDeep) || style == Style::Deep;
    let depth = DEEPEST + usize::from(ways.contains(&Way::TooDeep));
    let index = if ways.contains(&Way::TooMany) {
        let any = random.between(2, DEEPEST as u64) as usize;
        let shallow = random.pick(&[1, 1, any]);
        full(random, &mut tables, if deep { depth } else { shallow })
    } else if deep {
        chain_somewhere(random, &mut tables, depth)
    } else {
        let last = tables.items.len() - 1;
        match style {
            Style::First => 0,
            Style::Last => last,
            _ => any_item(random, &tables.items),
        }
    };
    let spots = spots(&tables.items);
    Page {
        spot: spots[index],
        spots,
        tables,
    }
}

/// A sound score with messages and items.
fn score(random: &mut Random) -> Tables {
    loop {
        let tables = scores::invent(random).tables;
        let items = tables.items.len();
        if (2..ENOUGH).contains(&items) && !tables.messages.is_empty() {
            return tables;
        }
    }
}

/// As often a group as an action, where the page has both.
fn any_item(random: &mut Random, items: &[Entry]) -> usize {
    let kind = random.below(2) as u8;
    let alike: Vec<usize> = (0..items.len())
        .filter(|&index| items[index].kind == kind)
        .collect();
    if alike.is_empty() {
        return random.index(items.len());
    }
    random.pick(&alike)
}

/// Walks the page item by item, with the ends of the groups that are open.
fn spots(items: &[Entry]) -> Vec<Spot> {
    let mut ends = vec![items.len()];
    let mut before = None;
    let mut spots = Vec::new();
    for (index, item) in items.iter().enumerate() {
        while ends.len() > 1 && ends[ends.len() - 1] == index {
            ends.pop();
        }
        spots.push(Spot {
            index,
            depth: ends.len(),
            action: item.is_action(),
            end: ends[ends.len() - 1],
            before,
        });
        if ends.len() == 1 {
            before = Some(*item);
        }
        if item.is_group() {
            ends.push(index + 1 + usize::from(item.last));
        }
    }
    spots
}

// ---------------------------------------------------------------- chains

/// Groups within each other, and an item at this depth: an action or an empty group.
fn chain(random: &mut Random, top: Entry, depth: usize, action: bool) -> Vec<Entry> {
    let mut items = Vec::new();
    for index in 0..depth {
        let group = index + 1 < depth || !action;
        items.push(Entry {
            kind: u8::from(group),
            synchrony: if group { random.below(2) as u8 } else { 0 },
            error: if group { random.below(4) as u8 } else { 0 },
            part: top.part,
            delay: random.below(3) as u32,
            event: if index == 0 { top.event } else { 0 },
            last: if group { (depth - index - 1) as u16 } else { 0 },
        });
    }
    items
}

/// At the front, before any top item, or at the end; gives the index of its inmost.
fn chain_somewhere(random: &mut Random, tables: &mut Tables, depth: usize) -> usize {
    let tops: Vec<usize> = spots(&tables.items)
        .iter()
        .filter(|spot| spot.depth == 1)
        .map(|spot| spot.index)
        .collect();
    let end = tables.items.len();
    let any = random.pick(&tops);
    let at = random.pick(&[0, end, any]);
    // One of the same event and part may stand there.
    let top = match tables.items.get(at) {
        Some(item) => *item,
        None => Entry {
            event: tables.durations.len() as u16,
            part: 15,
            ..Entry::default()
        },
    };
    let action = random.percent(50);
    let items = chain(random, top, depth, action);
    tables.items.splice(at..at, items);
    at + depth - 1
}

// --------------------------------------------------------------- actions

/// As many actions as may be, in groups and in none, then one at this depth, and a
/// few behind it; gives the index of the one.
fn full(random: &mut Random, tables: &mut Tables, depth: usize) -> usize {
    let top = Entry {
        event: tables.durations.len() as u16,
        part: random.below(16) as u8,
        ..Entry::default()
    };
    let within = Entry { event: 0, ..top };
    let grouped = random.pick(&[0, 0, 50]);
    tables.items.clear();
    let mut left = FULL;
    while left > 0 {
        let count = 1 + random.index(left.min(60));
        if random.percent(grouped) {
            tables.items.push(Entry {
                kind: 1,
                last: count as u16,
                ..top
            });
            tables.items.extend(vec![within; count]);
        } else {
            tables.items.extend(vec![top; count]);
        }
        left -= count;
    }
    let index = tables.items.len() + depth - 1;
    tables.items.extend(chain(random, top, depth, true));
    let behind = random.pick(&[0, 0, 1, 3]);
    tables.items.extend(vec![top; behind]);
    index
}
