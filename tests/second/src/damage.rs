//! Damaged score files. A damage says nothing of what the check must reply, and
//! may well leave the file right: field values fall on both sides of a limit.

use crate::random::Random;
use crate::score::{
    Entry, Tables, CONTENTS, LONGEST_TIME, MOST_EVENTS, MOST_ITEMS, MOST_MESSAGES, MOST_TEXT,
};

pub fn damaged(random: &mut Random, mut tables: Tables) -> Vec<u8> {
    // Sometimes more than one, so that the order of the checks shows.
    let mut in_bytes = 0;
    for _ in 0..random.pick(&[1, 1, 1, 1, 2, 3]) {
        match random.below(100) {
            0..=7 => event(random, &mut tables),
            8..=29 => item_field(random, &mut tables),
            30..=37 => nested(random, &mut tables),
            38..=42 => group_length(random, &mut tables),
            43..=47 => order(random, &mut tables),
            48..=49 => many_actions(random, &mut tables),
            50..=58 => message(random, &mut tables),
            59..=69 => label(random, &mut tables),
            70..=73 => text_length(random, &mut tables),
            74..=75 => at_a_limit(random, &mut tables),
            76..=79 => wild(random, &mut tables),
            _ => in_bytes += 1,
        }
    }
    let mut file = tables.encode();
    for _ in 0..in_bytes {
        match random.below(100) {
            0..=54 => contents(random, &mut file),
            55..=74 => length(random, &mut file),
            75..=91 => scattered(random, &mut file),
            _ => noise(random, &mut file),
        }
    }
    file
}

/// One label byte or one chain of groups: only the rule in question decides.
pub fn fine(random: &mut Random, mut tables: Tables) -> Vec<u8> {
    if random.percent(50) {
        label(random, &mut tables);
    } else {
        nested(random, &mut tables);
    }
    tables.encode()
}

fn event(random: &mut Random, tables: &mut Tables) {
    if tables.durations.is_empty() {
        return;
    }
    let index = random.index(tables.durations.len());
    tables.durations[index] =
        random.pick(&[0, 0, 1, LONGEST_TIME, LONGEST_TIME + 1, 1 << 31, u32::MAX]);
}

/// One field of one item: just in, just out, far out.
fn item_field(random: &mut Random, tables: &mut Tables) {
    if tables.items.is_empty() {
        tables.items.push(Entry {
            event: 1,
            ..Entry::default()
        });
    }
    let events = tables.durations.len() as u16;
    let messages = tables.messages.len() as u16;
    let index = random.index(tables.items.len());
    let item = &mut tables.items[index];
    match random.below(12) {
        0 => item.kind = random.pick(&[0, 1, 2, 3, 255]),
        1 => item.synchrony = random.pick(&[0, 1, 1, 2, 255]),
        2 => item.error = random.pick(&[0, 1, 2, 3, 3, 4, 255]),
        3..=4 => {
            let part = item.part;
            item.part = random.pick(&[
                0,
                part.wrapping_sub(1),
                part.wrapping_add(1),
                14,
                15,
                16,
                17,
                255,
            ]);
        }
        5..=6 => {
            item.delay = random.pick(&[
                0,
                LONGEST_TIME - 1,
                LONGEST_TIME,
                LONGEST_TIME,
                LONGEST_TIME + 1,
                LONGEST_TIME + 1,
                1 << 31,
                u32::MAX,
            ]);
        }
        7..=8 => {
            let event = item.event;
            item.event = random.pick(&[
                0,
                1,
                event.wrapping_sub(1),
                event.wrapping_add(1),
                events,
                events.wrapping_add(1),
                256,
                257,
                65_535,
            ]);
        }
        _ => {
            let last = item.last;
            item.last = random.pick(&[
                0,
                1,
                last.wrapping_sub(1),
                last.wrapping_add(1),
                messages.wrapping_sub(1),
                messages,
                messages.wrapping_add(1),
                65_535,
            ]);
        }
    }
}

/// A chain of groups about as deep as may be, at the end of the table.
fn nested(random: &mut Random, tables: &mut Tables) {
    let groups = random.pick(&[6, 7, 8, 8, 9, 10]);
    let innermost = random.below(3);
    let count = groups + usize::from(innermost > 0);
    let event = tables.durations.len() as u16;
    for index in 0..count {
        let group = index < groups || innermost == 1;
        tables.items.push(Entry {
            kind: u8::from(group),
            synchrony: if group { random.below(2) as u8 } else { 0 },
            error: if group { random.below(4) as u8 } else { 0 },
            part: 15,
            delay: random.below(3) as u32,
            event: if index == 0 { event } else { 0 },
            last: if group { (count - index - 1) as u16 } else { 0 },
        });
    }
    if random.percent(30) {
        // Beside the chain, at depth 2.
        let first = tables.items.len() - count;
        tables.items[first].last += 1;
        tables.items.push(Entry {
            part: 15,
            ..Entry::default()
        });
    }
}

/// A group that ends elsewhere: within or past its holder, at or past the table.
fn group_length(random: &mut Random, tables: &mut Tables) {
    let groups: Vec<usize> = (0..tables.items.len())
        .filter(|&index| tables.items[index].kind == 1)
        .collect();
    if groups.is_empty() {
        return nested(random, tables);
    }
    let index = random.pick(&groups);
    let to_the_end = (tables.items.len() - index - 1) as u16;
    let last = tables.items[index].last;
    tables.items[index].last = random.pick(&[
        0,
        last.wrapping_sub(1),
        last.wrapping_add(1),
        last.wrapping_add(2),
        to_the_end,
        to_the_end.wrapping_add(1),
        65_535,
    ]);
}

/// Items that stand in a wrong order, or a top item's event or part out of it.
fn order(random: &mut Random, tables: &mut Tables) {
    let count = tables.items.len();
    if count < 2 {
        return item_field(random, tables);
    }
    let tops: Vec<usize> = (0..count)
        .filter(|&index| tables.items[index].event != 0)
        .collect();
    if random.percent(30) || tops.len() < 2 {
        let index = random.index(count - 1);
        tables.items.swap(index, index + 1);
        return;
    }
    // Names change places; the bodies take their holder's part along.
    let which = random.index(tops.len() - 1);
    let (here, there) = (tops[which], tops[which + 1]);
    let (event, part) = (tables.items[here].event, tables.items[here].part);
    match random.below(3) {
        0 => {
            tables.items[here].event = tables.items[there].event;
            tables.items[there].event = event;
        }
        1 => {
            let other = tables.items[there].part;
            rename_part(tables, here, other);
            rename_part(tables, there, part);
        }
        _ => rename_part(tables, there, part.wrapping_sub(1)),
    }
}

pub fn rename_part(tables: &mut Tables, top: usize, part: u8) {
    let mut index = top;
    loop {
        tables.items[index].part = part;
        index += 1;
        if index >= tables.items.len() || tables.items[index].event != 0 {
            return;
        }
    }
}

/// About as many actions as may be, at one depth or at several.
pub fn many_actions(random: &mut Random, tables: &mut Tables) {
    if tables.messages.is_empty() {
        tables.add_message(b"m");
    }
    let count = random.between(1_022, 1_027);
    let event = tables.durations.len() as u16;
    tables.items.clear();
    let mut left = count;
    while left > 0 {
        let within = random.below(60).min(left - 1);
        if within > 0 && random.percent(70) {
            tables.items.push(Entry {
                kind: 1,
                event,
                last: within as u16,
                ..Entry::default()
            });
            for _ in 0..within {
                tables.items.push(Entry::default());
            }
            left -= within;
        } else {
            tables.items.push(Entry {
                event,
                ..Entry::default()
            });
            left -= 1;
        }
    }
}

fn message(random: &mut Random, tables: &mut Tables) {
    if tables.messages.is_empty() {
        tables.messages.push((0, 0));
    }
    let index = random.index(tables.messages.len());
    let text = tables.text.len() as u16;
    let (start, length) = tables.messages[index];
    match random.below(4) {
        0 => {
            let start = random.pick(&[
                0,
                1,
                start.wrapping_add(1),
                start.wrapping_sub(1),
                text,
                65_535,
            ]);
            tables.messages[index].0 = start;
        }
        1 => {
            let length = random.pick(&[
                0,
                1,
                length.wrapping_add(1),
                length.wrapping_sub(1),
                47,
                48,
                49,
                65_535,
            ]);
            tables.messages[index].1 = length;
        }
        2 => {
            // A label about as long as may be, with its text.
            let length = random.pick(&[0, 1, 47, 48, 48, 49, 49, 50]);
            tables.add_message(&vec![b'l'; length]);
        }
        _ => {
            // The entry whole, but its neighbour's boundary moved.
            let other = random.index(tables.messages.len());
            tables.messages.swap(index, other);
        }
    }
}

fn label(random: &mut Random, tables: &mut Tables) {
    if tables.text.is_empty() {
        tables.add_message(b"label");
    }
    let index = random.index(tables.text.len());
    tables.text[index] = random.pick(&[0, 10, 31, 31, 32, 126, 127, 127, 127, 128, 255]);
}

fn text_length(random: &mut Random, tables: &mut Tables) {
    match random.below(4) {
        0 => tables.text.extend_from_slice(b"x"),
        1 => {
            tables.text.pop();
        }
        2 => {
            // No message, yet text; actions would be at fault before.
            tables.messages.clear();
            if random.percent(70) {
                tables.items.retain(|item| item.event != 0);
                for item in &mut tables.items {
                    item.kind = 1;
                    item.last = 0;
                }
            }
        }
        _ => {
            tables.messages.pop();
        }
    }
}

/// One body as large as may be, or one more, with right offsets.
fn at_a_limit(random: &mut Random, tables: &mut Tables) {
    let more = random.below(2);
    match random.below(4) {
        0 => {
            let count = MOST_EVENTS + more;
            tables.durations.resize(count as usize, 1);
        }
        1 => {
            let event = tables.durations.len() as u16;
            let empty_group = Entry {
                kind: 1,
                part: 15,
                event,
                ..Entry::default()
            };
            let count = MOST_ITEMS + more;
            tables.items.resize(count as usize, empty_group);
        }
        2 => {
            while (tables.messages.len() as u64) < MOST_MESSAGES + more {
                tables.add_message(b"n");
            }
        }
        _ => {
            tables.messages.clear();
            tables.text.clear();
            while (tables.messages.len() as u64) < MOST_MESSAGES {
                tables.add_message(&[b't'; 48]);
            }
            let count = MOST_TEXT + more;
            tables.text.resize(count as usize, b'u');
        }
    }
}

/// A whole table of items whose fields are small and random.
fn wild(random: &mut Random, tables: &mut Tables) {
    let events = tables.durations.len() as u64;
    let count = random.between(1, 12);
    let part = random.below(16) as u8;
    let mut event = 1;
    tables.items.clear();
    for _ in 0..count {
        let group = random.percent(50);
        let inside = random.percent(50);
        event = random.between(event, events.max(event));
        tables.items.push(Entry {
            kind: u8::from(group),
            synchrony: if group { random.below(2) as u8 } else { 0 },
            error: if group { random.below(4) as u8 } else { 0 },
            part,
            delay: random.below(10) as u32,
            event: if inside { 0 } else { event as u16 },
            last: random.below(4) as u16,
        });
    }
}

// --------------------------------------------------------- in the bytes

/// One word of the contents.
fn contents(random: &mut Random, file: &mut [u8]) {
    let word = random.index(8);
    let place = 4 * word;
    if file.len() < place + 4 {
        return;
    }
    let old = u32::from_le_bytes([
        file[place],
        file[place + 1],
        file[place + 2],
        file[place + 3],
    ]);
    let value = if word.is_multiple_of(2) {
        random.pick(&[
            0,
            old.wrapping_add(1),
            old.wrapping_sub(1),
            old.wrapping_add(4),
            old ^ 0x0100_0000,
            u32::MAX,
        ])
    } else {
        let limits = [MOST_EVENTS, MOST_ITEMS, MOST_MESSAGES, MOST_TEXT];
        let limit = limits[word / 2] as u32;
        random.pick(&[
            0,
            0,
            1,
            old.wrapping_add(1),
            old.wrapping_sub(1),
            limit,
            limit + 1,
            limit + 1,
            old ^ 0x0100_0000,
            u32::MAX,
        ])
    };
    file[place..place + 4].copy_from_slice(&value.to_le_bytes());
}

fn length(random: &mut Random, file: &mut Vec<u8>) {
    match random.below(6) {
        0 => {
            file.pop();
        }
        1 => file.push(random.below(256) as u8),
        2 => {
            let more = random.between(1, 60) as usize;
            file.resize(file.len() + more, b'e');
        }
        3 => {
            let length = random.pick(&[0, 1, 16, CONTENTS - 1, CONTENTS, CONTENTS + 1]);
            file.truncate(length);
        }
        4 => {
            let length = random.index(CONTENTS);
            file.truncate(length);
        }
        _ => {
            let length = random.index(file.len() + 1);
            file.truncate(length);
        }
    }
}

/// A few bytes anywhere, mostly behind the contents.
fn scattered(random: &mut Random, file: &mut [u8]) {
    if file.is_empty() {
        return;
    }
    for _ in 0..random.pick(&[1, 1, 2, 5]) {
        let from = if random.percent(80) && file.len() > CONTENTS {
            CONTENTS
        } else {
            0
        };
        let place = from + random.index(file.len() - from);
        let any = random.below(256) as u8;
        file[place] = random.pick(&[0, 1, 127, 255, any, any]);
    }
}

/// Nothing but random bytes, or those behind right contents.
fn noise(random: &mut Random, file: &mut Vec<u8>) {
    if random.percent(50) && file.len() > CONTENTS {
        for byte in &mut file[CONTENTS..] {
            *byte = random.below(256) as u8;
        }
        return;
    }
    let length = random.below(200);
    *file = (0..length).map(|_| random.below(256) as u8).collect();
}
