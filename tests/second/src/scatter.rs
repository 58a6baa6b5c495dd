//! Files for `check`: every other one as `files` makes it; between them each
//! sort of file has its turn, so that few files show every row of the reply
//! table, places deep in the tables and figures of every kind.

use crate::damage::many_actions;
use crate::item_faults::{faulty, FIRST_NUMBER, STYLES};
use crate::random::Random;
use crate::score::{
    Entry, Tables, CONTENTS, LAST_PART, LONGEST_TIME, MOST_EVENTS, MOST_ITEMS, MOST_MESSAGES,
    MOST_TEXT,
};
use crate::{case, scores};

/// How many sorts there are below.
const TURNS: u64 = 30;

/// So many of them are wrong.
const WRONG: u64 = 18;

/// The turns of 20 to 27, one each.
const ITEM_TURNS: [u64; 8] = [14, 21, 24, 25, 26, 27, 28, 29];

/// Longer than any score by far.
const LONG: u64 = 70_000;

pub fn file_of_seed(seed: u64) -> Vec<u8> {
    if seed.is_multiple_of(2) {
        return case::file_of_seed(seed);
    }
    let random = &mut Random::new(seed);
    let (round, turn) = (seed / 2 / TURNS, seed / 2 % TURNS);
    if let Some(which) = ITEM_TURNS.iter().position(|item| *item == turn) {
        return faulty_item(random, round, which);
    }
    match turn {
        0..WRONG => wrong_file(random, turn),
        18 => no_item(random),
        19 => no_action(random),
        20 => groups_alone(random),
        22 => several_parts(random),
        _ => all_parts(random),
    }
}

/// This one of the numbers for an item; the styles take turns.
fn faulty_item(random: &mut Random, round: u64, which: usize) -> Vec<u8> {
    let style = STYLES[round as usize % STYLES.len()];
    faulty(random, FIRST_NUMBER + which as u64, style)
}

/// One of the sorts that are wrong, in turns; a few are just not.
pub fn wrong_file(random: &mut Random, turn: u64) -> Vec<u8> {
    match turn % WRONG {
        turn @ 0..=3 => bad_count(random, turn as usize),
        turn @ 4..=7 => bad_offset(random, turn as usize - 4),
        8 => short(random),
        9 => bad_length(random),
        10..=11 => long(random),
        12 => bad_event(random),
        13..=14 => bad_item(random),
        15 => too_many_actions(random),
        16 => bad_message(random),
        _ => text_left(random),
    }
}

/// A sound score of this sort, as soon as one is invented.
fn invented(random: &mut Random, wanted: impl Fn(&Tables) -> bool) -> Tables {
    loop {
        let tables = scores::invent(random).tables;
        if wanted(&tables) {
            return tables;
        }
    }
}

/// A place in the rear half of a table, often its last.
fn deep(random: &mut Random, count: usize) -> usize {
    if random.percent(20) {
        return count - 1;
    }
    count - 1 - random.index(count.div_ceil(2))
}

fn parts(tables: &Tables) -> Vec<u8> {
    let used = |part: &u8| tables.items.iter().any(|item| item.part == *part);
    (0..=LAST_PART).filter(used).collect()
}

// ----------------------------------------------------------------- sound

fn no_item(random: &mut Random) -> Vec<u8> {
    let mut tables = scores::invent(random).tables;
    tables.items.clear();
    tables.encode()
}

/// All actions of a part become empty groups.
fn without_actions(tables: &mut Tables, part: u8) {
    for item in &mut tables.items {
        if item.part == part && item.kind == 0 {
            item.kind = 1;
            item.last = 0;
        }
    }
}

/// Groups only, and mostly messages that nobody uses.
fn no_action(random: &mut Random) -> Vec<u8> {
    let mut tables = invented(random, |tables| !tables.items.is_empty());
    for part in parts(&tables) {
        without_actions(&mut tables, part);
    }
    tables.encode()
}

/// One part has groups only, others have actions.
fn groups_alone(random: &mut Random) -> Vec<u8> {
    let mut tables = invented(random, |tables| parts(tables).len() >= 2);
    let part = random.pick(&parts(&tables));
    without_actions(&mut tables, part);
    tables.encode()
}

fn several_parts(random: &mut Random) -> Vec<u8> {
    invented(random, |tables| parts(tables).len() >= 3).encode()
}

/// One top item for each part, at one event; some are empty groups.
fn all_parts(random: &mut Random) -> Vec<u8> {
    let mut tables = invented(random, |tables| !tables.messages.is_empty());
    let event = random.between(1, tables.durations.len() as u64) as u16;
    tables.items.clear();
    for part in 0..=LAST_PART {
        tables.items.push(Entry {
            kind: random.below(2) as u8,
            part,
            event,
            ..Entry::default()
        });
    }
    tables.encode()
}

// -------------------------------------------------------------- contents

fn set_word(file: &mut [u8], place: usize, value: u32) {
    file[place..place + 4].copy_from_slice(&value.to_le_bytes());
}

/// This count is the first at fault; later ones and offsets may be as well.
fn bad_count(random: &mut Random, body: usize) -> Vec<u8> {
    let mut file = scores::invent(random).tables.encode();
    let limits = [MOST_EVENTS, MOST_ITEMS, MOST_MESSAGES, MOST_TEXT].map(|most| most as u32);
    for (later, most) in limits.into_iter().enumerate().skip(body) {
        // There is always an event.
        let least = if later == 0 { 0 } else { most + 2 };
        let value = random.pick(&[least, most + 1, most + 1, 1 << 16, 1 << 24, u32::MAX]);
        if later == body || random.percent(20) {
            set_word(&mut file, 8 * later + 4, value);
        }
        if random.percent(20) {
            set_word(&mut file, 8 * later, value);
        }
    }
    file
}

/// This offset is the first at fault; later ones and the length may be as well.
fn bad_offset(random: &mut Random, body: usize) -> Vec<u8> {
    let mut file = scores::invent(random).tables.encode();
    for later in body..4 {
        let place = 8 * later;
        let change = random.pick(&[1, 2, 3, 4, 255]) << random.pick(&[0, 0, 8, 24]);
        if later == body || random.percent(20) {
            file[place..place + 4]
                .iter_mut()
                .zip(u32::to_le_bytes(change))
                .for_each(|(byte, change)| *byte ^= change);
        }
    }
    if random.percent(20) {
        file.push(b'e');
    }
    file
}

// ---------------------------------------------------------------- length

fn short(random: &mut Random) -> Vec<u8> {
    let mut file = scores::invent(random).tables.encode();
    let length = random.index(CONTENTS);
    file.truncate(random.pick(&[0, CONTENTS - 1, length, length]));
    file
}

fn bad_length(random: &mut Random) -> Vec<u8> {
    let mut file = scores::invent(random).tables.encode();
    let left = CONTENTS + random.index(file.len() - CONTENTS);
    let more = file.len() + random.between(1, 60) as usize;
    let length = random.pick(&[left, CONTENTS, file.len() - 1, file.len() + 1, more]);
    file.resize(length, b'e');
    file
}

/// Mostly right but for the length; now and then something stands before that.
fn long(random: &mut Random) -> Vec<u8> {
    let mut file = match random.below(8) {
        0 => bad_count(random, 0),
        1 => bad_offset(random, 3),
        2 => bad_item(random),
        _ => scores::invent(random).tables.encode(),
    };
    let any = random.between(LONG, 4 * LONG);
    let length = random.pick(&[LONG, any, any, any]);
    file.resize(length as usize, random.pick(b"\0e"));
    file
}

// --------------------------------------------------------------- entries

fn bad_event(random: &mut Random) -> Vec<u8> {
    let least = random.pick(&[3, 3, 41, 200]);
    let mut tables = invented(random, |tables| tables.durations.len() >= least);
    let index = deep(random, tables.durations.len());
    tables.durations[index] = random.pick(&[0, 0, LONGEST_TIME + 1, 1 << 31, u32::MAX]);
    tables.encode()
}

/// One field of one item is wrong, whatever the item.
fn bad_item(random: &mut Random) -> Vec<u8> {
    let least = random.pick(&[3, 3, 40, 100]);
    let mut tables = invented(random, |tables| tables.items.len() >= least);
    let index = deep(random, tables.items.len());
    let item = &mut tables.items[index];
    match random.below(7) {
        0 => item.kind = random.pick(&[2, 255]),
        1 => item.synchrony = random.pick(&[2, 255]),
        2 => item.error = random.pick(&[4, 255]),
        3 => item.part = random.pick(&[16, 255]),
        4 => item.delay = random.pick(&[LONGEST_TIME + 1, u32::MAX]),
        5 => item.event = random.pick(&[257, 65_535]),
        _ => item.last = random.pick(&[2_048, 65_535]),
    }
    tables.encode()
}

/// Some of them have the 1,025th action, some just don't.
fn too_many_actions(random: &mut Random) -> Vec<u8> {
    let mut tables = scores::invent(random).tables;
    many_actions(random, &mut tables);
    tables.encode()
}

fn bad_message(random: &mut Random) -> Vec<u8> {
    let least = random.pick(&[3, 3, 11, 100]);
    let mut tables = invented(random, |tables| tables.messages.len() >= least);
    let index = deep(random, tables.messages.len());
    let (start, length) = &mut tables.messages[index];
    match random.below(4) {
        0 => *start = random.pick(&[*start + 1, *start - 1, 65_535]),
        1 => *length = random.pick(&[0, 49, 65_535]),
        _ => {
            let place = usize::from(*start) + random.index(usize::from(*length));
            tables.text[place] = random.pick(&[0, 9, 31, 127]);
        }
    }
    tables.encode()
}

/// Text behind the last label, or text and no message at all.
fn text_left(random: &mut Random) -> Vec<u8> {
    let mut tables = invented(random, |tables| (tables.text.len() as u64) < MOST_TEXT);
    if random.percent(30) {
        tables.items.clear();
        tables.messages.clear();
    }
    tables.text.push(random.pick(b"\0x\x7f"));
    tables.encode()
}
