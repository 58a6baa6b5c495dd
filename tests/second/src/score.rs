//! The score file: its tables, its bytes, its check, and the tree that a right
//! file stands for.

use crate::items::{self, AtFault};
use crate::mutant;
use std::rc::Rc;

pub const CONTENTS: usize = 32;
pub const EVENT_BYTES: usize = 4;
pub const ITEM_BYTES: usize = 12;
pub const MESSAGE_BYTES: usize = 4;

pub const MOST_EVENTS: u64 = 256;
pub const MOST_ITEMS: u64 = 2_048;
pub const MOST_ACTIONS: usize = 1_024;
pub const MOST_MESSAGES: u64 = 512;
pub const MOST_TEXT: u64 = 24_576;
pub const LONGEST_LABEL: usize = 48;
pub const LONGEST_TIME: u32 = 5_040_000;
pub const LAST_PART: u8 = 15;
pub const DEEPEST: usize = 8;

// ---------------------------------------------------------------- tables

/// A file's four bodies, in page order and right or wrong: what is encoded.
#[derive(Clone, Default)]
pub struct Tables {
    pub durations: Vec<u32>,
    pub items: Vec<Entry>,
    pub messages: Vec<(u16, u16)>,
    pub text: Vec<u8>,
}

/// One entry of the item table.
#[derive(Clone, Copy, Default)]
pub struct Entry {
    pub kind: u8,
    pub synchrony: u8,
    pub error: u8,
    pub part: u8,
    pub delay: u32,
    pub event: u16,
    pub last: u16,
}

impl Entry {
    /// The entry that these 12 bytes are.
    fn of(bytes: &[u8]) -> Entry {
        Entry {
            kind: bytes[0],
            synchrony: bytes[1],
            error: bytes[2],
            part: bytes[3],
            delay: u32_at(bytes, 4) as u32,
            event: u16_at(bytes, 8) as u16,
            last: u16_at(bytes, 10) as u16,
        }
    }

    pub fn is_action(&self) -> bool {
        self.kind == 0
    }

    pub fn is_group(&self) -> bool {
        self.kind == 1
    }
}

// The two words of a group, as its entry has them.
pub const LOOSE: u8 = 0;
pub const TIGHT: u8 = 1;
pub const LOCAL: u8 = 0;
pub const GLOBAL: u8 = 1;
pub const PARTIAL: u8 = 2;
pub const CAUSAL: u8 = 3;

impl Tables {
    /// Adds a message whose label follows the text so far.
    pub fn add_message(&mut self, label: &[u8]) {
        self.messages
            .push((self.text.len() as u16, label.len() as u16));
        self.text.extend_from_slice(label);
    }

    /// The contents with right offsets and counts, then the bodies without gaps.
    pub fn encode(&self) -> Vec<u8> {
        let mut file = Vec::new();
        let mut offset = CONTENTS;
        for (count, size) in [
            (self.durations.len(), EVENT_BYTES),
            (self.items.len(), ITEM_BYTES),
            (self.messages.len(), MESSAGE_BYTES),
            (self.text.len(), 1),
        ] {
            file.extend_from_slice(&(offset as u32).to_le_bytes());
            file.extend_from_slice(&(count as u32).to_le_bytes());
            offset += count * size;
        }
        for duration in &self.durations {
            file.extend_from_slice(&duration.to_le_bytes());
        }
        for item in &self.items {
            file.extend_from_slice(&[item.kind, item.synchrony, item.error, item.part]);
            file.extend_from_slice(&item.delay.to_le_bytes());
            file.extend_from_slice(&item.event.to_le_bytes());
            file.extend_from_slice(&item.last.to_le_bytes());
        }
        for (start, length) in &self.messages {
            file.extend_from_slice(&start.to_le_bytes());
            file.extend_from_slice(&length.to_le_bytes());
        }
        file.extend_from_slice(&self.text);
        file
    }
}

// ------------------------------------------------------------------ tree

#[derive(Clone, Copy, PartialEq, Debug)]
pub enum Synchrony {
    Loose,
    Tight,
}

#[derive(Clone, Copy, PartialEq, Debug)]
pub enum ErrorWord {
    Local,
    Global,
    Partial,
    Causal,
}

/// An action or a group, with the delay written before it.
#[derive(Clone)]
pub struct Item {
    pub delay: i128,
    pub what: What,
}

#[derive(Clone)]
pub enum What {
    Action(Action),
    Group(Rc<Group>),
}

#[derive(Clone, Copy)]
pub struct Action {
    pub part: u64,
    pub message: usize,
    pub page: usize,
}

pub struct Group {
    pub synchrony: Synchrony,
    pub error: ErrorWord,
    pub body: Vec<Item>,
}

/// The top items of one part at one event.
pub struct Sequence {
    pub event: usize,
    pub part: u64,
    pub items: Vec<Item>,
}

pub struct Score {
    pub durations: Vec<i128>,
    pub sequences: Vec<Sequence>,
    pub labels: Vec<Vec<u8>>,
}

/// The tree of right items, group by group.
fn sequences(items: &[Entry]) -> Vec<Sequence> {
    let mut sequences: Vec<Sequence> = Vec::new();
    let mut index = 0;
    while index < items.len() {
        let event = usize::from(items[index].event);
        let part = u64::from(items[index].part);
        let (item, next) = tree(items, index);
        match sequences.last_mut() {
            Some(open) if (open.event, open.part) == (event, part) => open.items.push(item),
            _ => sequences.push(Sequence {
                event,
                part,
                items: vec![item],
            }),
        }
        index = next;
    }
    sequences
}

/// The item at `index` with all that is within it, and the index after that.
fn tree(items: &[Entry], index: usize) -> (Item, usize) {
    let entry = items[index];
    let delay = i128::from(entry.delay);
    if entry.is_action() {
        let what = What::Action(Action {
            part: u64::from(entry.part),
            message: usize::from(entry.last),
            page: index,
        });
        return (Item { delay, what }, index + 1);
    }
    let end = index + 1 + usize::from(entry.last);
    let mut body = Vec::new();
    let mut next = index + 1;
    while next < end {
        let (item, after) = tree(items, next);
        body.push(item);
        next = after;
    }
    let what = What::Group(Rc::new(Group {
        synchrony: match entry.synchrony {
            LOOSE => Synchrony::Loose,
            _ => Synchrony::Tight,
        },
        error: match entry.error {
            LOCAL => ErrorWord::Local,
            GLOBAL => ErrorWord::Global,
            PARTIAL => ErrorWord::Partial,
            _ => ErrorWord::Causal,
        },
        body,
    }));
    (Item { delay, what }, end)
}

// ----------------------------------------------------------------- check

#[derive(Clone, Copy, PartialEq, Debug)]
pub struct Refusal {
    pub number: u64,
    pub place: usize,
}

fn refuse<T>(number: u64, place: usize) -> Result<T, Refusal> {
    Err(Refusal { number, place })
}

fn u16_at(file: &[u8], place: usize) -> u64 {
    u64::from(u16::from_le_bytes([file[place], file[place + 1]]))
}

pub fn u32_at(file: &[u8], place: usize) -> u64 {
    let bytes = [
        file[place],
        file[place + 1],
        file[place + 2],
        file[place + 3],
    ];
    u64::from(u32::from_le_bytes(bytes))
}

/// The file check; a right file gives its tree.
pub fn read(file: &[u8]) -> Result<Score, Refusal> {
    let contents = contents(file)?;
    let durations = durations(file, &contents)?;
    let items = contents.items(file);
    let found = items::at_fault(&items, contents.counts[0], contents.counts[2]);
    if let Some((number, place)) = items::reply(&found) {
        return refuse(number, contents.offsets[1] + place);
    }
    let labels = read_labels(file, &contents)?;
    Ok(Score {
        durations,
        sequences: sequences(&items),
        labels,
    })
}

/// The reply number and place of the file check.
pub fn check(file: &[u8]) -> (u64, usize) {
    match read(file) {
        Ok(_) => (0, 0),
        Err(refusal) => (refusal.number, refusal.place),
    }
}

/// The items at fault; none where something before the items is.
pub fn items_at_fault(file: &[u8]) -> (Vec<Entry>, Vec<AtFault>) {
    let Ok(contents) = contents(file) else {
        return (Vec::new(), Vec::new());
    };
    if durations(file, &contents).is_err() {
        return (Vec::new(), Vec::new());
    }
    let items = contents.items(file);
    let found = items::at_fault(&items, contents.counts[0], contents.counts[2]);
    (items, found)
}

/// Right contents: how much each body has, and where it begins.
struct Contents {
    counts: [usize; 4],
    offsets: [usize; 4],
}

fn contents(file: &[u8]) -> Result<Contents, Refusal> {
    if file.len() < CONTENTS {
        return refuse(3, 0);
    }

    // All four counts before any offset.
    let limits = [
        (1, MOST_EVENTS),
        (0, MOST_ITEMS),
        (0, MOST_MESSAGES),
        (0, MOST_TEXT),
    ];
    let mut counts = [0usize; 4];
    for (body, (low, high)) in limits.into_iter().enumerate() {
        let place = 8 * body + 4;
        let count = u32_at(file, place);
        if count < low || count > high {
            return refuse(4, place);
        }
        counts[body] = count as usize;
    }

    let sizes = [EVENT_BYTES, ITEM_BYTES, MESSAGE_BYTES, 1];
    let mut offsets = [0usize; 4];
    let mut end = CONTENTS;
    for body in 0..4 {
        let place = 8 * body;
        if u32_at(file, place) != end as u64 {
            return refuse(5, place);
        }
        offsets[body] = end;
        end += counts[body] * sizes[body];
    }
    if file.len() != end {
        return refuse(5, 0);
    }
    Ok(Contents { counts, offsets })
}

impl Contents {
    fn items(&self, file: &[u8]) -> Vec<Entry> {
        let table = &file[self.offsets[1]..self.offsets[2]];
        table.chunks_exact(ITEM_BYTES).map(Entry::of).collect()
    }
}

fn durations(file: &[u8], contents: &Contents) -> Result<Vec<i128>, Refusal> {
    let mut durations = Vec::new();
    for number in 0..contents.counts[0] {
        let place = contents.offsets[0] + EVENT_BYTES * number;
        let duration = u32_at(file, place);
        if duration < 1 || duration > u64::from(LONGEST_TIME) {
            return refuse(6, place);
        }
        durations.push(i128::from(duration));
    }
    Ok(durations)
}

/// Entry by entry, each with its own label bytes before the next.
fn read_labels(file: &[u8], contents: &Contents) -> Result<Vec<Vec<u8>>, Refusal> {
    let [_, _, count, text_count] = contents.counts;
    let [_, _, entries, text] = contents.offsets;
    let mut labels = Vec::new();
    let mut used = 0;
    for number in 0..count {
        let place = entries + MESSAGE_BYTES * number;
        let start = u16_at(file, place) as usize;
        let length = u16_at(file, place + 2) as usize;
        if start != used || !(1..=LONGEST_LABEL).contains(&length) || start + length > text_count {
            return refuse(8, place);
        }
        let label = &file[text + start..text + start + length];
        for &byte in label {
            let refused = byte < 32 || (byte == 127 && !mutant::is(mutant::BYTE_127_ACCEPTED));
            if refused {
                return refuse(8, place);
            }
        }
        labels.push(label.to_vec());
        used = start + length;
    }
    if used != text_count {
        return refuse(8, 24);
    }
    Ok(labels)
}
