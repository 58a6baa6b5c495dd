//! The extended score: its tables, its bytes, and what in it can't be unfolded
//! (number 17). Nothing here follows the score's own nesting by recursion.

use crate::mutant;
use crate::score::{u32_at, Entry, Tables, EVENT_BYTES, LONGEST_TIME, MESSAGE_BYTES};

pub const CONTENTS: usize = 40;
pub const ITEM_BYTES: usize = 20;
pub const POINT_BYTES: usize = 8;

pub const ACTION: u8 = 0;
pub const GROUP: u8 = 1;
pub const LOOP: u8 = 2;
pub const CURVE: u8 = 3;

pub const MOST_PASSES: u16 = 256;

// ---------------------------------------------------------------- tables

/// The five bodies, in page order and right or wrong.
#[derive(Clone, Default)]
pub struct Extended {
    pub durations: Vec<u32>,
    pub items: Vec<Figure>,
    pub messages: Vec<(u16, u16)>,
    pub text: Vec<u8>,
    pub points: Vec<Point>,
}

/// One entry of the item table: the 12 bytes of document 01, a loop's period or a
/// curve's step, its passes or points, and two bytes of 0.
#[derive(Clone, Copy, Default)]
pub struct Figure {
    pub entry: Entry,
    pub each: u32,
    pub times: u16,
    pub pad: u16,
}

#[derive(Clone, Copy, Default)]
pub struct Point {
    pub value: i32,
    /// Grains to the next point of its curve.
    pub span: u32,
}

impl Figure {
    /// Does `last` say how many following items lie within it?
    pub fn holds(&self) -> bool {
        self.entry.kind == GROUP || self.entry.kind == LOOP
    }

    /// How many following items lie within it.
    pub fn within(&self) -> usize {
        if self.holds() {
            usize::from(self.entry.last)
        } else {
            0
        }
    }

    /// How many points it takes from the table.
    pub fn points(&self) -> usize {
        if self.entry.kind == CURVE {
            usize::from(self.times)
        } else {
            0
        }
    }
}

impl Extended {
    /// An ordinary score, with no loop or curve.
    pub fn of_tables(tables: Tables) -> Extended {
        let plain = |&entry: &Entry| Figure {
            entry,
            ..Figure::default()
        };
        Extended {
            items: tables.items.iter().map(plain).collect(),
            durations: tables.durations,
            messages: tables.messages,
            text: tables.text,
            points: Vec::new(),
        }
    }

    /// Adds a message whose label follows the text so far.
    pub fn add_message(&mut self, label: &[u8]) {
        self.messages
            .push((self.text.len() as u16, label.len() as u16));
        self.text.extend_from_slice(label);
    }

    /// For each item, where in the table the points begin that it takes.
    pub fn first_points(&self) -> Vec<usize> {
        let mut used = 0;
        let mut first = Vec::new();
        for item in &self.items {
            first.push(used);
            used += item.points();
        }
        first
    }

    /// The contents with right offsets and counts, then the bodies without gaps.
    pub fn encode(&self) -> Vec<u8> {
        let mut file = Vec::new();
        let mut offset = CONTENTS;
        for (count, size) in [
            (self.durations.len(), EVENT_BYTES),
            (self.items.len(), ITEM_BYTES),
            (self.messages.len(), MESSAGE_BYTES),
            (self.text.len(), 1),
            (self.points.len(), POINT_BYTES),
        ] {
            file.extend((offset as u32).to_le_bytes());
            file.extend((count as u32).to_le_bytes());
            offset += count * size;
        }
        for duration in &self.durations {
            file.extend(duration.to_le_bytes());
        }
        for item in &self.items {
            item.encode(&mut file);
        }
        for (start, length) in &self.messages {
            file.extend(start.to_le_bytes());
            file.extend(length.to_le_bytes());
        }
        file.extend_from_slice(&self.text);
        for point in &self.points {
            file.extend(point.value.to_le_bytes());
            file.extend(point.span.to_le_bytes());
        }
        file
    }
}

impl Figure {
    fn encode(&self, file: &mut Vec<u8>) {
        let entry = &self.entry;
        file.extend([entry.kind, entry.synchrony, entry.error, entry.part]);
        file.extend(entry.delay.to_le_bytes());
        file.extend(entry.event.to_le_bytes());
        file.extend(entry.last.to_le_bytes());
        file.extend(self.each.to_le_bytes());
        file.extend(self.times.to_le_bytes());
        file.extend(self.pad.to_le_bytes());
    }

    fn decode(bytes: &[u8]) -> Figure {
        Figure {
            entry: Entry {
                kind: bytes[0],
                synchrony: bytes[1],
                error: bytes[2],
                part: bytes[3],
                delay: u32_at(bytes, 4) as u32,
                event: u16_at(bytes, 8),
                last: u16_at(bytes, 10),
            },
            each: u32_at(bytes, 12) as u32,
            times: u16_at(bytes, 16),
            pad: u16_at(bytes, 18),
        }
    }
}

fn u16_at(bytes: &[u8], place: usize) -> u16 {
    u16::from_le_bytes([bytes[place], bytes[place + 1]])
}

// ---------------------------------------------------------------- faults

/// A refusal and the rule that is behind it.
#[derive(Clone, Copy, PartialEq, Debug)]
pub struct Fault {
    pub number: u64,
    pub place: usize,
    pub why: Why,
}

#[derive(Clone, Copy, PartialEq, Debug)]
pub enum Why {
    Room,
    // 17 at 0.
    Short,
    Offset,
    Length,
    PointsLeftOver,
    // 17 at the item.
    Kind,
    EndsPastItsHolder,
    Period,
    Passes,
    Step,
    NoPoints,
    TooFewPoints,
    LastOfACurve,
    Span,
    LastSpan,
    Each,
    Times,
    Pad,
    // 18.
    Events,
    Items,
    Actions,
    Messages,
    Text,
    Depth,
    /// The unfolded file's own check.
    File,
}

pub fn fault(number: u64, place: usize, why: Why) -> Fault {
    Fault { number, place, why }
}

// --------------------------------------------------------------- reading

/// The tables that the contents tell of: "17 at 0: under 40 bytes; an offset or
/// the length that isn't as above".
pub fn tables(input: &[u8]) -> Result<Extended, Fault> {
    if input.len() < CONTENTS {
        return Err(fault(17, 0, Why::Short));
    }
    let sizes = [EVENT_BYTES, ITEM_BYTES, MESSAGE_BYTES, 1, POINT_BYTES];
    let mut ends = vec![CONTENTS as u64];
    for (body, size) in sizes.into_iter().enumerate() {
        let offset = ends[body];
        if u32_at(input, 8 * body) != offset {
            return Err(fault(17, 0, Why::Offset));
        }
        let count = u32_at(input, 8 * body + 4);
        ends.push(offset + count * size as u64);
    }
    if ends[5] != input.len() as u64 {
        return Err(fault(17, 0, Why::Length));
    }
    let entries = |body: usize| {
        let bytes = &input[ends[body] as usize..ends[body + 1] as usize];
        bytes.chunks_exact(sizes[body])
    };
    Ok(Extended {
        durations: entries(0).map(|bytes| u32_at(bytes, 0) as u32).collect(),
        items: entries(1).map(Figure::decode).collect(),
        messages: entries(2)
            .map(|bytes| (u16_at(bytes, 0), u16_at(bytes, 2)))
            .collect(),
        text: entries(3).map(|bytes| bytes[0]).collect(),
        points: entries(4)
            .map(|bytes| Point {
                value: u32_at(bytes, 0) as u32 as i32,
                span: u32_at(bytes, 4) as u32,
            })
            .collect(),
    })
}

impl Extended {
    /// The items from front to back, the first that can't be unfolded at its first
    /// byte; "last of all, points left over".
    pub fn check_items(&self) -> Result<(), Fault> {
        let first_byte = CONTENTS + EVENT_BYTES * self.durations.len();
        // Where the table ends, and every group or loop that is open.
        let mut ends = vec![self.items.len()];
        let mut used = 0;
        for (index, item) in self.items.iter().enumerate() {
            while ends.len() > 1 && ends[ends.len() - 1] == index {
                ends.pop();
            }
            let after = index + 1 + item.within();
            let against = if after > ends[ends.len() - 1] {
                Some(Why::EndsPastItsHolder)
            } else {
                self.against(item, used)
            };
            if let Some(why) = against {
                return Err(fault(17, first_byte + ITEM_BYTES * index, why));
            }
            if item.holds() {
                ends.push(after);
            }
            used += item.points();
        }
        if used != self.points.len() {
            return Err(fault(17, 0, Why::PointsLeftOver));
        }
        Ok(())
    }

    /// What in the item's own fields can't be unfolded; `used` points are taken by
    /// the curves before it.
    fn against(&self, item: &Figure, used: usize) -> Option<Why> {
        if item.pad != 0 && !mutant::is(mutant::PAD_NOT_LOOKED_AT) {
            return Some(Why::Pad);
        }
        match item.entry.kind {
            ACTION | GROUP if item.each != 0 => Some(Why::Each),
            ACTION | GROUP if item.times != 0 => Some(Why::Times),
            ACTION | GROUP => None,
            LOOP => against_loop(item),
            CURVE => self.against_curve(item, used),
            _ => Some(Why::Kind),
        }
    }

    fn against_curve(&self, item: &Figure, used: usize) -> Option<Why> {
        if item.each < 1 || item.each > LONGEST_TIME {
            return Some(Why::Step);
        }
        if item.entry.last != 0 {
            return Some(Why::LastOfACurve);
        }
        if item.times == 0 {
            return Some(Why::NoPoints);
        }
        let end = used + item.points();
        if end > self.points.len() {
            return Some(Why::TooFewPoints);
        }
        // "A span is at least one step and a multiple of it", "0 at the last".
        for point in &self.points[used..end - 1] {
            if point.span < item.each || point.span % item.each != 0 {
                return Some(Why::Span);
            }
        }
        if self.points[end - 1].span != 0 {
            return Some(Why::LastSpan);
        }
        None
    }
}

fn against_loop(item: &Figure) -> Option<Why> {
    let most = MOST_PASSES + u16::from(mutant::is(mutant::PASSES_257_LET_IN));
    if item.each > LONGEST_TIME {
        return Some(Why::Period);
    }
    if item.times < 1 || item.times > most {
        return Some(Why::Passes);
    }
    None
}
