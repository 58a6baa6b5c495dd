//! An extended score as it is written down, and its bytes. Nothing here unfolds it.

use crate::score::Item;

/// "Item: 20 bytes [..]: the 12 of document 01, then `each` (u32) and `times` (u16), then two bytes of 0".
pub struct Folded {
    pub item: Item,
    pub each: u32,
    pub times: u16,
}

/// "Kind 2 is a loop": the group's fields, its period and its passes.
pub fn a_loop(group: Item, period: u32, passes: u16) -> Folded {
    Folded { item: Item { kind: 2, ..group }, each: period, times: passes }
}

/// "3 a curve": the group's fields, its step and how many points it has.
pub fn a_curve(group: Item, step: u32, points: u16) -> Folded {
    Folded { item: Item { kind: 3, ..group }, each: step, times: points }
}

/// An action or a group as it is.
pub fn plain(item: Item) -> Folded {
    Folded { item, each: 0, times: 0 }
}

/// "value (i32) and span (u32) to the next point of its curve, 0 at the last".
pub struct Point {
    pub value: i32,
    pub span: u32,
}

pub struct Extended {
    pub events: Vec<u32>,
    pub items: Vec<Folded>,
    pub labels: Vec<&'static str>,
    pub points: Vec<Point>,
}

impl Extended {
    /// "Contents 40 bytes: offset and count for events, items, messages, text bytes and points", "tables without gaps".
    pub fn bytes(&self) -> Vec<u8> {
        let text: String = self.labels.concat();
        let mut file = Vec::new();
        let mut offset = 40;
        let tables = [
            (self.events.len(), 4),
            (self.items.len(), 20),
            (self.labels.len(), 4),
            (text.len(), 1),
            (self.points.len(), 8),
        ];
        for (count, size) in tables {
            file.extend_from_slice(&(offset as u32).to_le_bytes());
            file.extend_from_slice(&(count as u32).to_le_bytes());
            offset += count * size;
        }
        for duration in &self.events {
            file.extend_from_slice(&duration.to_le_bytes());
        }
        for Folded { item, each, times } in &self.items {
            file.extend_from_slice(&[item.kind, item.synchrony, item.error, item.part]);
            file.extend_from_slice(&item.delay.to_le_bytes());
            file.extend_from_slice(&item.event.to_le_bytes());
            file.extend_from_slice(&item.last.to_le_bytes());
            file.extend_from_slice(&each.to_le_bytes());
            file.extend_from_slice(&times.to_le_bytes());
            file.extend_from_slice(&[0, 0]);
        }
        let mut start = 0;
        for label in &self.labels {
            file.extend_from_slice(&(start as u16).to_le_bytes());
            file.extend_from_slice(&(label.len() as u16).to_le_bytes());
            start += label.len();
        }
        file.extend_from_slice(text.as_bytes());
        for point in &self.points {
            file.extend_from_slice(&point.value.to_le_bytes());
            file.extend_from_slice(&point.span.to_le_bytes());
        }
        file
    }
}
