//! The extended score with the largest result, for counting instructions: 256
//! events, 2,048 items of which 1,024 are actions, all of them a curve's values,
//! and 512 messages. 511 of those stand in it, 48 bytes each; every value has the
//! last one, so that each is searched to the list's end.

/// An item's 20 bytes: tight and causal, at an event and of its part, or within.
struct Folded {
    kind: u8,
    part: u8,
    event: u16,
    last: u16,
    each: u32,
    times: u16,
}

const BEAT: u32 = 5_040;
const GROUP: u8 = 1;
const LOOP: u8 = 2;
const CURVE: u8 = 3;

/// A loop of 2 passes over a curve of 2 values: 9 items, 4 of them actions.
fn looped(event: u16) -> [Folded; 2] {
    let part = (event % 16) as u8;
    [
        Folded { kind: LOOP, part, event, last: 1, each: BEAT, times: 2 },
        Folded { kind: CURVE, part, event: 0, last: 0, each: BEAT / 8, times: 2 },
    ]
}

/// A curve of 4 values in two groups: 7 items, 4 of them actions.
fn grouped(event: u16) -> [Folded; 3] {
    let part = (event % 16) as u8;
    [
        Folded { kind: GROUP, part, event, last: 2, each: 0, times: 0 },
        Folded { kind: GROUP, part, event: 0, last: 1, each: 0, times: 0 },
        Folded { kind: CURVE, part, event: 0, last: 0, each: BEAT / 8, times: 2 },
    ]
}

fn points(steps: u32) -> Vec<u8> {
    let mut bytes = Vec::new();
    for span in [steps * (BEAT / 8), 0] {
        bytes.extend_from_slice(&i32::MIN.to_le_bytes());
        bytes.extend_from_slice(&span.to_le_bytes());
    }
    bytes
}

fn item_bytes(item: &Folded) -> Vec<u8> {
    let mut bytes = vec![item.kind, 1, 3, item.part];
    bytes.extend_from_slice(&(BEAT / 8).to_le_bytes());
    bytes.extend_from_slice(&item.event.to_le_bytes());
    bytes.extend_from_slice(&item.last.to_le_bytes());
    bytes.extend_from_slice(&item.each.to_le_bytes());
    bytes.extend_from_slice(&item.times.to_le_bytes());
    bytes.extend_from_slice(&[0, 0]);
    bytes
}

/// "Contents 40 bytes: offset and count for events, items, messages, text bytes
/// and points", then "tables without gaps".
fn filed(tables: [(usize, Vec<u8>); 5]) -> Vec<u8> {
    let mut file = Vec::new();
    let mut offset = 40;
    for (count, bytes) in &tables {
        file.extend_from_slice(&(offset as u32).to_le_bytes());
        file.extend_from_slice(&(*count as u32).to_le_bytes());
        offset += bytes.len();
    }
    for (_, bytes) in tables {
        file.extend(bytes);
    }
    file
}

pub fn bytes() -> Vec<u8> {
    let mut items = Vec::new();
    let mut curves = Vec::new();
    for event in 1..=256 {
        if event % 2 == 1 {
            items.extend(looped(event));
            curves.extend(points(1));
        } else {
            items.extend(grouped(event));
            curves.extend(points(3));
        }
    }
    let events: Vec<u8> = (0..256).flat_map(|_| BEAT.to_le_bytes()).collect();
    let messages: Vec<u8> = (0..511u16)
        .flat_map(|n| [(48 * n).to_le_bytes(), 48u16.to_le_bytes()].concat())
        .collect();
    let text: Vec<u8> = (0..511).flat_map(|_| 200..248).collect();
    let rows: Vec<u8> = items.iter().flat_map(item_bytes).collect();
    filed([
        (256, events),
        (items.len(), rows),
        (511, messages),
        (text.len(), text),
        (curves.len() / 8, curves),
    ])
}
