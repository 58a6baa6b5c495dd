//! The largest score, for counting instructions: 256 events, 2,048 items of
//! which 1,024 are actions, depth 8, every group tight and causal, 512 messages
//! of 48 bytes. 52,256 bytes.

use crate::score::{action, group, Item, Score};

const BEAT: u32 = 5_040;
const TIGHT: u8 = 1;
const CAUSAL: u8 = 3;

/// Groups nested `depth` deep at an event, and four actions in the innermost,
/// half a beat after each other: so the later ones fall to later events.
fn nest(event: u16, depth: u16, first: u16) -> Vec<Item> {
    let part = (event % 16) as u8;
    let mut items = Vec::new();
    for level in 0..depth {
        let at = if level == 0 { event } else { 0 };
        items.push(group(at, part, depth - 1 - level + 4).words(TIGHT, CAUSAL).after(BEAT / 8));
    }
    for i in 0..4 {
        items.push(action(0, part, (first + i) % 512).after(BEAT / 2));
    }
    items
}

/// Odd events have 7 groups and 4 actions at depth 8, even ones 1 group and 4
/// actions at depth 2.
pub fn score() -> Score {
    let mut items = Vec::new();
    for event in 1..=256 {
        let depth = if event % 2 == 1 { 7 } else { 1 };
        items.extend(nest(event, depth, 4 * event));
    }
    let label: Vec<u8> = (0..48).map(|i| 200 + i).collect();
    Score::new(&[BEAT; 256], &items, &vec![&label[..]; 512])
}
