//! Small scores as they are written by hand in the words.

use crate::score::{Entry, Tables};
use Node::{Action, Group};

/// A delay and a letter; or a delay, the two words and what is within.
pub enum Node {
    Action(u32, u8),
    Group(u32, u8, u8, &'static [Node]),
}

/// E is 0, 10,080 and 15,120.
pub const THREE: &[u32] = &[10_080, 5_040, 5_040];
/// E is 0, 10,080, 15,120 and 20,160.
pub const FOUR: &[u32] = &[10_080, 5_040, 5_040, 5_040];

/// A score with these top items, each with its event and part.
pub fn score<'n>(durations: &[u32], tops: impl IntoIterator<Item = (u16, u8, &'n Node)>) -> Tables {
    let mut tables = Tables {
        durations: durations.to_vec(),
        ..Tables::default()
    };
    for letter in b"abcd" {
        tables.add_message(&[*letter]);
    }
    for (event, part, top) in tops {
        put(&mut tables, top, event, part);
    }
    tables
}

fn put(tables: &mut Tables, node: &Node, event: u16, part: u8) {
    match *node {
        Action(delay, letter) => tables.items.push(Entry {
            part,
            delay,
            event,
            last: u16::from(letter - b'a'),
            ..Entry::default()
        }),
        Group(delay, synchrony, error, body) => {
            let index = tables.items.len();
            tables.items.push(Entry {
                kind: 1,
                synchrony,
                error,
                part,
                delay,
                event,
                ..Entry::default()
            });
            for inner in body {
                put(tables, inner, 0, part);
            }
            tables.items[index].last = (tables.items.len() - index - 1) as u16;
        }
    }
}
