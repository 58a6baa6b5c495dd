//! The upper limits that need a large file, and one beyond them.
//!
//! With one event item i starts at 36 + 12 i.

use crate::base::one_event;
use crate::book::Book;
use crate::rules::{Rule, ACTIONS, DELAY, ERROR, EVENT, KIND, MESSAGE, NESTING, PART, SYNCHRONY};
use crate::score::{action, group, Item, Score};
use crate::sound::chain;

pub fn add(book: &mut Book) {
    items(book);
    actions(book);
    broken_action(book);
    messages(book);
    text(book);
    largest(book);
}

fn top(count: usize) -> Vec<Item> {
    vec![action(1, 0, 0); count]
}

fn inner(count: usize) -> Vec<Item> {
    vec![action(0, 0, 0); count]
}

/// "Items: 0 to 2,048".
fn items(book: &mut Book) {
    let empty = |count| one_event(&vec![group(1, 0, 0); count]).bytes();
    book.sound("items-2048", empty(2_048), 0, b"x");
    // "a count outside its limits": the items' count, at byte 12.
    book.refused("items-2049", empty(2_049), 4, 12);
}

/// "of them at most 1,024 actions"; "for the number of actions still the item's
/// first byte". Actions are counted at every depth, in the order of the table.
fn actions(book: &mut Book) {
    let mut sound = |name: &str, items: &[Vec<Item>]| {
        book.sound(name, one_event(&items.concat()).bytes(), 0, b"x");
    };
    let g = |event, last| vec![group(event, 0, last)];
    sound("actions-1024-top", &[top(1_024)]);
    sound("actions-1024-nested", &[g(1, 1_024), inner(1_024)]);
    // Groups after the 1,024th action are no actions.
    sound("actions-1024-then-groups", &[top(1_024), g(1, 1), g(0, 0)]);

    let mut bad = |name: &str, items: &[Vec<Item>], item| {
        book.breaks(name, one_event(&items.concat()).bytes(), ACTIONS, item);
    };
    // Item 1,024.
    bad("actions-1025-top", &[top(1_025)], 12_324);
    // The group is item 0, the actions are items 1 to 1,025.
    bad("actions-1025-nested", &[g(1, 1_025), inner(1_025)], 12_336);
    // 1,024 within the group and one after it: item 1,025.
    bad("actions-1025-after-group", &[g(1, 1_024), inner(1_024), top(1)], 12_336);
    // Items 0 to 1,023, an empty group, a group, its action: item 1,026.
    bad("actions-1025-in-later-group", &[top(1_024), g(1, 0), g(1, 1), inner(1)], 12_348);
    // A group (item 0), 512 actions (1 to 512), an inner group (513) and 513
    // actions in it (514 to 1,026): item 1,026.
    bad("actions-1025-deep", &[g(1, 1_026), inner(512), g(0, 513), inner(513)], 12_348);
    // "from front to back": a bad item after it and before it (item 1,023).
    let words = || vec![action(1, 0, 0).words(1, 0)];
    bad("actions-1025-field-after", &[top(1_025), words()], 12_324);
    let before = one_event(&[top(1_023), words(), top(1)].concat());
    book.breaks("actions-1025-field-before", before.bytes(), SYNCHRONY, 12_312);
    // 27 before 8: a bad label as well.
    let score = one_event(&top(1_025)).with(|s| s.text[0] = 0);
    book.breaks("actions-1025-and-label", score.bytes(), ACTIONS, 12_324);
    // A full table of 1,023 groups and 1,025 actions: its last item, 2,047.
    let full = [vec![group(1, 0, 0); 1_023], top(1_025)].concat();
    book.breaks("actions-1025-of-2048", one_event(&full).bytes(), ACTIONS, 24_600);
}

/// The 1,025th action, item 1,024, breaks another rule as well: "number of
/// actions" is the last of them.
fn broken_action(book: &mut Book) {
    type Damage = (&'static str, Rule, fn(&mut Item));
    let damages: [Damage; 7] = [
        // Of kind 2 it is no action at all.
        ("kind", KIND, |i| i.kind = 2),
        ("synchrony", SYNCHRONY, |i| i.synchrony = 1),
        ("error", ERROR, |i| i.error = 3),
        ("part", PART, |i| i.part = 16),
        ("delay", DELAY, |i| i.delay = 5_040_001),
        ("event", EVENT, |i| i.event = 0),
        ("message", MESSAGE, |i| i.last = 1),
    ];
    for (name, rule, damage) in damages {
        let bad = one_event(&top(1_025)).with(|s| damage(&mut s.items[1_024]));
        book.breaks(format!("actions-1025-and-{name}"), bad.bytes(), rule, 12_324);
    }
    // At depth 9: items 0 to 1,023, eight groups, item 1,032.
    let deep = one_event(&[top(1_024), chain(7, 1), inner(1)].concat());
    book.breaks("actions-1025-and-depth", deep.bytes(), NESTING, 12_420);
}

/// "Messages: 0 to 512". One item, so message i starts at 48 + 4 i.
fn messages(book: &mut Book) {
    let text: Vec<u8> = (0..512).map(|i| if i < 256 { b'a' } else { b'b' }).collect();
    let labels: Vec<&[u8]> = text.chunks(1).collect();
    let score = |number| Score::new(&[5_040], &[action(1, 0, number)], &labels);
    let file = score(511).bytes();
    book.sound("messages-512-look-first", file.clone(), 0, b"a");
    book.sound("messages-512-look-255", file.clone(), 255, b"a");
    book.sound("messages-512-look-256", file.clone(), 256, b"b");
    book.sound("messages-512-look-last", file.clone(), 511, b"b");
    book.no_message("messages-512-look-count", file, 512);
    // "below the message count"
    book.breaks("message-number-512-of-512", score(512).bytes(), MESSAGE, 36);
    // The last label, the last entry: 48 + 4 x 511.
    let bad = score(511).with(|s| s.text[511] = 127);
    book.refused("messages-512-last-label", bad.bytes(), 8, 2_092);
    let bad = score(511).with(|s| s.messages[511].start = 510);
    book.refused("messages-512-last-entry", bad.bytes(), 8, 2_092);
    // Message 256: 48 + 4 x 256.
    let bad = score(511).with(|s| s.messages[256].start = 0);
    book.refused("messages-512-entry-256", bad.bytes(), 8, 1_072);
}

/// The label of message `number` in a file of 512: 48 bytes, three digits and
/// then 45 of the allowed bytes.
fn label(number: usize) -> Vec<u8> {
    let allowed: Vec<u8> = (32..=126).chain(128..=255).collect();
    let mut label = format!("{number:03}").into_bytes();
    label.extend((0..45).map(|i| allowed[(number + 5 * i) % allowed.len()]));
    label
}

fn labels() -> Vec<Vec<u8>> {
    (0..512).map(label).collect()
}

/// "text: 0 to 24,576 bytes": 512 labels of 48.
fn text(book: &mut Book) {
    let labels = labels();
    let labels: Vec<&[u8]> = labels.iter().map(|label| &label[..]).collect();
    let score = Score::new(&[5_040], &[], &labels);
    book.sound("text-24576-look-first", score.bytes(), 0, &label(0));
    book.sound("text-24576-look-middle", score.bytes(), 256, &label(256));
    // One byte more: the text's count, at byte 28.
    let bad = score.with(|s| s.text.push(b'x'));
    book.refused("text-24577", bad.bytes(), 4, 28);
    // 511 messages: "entries right, text not used up".
    let bad = score.with(|s| s.messages.truncate(511));
    book.refused("text-24576-left", bad.bytes(), 8, 24);
}

/// 256 events, 2,048 items of which 1,024 are actions, depth 8, 512 messages of
/// 48 bytes; 52,256 bytes. Every even event has a group of seven actions, every
/// odd one seven groups within each other and an action at depth 8: eight items
/// each.
fn largest_score() -> Score {
    let mut items = Vec::new();
    let mut message = 0;
    for event in 1..=256 {
        let part = ((event - 1) % 16) as u8;
        let groups = if event % 2 == 1 { 7 } else { 1 };
        for i in 0..8 {
            let named = if i == 0 { event } else { 0 };
            let item = if i < groups {
                group(named, part, 7 - i).words((i % 2) as u8, (i % 4) as u8)
            } else {
                message += 1;
                action(named, part, (message - 1) % 512)
            };
            items.push(item.after(5_040_000));
        }
    }
    let labels = labels();
    let labels: Vec<&[u8]> = labels.iter().map(|label| &label[..]).collect();
    Score::new(&[5_040_000; 256], &items, &labels)
}

/// The bodies start at 32, 32 + 4 x 256 = 1,056, 1,056 + 12 x 2,048 = 25,632
/// and 25,632 + 4 x 512 = 27,680; the end is 27,680 + 24,576 = 52,256.
fn largest(book: &mut Book) {
    let score = largest_score();
    book.sound("largest-look-last", score.bytes(), 511, &label(511));
    book.no_message("largest-look-count", score.bytes(), 512);
    // The last item, 1,056 + 12 x 2,047, an action.
    let bad = score.with(|s| s.items[2_047].last = 512);
    book.breaks("largest-last-item", bad.bytes(), MESSAGE, 25_620);
    // The last label's last byte; its entry is at 25,632 + 4 x 511.
    let bad = score.with(|s| s.text[24_575] = 127);
    book.refused("largest-last-label", bad.bytes(), 8, 27_676);
}

#[cfg(test)]
mod tests {
    /// The largest file is what it is said to be.
    #[test]
    fn largest_is_full() {
        let score = super::largest_score();
        assert_eq!(score.events.len(), 256);
        assert_eq!(score.items.len(), 2_048);
        assert_eq!(score.items.iter().filter(|item| item.kind == 0).count(), 1_024);
        assert_eq!(score.messages.len(), 512);
        assert_eq!(score.text.len(), 24_576);
        assert_eq!(score.bytes().len(), 52_256);
    }
}
