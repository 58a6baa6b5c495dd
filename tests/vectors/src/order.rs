//! "Order of checks. File check: 3, 4, 5, then 6, 7 and 8 over the file from
//! front to back", with "20 to 27 in that order, where 7 stood": the first bad
//! entry decides. What comes before 6 is in `contents`, two rules broken in one
//! item are in `pairs`.

use crate::base::{base, one_event, two_events};
use crate::book::Book;
use crate::rules::{Rule, DELAY, ERROR, EVENT, KIND, MESSAGE, NESTING, PART, SYNCHRONY};
use crate::score::{action, group, Score};
use crate::sound::chain;

pub fn add(book: &mut Book) {
    between_bodies(book);
    two_items(book);
    two_messages(book);
}

fn between_bodies(book: &mut Book) {
    let mut bad = |name: &str, number, place, damage: fn(&mut Score)| {
        book.refused(name, base().with(damage).bytes(), number, place);
    };
    bad("faults-event-item-message", 6, 36, |s| {
        s.events[1] = 0;
        s.items[1].kind = 2;
        s.messages[1].length = 0;
    });
    bad("faults-last-event-first-item", 6, 40, |s| {
        s.events[2] = 5_040_001;
        s.items[0].part = 16;
    });
    bad("faults-event-message", 6, 40, |s| {
        s.events[2] = 0;
        s.text[0] = 0;
    });
    bad("faults-event-text-left", 6, 32, |s| {
        s.events[0] = 0;
        s.text.push(b'l');
    });
    bad("faults-item-message", 21, 80 + 2, |s| {
        s.items[3].error = 4;
        s.messages[1].start = 4;
    });
    bad("faults-last-item-first-message", 23, 128 + 4, |s| {
        s.items[7].delay = 5_040_001;
        s.messages[0].start = 1;
    });
    bad("faults-item-label", 26, 128 + 10, |s| {
        s.items[7].last = 3;
        s.text[0] = 127;
    });
    bad("faults-item-text-left", 21, 44 + 1, |s| {
        s.items[0].synchrony = 1;
        s.text.push(b'l');
    });
    // An entry or a label before the text left over: "entries right".
    bad("faults-entry-text-left", 8, 148, |s| {
        s.messages[2].start = 9;
        s.text.push(b'l');
    });
    bad("faults-label-text-left", 8, 140, |s| {
        s.text[1] = 31;
        s.text.push(b'l');
    });
    bad("faults-last-label-text-left", 8, 148, |s| {
        s.text[10] = 127;
        s.text.push(b'l');
    });
}

/// Two bad items of different kinds: rules about one item alone and rules about
/// where it stands go together, item by item.
fn two_items(book: &mut Book) {
    let mut bad = |name: &str, rule: Rule, item, damage: fn(&mut Score)| {
        book.breaks(name, base().with(damage).bytes(), rule, item);
    };
    bad("items-first-and-last", KIND, 44, |s| {
        s.items[0].kind = 2;
        s.items[7].kind = 2;
    });
    bad("items-two-neighbours", DELAY, 68, |s| {
        s.items[2].delay = 5_040_001;
        s.items[3].delay = 5_040_001;
    });
    // Order (item 5 stands before item 1) and a field, either way round.
    bad("items-order-then-field", EVENT, 104, |s| {
        s.items[1].event = 3;
        s.items[6].kind = 2;
    });
    bad("items-field-then-order", SYNCHRONY, 92, |s| {
        s.items[1].event = 3;
        s.items[4].synchrony = 1;
    });
    // A group that runs over its holder and a field, either way round.
    bad("items-overrun-then-field", NESTING, 80, |s| {
        s.items[3].last = 2;
        s.items[4].error = 1;
    });
    bad("items-field-then-overrun", ERROR, 68, |s| {
        s.items[2].error = 1;
        s.items[3].last = 2;
    });
    // A top group that runs over the table, its first item bad as well.
    bad("items-overrun-table-then-inner", NESTING, 56, |s| {
        s.items[1].last = 7;
        s.items[2].kind = 255;
    });
    // The last group runs over the table, an inner item far before it is bad.
    bad("items-inner-then-overrun-table", PART, 92, |s| {
        s.items[4].part = 2;
        s.items[7].kind = 1;
    });
    // The body of a group before the top items after it.
    bad("items-deep-then-top", EVENT, 92, |s| {
        s.items[4].event = 1;
        s.items[5].event = 0;
    });
    bad("items-top-then-inner", EVENT, 56, |s| {
        s.items[1].event = 4;
        s.items[2].event = 1;
    });
    // A message number too high and an order fault after it.
    bad("items-message-number-then-order", MESSAGE, 68, |s| {
        s.items[2].last = 3;
        s.items[1].event = 3;
    });
    bad("items-order-then-message-number", EVENT, 116, |s| {
        s.items[6].event = 1;
        s.items[7].last = 3;
    });
    // Depth 9 is item 8, at 36 + 12 x 8; a bad item after it and before it.
    let a = || action(0, 0, 0);
    let deep = one_event(&[chain(7, 1), vec![a(), action(2, 0, 0)]].concat());
    book.breaks("items-depth-then-field", deep.bytes(), NESTING, 132);
    let deep = one_event(&[chain(7, 1), vec![a()]].concat()).with(|s| s.items[7].error = 4);
    book.breaks("items-field-then-depth", deep.bytes(), ERROR, 36 + 12 * 7);
    // A group at depth 8 that runs over its holder, with an item at depth 9.
    let deep = one_event(&[chain(7, 1), vec![a(), a()]].concat()).with(|s| s.items[7].last = 2);
    book.breaks("items-overrun-then-depth", deep.bytes(), NESTING, 36 + 12 * 7);
    // Two falls: the first.
    let falls = two_events(&[group(2, 1, 1), action(0, 1, 0), action(2, 0, 0), action(1, 0, 0)]);
    book.breaks("items-two-falls", falls.bytes(), EVENT, 40 + 24);
}

/// "a message entry or its label bytes": entry by entry, each with its label.
fn two_messages(book: &mut Book) {
    let mut bad = |name: &str, place, damage: fn(&mut Score)| {
        book.refused(name, base().with(damage).bytes(), 8, place);
    };
    bad("messages-two-entries", 140, |s| {
        s.messages[0].start = 1;
        s.messages[2].length = 0;
    });
    bad("messages-two-labels", 144, |s| {
        s.text[3] = 0;
        s.text[8] = 0;
    });
    // A label before the entries after it, next and last.
    bad("messages-label-0-entry-1", 140, |s| {
        s.text[2] = 127;
        s.messages[1].length = 0;
    });
    bad("messages-label-1-entry-2", 144, |s| {
        s.text[5] = 31;
        s.messages[2].start = 9;
    });
    bad("messages-label-0-entry-2-past-end", 140, |s| {
        s.text[0] = 0;
        s.messages[2].length = 4;
    });
    // An entry before the labels after it.
    bad("messages-entry-0-label-1", 140, |s| {
        s.messages[0].length = 49;
        s.text[3] = 0;
    });
    bad("messages-entry-1-label-2", 144, |s| {
        s.messages[1].start = 2;
        s.text[8] = 0;
    });
    // The bad byte lies in label 1 as written, but entry 0 reaches over it.
    bad("messages-label-0-reaches-over", 140, |s| {
        s.messages[0].length = 4;
        s.text[3] = 0;
    });
}
