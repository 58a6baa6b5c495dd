//! An item against the rules, one rule at a time: the number and the field's
//! place are those of `rules`, and the byte written beside a vector is the
//! item's first. Two rules broken in one item are in `pairs`, the 1,025th action
//! is in `large`.
//!
//! With one event item i starts at 36 + 12 i, with two at 40 + 12 i, with three
//! at 44 + 12 i; the base file has three.

use crate::base::{base, one_event, three_events, two_events, ITEMS};
use crate::book::Book;
use crate::rules::{Rule, DELAY, ERROR, EVENT, KIND, MESSAGE, NESTING, PART, SYNCHRONY};
use crate::score::{action, group, Item, Score};
use crate::sound::chain;

pub fn add(book: &mut Book) {
    ranges(book);
    action_words(book);
    message_numbers(book);
    top_events(book);
    order(book);
    order_after_group(book);
    inner_event_and_part(book);
    overruns(book);
    bodies(book);
    depth(book);
}

/// What the items of the base file are; 6 is a top action like 0 and 7.
const NAMED: [(usize, &str); 7] = [
    (0, "first"),
    (1, "top-group"),
    (2, "inner-action"),
    (3, "inner-group"),
    (4, "deep-action"),
    (5, "empty-group"),
    (7, "last"),
];

/// The base file's actions among them.
const ACTIONS: [(usize, &str); 4] =
    [(0, "first"), (2, "inner-action"), (4, "deep-action"), (7, "last")];

/// "kind (0 action, 1 group), synchrony (0 loose, 1 tight), error word
/// (0 local, 1 global, 2 partial, 3 causal), part (0 to 15), delay (u32, 0 to
/// 5,040,000)".
fn ranges(book: &mut Book) {
    type Damage = (&'static str, Rule, fn(&mut Item));
    let damages: [Damage; 12] = [
        ("kind-2", KIND, |i| i.kind = 2),
        ("kind-255", KIND, |i| i.kind = 255),
        ("synchrony-2", SYNCHRONY, |i| i.synchrony = 2),
        ("synchrony-255", SYNCHRONY, |i| i.synchrony = 255),
        ("error-4", ERROR, |i| i.error = 4),
        ("error-255", ERROR, |i| i.error = 255),
        ("part-16", PART, |i| i.part = 16),
        ("part-255", PART, |i| i.part = 255),
        ("delay-5040001", DELAY, |i| i.delay = 5_040_001),
        ("delay-16777216", DELAY, |i| i.delay = 16_777_216),
        ("delay-2147483648", DELAY, |i| i.delay = 2_147_483_648),
        ("delay-4294967295", DELAY, |i| i.delay = 4_294_967_295),
    ];
    for (name, rule, damage) in damages {
        for (i, at) in NAMED {
            let bad = base().with(|s| damage(&mut s.items[i]));
            book.breaks(format!("item-{name}-{at}"), bad.bytes(), rule, ITEMS[i]);
        }
    }
    // A group and its whole body at part 16: the group is the first.
    let items = [group(1, 16, 2), action(0, 16, 0), action(0, 16, 0)];
    book.breaks("item-part-16-whole-group", one_event(&items).bytes(), PART, 36);
}

/// "For an action both words are 0".
fn action_words(book: &mut Book) {
    for (i, at) in ACTIONS {
        let bad = base().with(|s| s.items[i].synchrony = 1);
        book.breaks(format!("action-synchrony-1-{at}"), bad.bytes(), SYNCHRONY, ITEMS[i]);
        for error in [1, 2, 3] {
            let bad = base().with(|s| s.items[i].error = error);
            book.breaks(format!("action-error-{error}-{at}"), bad.bytes(), ERROR, ITEMS[i]);
        }
    }
    let bad = base().with(|s| s.items[0] = action(1, 0, 0).words(1, 3));
    book.breaks("action-both-words", bad.bytes(), SYNCHRONY, 44);
}

/// "last is its message number, counted from 0 and below the message count".
/// The sound twin is `message-number-2`.
fn message_numbers(book: &mut Book) {
    for (i, at) in ACTIONS {
        // 256 is 0 cut to a byte; 65,535 is the highest there is.
        for number in [3, 256, 65_535] {
            let bad = base().with(|s| s.items[i].last = number);
            book.breaks(format!("message-number-{number}-{at}"), bad.bytes(), MESSAGE, ITEMS[i]);
        }
    }
    // No messages: not even 0 is below the count.
    let bad = Score::new(&[5_040], &[action(1, 0, 0)], &[]);
    book.breaks("message-number-0-of-0", bad.bytes(), MESSAGE, 36);
    let bad = Score::new(&[5_040], &[group(1, 0, 1), action(0, 0, 0)], &[]);
    book.breaks("message-number-0-of-0-inner", bad.bytes(), MESSAGE, 36 + 12);
    // One message: 0 is the only one.
    let bad = one_event(&[action(1, 0, 0), action(1, 0, 1)]);
    book.breaks("message-number-1-of-1", bad.bytes(), MESSAGE, 36 + 12);
    // The text may be long; it is the message count that bounds the number.
    let bad = Score::new(&[5_040], &[action(1, 0, 1)], &[b"abcdef"]);
    book.breaks("message-number-1-in-text", bad.bytes(), MESSAGE, 36);
}

/// "A top item names its event": not 0, and not above the last.
fn top_events(book: &mut Book) {
    let tops =
        [(0, "first"), (1, "top-group"), (5, "after-group"), (6, "after-empty"), (7, "last")];
    for (i, at) in tops {
        // 259 is 3 cut to a byte.
        for event in [0, 4, 259, 65_535] {
            let bad = base().with(|s| s.items[i].event = event);
            book.breaks(format!("top-event-{event}-{at}"), bad.bytes(), EVENT, ITEMS[i]);
        }
    }
    // The only item; one event.
    book.breaks("top-event-0-only", one_event(&[action(0, 0, 0)]).bytes(), EVENT, 36);
    book.breaks("top-event-0-only-group", one_event(&[group(0, 0, 0)]).bytes(), EVENT, 36);
    book.breaks("top-event-2-of-1", one_event(&[action(2, 0, 0)]).bytes(), EVENT, 36);
    book.breaks("top-event-257-of-1", one_event(&[action(257, 0, 0)]).bytes(), EVENT, 36);
    // 256 events; the items begin at 32 + 4 x 256. The sound twin is
    // `events-256`.
    let bad = Score::new(&[1; 256], &[action(257, 0, 0)], &[b"x"]);
    book.breaks("top-event-257-of-256", bad.bytes(), EVENT, 1_056);
    // Event 0 after a group's body: outside the group it is a top item.
    let a = || action(0, 0, 0);
    let bad = one_event(&[group(1, 0, 1), a(), a()]);
    book.breaks("top-event-0-after-body", bad.bytes(), EVENT, 36 + 24);
    let bad = one_event(&[group(1, 0, 0), a()]);
    book.breaks("top-event-0-after-empty-group", bad.bytes(), EVENT, 36 + 12);
    let bad = one_event(&[group(1, 0, 2), group(0, 0, 1), a(), a()]);
    book.breaks("top-event-0-after-two-groups", bad.bytes(), EVENT, 36 + 36);
}

/// "Top items stand by event and, within an event, by part": the item that
/// falls behind the one before is against the rules, and a part that falls is
/// the rule "event (range, 0 inside groups, order by event and part)".
fn order(book: &mut Book) {
    let t = |event, part| action(event, part, 0);
    let mut bad = |name: &str, items: &[Item], item| {
        book.breaks(name, two_events(items).bytes(), EVENT, item);
    };
    bad("order-event-falls", &[t(2, 0), t(1, 0)], 40 + 12);
    bad("order-part-falls", &[t(1, 1), t(1, 0)], 40 + 12);
    bad("order-part-falls-15-0", &[t(2, 15), t(2, 0)], 40 + 12);
    bad("order-event-falls-part-rises", &[t(2, 0), t(1, 5)], 40 + 12);
    bad("order-event-falls-middle", &[t(1, 0), t(2, 0), t(1, 0), t(2, 0)], 40 + 24);
    bad("order-part-falls-middle", &[t(1, 0), t(1, 2), t(1, 1), t(1, 2)], 40 + 24);
    bad("order-event-falls-last", &[t(1, 0), t(1, 0), t(2, 0), t(1, 9)], 40 + 36);
    bad("order-part-falls-last", &[t(1, 0), t(2, 3), t(2, 4), t(2, 3)], 40 + 36);
    // A part may fall with the next event (9 to 1), not within it (1 to 0).
    bad("order-part-falls-second-event", &[t(1, 9), t(2, 1), t(2, 0)], 40 + 24);
    bad("order-group-falls", &[t(2, 0), group(1, 0, 0)], 40 + 12);
    bad("order-group-part-falls", &[t(2, 1), group(2, 0, 0)], 40 + 12);
    // Its first action raised: the base file's next item falls.
    let score = base().with(|s| s.items[0].event = 3);
    book.breaks("order-first-raised", score.bytes(), EVENT, 56);
    let score = base().with(|s| s.items[0].part = 2);
    book.breaks("order-first-part-raised", score.bytes(), EVENT, 56);
    // 256 then 255, at 32 + 4 x 256 + 12.
    let score = Score::new(&[1; 256], &[t(256, 0), t(255, 0)], &[b"x"]);
    book.breaks("order-event-256-255", score.bytes(), EVENT, 1_068);
}

/// The same, where the item before in the table lies in a group and has event
/// 0: the next top item is held against the group. Sound twins are
/// `tops-equal-after-group` and its like.
fn order_after_group(book: &mut Book) {
    let t = |event, part| action(event, part, 0);
    let i = |part| action(0, part, 0);
    let mut bad = |name: &str, items: &[Item], item| {
        book.breaks(name, two_events(items).bytes(), EVENT, item);
    };
    bad("order-event-falls-after-group", &[group(2, 0, 1), i(0), t(1, 0)], 40 + 24);
    bad("order-part-falls-after-group", &[group(1, 3, 1), i(3), t(1, 2)], 40 + 24);
    bad("order-event-falls-after-empty-group", &[group(2, 0, 0), t(1, 0)], 40 + 12);
    bad("order-part-falls-after-empty-group", &[group(2, 1, 0), t(2, 0)], 40 + 12);
    bad("order-event-falls-group-to-group", &[group(2, 0, 1), i(0), group(1, 0, 1), i(0)], 40 + 24);
    bad("order-part-falls-group-to-group", &[group(2, 7, 1), i(7), group(2, 6, 1), i(6)], 40 + 24);
    bad(
        "order-event-falls-after-deep-group",
        &[group(2, 0, 3), group(0, 0, 2), group(0, 0, 1), i(0), t(1, 0)],
        40 + 48,
    );
    bad(
        "order-part-falls-after-deep-group",
        &[group(2, 5, 3), group(0, 5, 2), group(0, 5, 1), i(5), t(2, 4)],
        40 + 48,
    );
    bad(
        "order-falls-after-group-of-groups",
        &[group(2, 0, 2), group(0, 0, 0), group(0, 0, 0), t(1, 0)],
        40 + 36,
    );
    // Two groups on; what falls is held against the nearer one.
    bad(
        "order-falls-after-second-group",
        &[group(1, 0, 1), i(0), group(2, 0, 1), i(0), t(1, 0)],
        40 + 48,
    );
    // Only the group stands out of order, not the actions to either side.
    let items = [t(1, 0), group(3, 0, 1), i(0), t(2, 0)];
    book.breaks("order-event-falls-past-actions", three_events(&items).bytes(), EVENT, 44 + 36);
    let items = [t(2, 1), group(2, 9, 1), i(9), t(2, 5)];
    book.breaks("order-part-falls-past-actions", three_events(&items).bytes(), EVENT, 44 + 36);
    // Only the action stands out of order, not the groups to either side.
    let items = [group(1, 0, 1), i(0), t(3, 0), group(2, 0, 1), i(0)];
    book.breaks("order-event-falls-past-groups", three_events(&items).bytes(), EVENT, 44 + 36);
    // The base file's first group raised to event 3: item 5 stands at 2.
    let score = base().with(|s| s.items[1].event = 3);
    book.breaks("order-base-group-raised", score.bytes(), EVENT, 104);
}

/// "An item within a group has event 0 and its group's part."
fn inner_event_and_part(book: &mut Book) {
    let inner = [(2, "inner-action"), (3, "inner-group"), (4, "deep-action")];
    for (i, at) in inner {
        // 1 is the group's own event; 256 is 0 cut to a byte.
        for event in [1, 2, 4, 256, 65_535] {
            let bad = base().with(|s| s.items[i].event = event);
            book.breaks(format!("inner-event-{event}-{at}"), bad.bytes(), EVENT, ITEMS[i]);
        }
        // The group's part is 1.
        for part in [0, 2, 15] {
            let bad = base().with(|s| s.items[i].part = part);
            book.breaks(format!("inner-part-{part}-{at}"), bad.bytes(), PART, ITEMS[i]);
        }
    }
    // The inner group and its body agree with each other, not with the holder.
    let bad = base().with(|s| (s.items[3].part, s.items[4].part) = (2, 2));
    book.breaks("inner-part-2-group-and-body", bad.bytes(), PART, 80);
    // The top group moved to part 0: its first item is the first to differ.
    let bad = base().with(|s| s.items[1].part = 0);
    book.breaks("inner-part-holder-moved", bad.bytes(), PART, 68);
    // First, middle and last of a body, an inner group before the last.
    let body = [
        group(1, 6, 5),
        action(0, 6, 0),
        group(0, 6, 2),
        action(0, 6, 0),
        action(0, 6, 0),
        action(0, 6, 0),
    ];
    for (i, item, at) in
        [(1, 36 + 12, "first"), (3, 36 + 36, "middle"), (4, 36 + 48, "end"), (5, 36 + 60, "last")]
    {
        let bad = one_event(&body).with(|s| s.items[i].event = 1);
        book.breaks(format!("inner-event-{at}-of-body"), bad.bytes(), EVENT, item);
        let bad = one_event(&body).with(|s| s.items[i].part = 7);
        book.breaks(format!("inner-part-{at}-of-body"), bad.bytes(), PART, item);
    }
    book.sound("inner-body-right", one_event(&body).bytes(), 0, b"x");
    // An empty group within a group.
    let bad = one_event(&[group(1, 0, 1), group(0, 1, 0)]);
    book.breaks("inner-part-empty-group", bad.bytes(), PART, 36 + 12);
    let bad = one_event(&[group(1, 0, 1), group(1, 0, 0)]);
    book.breaks("inner-event-empty-group", bad.bytes(), EVENT, 36 + 12);
}

/// "A group ends within the group that holds it, a top group within the
/// table": the group that overruns is against the rules. Sound twins are
/// `group-ends-holder` and its like.
fn overruns(book: &mut Book) {
    let a = || action(0, 0, 0);
    let g = |last| group(0, 0, last);
    let t = || action(1, 0, 0);
    let mut bad = |name: &str, items: &[Item], item| {
        book.breaks(name, one_event(items).bytes(), NESTING, item);
    };
    // The table, by one: alone, with a body, after other items.
    bad("overrun-table-alone", &[group(1, 0, 1)], 36);
    bad("overrun-table-body", &[group(1, 0, 3), a(), a()], 36);
    bad("overrun-table-last-item", &[t(), t(), group(1, 0, 1)], 36 + 24);
    bad("overrun-table-middle", &[t(), group(1, 0, 2), a()], 36 + 12);
    bad("overrun-table-65535", &[group(1, 0, 65_535), a()], 36);
    bad("overrun-table-2048", &[group(1, 0, 2_048), a()], 36);
    // 256 and 257 are 0 and 1 cut to a byte.
    bad("overrun-table-256", &[group(1, 0, 256)], 36);
    bad("overrun-table-257", &[group(1, 0, 257), a()], 36);
    // The holder, by one: within the table (what follows could pass for the
    // body), before a top item, and the table as well.
    bad("overrun-holder", &[group(1, 0, 2), g(2), a(), a()], 36 + 12);
    bad("overrun-holder-before-top", &[group(1, 0, 2), g(2), a(), t()], 36 + 12);
    bad("overrun-holder-and-table", &[group(1, 0, 2), g(2), a()], 36 + 12);
    bad("overrun-holder-65535", &[group(1, 0, 2), g(65_535), a()], 36 + 12);
    bad("overrun-holder-last-item", &[group(1, 0, 2), a(), g(1), a()], 36 + 24);
    bad("overrun-holder-last-item-before-top", &[group(1, 0, 2), a(), g(1), t()], 36 + 24);
    bad("overrun-holder-deep", &[group(1, 0, 3), g(2), g(2), a(), a()], 36 + 24);
    // It ends within the outermost group but not within its own holder.
    bad("overrun-holder-not-outermost", &[group(1, 0, 5), g(2), g(2), a(), a(), a()], 36 + 24);
    bad("overrun-second-group", &[group(1, 0, 1), a(), group(1, 0, 2), a()], 36 + 24);
    // The base file's last item made a group: sound when empty.
    let last = |last| base().with(|s| s.items[7] = group(3, 15, last)).bytes();
    book.sound("base-last-group-0", last(0), 0, b"abc");
    book.breaks("overrun-base-last-group", last(1), NESTING, 128);
    // Its inner group over one item more.
    let bad = base().with(|s| s.items[3].last = 2);
    book.breaks("overrun-base-inner-group", bad.bytes(), NESTING, 80);
    // Its last item, an action of message 2, made a group of that last.
    let bad = base().with(|s| s.items[7].kind = 1);
    book.breaks("overrun-action-made-group", bad.bytes(), NESTING, 128);
}

/// A last that is wrong but runs over nothing: the items tell. Most of them
/// break more than one rule where they then stand.
fn bodies(book: &mut Book) {
    // The base file's empty group, of part 2, takes in the top item after it,
    // of part 0, which names event 3: "event 0 and its group's part".
    let bad = base().with(|s| s.items[5].last = 1);
    book.breaks("body-takes-in-top", bad.bytes(), PART, 116);
    // The same with a top item of part 2: its event tells.
    let bad = base().with(|s| (s.items[5].last, s.items[6].part) = (1, 2));
    book.breaks("body-takes-in-top-of-its-part", bad.bytes(), EVENT, 116);
    // Both items after it, to the table's end: the first of them.
    let bad = base().with(|s| s.items[5].last = 2);
    book.breaks("body-takes-in-two-tops", bad.bytes(), PART, 116);
    // One more, and the group itself runs over the table.
    let bad = base().with(|s| s.items[5].last = 3);
    book.breaks("body-takes-in-too-many", bad.bytes(), NESTING, 104);
    // The top group, of part 1, takes in item 5, of part 2.
    let bad = base().with(|s| s.items[1].last = 4);
    book.breaks("body-one-too-long", bad.bytes(), PART, 104);
    // The same with an item 5 of part 1: its event tells.
    let bad = base().with(|s| (s.items[1].last, s.items[5].part) = (4, 1));
    book.breaks("body-one-too-long-of-its-part", bad.bytes(), EVENT, 104);
    // The top group ends before item 4: the inner group runs over it.
    let bad = base().with(|s| s.items[1].last = 2);
    book.breaks("body-one-too-short", bad.bytes(), NESTING, 80);
    // It ends before item 3, which is then a top item with event 0.
    let bad = base().with(|s| s.items[1].last = 1);
    book.breaks("body-two-too-short", bad.bytes(), EVENT, 80);
    // It is empty: item 2 is then a top item with event 0.
    let bad = base().with(|s| s.items[1].last = 0);
    book.breaks("body-none", bad.bytes(), EVENT, 68);
}

/// "depth 8 is accepted, 9 refused": the item at depth 9 is against the rules.
/// Groups at depths 1 to 8 are items 0 to 7; what follows is item 8, at
/// 36 + 12 x 8.
fn depth(book: &mut Book) {
    let a = || action(0, 0, 0);
    let g = |last| group(0, 0, last);
    let mut bad = |name: &str, items: &[Vec<Item>], item| {
        book.breaks(name, one_event(&items.concat()).bytes(), NESTING, item);
    };
    bad("depth-9-action", &[chain(7, 1), vec![a()]], 132);
    bad("depth-9-group", &[chain(7, 1), vec![g(0)]], 132);
    bad("depth-9-two-actions", &[chain(7, 2), vec![a(), a()]], 132);
    bad("depth-9-group-with-body", &[chain(7, 2), vec![g(1), a()]], 132);
    bad("depth-9-then-top", &[chain(7, 1), vec![a()], vec![action(1, 0, 0)]], 132);
    // Twelve groups within each other: the ninth.
    bad("depth-12", &[chain(11, 1), vec![a()]], 132);
    // Depth 8 is reached twice and left, then 9: items 0 to 7 are seven groups
    // and an action at depth 8, items 8 to 15 eight groups, item 16 at depth 9.
    bad("depth-9-second-group", &[chain(6, 1), vec![a()], chain(7, 1), vec![a()]], 36 + 12 * 16);
    // Groups at depths 1 to 3 (items 0 to 2); 4 to 7 and an action at 8 (items
    // 3 to 7); 4 to 8 and an action at 9 (items 8 to 13).
    let up = vec![g(4), g(3), g(2), g(1), a()];
    let down = vec![g(5), g(4), g(3), g(2), g(1), a()];
    bad("depth-9-after-up-to-4", &[chain(2, 11), up, down], 36 + 12 * 13);
    // Siblings at depth 8 (items 7, 8 and 9), the last a group with an item.
    bad("depth-9-in-third-sibling", &[chain(6, 4), vec![a(), g(0), g(1), a()]], 36 + 12 * 10);
}
