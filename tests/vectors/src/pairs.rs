//! Several rules broken in one item: "the first rule broken, checked in this
//! order". And a rule broken in an item, one that comes before it broken in a
//! later item: the first item decides. Those with the number of actions are in
//! `large`.

use crate::base::{base, one_event, two_events, ITEMS};
use crate::book::Book;
use crate::rules::{Rule, DELAY, ERROR, EVENT, KIND, MESSAGE, NESTING, PART, SYNCHRONY};
use crate::score::{action, group, Item, Score};
use crate::sound::chain;

pub fn add(book: &mut Book) {
    group_rules(book);
    action_rules(book);
    inner_group_rules(book);
    at_depth_9(book);
    out_of_order(book);
    later_items(book);
}

/// One rule broken, by name, in the order of the rules.
type Damage = (&'static str, Rule, fn(&mut Item));

/// Every two of these in the item, and every one with all that come after it:
/// the first decides.
fn pairs(book: &mut Book, at: &str, i: usize, damages: &[Damage]) {
    for (n, (name, rule, damage)) in damages.iter().enumerate() {
        let later = &damages[n + 1..];
        for (other, _, second) in later {
            let bad = base().with(|s| {
                damage(&mut s.items[i]);
                second(&mut s.items[i]);
            });
            book.breaks(format!("{at}-{name}-and-{other}"), bad.bytes(), *rule, ITEMS[i]);
        }
        if later.len() < 2 {
            continue;
        }
        let bad = base().with(|s| {
            damage(&mut s.items[i]);
            later.iter().for_each(|(_, _, next)| next(&mut s.items[i]));
        });
        book.breaks(format!("{at}-{name}-and-all-after"), bad.bytes(), *rule, ITEMS[i]);
    }
}

/// The base file's top group, item 1 of 8: the table has six items after it,
/// and event 4 is above the last.
fn group_rules(book: &mut Book) {
    let damages: [Damage; 7] = [
        ("kind", KIND, |i| i.kind = 2),
        ("synchrony", SYNCHRONY, |i| i.synchrony = 2),
        ("error", ERROR, |i| i.error = 4),
        ("part", PART, |i| i.part = 16),
        ("delay", DELAY, |i| i.delay = 5_040_001),
        ("event", EVENT, |i| i.event = 4),
        ("overrun", NESTING, |i| i.last = 7),
    ];
    pairs(book, "group", 1, &damages);
}

/// Its deep action, item 4: words that a group may have, a part that is not its
/// group's, and an event that is not 0; there are three messages.
fn action_rules(book: &mut Book) {
    let damages: [Damage; 7] = [
        ("kind", KIND, |i| i.kind = 255),
        ("synchrony", SYNCHRONY, |i| i.synchrony = 1),
        ("error", ERROR, |i| i.error = 3),
        ("part", PART, |i| i.part = 2),
        ("delay", DELAY, |i| i.delay = 4_294_967_295),
        ("event", EVENT, |i| i.event = 1),
        ("message", MESSAGE, |i| i.last = 3),
    ];
    pairs(book, "action", 4, &damages);
}

/// Its inner group, item 3, of which one item follows in the top group: what
/// holds it asks for its part, its event and its end.
fn inner_group_rules(book: &mut Book) {
    let damages: [Damage; 3] = [
        ("part", PART, |i| i.part = 0),
        ("event", EVENT, |i| i.event = 1),
        ("overrun", NESTING, |i| i.last = 2),
    ];
    pairs(book, "inner-group", 3, &damages);
}

/// "depth 8 is accepted, 9 refused": an action at depth 9, item 8 at
/// 36 + 12 x 8, that breaks another rule as well.
fn at_depth_9(book: &mut Book) {
    let damages: [Damage; 8] = [
        ("kind", KIND, |i| i.kind = 2),
        ("synchrony", SYNCHRONY, |i| i.synchrony = 1),
        ("error", ERROR, |i| i.error = 1),
        ("part", PART, |i| i.part = 1),
        ("part-16", PART, |i| i.part = 16),
        ("delay", DELAY, |i| i.delay = 5_040_001),
        ("event", EVENT, |i| i.event = 1),
        // Nesting comes before message.
        ("message", NESTING, |i| i.last = 1),
    ];
    let deep = one_event(&[chain(7, 1), vec![action(0, 0, 0)]].concat());
    for (name, rule, damage) in damages {
        let bad = deep.with(|s| damage(&mut s.items[8]));
        book.breaks(format!("depth-9-and-{name}"), bad.bytes(), rule, 132);
    }
    // A group there that runs over its holder: nesting, either way.
    let bad = deep.with(|s| s.items[8] = group(0, 0, 1));
    book.breaks("depth-9-and-overrun", bad.bytes(), NESTING, 132);
}

/// An item that falls out of order, item 1 at 40 + 12, and breaks another rule
/// as well: those before "order by event and part", and those after it.
fn out_of_order(book: &mut Book) {
    let mut bad = |name: &str, rule, items: [Item; 2]| {
        book.breaks(name, two_events(&items).bytes(), rule, 52);
    };
    let first = || action(2, 3, 0);
    // The part falls: the rule event, not the rule part.
    bad("falls-part", EVENT, [first(), action(2, 2, 0)]);
    bad("falls-part-and-delay", DELAY, [first(), action(2, 2, 0).after(5_040_001)]);
    bad("falls-part-and-message", EVENT, [first(), action(2, 2, 1)]);
    bad("falls-part-and-overrun", EVENT, [first(), group(2, 2, 1)]);
    // The event falls, with a part that no item may have.
    bad("falls-event-and-part", PART, [first(), action(1, 16, 0)]);
    bad("falls-event-and-words", SYNCHRONY, [first(), action(1, 3, 0).words(1, 1)]);
    bad("falls-event-and-message", EVENT, [first(), action(1, 3, 1)]);
}

/// "from front to back": every rule but the first broken in an item of the base
/// file, and the item right after it of kind 2.
fn later_items(book: &mut Book) {
    let mut bad = |name: &str, i: usize, rule, damage: fn(&mut Item)| {
        let bad = base().with(|s| {
            damage(&mut s.items[i]);
            s.items[i + 1].kind = 2;
        });
        book.breaks(format!("{name}-then-kind"), bad.bytes(), rule, ITEMS[i]);
    };
    bad("synchrony", 1, SYNCHRONY, |i| i.synchrony = 2);
    bad("error", 1, ERROR, |i| i.error = 4);
    bad("part", 2, PART, |i| i.part = 0);
    bad("delay", 2, DELAY, |i| i.delay = 5_040_001);
    bad("event", 5, EVENT, |i| i.event = 0);
    bad("overrun", 3, NESTING, |i| i.last = 2);
    bad("message", 6, MESSAGE, |i| i.last = 3);
    // Item 5 falls out of order by its event, item 6 has part 16.
    let falls = |s: &mut Score| {
        s.items[1].event = 3;
        s.items[6].part = 16;
    };
    book.breaks("falls-then-part", base().with(falls).bytes(), EVENT, ITEMS[5]);
}
