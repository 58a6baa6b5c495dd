//! Sound files, small ones: reply 0, place 0. The large ones are in `large`.

use crate::base::{base, least, one_event, three_events, two_events};
use crate::book::Book;
use crate::score::{action, group, Item, Score};

pub fn add(book: &mut Book) {
    paper(book);
    counts(book);
    numbers(book);
    groups(book);
    depth(book);
    tops(book);
    labels(book);
}

/// P2's file byte for byte: "Events of 2, 1 and 1 beats"; "Under event 1 one
/// group, delay 0, holds a after 1 beat and b 1.5 beats later"; "tight";
/// "part 0, labels a and b". A beat is 5,040 grains.
#[rustfmt::skip]
pub const P2: [u8; 90] = [
    // contents: offset and count of events, items, messages, text
    32, 0, 0, 0, 3, 0, 0, 0,
    44, 0, 0, 0, 3, 0, 0, 0,
    80, 0, 0, 0, 2, 0, 0, 0,
    88, 0, 0, 0, 2, 0, 0, 0,
    // events: 10,080 5,040 5,040
    0x60, 0x27, 0, 0,
    0xb0, 0x13, 0, 0,
    0xb0, 0x13, 0, 0,
    // group, tight, local, part 0; delay 0; event 1; two items within
    1, 1, 0, 0, 0, 0, 0, 0, 1, 0, 2, 0,
    // action, part 0; delay 5,040; event 0; message 0
    0, 0, 0, 0, 0xb0, 0x13, 0, 0, 0, 0, 0, 0,
    // action, part 0; delay 7,560; event 0; message 1
    0, 0, 0, 0, 0x88, 0x1d, 0, 0, 0, 0, 1, 0,
    // messages
    0, 0, 1, 0,
    1, 0, 1, 0,
    // text
    b'a', b'b',
];

pub fn p2() -> Score {
    Score::new(
        &[10_080, 5_040, 5_040],
        &[group(1, 0, 2).words(1, 0), action(0, 0, 0).after(5_040), action(0, 0, 1).after(7_560)],
        &[b"a", b"b"],
    )
}

fn paper(book: &mut Book) {
    book.sound("p2-look-a", P2.to_vec(), 0, b"a");
    book.sound("p2-look-b", P2.to_vec(), 1, b"b");
    book.no_message("p2-look-2", P2.to_vec(), 2);
    // "tight, any": the other three error words.
    for (error, word) in [(1, "global"), (2, "partial"), (3, "causal")] {
        let score = p2().with(|s| s.items[0].error = error);
        book.sound(format!("p2-{word}"), score.bytes(), 1, b"b");
    }
}

/// The base file, and the lower ends of the counts.
fn counts(book: &mut Book) {
    book.sound("base", base().bytes(), 1, b"defgh");
    // "there are 1 to 256"; "Items: 0 to 2,048"; "Messages: 0 to 512; text: 0
    // to 24,576 bytes": all at their least, 36 bytes.
    book.no_message("least", least().bytes(), 0);
    // "Events are numbered from 1": the only one is 1.
    book.sound("events-1", one_event(&[action(1, 0, 0)]).bytes(), 0, b"x");
    // 256 events, an item at the last: "event (u16)" is 256, low byte 0.
    let many = Score::new(&[1; 256], &[action(256, 0, 0)], &[b"x"]);
    book.sound("events-256", many.bytes(), 0, b"x");
    // No items but messages: nobody uses them.
    let score = Score::new(&[5_040], &[], &[b"one", b"two"]);
    book.sound("items-0", score.bytes(), 1, b"two");
    // Items but no messages: groups only, "it may be 0" for last.
    let score = Score::new(&[5_040], &[group(1, 0, 1), group(0, 0, 0)], &[]);
    book.no_message("messages-0", score.bytes(), 0);
    book.sound("messages-1", Score::new(&[5_040], &[], &[b"x"]).bytes(), 0, b"x");
    // A group's last is no message number: 3 is fine with 0 messages.
    let empty = || group(0, 0, 0);
    let score = Score::new(&[5_040], &[group(1, 0, 3), empty(), empty(), empty()], &[]);
    book.no_message("group-last-above-messages", score.bytes(), 0);
    // An action's last is no body: message 2 with no item after it.
    let score = Score::new(&[5_040], &[action(1, 0, 2)], &[b"a", b"b", b"c"]);
    book.sound("action-last-no-body", score.bytes(), 2, b"c");
}

/// Ends of the ranges of single fields.
fn numbers(book: &mut Book) {
    // "its duration in grains, 1 to 5,040,000". 65,536 has a low half of 0.
    for duration in [1, 65_536, 5_040_000] {
        for (i, at) in [(0, "first"), (1, "middle"), (2, "last")] {
            let score = base().with(|s| s.events[i] = duration);
            book.sound(format!("duration-{duration}-{at}"), score.bytes(), 0, b"abc");
        }
    }
    // "delay (u32, 0 to 5,040,000)", on every item of the base file.
    for delay in [0, 65_536, 5_040_000] {
        let score = base().with(|s| s.items.iter_mut().for_each(|item| item.delay = delay));
        book.sound(format!("delay-{delay}"), score.bytes(), 2, b"ijk");
    }
    // "part (0 to 15)", on a top action, a top group and its body.
    for part in [0, 15] {
        let items = [action(1, part, 0), group(1, part, 2), group(0, part, 1), action(0, part, 0)];
        book.sound(format!("part-{part}"), one_event(&items).bytes(), 0, b"x");
    }
    // "last is its message number, counted from 0 and below the message
    // count": 2 of 3 on every action of the base file.
    let score = base().with(|s| [0, 2, 4, 6, 7].iter().for_each(|&i| s.items[i].last = 2));
    book.sound("message-number-2", score.bytes(), 2, b"ijk");
}

/// Groups: words, empty bodies and ends.
fn groups(book: &mut Book) {
    // "synchrony (0 loose, 1 tight), error word (0 local, 1 global, 2 partial,
    // 3 causal)": a top group, an inner one with items and an empty inner one.
    for (s, synchrony) in [(0, "loose"), (1, "tight")] {
        for (e, error) in [(0, "local"), (1, "global"), (2, "partial"), (3, "causal")] {
            let items = [
                group(1, 4, 3).words(s, e),
                group(0, 4, 1).words(s, e),
                action(0, 4, 0),
                group(0, 4, 0).words(s, e),
            ];
            book.sound(format!("group-{synchrony}-{error}"), one_event(&items).bytes(), 0, b"x");
        }
    }
    let mut sound = |name: &str, items: &[Item]| {
        book.sound(name, one_event(items).bytes(), 0, b"x");
    };
    let a = || action(0, 0, 0);
    let g = |last| group(0, 0, last);
    // "it may be 0"
    sound("group-empty-only-item", &[group(1, 0, 0)]);
    sound("group-empty-first", &[group(1, 0, 0), action(1, 0, 0)]);
    sound("group-empty-last", &[action(1, 0, 0), group(1, 0, 0)]);
    sound("group-empty-inner-last", &[group(1, 0, 2), a(), g(0)]);
    // "a top group within the table": it ends exactly at the table's end.
    sound("group-ends-table", &[group(1, 0, 2), a(), a()]);
    // "A group ends within the group that holds it": exactly at its end, the
    // table's end or not, and one item before it.
    sound("group-ends-holder-and-table", &[group(1, 0, 3), g(2), a(), a()]);
    sound("group-ends-holder", &[group(1, 0, 3), g(2), a(), a(), action(1, 0, 0)]);
    sound("group-ends-before-holder", &[group(1, 0, 3), g(1), a(), a()]);
    sound("group-three-end-together", &[group(1, 0, 3), g(2), g(1), a(), action(1, 0, 0)]);
    sound("group-siblings", &[group(1, 0, 5), g(1), a(), g(1), a(), g(0), group(1, 0, 1), a()]);
    // The base file's inner group emptied: its item becomes the outer group's.
    let score = base().with(|s| s.items[3].last = 0);
    book.sound("group-emptied", score.bytes(), 0, b"abc");
    // The base file's first action made an empty group: last was 0.
    let score = base().with(|s| s.items[0].kind = 1);
    book.sound("group-for-action", score.bytes(), 0, b"abc");
}

/// A top group at event 1 and `inner` groups within each other, over `body`
/// items in all at the bottom.
pub fn chain(inner: u16, body: u16) -> Vec<Item> {
    let mut items = vec![group(1, 0, inner + body)];
    for i in 1..=inner {
        items.push(group(0, 0, inner - i + body));
    }
    items
}

/// "Top items have depth 1; depth 8 is accepted, 9 refused."
fn depth(book: &mut Book) {
    let a = || action(0, 0, 0);
    let g = |last| group(0, 0, last);
    let mut sound = |name: &str, items: &[Vec<Item>]| {
        book.sound(name, one_event(&items.concat()).bytes(), 0, b"x");
    };
    // Groups at depths 1 to 7, then an item at depth 8.
    sound("depth-8-action", &[chain(6, 1), vec![a()]]);
    sound("depth-8-empty-group", &[chain(6, 1), vec![g(0)]]);
    sound("depth-8-siblings", &[chain(6, 4), vec![a(), g(0), a(), g(0)]]);
    // All eight end together and a top item follows.
    sound("depth-8-then-top", &[chain(6, 1), vec![g(0)], vec![action(1, 0, 0)]]);
    sound("depth-8-twice", &[chain(6, 1), vec![a()], chain(6, 1), vec![g(0)]]);
    // Up from depth 8 to depth 4 and down again, within one top group: the
    // group at depth 3 (the third) holds 10 items, groups at depths 4 to 7
    // and an action at depth 8, twice.
    let down = || vec![g(4), g(3), g(2), g(1), a()];
    sound("depth-8-up-to-4-and-down", &[chain(2, 10), down(), down()]);
    // Nine items in a row are no depth: twelve empty groups within one.
    sound("depth-2-wide", &[vec![group(1, 0, 12)], vec![g(0); 12]]);
}

/// "Top items stand by event and, within an event, by part." Equal ones stand
/// in order (a reading).
fn tops(book: &mut Book) {
    let t = |event, part| action(event, part, 0);
    let i = |part| action(0, part, 0);
    let mut sound = |name: &str, items: &[Item]| {
        book.sound(name, three_events(items).bytes(), 0, b"x");
    };
    sound("tops-equal", &[t(2, 3), t(2, 3), t(2, 3)]);
    sound(
        "tops-by-event-then-part",
        &[t(1, 0), t(1, 1), t(1, 15), t(2, 0), t(2, 7), t(3, 2), t(3, 2), t(3, 15)],
    );
    sound("tops-part-falls-with-next-event", &[t(1, 15), t(2, 0)]);
    sound("tops-event-skipped", &[t(1, 5), t(3, 0)]);
    sound("tops-last-event-only", &[t(3, 0)]);
    sound("tops-equal-after-group", &[group(2, 3, 1), i(3), t(2, 3)]);
    sound("tops-part-rises-after-group", &[group(2, 3, 1), i(3), t(2, 4)]);
    sound("tops-event-rises-after-group", &[group(2, 3, 1), i(3), t(3, 0)]);
    sound("tops-equal-groups", &[group(2, 3, 1), i(3), group(2, 3, 1), i(3)]);
    // 255 and 256 are in order by number, not by their first byte.
    let score = Score::new(&[1; 256], &[t(255, 0), t(256, 0)], &[b"x"]);
    book.sound("tops-event-255-256", score.bytes(), 0, b"x");
    // One more of each, so that no top item stands alone at its event.
    let score = two_events(&[t(1, 0), t(1, 0), t(2, 0), t(2, 0)]);
    book.sound("tops-two-at-each-event", score.bytes(), 0, b"x");
}

/// "Length 1 to 48. Label bytes are 32 to 255 but not 127; bytes from 128 up
/// are kept exactly."
fn labels(book: &mut Book) {
    let file = |labels: &[&[u8]]| Score::new(&[5_040], &[], labels).bytes();
    let x48 = [b'x'; 48];
    book.sound("label-length-1-first", file(&[b"a", b"bc", b"de"]), 0, b"a");
    book.sound("label-length-1-middle", file(&[b"ab", b"c", b"de"]), 1, b"c");
    book.sound("label-length-1-last", file(&[b"ab", b"cd", b"e"]), 2, b"e");
    book.sound("label-length-48-first", file(&[&x48, b"b", b"c"]), 0, &x48);
    book.sound("label-length-48-middle", file(&[b"a", &x48, b"c"]), 1, &x48);
    book.sound("label-length-48-last", file(&[b"a", b"b", &x48]), 2, &x48);
    // Every allowed byte: 32 to 126 in two labels, 128 to 255 in three.
    let low: Vec<u8> = (32..=126).collect();
    let high: Vec<u8> = (128..=255).collect();
    let all = [&low[..48], &low[48..], &high[..48], &high[48..96], &high[96..]];
    for (number, label) in all.iter().enumerate() {
        let name = format!("label-all-bytes-{number}");
        book.sound(name, file(&all), number as u64, label);
    }
    // The edges of the allowed bytes, at each end of a label and within it.
    for byte in [32, 126, 128, 255] {
        for (at, place) in [(0, "first"), (2, "middle"), (4, "last")] {
            let mut label = *b"defgh";
            label[at] = byte;
            let score = file(&[b"abc", &label, b"ijk"]);
            book.sound(format!("label-byte-{byte}-{place}"), score, 1, &label);
        }
    }
    // Bytes that are no good UTF-8 are labels like others.
    book.sound("label-broken-utf8", file(&[b"a", b"\xff\xc3(\x80"]), 1, b"\xff\xc3(\x80");
    // No rule forbids equal labels or unused messages (a reading).
    book.sound("labels-equal", file(&[b"same", b"same", b"same"]), 1, b"same");
    // A message nobody uses between two that are used.
    let score = Score::new(&[1], &[action(1, 0, 0), action(1, 0, 2)], &[b"a", b"b", b"c"]);
    book.sound("message-unused", score.bytes(), 1, b"b");
    // Two bytes of start: the last of six labels of 48 starts at 240, ends 288.
    let y48 = [b'y'; 48];
    let score = file(&[&x48, &x48, &x48, &x48, &x48, &y48, b"z"]);
    book.sound("label-across-byte-256", score.clone(), 5, &y48);
    book.sound("label-start-288", score, 6, b"z");
}

#[cfg(test)]
mod tests {
    /// The builder writes the hand-written file.
    #[test]
    fn p2_by_hand() {
        assert_eq!(super::p2().bytes(), super::P2);
    }
}
