//! The contents and the file's length: replies 3, 4 and 5.
//!
//! "The contents are 32 bytes: offset (u32) and count (u32) for events, items,
//! messages and text bytes, in that order." So the offsets stand at bytes 0,
//! 8, 16 and 24, the counts at 4, 12, 20 and 28. The base file's contents are
//! 32 3, 44 8, 140 3, 152 11 and its length is 163; the least file's are 32 1,
//! 36 0, 36 0, 36 0 and its length is 36.

use crate::base::{base, least};
use crate::book::Book;
use crate::score::{patched, Score};

pub fn add(book: &mut Book) {
    under_32(book);
    counts(book);
    first_count(book);
    counts_within_limits(book);
    offsets(book);
    bodies_moved(book);
    length(book);
}

/// "3 file under 32 bytes", place 0.
fn under_32(book: &mut Book) {
    let file = base().bytes();
    for length in [0, 1, 4, 31] {
        book.refused(format!("length-{length}"), file[..length].to_vec(), 3, 0);
    }
    // 3 comes before 4: the counts are all wrong here.
    book.refused("length-31-zeros", vec![0; 31], 3, 0);
    book.refused("length-31-ones", vec![255; 31], 3, 0);
    // 32 bytes are enough for 3. No events, "1 to 256": byte 4.
    book.refused("length-32-zeros", vec![0; 32], 4, 4);
    book.refused("length-32-ones", vec![255; 32], 4, 4);
    // Counts and offsets are right, the bodies are missing.
    book.refused("length-32-contents", file[..32].to_vec(), 5, 0);
    book.refused("length-32-least", least().bytes()[..32].to_vec(), 5, 0);
}

/// "4 a count outside its limits", place "byte of the first such count".
fn counts(book: &mut Book) {
    // Files that are right but for the count: "there are 1 to 256" events.
    book.refused("events-0", Score::new(&[], &[], &[]).bytes(), 4, 4);
    book.refused("events-0-with-text", Score::new(&[], &[], &[b"x"]).bytes(), 4, 4);
    book.refused("events-257", Score::new(&[1; 257], &[], &[]).bytes(), 4, 4);
    // "Messages: 0 to 512"
    let labels: [&[u8]; 513] = [b"x"; 513];
    book.refused("messages-513", Score::new(&[1], &[], &labels).bytes(), 4, 20);
    // The count alone: one above the limit, 2^16 and 2^30 above the right one
    // (a cut count or a wrapped product would be right again), 2^31, 2^32 - 1.
    let file = base().bytes();
    let bad: [(&str, u32, [u32; 5]); 4] = [
        ("events", 4, [257, 65_539, 1_073_741_827, 2_147_483_648, 4_294_967_295]),
        ("items", 12, [2_049, 65_544, 1_073_741_832, 2_147_483_648, 4_294_967_295]),
        ("messages", 20, [513, 65_539, 1_073_741_827, 2_147_483_648, 4_294_967_295]),
        ("text", 28, [24_577, 65_547, 1_073_741_835, 2_147_483_648, 4_294_967_295]),
    ];
    for (body, place, values) in bad {
        for value in values {
            let name = format!("count-{body}-{value}");
            book.refused(name, patched(&file, &[(place as usize, value)]), 4, place);
        }
    }
    book.refused("count-events-0", patched(&file, &[(4, 0)]), 4, 4);
}

/// "the first such count", and "3, 4, 5, then 6": all counts before any offset.
fn first_count(book: &mut Book) {
    let file = base().bytes();
    let mut bad = |name: &str, patches: &[(usize, u32)], place| {
        book.refused(name, patched(&file, patches), 4, place);
    };
    bad("counts-events-items", &[(4, 0), (12, 2_049)], 4);
    bad("counts-events-text", &[(4, 257), (28, 24_577)], 4);
    bad("counts-items-messages", &[(12, 2_049), (20, 513)], 12);
    bad("counts-items-text", &[(12, 2_049), (28, 24_577)], 12);
    bad("counts-messages-text", &[(20, 513), (28, 24_577)], 20);
    bad("counts-all", &[(4, 257), (12, 2_049), (20, 513), (28, 24_577)], 4);
    bad("count-events-and-own-offset", &[(0, 33), (4, 257)], 4);
    bad("count-text-and-events-offset", &[(0, 33), (28, 24_577)], 28);
    bad("count-messages-and-items-offset", &[(8, 45), (20, 513)], 20);
    bad("count-items-and-text-offset", &[(24, 153), (12, 2_049)], 12);
    bad("count-items-and-all-offsets", &[(0, 0), (8, 0), (16, 0), (24, 0), (12, 2_049)], 12);
    bad("counts-two-and-events-offset", &[(0, 31), (20, 513), (28, 24_577)], 20);
    // 4 before 5 for the length, and before 6, an item's 20 to 27 and 8.
    let bad = patched(&file[..32], &[(20, 513)]);
    book.refused("count-messages-and-length", bad, 4, 20);
    let bad = base().with(|s| {
        s.events[0] = 0;
        s.items[0].kind = 2;
        s.text[0] = 0;
    });
    book.refused("count-text-and-bodies", patched(&bad.bytes(), &[(28, 24_577)]), 4, 28);
}

/// A count that is wrong for this file but within its limits is no 4: the next
/// body's offset is "not as above" ("the bodies without gaps"), or after the
/// last body "offsets right, file length wrong".
fn counts_within_limits(book: &mut Book) {
    let file = base().bytes();
    let off: [(&str, usize, [u32; 3], u32); 4] = [
        ("events", 4, [2, 4, 256], 8),
        ("items", 12, [7, 9, 2_048], 16),
        ("messages", 20, [2, 4, 512], 24),
        ("text", 28, [10, 12, 24_576], 0),
    ];
    for (body, at, values, place) in off {
        for value in values {
            let name = format!("count-{body}-{value}");
            book.refused(name, patched(&file, &[(at, value)]), 5, place);
        }
    }
    let off: [(&str, usize, u32); 3] = [("items", 12, 16), ("messages", 20, 24), ("text", 28, 0)];
    for (body, at, place) in off {
        // No items, messages or text, but the bodies are there.
        book.refused(format!("count-{body}-0"), patched(&file, &[(at, 0)]), 5, place);
    }
}

/// "5 an offset not as above", place "byte of the first such offset".
fn offsets(book: &mut Book) {
    let file = base().bytes();
    // One off, none, 2^16 above the right one, 2^32 - 1.
    let bad: [(&str, u32, [u32; 5]); 4] = [
        ("events", 0, [31, 33, 0, 65_568, 4_294_967_295]),
        ("items", 8, [43, 45, 0, 65_580, 4_294_967_295]),
        ("messages", 16, [139, 141, 0, 65_676, 4_294_967_295]),
        ("text", 24, [151, 153, 0, 65_688, 4_294_967_295]),
    ];
    for (body, place, values) in bad {
        for value in values {
            let name = format!("offset-{body}-{value}");
            book.refused(name, patched(&file, &[(place as usize, value)]), 5, place);
        }
    }
    // Where a body is empty its offset is still where it would begin: 36.
    let file = least().bytes();
    let bad: [(&str, u32, [u32; 4]); 4] = [
        ("events", 0, [31, 33, 36, 0]),
        ("items", 8, [35, 37, 32, 0]),
        ("messages", 16, [35, 37, 32, 0]),
        ("text", 24, [35, 37, 32, 0]),
    ];
    for (body, place, values) in bad {
        for value in values {
            let name = format!("offset-{body}-{value}-in-least");
            book.refused(name, patched(&file, &[(place as usize, value)]), 5, place);
        }
    }
    // "the first such offset"
    let file = base().bytes();
    let mut bad = |name: &str, patches: &[(usize, u32)], place| {
        book.refused(name, patched(&file, patches), 5, place);
    };
    bad("offsets-events-text", &[(0, 33), (24, 153)], 0);
    bad("offsets-items-messages", &[(8, 45), (16, 141)], 8);
    bad("offsets-items-text", &[(8, 43), (24, 151)], 8);
    bad("offsets-messages-text", &[(16, 141), (24, 151)], 16);
    bad("offsets-all", &[(0, 0), (8, 0), (16, 0), (24, 0)], 0);
    // 5 comes before 6, an item's 20 to 27 and 8.
    let bad = base().with(|s| {
        s.events[0] = 0;
        s.items[0].kind = 2;
        s.text[0] = 0;
    });
    book.refused("offset-text-and-bodies", patched(&bad.bytes(), &[(24, 153)]), 5, 24);
    // An offset before the length: "offsets right, file length wrong".
    let bad = patched(&file[..162], &[(24, 153)]);
    book.refused("offset-text-and-length-short", bad, 5, 24);
    let bad = patched(&[&file[..], b"x"].concat(), &[(16, 141)]);
    book.refused("offset-messages-and-length-long", bad, 5, 16);
}

/// "a table of contents first, then the bodies without gaps": the bodies are
/// whole and where the offsets say, but with a gap or in another order.
fn bodies_moved(book: &mut Book) {
    let file = base().bytes();
    let gap = |at: usize, bytes: usize, patches: &[(usize, u32)]| {
        let gap = vec![b'x'; bytes];
        patched(&[&file[..at], &gap[..], &file[at..]].concat(), patches)
    };
    let bad = gap(32, 1, &[(0, 33), (8, 45), (16, 141), (24, 153)]);
    book.refused("gap-before-events", bad, 5, 0);
    let bad = gap(44, 1, &[(8, 45), (16, 141), (24, 153)]);
    book.refused("gap-before-items", bad, 5, 8);
    let bad = gap(44, 4, &[(8, 48), (16, 144), (24, 156)]);
    book.refused("gap-of-4-before-items", bad, 5, 8);
    let bad = gap(140, 1, &[(16, 141), (24, 153)]);
    book.refused("gap-before-messages", bad, 5, 16);
    let bad = gap(152, 1, &[(24, 153)]);
    book.refused("gap-before-text", bad, 5, 24);
    // "in that order": items, events, messages, text.
    let bad = [&file[..32], &file[44..140], &file[32..44], &file[140..]].concat();
    book.refused("items-before-events", patched(&bad, &[(0, 128), (8, 32)]), 5, 0);
    // events, messages, items, text
    let bad = [&file[..44], &file[140..152], &file[44..140], &file[152..]].concat();
    book.refused("messages-before-items", patched(&bad, &[(8, 56), (16, 44)]), 5, 8);
    // events, items, text, messages
    let bad = [&file[..140], &file[152..], &file[140..152]].concat();
    book.refused("text-before-messages", patched(&bad, &[(16, 151), (24, 140)]), 5, 16);
    // The text begins in the last message's last byte.
    let bad = [&file[..151], &file[152..]].concat();
    book.refused("text-over-messages", patched(&bad, &[(24, 151)]), 5, 24);
}

/// "5 offsets right, file length wrong", place 0.
fn length(book: &mut Book) {
    let file = base().bytes();
    book.refused("length-short-by-1", file[..162].to_vec(), 5, 0);
    book.refused("length-long-by-1", [&file[..], b"l"].concat(), 5, 0);
    book.refused("length-long-by-1-zero", [&file[..], b"\0"].concat(), 5, 0);
    book.refused("length-no-text", file[..152].to_vec(), 5, 0);
    book.refused("length-no-messages", file[..140].to_vec(), 5, 0);
    book.refused("length-no-items", file[..44].to_vec(), 5, 0);
    book.refused("length-part-of-event", file[..33].to_vec(), 5, 0);
    book.refused("length-twice", [&file[..], &file[..]].concat(), 5, 0);
    let file = least().bytes();
    book.refused("length-35-least", file[..35].to_vec(), 5, 0);
    book.refused("length-37-least", [&file[..], b"x"].concat(), 5, 0);
    // The length comes before 6, an item's 20 to 27 and 8.
    let bad = base().with(|s| {
        s.events[0] = 0;
        s.items[0].kind = 2;
        s.text[0] = 0;
    });
    book.refused("length-and-bodies", bad.bytes()[..162].to_vec(), 5, 0);
    let bad = [&bad.bytes()[..], b"l"].concat();
    book.refused("length-long-and-bodies", bad, 5, 0);
}
