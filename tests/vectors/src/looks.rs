//! Text look-ups: "15 no such message", and "Text look-up: the file check, 15".

use crate::base::{base, least};
use crate::book::Book;
use crate::score::{patched, Score};

pub fn add(book: &mut Book) {
    // The base file holds messages 0, 1 and 2: `abc`, `defgh`, `ijk`.
    let file = base().bytes();
    book.sound("look-first", file.clone(), 0, b"abc");
    book.sound("look-middle", file.clone(), 1, b"defgh");
    book.sound("look-last", file.clone(), 2, b"ijk");
    // Messages are "counted from 0": the count itself is none, nor is anything
    // above it. A number is taken whole (a reading): among these are some that
    // would be 0, 1 or 2 cut to 8, 16 or 32 bits, and two whose fourfold wraps
    // round 2^64.
    let none: [(&str, u64); 13] = [
        ("look-count", 3),
        ("look-255", 255),
        ("look-256", 256),
        ("look-65535", 65_535),
        ("look-65536", 65_536),
        ("look-65537", 65_537),
        ("look-2-32-less-1", 4_294_967_295),
        ("look-2-32", 4_294_967_296),
        ("look-2-32-plus-1", 4_294_967_297),
        ("look-2-32-plus-2", 4_294_967_298),
        ("look-2-62-plus-1", 4_611_686_018_427_387_905),
        ("look-2-63", 9_223_372_036_854_775_808),
        ("look-2-64-less-1", 18_446_744_073_709_551_615),
    ];
    for (name, number) in none {
        book.no_message(name, file.clone(), number);
    }
    // Without messages there is none to find, text or no text.
    for (name, number) in [("look-none-1", 1), ("look-none-2-32", 1 << 32)] {
        book.no_message(name, least().bytes(), number);
    }
    let one = Score::new(&[5_040], &[], &[b"only"]).bytes();
    book.sound("look-one-0", one.clone(), 0, b"only");
    book.no_message("look-one-1", one, 1);

    // The file check comes first: no such message, but the file is refused.
    let asking: [(&str, u64); 3] = [("0", 0), ("3", 3), ("2-64-less-1", u64::MAX)];
    for (ask, number) in asking {
        // "file under 32 bytes"
        book.refused_asking(format!("look-{ask}-in-short"), file[..31].to_vec(), number, 3, 0);
        // "a count outside its limits": the message count 513, at byte 20.
        let bad = patched(&file, &[(20, 513)]);
        book.refused_asking(format!("look-{ask}-in-count"), bad, number, 4, 20);
        // "offsets right, file length wrong"
        let bad = file[..162].to_vec();
        book.refused_asking(format!("look-{ask}-in-length"), bad, number, 5, 0);
        // "an event's duration": the last of three, at 32 + 4 + 4.
        let bad = base().with(|s| s.events[2] = 0).bytes();
        book.refused_asking(format!("look-{ask}-in-event"), bad, number, 6, 40);
        // An item's part: the last of eight, at 44 + 7 x 12, byte 3 of it.
        let bad = base().with(|s| s.items[7].part = 16).bytes();
        book.refused_asking(format!("look-{ask}-in-item"), bad, number, 22, 131);
        // "a message entry or its label bytes": the last of three, at 140 + 8.
        let bad = base().with(|s| s.text[10] = 0).bytes();
        book.refused_asking(format!("look-{ask}-in-label"), bad, number, 8, 148);
        // "entries right, text not used up": 24.
        let bad = base().with(|s| s.text.push(b'l')).bytes();
        book.refused_asking(format!("look-{ask}-in-text"), bad, number, 8, 24);
    }
}
