//! "8 a message entry or its label bytes", place "the entry's first byte"; "8
//! entries right, text not used up", place 24.
//!
//! The base file's messages are (0, 3), (3, 5) and (8, 3) at 140, 144 and 148;
//! its text is `abcdefghijk`. With one event and no items message i starts at
//! 36 + 4 i.

use crate::base::{base, least, MESSAGES};
use crate::book::Book;
use crate::score::{Message, Score};

pub fn add(book: &mut Book) {
    starts(book);
    lengths(book);
    past_the_end(book);
    label_bytes(book);
    not_used_up(book);
}

/// The base file with other entries and text.
fn entries(entries: &[(u16, u16)], text: &[u8]) -> Vec<u8> {
    let score = base().with(|s| {
        s.messages = entries.iter().map(|&(start, length)| Message { start, length }).collect();
        s.text = text.to_vec();
    });
    score.bytes()
}

/// "The first starts at 0, each next where the one before ends".
fn starts(book: &mut Book) {
    let mut bad = |name: &str, list: &[(u16, u16)], text: &[u8], place| {
        book.refused(name, entries(list, text), 8, place);
    };
    let text = b"abcdefghijk";
    // The first at 1: the rest follows on, the text is used to its end.
    bad("start-first-1", &[(1, 2), (3, 5), (8, 3)], text, 140);
    bad("start-first-65535", &[(65_535, 3), (3, 5), (8, 3)], text, 140);
    bad("start-first-256", &[(256, 3), (3, 5), (8, 3)], text, 140);
    // A gap of one byte, what follows in step with it.
    bad("start-gap-middle", &[(0, 3), (4, 4), (8, 3)], text, 144);
    bad("start-gap-last", &[(0, 3), (3, 5), (9, 2)], text, 148);
    // An overlap of one byte.
    bad("start-overlap-middle", &[(0, 3), (2, 6), (8, 3)], text, 144);
    bad("start-overlap-last", &[(0, 3), (3, 5), (7, 4)], text, 148);
    // The start alone one off.
    bad("start-middle-4", &[(0, 3), (4, 5), (8, 3)], text, 144);
    bad("start-last-7", &[(0, 3), (3, 5), (7, 3)], text, 148);
    bad("start-middle-65535", &[(0, 3), (65_535, 5), (8, 3)], text, 144);
    bad("start-middle-259", &[(0, 3), (259, 5), (8, 3)], text, 144);
    bad("start-last-65535", &[(0, 3), (3, 5), (65_535, 1)], text, 148);
    // Each label from 0 on; entries in another order.
    bad("start-middle-0", &[(0, 3), (0, 5), (8, 3)], text, 144);
    bad("start-last-0", &[(0, 3), (3, 5), (0, 3)], text, 148);
    bad("start-first-two-swapped", &[(3, 5), (0, 3), (8, 3)], text, 140);
    bad("start-last-two-swapped", &[(0, 3), (8, 3), (3, 5)], text, 144);
    // A length one off shows at the next entry: it starts elsewhere.
    bad("length-one-less-first", &[(0, 2), (3, 5), (8, 3)], text, 144);
    bad("length-one-more-first", &[(0, 4), (3, 5), (8, 3)], text, 144);
    bad("length-one-less-middle", &[(0, 3), (3, 4), (8, 3)], text, 148);
    bad("length-one-more-middle", &[(0, 3), (3, 6), (8, 3)], text, 148);
    // At the last entry there is no next: one less leaves a byte of text ("text
    // not used up", 24), one more runs past its end.
    bad("length-one-less-last", &[(0, 3), (3, 5), (8, 2)], text, 24);
    bad("length-one-more-last", &[(0, 3), (3, 5), (8, 4)], text, 148);
}

/// "Length 1 to 48", with entries and text in step. Sound twins are
/// `label-length-1-first`, `label-length-48-first` and their like.
fn lengths(book: &mut Book) {
    let mut bad = |name: &str, list: &[(u16, u16)], text: &[u8], place| {
        book.refused(name, entries(list, text), 8, place);
    };
    bad("label-length-0-first", &[(0, 0), (0, 5), (5, 3)], b"defghijk", 140);
    bad("label-length-0-middle", &[(0, 3), (3, 0), (3, 3)], b"abcijk", 144);
    bad("label-length-0-last", &[(0, 3), (3, 5), (8, 0)], b"abcdefgh", 148);
    bad("label-length-0-all", &[(0, 0), (0, 0), (0, 0)], b"", 140);
    let x = [b'x'; 49];
    let text = [&x[..], b"defghijk"].concat();
    bad("label-length-49-first", &[(0, 49), (49, 5), (54, 3)], &text, 140);
    let text = [b"abc", &x[..], b"ijk"].concat();
    bad("label-length-49-middle", &[(0, 3), (3, 49), (52, 3)], &text, 144);
    let text = [b"abcdefgh", &x[..]].concat();
    bad("label-length-49-last", &[(0, 3), (3, 5), (8, 49)], &text, 148);
    // 257 is 1 cut to a byte.
    let text = [b'x'; 257];
    let score = Score::new(&[5_040], &[], &[&text]);
    book.refused("label-length-257", score.bytes(), 8, 36);
    // The length alone; start + length is 2 when cut to 16 bits.
    let score = entries(&[(0, 3), (3, 65_535), (2, 3)], b"abcdefghijk");
    book.refused("label-length-65535-middle", score, 8, 144);
    // The only message.
    let score = least().with(|s| s.messages = vec![Message { start: 0, length: 0 }]);
    book.refused("label-length-0-only", score.bytes(), 8, 36);
    book.refused("label-length-49-only", Score::new(&[1], &[], &[&x]).bytes(), 8, 36);
}

/// "start and length (u16) in the text": an entry that runs past the text's
/// end is itself at fault.
fn past_the_end(book: &mut Book) {
    let mut bad = |name: &str, list: &[(u16, u16)], text: &[u8], place| {
        book.refused(name, entries(list, text), 8, place);
    };
    // The text one byte short, the entries as they were.
    bad("past-end-last", &[(0, 3), (3, 5), (8, 3)], b"abcdefghij", 148);
    // The last begins just at the text's end.
    bad("past-end-last-whole", &[(0, 3), (3, 5), (8, 3)], b"abcdefgh", 148);
    // The last entry starts past the text's end, but the one before it ends
    // past it already.
    bad("past-end-middle", &[(0, 3), (3, 5), (8, 3)], b"abcdefg", 144);
    bad("past-end-middle-48", &[(0, 3), (3, 48), (51, 3)], b"abcdefghijk", 144);
    bad("past-end-first", &[(0, 3), (3, 5), (8, 3)], b"ab", 140);
    bad("past-end-first-48", &[(0, 48), (48, 5), (53, 3)], b"abcdefghijk", 140);
    bad("past-end-no-text", &[(0, 3), (3, 5), (8, 3)], b"", 140);
    // 48 bytes asked, 47 there.
    let score = Score::new(&[1], &[], &[&[b'x'; 48]]).with(|s| s.text.truncate(47));
    book.refused("past-end-48-of-47", score.bytes(), 8, 36);
    let score = Score::new(&[1], &[], &[b"x"]).with(|s| s.text.clear());
    book.refused("past-end-1-of-0", score.bytes(), 8, 36);
}

/// "Label bytes are 32 to 255 but not 127". Sound twins are
/// `label-byte-32-first` and its like.
fn label_bytes(book: &mut Book) {
    // First, middle and last byte of each label of the base file.
    let labels: [(usize, &str, [usize; 3]); 3] =
        [(0, "first", [0, 1, 2]), (1, "middle", [3, 5, 7]), (2, "last", [8, 9, 10])];
    for byte in [0, 31, 127] {
        for (message, which, bytes) in labels {
            for (at, position) in bytes.into_iter().zip(["first", "middle", "last"]) {
                let bad = base().with(|s| s.text[at] = byte);
                let name = format!("label-byte-{byte}-{position}-of-{which}");
                book.refused(name, bad.bytes(), 8, MESSAGES[message]);
            }
        }
    }
    // The others below 32, in the only label.
    for byte in 1..=30 {
        let bad = Score::new(&[5_040], &[], &[&[b'a', byte, b'c']]);
        book.refused(format!("label-byte-{byte}"), bad.bytes(), 8, 36);
    }
    // A label of one byte, and the last of 48.
    for byte in [0, 31, 127] {
        let bad = Score::new(&[5_040], &[], &[&[byte]]);
        book.refused(format!("label-byte-{byte}-only"), bad.bytes(), 8, 36);
        let mut label = [200; 48];
        label[47] = byte;
        let bad = Score::new(&[5_040], &[], &[b"a", &label]);
        book.refused(format!("label-byte-{byte}-48th"), bad.bytes(), 8, 36 + 4);
    }
}

/// "entries right, text not used up": 24, whatever the bytes left over are.
fn not_used_up(book: &mut Book) {
    let left = |name: &str, score: Score, text: &[u8], book: &mut Book| {
        let bad = score.with(|s| s.text.extend_from_slice(text));
        book.refused(name, bad.bytes(), 8, 24);
    };
    left("text-left-1", base(), b"l", book);
    left("text-left-49", base(), &[b'x'; 49], book);
    left("text-left-zero", base(), b"\0", book);
    left("text-left-127", base(), b"\x7f", book);
    left("text-left-1-no-messages", least(), b"x", book);
    left("text-left-48-no-messages", least(), &[b'x'; 48], book);
    left("text-left-zero-no-messages", least(), b"\0", book);
    left("text-left-one-message", Score::new(&[1], &[], &[b"a"]), b"b", book);
    // Groups only, no messages: the items are right.
    let groups = Score::new(&[1], &[crate::score::group(1, 0, 0)], &[]);
    left("text-left-no-messages-items", groups, b"x", book);
}
