//! "6 an event's duration", place "its first byte".
//!
//! "Event: 4 bytes, its duration in grains, 1 to 5,040,000." The sound twins
//! are `duration-1-first` and its like.

use crate::base::{base, EVENTS};
use crate::book::Book;
use crate::score::Score;

pub fn add(book: &mut Book) {
    // 16,777,217 would be 1 cut to three bytes; 1 and 5,040,000 with the bytes
    // turned round are 16,777,216 and 2,162,641,920.
    let durations =
        [0, 5_040_001, 16_777_216, 16_777_217, 2_147_483_648, 2_162_641_920, 4_294_967_295];
    for duration in durations {
        for (i, at) in [(0, "first"), (1, "middle"), (2, "last")] {
            let bad = base().with(|s| s.events[i] = duration);
            book.refused(format!("duration-{duration}-{at}"), bad.bytes(), 6, EVENTS[i]);
        }
    }
    // The only event, and the last of 256: 32 + 4 x 255.
    book.refused("duration-0-only", Score::new(&[0], &[], &[]).bytes(), 6, 32);
    book.refused("duration-5040001-only", Score::new(&[5_040_001], &[], &[]).bytes(), 6, 32);
    let mut events = [5_040_000; 256];
    events[255] = 5_040_001;
    book.refused("duration-5040001-of-256", Score::new(&events, &[], &[]).bytes(), 6, 1_052);
    events[255] = 0;
    book.refused("duration-0-of-256", Score::new(&events, &[], &[]).bytes(), 6, 1_052);
    events[255] = 5_040_000;
    book.no_message("durations-5040000-256", Score::new(&events, &[], &[]).bytes(), 0);
    // "from front to back": the first bad one.
    let bad = base().with(|s| (s.events[0], s.events[2]) = (5_040_001, 0));
    book.refused("durations-first-and-last", bad.bytes(), 6, 32);
    let bad = base().with(|s| (s.events[1], s.events[2]) = (5_040_001, 0));
    book.refused("durations-middle-and-last", bad.bytes(), 6, 36);
}
