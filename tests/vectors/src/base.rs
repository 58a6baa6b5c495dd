//! The small sound files that most vectors start from, with the places of
//! their entries counted out by hand.

use crate::score::{action, group, Score};

/// Three events, eight items, three messages, eleven text bytes; 163 bytes.
///
/// | bytes | what |
/// |---|---|
/// | 0 to 31 | contents: 32 3, 44 8, 140 3, 152 11 |
/// | 32 to 43 | three events |
/// | 44 to 139 | eight items |
/// | 140 to 151 | three messages |
/// | 152 to 162 | `abcdefghijk` |
pub fn base() -> Score {
    Score::new(
        &[10_080, 5_040, 2_520],
        &[
            action(1, 0, 0).after(100),
            group(1, 1, 3),
            action(0, 1, 1).after(5_040),
            group(0, 1, 1).words(1, 3).after(9),
            action(0, 1, 2),
            group(2, 2, 0).words(1, 2).after(7),
            action(3, 0, 1).after(1),
            action(3, 15, 2),
        ],
        &[b"abc", b"defgh", b"ijk"],
    )
}

/// First byte of each event of the base file.
pub const EVENTS: [u32; 3] = [32, 36, 40];

/// First byte of each item of the base file.
pub const ITEMS: [u32; 8] = [44, 56, 68, 80, 92, 104, 116, 128];

/// First byte of each message of the base file.
pub const MESSAGES: [u32; 3] = [140, 144, 148];

/// One event, no item, no message, no text; 36 bytes.
pub fn least() -> Score {
    Score::new(&[5_040], &[], &[])
}

/// One event, one message `x` and these items; item i starts at 36 + 12 i.
pub fn one_event(items: &[crate::score::Item]) -> Score {
    Score::new(&[5_040], items, &[b"x"])
}

/// Two events, one message `x` and these items; item i starts at 40 + 12 i.
pub fn two_events(items: &[crate::score::Item]) -> Score {
    Score::new(&[5_040, 5_040], items, &[b"x"])
}

/// Three events, one message `x` and these items; item i starts at 44 + 12 i.
pub fn three_events(items: &[crate::score::Item]) -> Score {
    Score::new(&[5_040, 5_040, 5_040], items, &[b"x"])
}
