//! The scores of the pieces under examples/. What they say, and what is to be
//! heard, stands beside them there.

use crate::extended::{a_curve, a_loop, plain, Extended, Point};
use crate::score::{action, group, Item, Score};

/// 60 beats a minute is a tempo of 5,040.
const BEAT: u32 = 5_040;

const LOOSE: u8 = 0;
const TIGHT: u8 = 1;
const LOCAL: u8 = 0;
const GLOBAL: u8 = 1;
const PARTIAL: u8 = 2;
const CAUSAL: u8 = 3;

/// Four notes of 2, 1, 1 and 2 beats.
const NOTES: [u32; 4] = [2 * BEAT, BEAT, BEAT, 2 * BEAT];

pub fn all() -> [(&'static str, Score); 7] {
    [
        ("small", small()),
        ("cellist", cellist()),
        ("chamber", chamber()),
        ("duo", duo()),
        ("sweep", sweep()),
        ("early", early()),
        ("tape", tape()),
    ]
}

/// The extended scores, each beside the score that it unfolds to.
pub fn extended() -> [(&'static str, Extended); 1] {
    [("sweep", extended_sweep())]
}

/// Document 01's P2: "Events of 2, 1 and 1 beats"; "one group, delay 0, holds a
/// after 1 beat and b 1.5 beats later", tight.
fn small() -> Score {
    let items = [
        group(1, 0, 2).words(TIGHT, LOCAL),
        action(0, 0, 0).after(BEAT),
        action(0, 0, 1).after(BEAT + BEAT / 2),
    ];
    Score::new(&[2 * BEAT, BEAT, BEAT], &items, &[b"a", b"b"])
}

/// One player's items: two cues after note 1, one at note 2, two from note 3 on
/// of which the second waits for note 4, one after note 4. Messages count from
/// `first`.
fn cues(part: u8, error: u8, first: u16) -> [Vec<Item>; 4] {
    let two = |event, synchrony, later, message| {
        vec![
            group(event, part, 2).words(synchrony, error),
            action(0, part, message),
            action(0, part, message + 1).after(later),
        ]
    };
    let one = |event, later, message| {
        vec![group(event, part, 1).words(LOOSE, error), action(0, part, message).after(later)]
    };
    [
        two(1, LOOSE, BEAT, first),
        one(2, 0, first + 2),
        two(3, TIGHT, BEAT + BEAT / 2, first + 3),
        one(4, BEAT, first + 5),
    ]
}

const CELLO: [&str; 6] =
    ["bourdon", "bourdon: crescendo", "écho", "gel", "gel: relâcher", "tout éteindre"];

const CHAMBER: [&str; 6] = ["gong", "gong: damp", "bells", "wind", "wind: out", "close"];

fn bytes<'a>(labels: &[&'a str]) -> Vec<&'a [u8]> {
    labels.iter().map(|label| label.as_bytes()).collect()
}

/// Cues of missed notes sound late.
fn cellist() -> Score {
    Score::new(&NOTES, &cues(0, CAUSAL, 0).concat(), &bytes(&CELLO))
}

/// Cues of missed notes are dropped.
fn chamber() -> Score {
    Score::new(&NOTES, &cues(0, LOCAL, 0).concat(), &bytes(&CHAMBER))
}

/// Both in one piece, the cellist part 0 and the group part 1.
fn duo() -> Score {
    let cello = cues(0, CAUSAL, 0);
    let chamber = cues(1, LOCAL, 6);
    let mut items = Vec::new();
    for note in 0..4 {
        items.extend_from_slice(&cello[note]);
        items.extend_from_slice(&chamber[note]);
    }
    Score::new(&NOTES, &items, &bytes(&[CELLO, CHAMBER].concat()))
}

const STEP: u32 = BEAT / 3;

/// Two notes of 4 beats. With the first a loop of three passes, a beat each; half
/// a beat after the second a curve from 0 down to -10 in three steps and up to 64
/// in two.
fn extended_sweep() -> Extended {
    Extended {
        events: vec![4 * BEAT, 4 * BEAT],
        items: vec![
            a_loop(group(1, 0, 2).words(TIGHT, LOCAL), BEAT, 3),
            plain(action(0, 0, 0)),
            plain(action(0, 0, 1).after(BEAT / 2)),
            a_curve(group(2, 1, 0).after(BEAT / 2).words(LOOSE, CAUSAL), STEP, 3),
        ],
        labels: vec!["tick", "tock", "64"],
        points: vec![
            Point { value: 0, span: 3 * STEP },
            Point { value: -10, span: 2 * STEP },
            Point { value: 64, span: 0 },
        ],
    }
}

/// What it unfolds to, item by item, by hand. The loop is a group of three groups
/// with its words. The curve's values are 0, -4 (0 + floor(-10/3)), -7 (0 +
/// floor(-20/3)), -10, 27 (-10 + 74/2) and 64; 64 is there, the others join the
/// list.
fn sweep() -> Score {
    let pass = |later| group(0, 0, 2).words(TIGHT, LOCAL).after(later);
    let tick = || action(0, 0, 0);
    let tock = || action(0, 0, 1).after(BEAT / 2);
    let items = [
        group(1, 0, 9).words(TIGHT, LOCAL),
        pass(0),
        tick(),
        tock(),
        pass(BEAT),
        tick(),
        tock(),
        pass(BEAT),
        tick(),
        tock(),
        group(2, 1, 6).words(LOOSE, CAUSAL).after(BEAT / 2),
        action(0, 1, 3),
        action(0, 1, 4).after(STEP),
        action(0, 1, 5).after(STEP),
        action(0, 1, 6).after(STEP),
        action(0, 1, 7).after(STEP),
        action(0, 1, 2).after(STEP),
    ];
    let labels = ["tick", "tock", "64", "0", "-4", "-7", "-10", "27"];
    Score::new(&[4 * BEAT, 4 * BEAT], &items, &bytes(&labels))
}

/// An eighth of a beat, the longest grace.
const EIGHTH: u32 = BEAT / 8;

/// Three notes of 2 beats, so note 3 is at 20,160. Cues that are meant for it stand
/// an eighth of a beat before it, at 19,530 (`brass`, and the group of `flash` and
/// `dark`), or one grain, at 20,159 (`drum`).
///
/// Note 2 is missed and note 3 heard, so under note 2 an item is past "exactly if
/// its date plus g is before" 20,160: `swell` and `dim`, at 15,120, with every
/// grace; 19,530 with each below 630; 20,159 with 0 only. In the partial group "past
/// actions are dropped"; in the causal one they come with note 3. The group in that,
/// past, is split in turn, and `dark`, at 19,530 + 2,520, comes 1,890 after note 3;
/// future, it is heard there with delay 0, and `dark` comes 2,520 after.
fn early() -> Score {
    let items = [
        action(1, 0, 0),
        group(2, 0, 3).words(LOOSE, PARTIAL),
        action(0, 0, 1).after(BEAT),
        action(0, 0, 2).after(BEAT - EIGHTH),
        action(0, 0, 3).after(EIGHTH - 1),
        group(2, 1, 4).words(LOOSE, CAUSAL),
        action(0, 1, 4).after(BEAT),
        group(0, 1, 2).words(LOOSE, CAUSAL).after(BEAT - EIGHTH),
        action(0, 1, 5),
        action(0, 1, 6).after(BEAT / 2),
        action(3, 0, 7),
    ];
    let labels = ["drone", "swell", "brass", "drum", "dim", "flash", "dark", "tutti"];
    Score::new(&[2 * BEAT, 2 * BEAT, 2 * BEAT], &items, &bytes(&labels))
}

/// Four notes of 2 beats, so note 2 is at 10,080, note 3 at 20,160 and note 4 at
/// 30,240. Under note 2, in part 0, a group that starts at 30,240, and `lamp`, which
/// follows it there; in part 1 a group that starts with the note, and a tight one that
/// starts at 25,200.
///
/// Note 2 is missed, and notes 3 and 4 heard, so "a missed global group is heard at j
/// with delay max(0, E(i) + d - E(j))": the first 10,080 after note 3, the second with
/// it, the tight one 5,040 after it. `chorus`, at 25,200, stays with note 3; `chorus:
/// out`, at 35,280, goes to note 4, 5,040 after it. A missed action comes by its own
/// date: `lamp` 10,080 after note 3.
fn tape() -> Score {
    let items = [
        action(1, 0, 0),
        group(2, 0, 2).words(LOOSE, GLOBAL).after(4 * BEAT),
        action(0, 0, 1),
        action(0, 0, 2).after(BEAT),
        action(2, 0, 3),
        group(2, 1, 1).words(LOOSE, GLOBAL),
        action(0, 1, 4),
        group(2, 1, 2).words(TIGHT, GLOBAL).after(3 * BEAT),
        action(0, 1, 5),
        action(0, 1, 6).after(2 * BEAT),
    ];
    let labels = ["hiss", "reel", "reel: fade", "lamp", "bell", "chorus", "chorus: out"];
    Score::new(&[2 * BEAT; 4], &items, &bytes(&labels))
}
