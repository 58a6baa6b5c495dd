//! Extended scores that are refused, numbers and places by hand; and, beside each
//! limit, those that are just not refused.

use crate::extended::{Extended, Figure, Point, ACTION};
use crate::extended_words::{
    action, curve, figures_of, group, looped, note, one_beat, points, six_items, BARE_SCORE,
    LOOP_SCORE, RISING_SCORE,
};
use crate::text::FILE_ROOM;
use crate::unfold::unfold;
use crate::words::Tally;

pub fn extended_refusals(tally: &mut Tally) {
    bad_contents(tally);
    bad_items(tally);
    counts_at_their_limits(tally);
    lists_at_their_limits(tally);
    depths(tally);
    very_large(tally);
    orders(tally);
    places_in_the_unfolded_file(tally);
}

// ---------------------------------------------------------------- faults

fn bad_contents(tally: &mut Tally) {
    let mut test = |name: &str, input: &[u8]| {
        let right = figures_of(&unfold(input, FILE_ROOM)) == (17, 0);
        tally.note(&format!("extended: {name}: 17 at 0"), right);
    };
    test("no byte", b"");
    test("39 bytes", &BARE_SCORE[..39]);
    test("40 bytes of 44", &BARE_SCORE[..40]);
    test("a byte too few", &LOOP_SCORE[..88]);
    test("a byte too many", &[&LOOP_SCORE[..], &[0]].concat());
    for word in 0..10 {
        for change in [1, 128, 255] {
            for byte in [0, 3] {
                let mut input = RISING_SCORE;
                let at = 4 * word + byte;
                input[at] = input[at].wrapping_add(change);
                test(&format!("byte {at} of the contents"), &input);
            }
        }
    }
    // Counts whose bytes are a multiple of 2^32.
    for (at, more) in [(7, 64), (15, 64), (23, 64), (39, 32)] {
        let mut input = RISING_SCORE;
        input[at] += more;
        test(&format!("byte {at} of the contents, {more} more"), &input);
    }
}

type Change = (&'static str, fn(&mut Extended), (u64, usize));

const ITEM_FAULTS: &[Change] = &[
    ("six items", |_| {}, (0, 0)),
    ("kind 4", |s| s.items[0].entry.kind = 4, (17, 48)),
    ("kind 4, last", |s| s.items[5].entry.kind = 4, (17, 148)),
    ("kind 255", |s| s.items[1].entry.kind = 255, (17, 68)),
    (
        "a group past the table",
        |s| s.items[0].entry.last = 6,
        (17, 48),
    ),
    // It holds the loop, which names an event.
    (
        "a group up to the end",
        |s| s.items[0].entry.last = 5,
        (24, 72),
    ),
    (
        "a group past its loop",
        |s| s.items[3].entry.last = 1,
        (17, 108),
    ),
    (
        "a loop past the table",
        |s| s.items[2].entry.last = 4,
        (17, 88),
    ),
    (
        "a loop past its group",
        |s| {
            s.items[0].entry.last = 2;
            s.items[2].entry.event = 0;
        },
        (17, 88),
    ),
    ("period 5,040,000", |s| s.items[2].each = 5_040_000, (0, 0)),
    (
        "period 5,040,001",
        |s| s.items[2].each = 5_040_001,
        (17, 88),
    ),
    ("period 0", |s| s.items[2].each = 0, (0, 0)),
    ("no pass", |s| s.items[2].times = 0, (17, 88)),
    ("1 pass", |s| s.items[2].times = 1, (0, 0)),
    ("256 passes", |s| s.items[2].times = 256, (0, 0)),
    ("257 passes", |s| s.items[2].times = 257, (17, 88)),
    ("65,535 passes", |s| s.items[2].times = 65_535, (17, 88)),
    ("step 0", |s| s.items[4].each = 0, (17, 128)),
    ("step 0, one point", |s| s.items[5].each = 0, (17, 148)),
    ("step 1", |s| s.items[4].each = 1, (0, 0)),
    ("step 8", |s| s.items[4].each = 8, (0, 0)),
    ("step 3 of 8", |s| s.items[4].each = 3, (17, 128)),
    ("step 16 of 8", |s| s.items[4].each = 16, (17, 128)),
    ("step 5,040,000", |s| s.items[5].each = 5_040_000, (0, 0)),
    ("step 5,040,001", |s| s.items[5].each = 5_040_001, (17, 148)),
    ("no points", |s| s.items[4].times = 0, (17, 128)),
    ("a point too few", |s| s.items[4].times = 1, (17, 128)),
    ("a point too many", |s| s.items[4].times = 3, (17, 128)),
    (
        "more points than there are",
        |s| s.items[5].times = 2,
        (17, 148),
    ),
    ("65,535 points", |s| s.items[5].times = 65_535, (17, 148)),
    ("last of a curve", |s| s.items[5].entry.last = 1, (17, 148)),
    ("a span of 0", |s| s.points[0].span = 0, (17, 128)),
    ("a span of 12", |s| s.points[0].span = 12, (0, 0)),
    ("a span of 9", |s| s.points[0].span = 9, (17, 128)),
    ("a span of 3", |s| s.points[0].span = 3, (17, 128)),
    ("a last span of 8", |s| s.points[1].span = 8, (17, 128)),
    ("an only span of 3", |s| s.points[2].span = 3, (17, 148)),
    (
        "a point left over",
        |s| s.points.push(Point::default()),
        (17, 0),
    ),
    ("a point missing", |s| s.points.truncate(2), (17, 148)),
    ("each of an action", |s| s.items[1].each = 1, (17, 68)),
    ("times of an action", |s| s.items[1].times = 1, (17, 68)),
    ("pad of an action", |s| s.items[1].pad = 1, (17, 68)),
    ("pad's other byte", |s| s.items[1].pad = 256, (17, 68)),
    ("each of a group", |s| s.items[3].each = 1 << 31, (17, 108)),
    ("times of a group", |s| s.items[3].times = 256, (17, 108)),
    ("pad of a group", |s| s.items[0].pad = 1, (17, 48)),
    ("pad of a loop", |s| s.items[2].pad = 1, (17, 88)),
    ("pad of a curve", |s| s.items[4].pad = 256, (17, 128)),
    // The first from front to back; points left over come last.
    (
        "two items at fault",
        |s| {
            s.items[5].entry.kind = 4;
            s.items[3].pad = 1;
        },
        (17, 108),
    ),
    (
        "a point left over and a pad",
        |s| {
            s.points.push(Point::default());
            s.items[5].pad = 1;
        },
        (17, 148),
    ),
];

fn bad_items(tally: &mut Tally) {
    for (name, change, expected) in ITEM_FAULTS {
        let mut score = six_items();
        change(&mut score);
        note(tally, name, &score, *expected);
    }
    let size = unfold(&six_items().encode(), FILE_ROOM).map(|file| file.len());
    // 2 events, 13 items, `a` and the values 1, 2 and 3.
    let right = size == Ok(32 + 8 + 156 + 16 + 4);
    tally.note("extended: six items, their size", right);
}

// ---------------------------------------------------------------- limits

fn counts_at_their_limits(tally: &mut Tally) {
    for (count, expected) in [(0, 18), (1, 0), (256, 0), (257, 18), (65_537, 18)] {
        let score = Extended {
            durations: vec![5_040; count],
            ..Extended::default()
        };
        note(tally, &format!("{count} events"), &score, (expected, 0));
    }
    for (count, expected) in [(2_048, 0), (2_049, 18), (65_536, 18)] {
        let score = one_beat(vec![group(1, 0); count]);
        note(tally, &format!("{count} groups"), &score, (expected, 0));
    }
    // 255 passes of 7 groups are 1 + 255 x 8 items, so 7 more may be.
    for (passes, more, expected) in [(255, 7, 0), (255, 8, 18), (256, 0, 18)] {
        let mut items = vec![looped(1, passes, 7)];
        items.extend(vec![group(0, 0); 7]);
        items.extend(vec![group(1, 0); more]);
        let name = format!("{passes} passes of 7 groups and {more}");
        note(tally, &name, &one_beat(items), (expected, 0));
    }
    for (count, expected) in [(1_024, 0), (1_025, 18)] {
        let mut score = one_beat(vec![action(1, 0); count]);
        score.add_message(b"a");
        note(tally, &format!("{count} actions"), &score, (expected, 0));
        let mut score = one_beat(vec![curve(1, 1, 2)]);
        score.points = points(&[(3, count as u32 - 1), (3, 0)]);
        note(tally, &format!("{count} values"), &score, (expected, 0));
    }
    for (within, more, expected) in [(4, 0, 0), (4, 1, 18), (5, 0, 18)] {
        let mut items = vec![looped(1, 256, within)];
        items.extend(vec![action(0, 0); within.into()]);
        items.extend(vec![action(1, 0); more]);
        let mut score = one_beat(items);
        score.add_message(b"a");
        let name = format!("256 passes of {within} actions and {more}");
        note(tally, &name, &score, (expected, 0));
    }
}

fn lists_at_their_limits(tally: &mut Tally) {
    let list = |count: usize, items: Vec<Figure>, list: &[(i32, u32)]| {
        let mut score = one_beat(items);
        score.points = points(list);
        (0..count).for_each(|_| score.add_message(b"n"));
        score
    };
    for (count, expected) in [(512, 0), (513, 18)] {
        let score = list(count, vec![], &[]);
        note(tally, &format!("{count} messages"), &score, (expected, 0));
        let score = list(count - 1, vec![curve(1, 1, 1)], &[(5, 0)]);
        let name = format!("{} messages and a value", count - 1);
        note(tally, &name, &score, (expected, 0));
        let score = list(
            0,
            vec![curve(1, 1, 2)],
            &[(1, count as u32 - 1), (count as i32, 0)],
        );
        note(tally, &format!("1 to {count}"), &score, (expected, 0));
    }
    let mut score = list(511, vec![curve(1, 1, 1)], &[(5, 0)]);
    score.add_message(b"5");
    note(tally, "512 messages and one's value", &score, (0, 0));

    let mut score = one_beat(vec![]);
    (0..512).for_each(|_| score.add_message(&[b't'; 48]));
    note(tally, "24,576 text bytes in labels", &score, (0, 0));
    score.text.push(b't');
    note(tally, "24,577 text bytes", &score, (18, 0));
    // One label, far too long for the file check: its entry is at 36 without an
    // item, at 60 behind a curve's group and its action.
    for (length, value, expected) in [
        (24_576, None, (8, 36)),
        (24_577, None, (18, 0)),
        (24_575, Some(5), (8, 60)),
        (24_576, Some(5), (18, 0)),
        (24_565, Some(i32::MIN), (8, 60)),
        (24_566, Some(i32::MIN), (18, 0)),
    ] {
        let mut score = one_beat(vec![]);
        score.add_message(&vec![b't'; length]);
        if let Some(value) = value {
            score.items.push(curve(1, 1, 1));
            score.points = points(&[(value, 0)]);
        }
        let name = format!("{length} text bytes and {value:?}");
        note(tally, &name, &score, expected);
    }
}

/// Each holds the next.
fn chain(mut items: Vec<Figure>) -> Extended {
    let count = items.len();
    for (index, item) in items.iter_mut().enumerate() {
        item.entry.event = u16::from(index == 0);
        if item.holds() {
            item.entry.last = (count - index - 1) as u16;
        }
    }
    let mut score = one_beat(items);
    score.add_message(b"a");
    score
}

/// A loop takes two depths, its own and its passes'; a curve one more for its
/// values.
fn depths(tally: &mut Tally) {
    for (groups, loops, inmost, expected) in [
        (8, 0, None, 0),
        (9, 0, None, 18),
        (7, 0, Some(action(0, 0)), 0),
        (8, 0, Some(action(0, 0)), 18),
        (6, 0, Some(curve(0, 1, 1)), 0),
        (7, 0, Some(curve(0, 1, 1)), 18),
        (6, 1, None, 0),
        (7, 1, None, 18),
        (0, 4, None, 0),
        (1, 4, None, 18),
        (0, 4, Some(action(0, 0)), 18),
        (1, 3, Some(action(0, 0)), 0),
        (2, 3, Some(action(0, 0)), 18),
        (0, 3, Some(curve(0, 1, 1)), 0),
        (1, 3, Some(curve(0, 1, 1)), 18),
    ] {
        let mut items = vec![group(0, 0); groups];
        items.extend(vec![looped(0, 2, 0); loops]);
        items.extend(inmost);
        let mut score = chain(items);
        let inner = inmost.map_or("nothing", |item| match item.entry.kind {
            ACTION => "an action",
            _ => "a curve",
        });
        if inner == "a curve" {
            score.points = points(&[(4, 0)]);
        }
        let name = format!("{groups} groups, {loops} loops, {inner}");
        note(tally, &name, &score, (expected, 0));
    }
}

fn very_large(tally: &mut Tally) {
    for count in [3, 4, 8, 100, 65_536] {
        let score = chain(vec![looped(0, 256, 0); count]);
        note(
            tally,
            &format!("{count} loops of 256 passes"),
            &score,
            (18, 0),
        );
    }
    let mut score = chain(vec![group(0, 0); 65_536]);
    note(tally, "65,536 groups", &score, (18, 0));
    score.items[65_535].entry.last = 1;
    let place = 44 + 20 * 65_535;
    note(
        tally,
        "65,536 groups, the last too long",
        &score,
        (17, place),
    );
    // 2^32 values, and 2^32 + 1; 65,536 of them.
    for (step, list) in [
        (1, &[(0, u32::MAX), (9, 0)][..]),
        (1, &[(0, u32::MAX), (9, 1), (8, 0)]),
        (65_537, &[(0, u32::MAX), (9, 0)]),
    ] {
        let mut score = one_beat(vec![curve(1, step, list.len() as u16)]);
        score.points = points(list);
        note(tally, &format!("{list:?} by {step}"), &score, (18, 0));
    }
}

// ---------------------------------------------------------------- orders

fn orders(tally: &mut Tally) {
    for (name, input, room, expected) in [
        ("room for it", &LOOP_SCORE[..], 52_256, (0, 0)),
        ("more room", &LOOP_SCORE, 52_257, (0, 0)),
        ("a byte short", &LOOP_SCORE, 52_255, (2, 0)),
        ("room for this one", &LOOP_SCORE, 101, (2, 0)),
        ("no room", &LOOP_SCORE, 0, (2, 0)),
        ("short and empty", b"", 52_255, (2, 0)),
        ("empty", b"", 52_256, (17, 0)),
    ] {
        let right = figures_of(&unfold(input, room)) == expected;
        tally.note(&format!("extended: {name}, {room} bytes"), right);
    }
    let mut score = six_items();
    score.durations.clear();
    score.items[0].pad = 1;
    note(tally, "no event and a pad", &score, (17, 40));
    score.items[0].pad = 0;
    score.points.push(Point::default());
    note(tally, "no event and a point left over", &score, (17, 0));
    score.points.pop();
    note(tally, "no event and items that name one", &score, (18, 0));
    let mut score = six_items();
    score.durations = vec![0; 257];
    note(tally, "257 events of no grains", &score, (18, 0));
    score.durations.pop();
    note(tally, "256 events of no grains", &score, (6, 32));
    score.durations = vec![5_040; 256];
    score.durations[255] = 0;
    note(tally, "the 256th of no grains", &score, (6, 1_052));
}

/// The loop's file has its group at 36, its passes at 48 and 72, their actions at
/// 60 and 84, its message at 96. Byte of the extended score, value, reply.
const BYTES: &[(usize, u8, (u64, usize))] = &[
    // The event's duration.
    (43, 1, (6, 32)),
    // The loop: words, part, delay, event.
    (45, 2, (21, 37)),
    (46, 4, (21, 38)),
    (47, 16, (22, 39)),
    (47, 4, (22, 63)),
    (51, 1, (23, 40)),
    (52, 0, (24, 44)),
    (52, 2, (24, 44)),
    // Its action: words, part, delay, event, message.
    (65, 1, (21, 61)),
    (66, 1, (21, 62)),
    (67, 2, (22, 63)),
    (71, 1, (23, 64)),
    (72, 1, (24, 68)),
    (74, 1, (26, 70)),
    // The entry's start and length, the label.
    (84, 1, (8, 96)),
    (86, 0, (8, 96)),
    (86, 2, (8, 96)),
    (88, 31, (8, 96)),
    (88, 127, (8, 96)),
    (88, 255, (0, 0)),
];

fn places_in_the_unfolded_file(tally: &mut Tally) {
    for &(at, value, expected) in BYTES {
        let mut input = LOOP_SCORE;
        input[at] = value;
        let right = figures_of(&unfold(&input, FILE_ROOM)) == expected;
        let (number, place) = expected;
        let name = format!("extended: byte {at} is {value}: {number} at {place}");
        tally.note(&name, right);
    }
    let mut score = one_beat(vec![looped(1, 3, 1), group(0, 0), group(2, 0)]);
    // 1 + 3 x 2 items are before it, so it is at 120.
    note(tally, "an item behind a loop", &score, (24, 128));
    score.items.pop();
    score.text.push(b'x');
    note(tally, "text left over", &score, (8, 24));
    score.items.push(curve(1, 1, 1));
    score.points = points(&[(5, 0)]);
    // The first entry is the value's, and doesn't start at 0.
    note(tally, "text left over and a value", &score, (8, 144));
}
