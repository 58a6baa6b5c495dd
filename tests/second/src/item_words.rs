//! Request (vi) against values written by hand: the number and place of an item at
//! fault, which rule comes first, which item, and what `check` and `play` say.

use crate::lines::verdict;
use crate::play::play;
use crate::score;
use crate::words::{only_actions, Tally};

pub fn item_words(tally: &mut Tally) {
    rows(tally);
    pairs(tally);
    depths(tally);
    number_of_actions(tally);
    all_rules_at_once(tally);
    lines_and_openings(tally);
}

/// A byte of the file and another value there.
type Change = (usize, u8);

fn changed(file: &[u8], changes: &[Change]) -> Vec<u8> {
    let mut file = file.to_vec();
    for &(place, byte) in changes {
        file[place] = byte;
    }
    file
}

fn note(tally: &mut Tally, name: &str, file: &[u8], expected: (u64, usize)) {
    let (number, place) = expected;
    let right = score::check(file) == expected;
    tally.note(&format!("items: {name}: {number} at {place}"), right);
}

// ------------------------------------------------------------------ rows

/// Three events at 32; nine items from 44 on, the next at 56, 68, 80, 92, 104, 116,
/// 128 and 140; two messages at 152, text at 160, 162 bytes. A top action; a group
/// that holds an action and a group with an action; an empty group; an action; a
/// group that holds an action.
#[rustfmt::skip]
const PAGE: [u8; 162] = [
    32, 0, 0, 0, 3, 0, 0, 0,
    44, 0, 0, 0, 9, 0, 0, 0,
    152, 0, 0, 0, 2, 0, 0, 0,
    160, 0, 0, 0, 2, 0, 0, 0,
    1, 0, 0, 0,
    1, 0, 0, 0,
    1, 0, 0, 0,
    0, 0, 0, 0, 0, 0, 0, 0, 1, 0, 0, 0,
    1, 1, 3, 3, 0, 0, 0, 0, 1, 0, 3, 0,
    0, 0, 0, 3, 0, 0, 0, 0, 0, 0, 1, 0,
    1, 0, 2, 3, 0, 0, 0, 0, 0, 0, 1, 0,
    0, 0, 0, 3, 0, 0, 0, 0, 0, 0, 0, 0,
    1, 0, 1, 2, 0, 0, 0, 0, 2, 0, 0, 0,
    0, 0, 0, 5, 0, 0, 0, 0, 2, 0, 1, 0,
    1, 1, 0, 0, 0, 0, 0, 0, 3, 0, 1, 0,
    0, 0, 0, 0, 0, 0, 0, 0, 0, 0, 0, 0,
    0, 0, 1, 0,
    1, 0, 1, 0,
    b'a', b'b',
];

type Row = (&'static str, &'static [Change], (u64, usize));

const ROWS: &[Row] = &[
    ("nothing changed", &[], (0, 0)),
    // Kind.
    ("kind of the first", &[(44, 2)], (20, 44)),
    ("kind of a group", &[(56, 2)], (20, 56)),
    ("kind of a deeper one", &[(92, 255)], (20, 92)),
    ("kind of the last", &[(140, 3)], (20, 140)),
    ("an empty group for an action", &[(44, 1)], (0, 0)),
    ("an empty group for the last", &[(140, 1)], (0, 0)),
    // Its message number is then how many items it holds: one, of another part.
    ("a group for message 1", &[(116, 1)], (22, 131)),
    ("an action with both words", &[(56, 0)], (21, 57)),
    ("an action with an error word", &[(80, 0)], (21, 82)),
    ("an action that is global", &[(104, 0)], (21, 106)),
    ("an action that is tight", &[(128, 0)], (21, 129)),
    // Words.
    ("synchrony 1 of an action", &[(45, 1)], (21, 45)),
    ("synchrony 255 of an action", &[(93, 255)], (21, 93)),
    ("error word 1 of an action", &[(46, 1)], (21, 46)),
    ("error word 3 of one within", &[(70, 3)], (21, 70)),
    ("both of an action", &[(117, 1), (118, 1)], (21, 117)),
    ("synchrony 2 of a group", &[(57, 2)], (21, 57)),
    ("synchrony 255 of one within", &[(81, 255)], (21, 81)),
    ("error word 4 of a group", &[(58, 4)], (21, 58)),
    ("error word 4 of one within", &[(82, 4)], (21, 82)),
    ("error word 255, empty", &[(106, 255)], (21, 106)),
    ("both of a group", &[(129, 2), (130, 4)], (21, 129)),
    ("synchrony 1, error word 3", &[(105, 1), (106, 3)], (0, 0)),
    // Part.
    ("part 16 of the first", &[(47, 16)], (22, 47)),
    ("part 255 of an empty group", &[(107, 255)], (22, 107)),
    ("part 16 of a group", &[(131, 16)], (22, 131)),
    ("part 16 within", &[(95, 16)], (22, 95)),
    ("a lower part within", &[(71, 2)], (22, 71)),
    ("a higher part within", &[(83, 4)], (22, 83)),
    ("a higher part, deeper too", &[(83, 4), (95, 4)], (22, 83)),
    ("another part, deeper only", &[(95, 0)], (22, 95)),
    ("the last's other part", &[(143, 1)], (22, 143)),
    ("another part around", &[(59, 4)], (22, 71)),
    ("part 1 around the last", &[(131, 1)], (22, 143)),
    ("part 15 for both", &[(131, 15), (143, 15)], (0, 0)),
    // Delay: 5,040,000 is 128 + 231 x 256 + 76 x 65,536.
    (
        "5,040,000 grains",
        &[(48, 128), (49, 231), (50, 76)],
        (0, 0),
    ),
    (
        "5,040,001 grains",
        &[(48, 129), (49, 231), (50, 76)],
        (23, 48),
    ),
    ("a delay's last byte", &[(99, 1)], (23, 96)),
    ("a group's delay", &[(134, 77)], (23, 132)),
    ("the last's delay", &[(147, 255)], (23, 144)),
    // Event.
    ("event 0 of the first", &[(52, 0)], (24, 52)),
    ("event 0 of a group", &[(136, 0)], (24, 136)),
    ("event 4 of 3", &[(136, 4)], (24, 136)),
    ("event 257", &[(53, 1)], (24, 52)),
    ("event 65,282", &[(125, 255)], (24, 124)),
    ("event 1 within", &[(76, 1)], (24, 76)),
    ("event 256 within", &[(77, 1)], (24, 76)),
    ("event 1, deeper", &[(100, 1)], (24, 100)),
    ("its group's event", &[(148, 3)], (24, 148)),
    ("an event that falls", &[(136, 1)], (24, 136)),
    ("an event before that rises", &[(112, 3)], (24, 124)),
    ("a part that falls", &[(119, 1)], (24, 124)),
    ("a part that falls, group", &[(112, 1)], (24, 112)),
    ("a part before that rises", &[(47, 4)], (24, 64)),
    ("the same part again", &[(119, 2)], (0, 0)),
    ("the same event and part", &[(47, 3)], (0, 0)),
    // Nesting.
    ("past the table", &[(66, 8)], (25, 66)),
    ("up to the end, other parts", &[(66, 7)], (22, 107)),
    ("past a shorter group", &[(66, 2)], (25, 90)),
    ("past its group", &[(90, 2)], (25, 90)),
    ("past the table, deeper", &[(91, 255)], (25, 90)),
    ("an empty one past the table", &[(114, 4)], (25, 114)),
    ("an empty one to the end", &[(114, 3)], (22, 119)),
    ("the last group past it", &[(138, 2)], (25, 138)),
    ("the last group, 257", &[(139, 1)], (25, 138)),
    ("nothing within, event 0", &[(138, 0)], (24, 148)),
    // Message.
    ("message 2 of 2", &[(54, 2)], (26, 54)),
    ("message 256", &[(55, 1)], (26, 54)),
    ("message 2, deeper", &[(102, 2)], (26, 102)),
    ("message 255 of the last", &[(150, 255)], (26, 150)),
    // Two items: the first decides, though the later breaks an earlier rule.
    ("message, then kind", &[(54, 2), (56, 2)], (26, 54)),
    ("nesting, then kind", &[(66, 8), (68, 2)], (25, 66)),
    ("event, then delay", &[(88, 1), (99, 1)], (24, 88)),
    ("delay, then part", &[(75, 1), (143, 1)], (23, 72)),
    ("part, then words", &[(107, 16), (117, 1)], (22, 107)),
    ("words, then kind", &[(118, 1), (128, 2)], (21, 118)),
    ("error word, then synchrony", &[(46, 1), (57, 2)], (21, 46)),
    ("message, then event", &[(102, 9), (124, 0)], (26, 102)),
    ("message, then nesting", &[(102, 9), (138, 9)], (26, 102)),
    // What is around the items.
    ("an event's duration before", &[(32, 0), (44, 2)], (6, 32)),
    ("a message entry behind", &[(150, 9), (152, 1)], (26, 150)),
];

fn rows(tally: &mut Tally) {
    for (name, changes, expected) in ROWS {
        note(tally, name, &changed(&PAGE, changes), *expected);
    }
}

// ----------------------------------------------------------------- pairs

/// A change that breaks a rule, and the reply where it is the first.
type Break = (Change, (u64, usize));

/// A top action's, in the order of the rules.
const OF_AN_ACTION: &[Break] = &[
    ((116, 2), (20, 116)),
    ((117, 1), (21, 117)),
    ((118, 3), (21, 118)),
    ((119, 16), (22, 119)),
    ((123, 1), (23, 120)),
    ((124, 0), (24, 124)),
    ((126, 2), (26, 126)),
];

/// A group's within a group.
const OF_A_GROUP: &[Break] = &[
    ((80, 2), (20, 80)),
    ((81, 2), (21, 81)),
    ((82, 4), (21, 82)),
    ((83, 4), (22, 83)),
    ((87, 1), (23, 84)),
    ((88, 1), (24, 88)),
    ((90, 2), (25, 90)),
];

/// An action's that would be accepted but for its part, which falls: that is the rule
/// 'event', after the delay.
const OF_A_PART_THAT_FALLS: &[Break] = &[
    ((116, 2), (20, 116)),
    ((117, 1), (21, 117)),
    ((118, 3), (21, 118)),
    ((123, 1), (23, 120)),
    ((119, 1), (24, 124)),
    ((126, 2), (26, 126)),
];

fn pairs(tally: &mut Tally) {
    for (name, breaks) in [
        ("of an action", OF_AN_ACTION),
        ("of a group", OF_A_GROUP),
        ("of a part that falls", OF_A_PART_THAT_FALLS),
    ] {
        for (index, (first, expected)) in breaks.iter().enumerate() {
            for (second, (number, _)) in &breaks[index + 1..] {
                let file = changed(&PAGE, &[*first, *second]);
                note(tally, &format!("with {number}, {name}"), &file, *expected);
            }
        }
        tally.note(
            &format!("items: every set of faults {name}"),
            sets(breaks, &PAGE, None),
        );
    }
}

/// Is it the first of them that is replied, for every set of these, the empty one
/// too?
fn sets(breaks: &[Break], file: &[u8], without: Option<(u64, usize)>) -> bool {
    (0..1_usize << breaks.len()).all(|set| {
        let chosen = || {
            let bits = breaks.iter().enumerate();
            bits.filter(|(bit, _)| set >> bit & 1 == 1)
        };
        let changes: Vec<Change> = chosen().map(|(_, (change, _))| *change).collect();
        let first = chosen().next().map(|(_, (_, reply))| *reply);
        let expected = first.or(without).unwrap_or((0, 0));
        score::check(&changed(file, &changes)) == expected
    })
}

// --------------------------------------------------------- depth, number

/// One event at 32, items from 36 on: so many actions of part 15, then so many groups
/// in each other, then in them an action or an empty group. One message.
fn piece(actions: u16, groups: u16, inmost: u8) -> Vec<u8> {
    let mut file = Vec::new();
    let count = actions + groups + 1;
    let messages = 36 + 12 * u32::from(count);
    for word in [32, 1, 36, count.into(), messages, 1, messages + 4, 1, 1] {
        file.extend_from_slice(&u32::to_le_bytes(word));
    }
    for _ in 0..actions {
        file.extend_from_slice(&[0, 0, 0, 15, 0, 0, 0, 0, 1, 0, 0, 0]);
    }
    for group in 0..groups {
        let event = u8::from(group == 0);
        let within = (groups - group) as u8;
        file.extend_from_slice(&[1, 0, 0, 15, 0, 0, 0, 0, event, 0, within, 0]);
    }
    let event = u8::from(groups == 0);
    file.extend_from_slice(&[inmost, 0, 0, 15, 0, 0, 0, 0, event, 0, 0, 0]);
    file.extend_from_slice(&[0, 0, 1, 0, b'z']);
    file
}

/// The eighth item is at 120, the ninth at 132, its last at 142.
fn depths(tally: &mut Tally) {
    let mut test = |name: &str, groups: u16, inmost: u8, changes: &[Change], expected| {
        let file = changed(&piece(0, groups, inmost), changes);
        note(tally, name, &file, expected);
    };
    test("an action at depth 8", 7, 0, &[], (0, 0));
    test("a group at depth 8", 7, 1, &[], (0, 0));
    test("an action at depth 9", 8, 0, &[], (25, 142));
    test("a group at depth 9", 8, 1, &[], (25, 142));
    test("a group at depth 9 of 30", 29, 1, &[], (25, 142));
    test("its last is wrong too", 8, 0, &[(142, 1)], (25, 142));
    test("it overruns too", 8, 1, &[(142, 1)], (25, 142));
    test("its event, at depth 9", 8, 0, &[(140, 1)], (24, 140));
    test("its delay, at depth 9", 8, 1, &[(139, 1)], (23, 136));
    test("its part, at depth 9", 8, 0, &[(135, 14)], (22, 135));
    test("its word, at depth 9", 8, 0, &[(134, 1)], (21, 134));
    test("its words, at depth 9", 8, 1, &[(133, 2)], (21, 133));
    test("its kind, at depth 9", 8, 1, &[(132, 2)], (20, 132));
    test("its holder overruns", 8, 0, &[(130, 2)], (25, 130));
    test("its message, at depth 8", 7, 0, &[(130, 1)], (26, 130));
    test("it overruns, at depth 8", 7, 1, &[(130, 1)], (25, 130));
}

/// The 1,024th of nothing but actions is at 12,312, the next two at 12,324 and 12,336.
fn number_of_actions(tally: &mut Tally) {
    let mut test = |name: &str, count: u16, changes: &[Change], expected| {
        note(
            tally,
            name,
            &changed(&only_actions(count), changes),
            expected,
        );
    };
    test("1,024 actions", 1_024, &[], (0, 0));
    test("1,025 actions", 1_025, &[], (27, 12_324));
    test("1,026 actions", 1_026, &[], (27, 12_324));
    test("one of them a group", 1_025, &[(36, 1)], (0, 0));
    test("the 1,025th a group", 1_025, &[(12_324, 1)], (0, 0));
    test("the 1,025th no kind", 1_025, &[(12_324, 2)], (20, 12_324));
    test("a group among 1,026", 1_026, &[(36, 1)], (27, 12_336));
    test("its message", 1_025, &[(12_334, 1)], (26, 12_334));
    test("its event", 1_025, &[(12_332, 2)], (24, 12_332));
    test("its delay", 1_025, &[(12_331, 1)], (23, 12_328));
    test("its part", 1_025, &[(12_327, 16)], (22, 12_327));
    test("its error word", 1_025, &[(12_326, 1)], (21, 12_326));
    test("its synchrony", 1_025, &[(12_325, 1)], (21, 12_325));
    test("one before", 1_025, &[(12_322, 1)], (26, 12_322));
    test("one behind", 1_026, &[(12_336, 2)], (27, 12_324));
    // Behind 1,024 actions and so many groups: at all depths they are counted.
    for (groups, expected) in [
        (1, (27, 12_336)),
        (7, (27, 12_408)),
        // Too deep as well, its last at 12,420 + 10.
        (8, (25, 12_430)),
    ] {
        let file = piece(1_024, groups, 0);
        note(tally, &format!("within {groups} groups"), &file, expected);
        let file = piece(1_023, groups, 0);
        let expected = if groups == 8 { (25, 12_418) } else { (0, 0) };
        let name = format!("1,024, one within {groups} groups");
        note(tally, &name, &file, expected);
    }
}

/// The 1,025th action in 7 groups, where all but nesting can be broken: it is at
/// 36 + 12 x 1,031 = 12,408.
const OF_ONE_TOO_MANY: &[Break] = &[
    ((12_408, 2), (20, 12_408)),
    ((12_409, 1), (21, 12_409)),
    ((12_410, 1), (21, 12_410)),
    ((12_411, 14), (22, 12_411)),
    ((12_415, 1), (23, 12_412)),
    ((12_416, 1), (24, 12_416)),
    ((12_418, 1), (26, 12_418)),
];

/// In 8 groups, where nesting is broken too: at 36 + 12 x 1,032 = 12,420.
const OF_ONE_TOO_DEEP: &[Break] = &[
    ((12_420, 2), (20, 12_420)),
    ((12_421, 1), (21, 12_421)),
    ((12_422, 1), (21, 12_422)),
    ((12_423, 14), (22, 12_423)),
    ((12_427, 1), (23, 12_424)),
    ((12_428, 1), (24, 12_428)),
    ((12_430, 1), (25, 12_430)),
];

/// All are broken, then the first is mended, then the next, up to the last; what is
/// left is nesting or the number of actions.
fn all_rules_at_once(tally: &mut Tally) {
    for (groups, breaks, left) in [
        (7, OF_ONE_TOO_MANY, (27, 12_408)),
        (8, OF_ONE_TOO_DEEP, (25, 12_430)),
    ] {
        let file = piece(1_024, groups, 0);
        for mended in 0..=breaks.len() {
            let changes: Vec<Change> = breaks[mended..].iter().map(|row| row.0).collect();
            let expected = breaks.get(mended).map_or(left, |row| row.1);
            let name = format!("{mended} of all mended, in {groups} groups");
            note(tally, &name, &changed(&file, &changes), expected);
        }
        let name = format!("items: every set of faults, in {groups} groups");
        tally.note(&name, sets(breaks, &file, Some(left)));
    }
}

// ----------------------------------------------------------------- lines

#[rustfmt::skip]
const LINES: &[(&[Change], &str)] = &[
    (&[(44, 2)], "refused 20 at byte 44, item 0, kind: an item's kind, not 0 or 1"),
    (&[(57, 2)], "refused 21 at byte 57, item 1, synchrony: an item's words, out of range or not 0 on an action"),
    (&[(118, 1)], "refused 21 at byte 118, item 6, error word: an item's words, out of range or not 0 on an action"),
    (&[(71, 2)], "refused 22 at byte 71, item 2, part: an item's part, above 15 or not its group's"),
    (&[(99, 1)], "refused 23 at byte 96, item 4, delay: an item's delay, above 5,040,000 grains (1,000 beats)"),
    (&[(136, 1)], "refused 24 at byte 136, item 7, event: an item's event, out of range, out of order by event and part, or not 0 within a group"),
    (&[(77, 1)], "refused 24 at byte 76, item 2, event: an item's event, out of range, out of order by event and part, or not 0 within a group"),
    (&[(119, 1)], "refused 24 at byte 124, item 6, event: an item's event, out of range, out of order by event and part, or not 0 within a group"),
    (&[(91, 1)], "refused 25 at byte 90, item 3, last: an item's nesting, at depth 9 or a group that ends past what holds it"),
    (&[(150, 2)], "refused 26 at byte 150, item 8, last: an action's message number, not below the message count"),
];

fn lines_and_openings(tally: &mut Tally) {
    for (changes, expected) in LINES {
        let file = changed(&PAGE, changes);
        tally.note(&format!("line: {expected}"), verdict(&file) == *expected);
    }
    let deep = verdict(&piece(0, 8, 0));
    let expected = "refused 25 at byte 142, item 8, last: an item's nesting, at depth 9 or a group that ends past what holds it";
    tally.note("line: an action at depth 9", deep == expected);
    for (number, file) in [
        (20, changed(&PAGE, &[(44, 2)])),
        (21, changed(&PAGE, &[(57, 2)])),
        (22, changed(&PAGE, &[(71, 2)])),
        (23, changed(&PAGE, &[(99, 1)])),
        (24, changed(&PAGE, &[(136, 1)])),
        (25, changed(&PAGE, &[(90, 2)])),
        (26, changed(&PAGE, &[(150, 2)])),
        (27, only_actions(1_025)),
    ] {
        let expected = format!("open {number} parts 0\nbad 2\nend 0 sent 0\n");
        // The file check comes before the tempo's.
        let written = play(&file, b"O 1 0\nT 1\n", 0);
        tally.note(&format!("play: {number}"), written == expected.as_bytes());
    }
}
