//! `place_in_text` against lines and columns that were counted by hand.

use crate::mutant;
use crate::place_cases::Case;
use crate::place_layouts;
use crate::place_shown::place_shown;
use crate::places::place_in_text;
use crate::random::Random;
use crate::score::{EVENT_BYTES, ITEM_BYTES, MESSAGE_BYTES};
use crate::text::{self, FILE_ROOM};
use crate::texts;
use crate::tokens::{spelled, Role, Token};
use crate::words::Tally;
use std::ops::RangeInclusive;

pub fn place_words(tally: &mut Tally) {
    whole_page(tally);
    page_by_wrong_rules(tally);
    single_places(tally);
    refused_texts(tally);
    counts(tally);
    past_the_limits(tally);
    text_bytes(tally);
    at_fault(tally);
    as_laid_out(tally);
    records(tally);
    place_shown(tally);
}

/// Line and column.
type Place = (usize, usize);

const NOWHERE: Place = (0, 0);

/// What is told of each of these places.
type Told = (RangeInclusive<usize>, Place);

fn note(tally: &mut Tally, what: &str, text: &[u8], right: bool) {
    let mut shown = String::from_utf8_lossy(text).escape_debug().to_string();
    if shown.chars().count() > 60 {
        shown = shown.chars().take(57).collect::<String>() + "...";
    }
    tally.note(&format!("places: {what}: {shown}"), right);
}

/// What must be said of the refusal of this text: number and place, line and column.
fn refusal(text: &[u8]) -> (u64, usize, Place) {
    let case = Case {
        asked: 0,
        text: text.to_vec(),
    };
    let said = case.said();
    (said.number, said.place, said.refusal)
}

// -------------------------------------------------------------- the page

/// Two messages with 1 and 3 label bytes, two events, and under the first a group of
/// an action and a group of an action. Lines 1, 4 and 5 have comments; line 3 has
/// none, for its `#` is the label's.
const PAGE: &[u8] = b"messages # two
  0 \"a\" 1
  \"b\\\"#\"
# } {
event 1 # 1
  part 2 0 group {
    0 send 0 1/2 group { 0 send 1 } }
event 2
part 9
    0
    send 1
";

/// Every place of its file and some behind it. The events stand at 32 to 39, the five
/// items at 40 to 99, the messages at 100 to 107, the text at 108 to 111.
const PAGE_PLACES: &[Told] = &[
    (0..=23, NOWHERE),
    // Behind the quote that ends the second label.
    (24..=27, (3, 9)),
    (28..=31, NOWHERE),
    (32..=35, (5, 1)),
    (36..=39, (8, 1)),
    (40..=51, (6, 10)),
    (52..=63, (7, 5)),
    (64..=75, (7, 14)),
    (76..=87, (7, 26)),
    (88..=99, (10, 5)),
    (100..=103, (2, 5)),
    (104..=107, (3, 3)),
    (108..=200, NOWHERE),
];

fn is_told(text: &[u8], places: &RangeInclusive<usize>, told: Place) -> bool {
    places
        .clone()
        .all(|place| place_in_text(text, place) == told)
}

fn whole_page(tally: &mut Tally) {
    let reply = text::read(PAGE, FILE_ROOM);
    let right = reply.number == 0 && reply.written.len() == 112;
    tally.note("places: the page's file", right);
    for (places, told) in PAGE_PLACES {
        let right = is_told(PAGE, places, *told);
        tally.note(&format!("places: the page at {places:?}"), right);
    }
    for place in [1 << 16, 1 << 31, u32::MAX as usize, usize::MAX] {
        let right = place_in_text(PAGE, place) == NOWHERE;
        tally.note(&format!("places: the page at {place}"), right);
    }
}

/// By these wrong rules some places are told elsewhere; all others are not.
const PAGE_WRONG: &[(u32, &[Told])] = &[
    // The first group is at 6:10, the one in it at 7:14.
    (
        mutant::ITEMS_TOLD_AT_THEIR_HOLDERS,
        &[(52..=75, (6, 10)), (76..=87, (7, 14))],
    ),
    // A comment ends in line 1, another in line 4, another in line 5.
    (
        mutant::COMMENT_ENDS_TWO_LINES,
        &[
            (24..=27, (4, 9)),
            (32..=35, (7, 1)),
            (36..=39, (11, 1)),
            (40..=51, (9, 10)),
            (52..=63, (10, 5)),
            (64..=75, (10, 14)),
            (76..=87, (10, 26)),
            (88..=99, (13, 5)),
            (100..=103, (3, 5)),
            (104..=107, (4, 3)),
        ],
    ),
    // Both numbers are in line 2.
    (
        mutant::MESSAGES_TOLD_AT_THEIR_NUMBERS,
        &[(100..=103, (2, 3)), (104..=107, (2, 9))],
    ),
    // Nothing is past its limit.
    (mutant::LAST_WITHIN_THE_LIMIT_TOLD, &[]),
];

fn page_by_wrong_rules(tally: &mut Tally) {
    for (number, moved) in PAGE_WRONG {
        let right = mutant::under(*number, || {
            let moves = |place: &usize| moved.iter().any(|(places, _)| places.contains(place));
            let stay = (0..=200).filter(|place| !moves(place)).all(|place| {
                let row = PAGE_PLACES.iter().find(|row| row.0.contains(&place));
                row.is_some_and(|row| place_in_text(PAGE, place) == row.1)
            });
            let told = |(places, told): &Told| is_told(PAGE, places, *told);
            stay && moved.iter().all(told)
        });
        tally.note(&format!("places: the page by wrong rule {number}"), right);
    }
}

// ---------------------------------------------------------- small texts

/// Text, place, and what is told.
const SINGLE: &[(&[u8], &[usize], Place)] = &[
    // No event: the count is told at the text's end.
    (b"messages", &[4, 5, 6, 7], (1, 9)),
    (b"messages", &[24, 27], (1, 9)),
    (
        b"messages",
        &[0, 3, 8, 11, 12, 16, 20, 23, 28, 31, 32],
        NOWHERE,
    ),
    (b"messages\n", &[4, 7], (2, 1)),
    (b"messages\n", &[24, 27], (1, 9)),
    (b"messages\r\n\r", &[4], (2, 2)),
    (b"messages # none", &[4], (1, 16)),
    (b"messages # none\n", &[4], (2, 1)),
    (b"messages # none", &[24], (1, 9)),
    (b"\n #\n\tmessages\n\n", &[24], (3, 10)),
    (b"\n #\n\tmessages\n\n", &[4], (5, 1)),
    // No event and no item: the messages stand at 32, the text behind them.
    (b"messages 0 \"a\" \n\n", &[4], (3, 1)),
    (b"messages 0 \"a\" \n\n", &[24], (1, 15)),
    (b"messages 0 \"a\" \n\n", &[32, 33, 34, 35], (1, 12)),
    (
        b"messages 0 \"a\" \n\n",
        &[3, 8, 12, 20, 28, 36, 37],
        NOWHERE,
    ),
    // Empty labels make no text.
    (b"#\n\nmessages0\"\"1\"\"#", &[4], (3, 16)),
    (b"#\n\nmessages0\"\"1\"\"#", &[24], (3, 15)),
    (b"#\n\nmessages0\"\"1\"\"#", &[32, 35], (3, 10)),
    (b"#\n\nmessages0\"\"1\"\"#", &[36, 39], (3, 13)),
    (b"#\n\nmessages0\"\"1\"\"#", &[40, 41], NOWHERE),
    // One event, so its count is right, and nothing else.
    (b"messages event 1", &[32, 35], (1, 10)),
    (b"messages event 1", &[24], (1, 9)),
    (b"messages event 1", &[4, 7, 31, 36], NOWHERE),
    // Grown together: the event is at 32, the item at 36, the message at 48.
    (b"messages0\"a\"event1part15 3/2send0", &[32, 35], (1, 13)),
    (b"messages0\"a\"event1part15 3/2send0", &[36, 47], (1, 26)),
    (b"messages0\"a\"event1part15 3/2send0", &[48, 51], (1, 10)),
    (b"messages0\"a\"event1part15 3/2send0", &[24, 27], (1, 13)),
    (b"messages0\"a\"event1part15 3/2send0", &[52, 53], NOWHERE),
    // Lines within a message, an event and an item.
    (
        b"messages 0\n#\n\"a\"\nevent\n 1 part 0\n1/2\nsend\n0",
        &[32],
        (4, 1),
    ),
    (
        b"messages 0\n#\n\"a\"\nevent\n 1 part 0\n1/2\nsend\n0",
        &[36],
        (6, 1),
    ),
    (
        b"messages 0\n#\n\"a\"\nevent\n 1 part 0\n1/2\nsend\n0",
        &[48],
        (3, 1),
    ),
    (
        b"messages 0\n#\n\"a\"\nevent\n 1 part 0\n1/2\nsend\n0",
        &[24],
        (3, 4),
    ),
    // Columns are bytes, only a newline ends a line; the label has 5 bytes.
    (
        b"messages 0 \"\xc3\xa9#{\\\\\"\revent\t1\r\npart 0 0 group{}",
        &[32],
        (1, 21),
    ),
    (
        b"messages 0 \"\xc3\xa9#{\\\\\"\revent\t1\r\npart 0 0 group{}",
        &[36],
        (2, 8),
    ),
    (
        b"messages 0 \"\xc3\xa9#{\\\\\"\revent\t1\r\npart 0 0 group{}",
        &[48],
        (1, 12),
    ),
    (
        b"messages 0 \"\xc3\xa9#{\\\\\"\revent\t1\r\npart 0 0 group{}",
        &[24],
        (1, 20),
    ),
    (
        b"messages 0 \"\xc3\xa9#{\\\\\"\revent\t1\r\npart 0 0 group{}",
        &[52, 56, 57],
        NOWHERE,
    ),
];

fn single_places(tally: &mut Tally) {
    for &(text, places, told) in SINGLE {
        let right = places
            .iter()
            .all(|place| place_in_text(text, *place) == told);
        note(tally, &format!("at {places:?}"), text, right);
    }
}

/// Texts that are refused: number, place, line and column.
const REFUSED: &[(&[u8], u64, usize, Place)] = &[
    (b"", 16, 0, (1, 1)),
    (b"messages\nevent 1/ 2", 16, 0, (2, 9)),
    (b"messages\n", 4, 4, (2, 1)),
    (b"# no event\nmessages 0 \"\" # here", 4, 4, (2, 21)),
    (b"messages event 1\n event 0 # no\n", 6, 36, (2, 2)),
    // A `part` is told nowhere; the first item behind it is.
    (
        b"messages event 1\n# 16\npart 16 part 1 part 16\n0 group {}",
        22,
        39,
        (4, 1),
    ),
    // Third of three, two groups around it.
    (
        b"messages event 1 part 0\n0 group { 0 group {\n  5040001/5040 group {} } }",
        23,
        64,
        (3, 3),
    ),
    (
        b"messages event 1 part 1 0 group{}part 0 0 group{}",
        24,
        56,
        (1, 41),
    ),
    // The ninth is 8 times 7 bytes behind the first.
    (
        b"messages event 1 part 0\n0group{0group{0group{0group{0group{0group{0group{0group{0group{\
          }}}}}}}}}",
        25,
        142,
        (2, 57),
    ),
    (b"messages 0 \"a\" event 1 part 0 0 send 1", 26, 46, (1, 31)),
    (b"messages 0 \"a\" 1 \"\" event 1", 8, 40, (1, 18)),
    (b"messages 0\t#\n #\n \"\x1f\" event 1", 8, 36, (3, 2)),
    // The first in the file decides: an item before a label, an event before an item,
    // the first of two items, the first of two labels.
    (
        b"messages 0 \"\"\nevent 1\npart 16 0 group{}",
        22,
        39,
        (3, 9),
    ),
    (
        b"messages 0 \"\" event 1 part 16 0 group{}\nevent 0",
        6,
        36,
        (2, 1),
    ),
    (
        b"messages 0 \"\x7f\"\nevent 1 part 0 0 send 0 0 send 1 0 send 0 9999 send 0",
        26,
        58,
        (2, 25),
    ),
    (b"messages 0 \"\"\n1 \"\"\nevent 1", 8, 36, (1, 12)),
    // A fault of the text comes before all of them.
    (
        b"messages 0 \"\" event 0 part 16 0 group{}\nX",
        16,
        0,
        (2, 1),
    ),
];

fn refused_texts(tally: &mut Tally) {
    for &(text, number, place, told) in REFUSED {
        let right = refusal(text) == (number, place, told);
        note(tally, "refused", text, right);
    }
}

// ---------------------------------------------------------------- limits

/// Front, what is repeated, how often, the end; a place, what is told, and what is by
/// wrong rule 64.
type Repeated = (
    &'static str,
    &'static str,
    usize,
    &'static str,
    usize,
    Place,
    Place,
);

#[rustfmt::skip]
const COUNTS: &[Repeated] = &[
    ("messages\n", "event 1\n", 256, "", 4, NOWHERE, NOWHERE),
    ("messages\n", "event 1\n", 257, "", 4, (258, 1), (257, 1)),
    ("messages\n", "event 1\n", 70_000, "", 7, (258, 1), (257, 1)),
    ("messages", " event 1", 257, "", 6, (1, 2_058), (1, 2_050)),
    ("messages event 1 part 0\n", "0group{}\n", 2_048, "", 12, NOWHERE, NOWHERE),
    ("messages event 1 part 0\n", "0group{}\n", 2_049, "", 12, (2_050, 1), (2_049, 1)),
    ("messages event 1 part 0 ", "0group{}", 2_049, "", 13, (1, 16_409), (1, 16_401)),
    // Groups and actions in turn, so the first one too many is the 1,025th group; the
    // 1,024th action is before it in its line.
    ("messages 0 \"\" event 1 part 0\n", "0group{\n0send 0}", 1_025, "", 15,
        (1_026, 9), (1_026, 1)),
    ("messages 0 \"", "x", 24_576, "\"", 28, NOWHERE, NOWHERE),
    ("messages 0 \"", "x", 24_577, "\"", 28, (1, 12), (1, 12)),
    ("messages 0 \"", "\\\\", 24_576, "\"", 31, NOWHERE, NOWHERE),
    ("messages 0 \"", "\\\"", 24_576, "x\"", 31, (1, 12), (1, 12)),
    ("messages\n0 \"", "\\\"", 24_576, "\" 1 \"\"\n2 \"y\"\n", 28, (3, 3), (2, 3)),
];

fn counts(tally: &mut Tally) {
    for &(front, part, times, end, place, told, wrong) in COUNTS {
        let text = [front, &part.repeat(times), end].concat();
        let text = text.as_bytes();
        let name = format!("{front} and {times} times {part}{end}");
        let right = place_in_text(text, place) == told;
        note(tally, &format!("at {place}"), name.as_bytes(), right);
        let by_64 = mutant::LAST_WITHIN_THE_LIMIT_TOLD;
        let right = mutant::under(by_64, || place_in_text(text, place)) == wrong;
        note(
            tally,
            &format!("at {place} by wrong rule 64"),
            name.as_bytes(),
            right,
        );
    }
    list(tally);
}

/// A message on each line behind the first; from 100 on the quote is in column 5.
fn list(tally: &mut Tally) {
    let list = |count: usize| {
        let lines: String = (0..count).map(|n| format!("{n} \"m\"\n")).collect();
        format!("messages\n{lines}event 1").into_bytes()
    };
    let full = place_in_text(&list(512), 20) == NOWHERE;
    tally.note("places: 512 messages", full);
    for count in [513, 70_000] {
        let text = list(count);
        let told = |number| mutant::under(number, || place_in_text(&text, 20));
        let right = refusal(&text) == (4, 20, (514, 5))
            && told(mutant::MESSAGES_TOLD_AT_THEIR_NUMBERS) == (514, 1)
            && told(mutant::LAST_WITHIN_THE_LIMIT_TOLD) == (513, 5);
        tally.note(&format!("places: {count} messages"), right);
    }
}

/// What is past a limit has its places all the same.
fn past_the_limits(tally: &mut Tally) {
    let events = [&b"messages\n"[..], &b"event 1\n".repeat(70_000)].concat();
    for (place, told) in [
        (32, (2, 1)),
        (32 + 4 * 256, (258, 1)),
        (32 + 4 * 65_536, (65_538, 1)),
        (32 + 4 * 70_000 - 1, (70_001, 1)),
        (32 + 4 * 70_000, NOWHERE),
    ] {
        let right = place_in_text(&events, place) == told;
        tally.note(&format!("places: 70,000 events at {place}"), right);
    }
    // 2,049 groups in each other, 7 bytes each from column 25 on; no 25 at the ninth.
    let groups = "0group{".repeat(2_049) + &"}".repeat(2_049);
    let text = format!("messages event 1 part 0 {groups}").into_bytes();
    let right = refusal(&text) == (4, 12, (1, 14_361));
    tally.note("places: groups 2,049 deep", right);
    let by_61 = mutant::ITEMS_TOLD_AT_THEIR_HOLDERS;
    let right = mutant::under(by_61, || refusal(&text)) == (4, 12, (1, 14_354));
    tally.note("places: groups 2,049 deep by wrong rule 61", right);
    // The 1,025th action: 36 bytes, and 12 for each before.
    let actions = [THREE_TOKENS, &b"0 send 0\n".repeat(1_025)].concat();
    let right = refusal(&actions) == (27, 12_324, (1_026, 1));
    tally.note("places: 1,025 actions", right);
}

const THREE_TOKENS: &[u8] = b"messages 0 \"a\" event 1 part 0\n";

/// Labels on lines of their own; from number 100 on the quote is in column 5. 384
/// labels of 64 bytes are as many bytes as may be.
fn text_bytes(tally: &mut Tally) {
    let text = |lengths: &[usize]| {
        let line = |(n, length): (usize, &usize)| format!("{n} \"{}\"\n", "x".repeat(*length));
        let lines: String = lengths.iter().enumerate().map(line).collect();
        format!("messages\n{lines}").into_bytes()
    };
    let even = vec![64; 384];
    for (more, told, wrong) in [
        (&[][..], NOWHERE, NOWHERE),
        (&[0], NOWHERE, NOWHERE),
        (&[1], (386, 5), (385, 5)),
        (&[64], (386, 5), (385, 5)),
        (&[0, 1], (387, 5), (385, 5)),
        (&[0, 0, 70_000, 1], (388, 5), (385, 5)),
    ] {
        let text = text(&[&even, more].concat());
        let by_64 = mutant::LAST_WITHIN_THE_LIMIT_TOLD;
        let right = place_in_text(&text, 28) == told
            && mutant::under(by_64, || place_in_text(&text, 28)) == wrong;
        tally.note(&format!("places: 24,576 bytes and {more:?}"), right);
    }
    // Longer than its field: the text begins at 40, the second label's at 70,040.
    let text = text(&[70_000, 1]);
    for (place, told) in [
        (4, (4, 1)),
        (24, (3, 6)),
        (28, (2, 3)),
        (32, (2, 3)),
        (36, (3, 3)),
        (39, (3, 3)),
        (40, NOWHERE),
        (70_040, NOWHERE),
        (70_041, NOWHERE),
    ] {
        let right = place_in_text(&text, place) == told;
        tally.note(&format!("places: 70,000 label bytes at {place}"), right);
    }
}

// ---------------------------------------------------------------- others

/// A text with a fault of its own, wherever, has no places.
fn at_fault(tally: &mut Tally) {
    let at_the_end = [PAGE, b"X"].concat();
    let long = [&b"messages\n"[..], &b"event 1\n".repeat(300), b"event"].concat();
    for text in [
        &b""[..],
        b"messages 0 \"a\" event 1 X",
        b"messages 1 \"a\" event 1",
        b"messages 0 \"a\" event 1 part 256",
        b"messages event 1/0",
        &PAGE[..100],
        &at_the_end,
        &long,
    ] {
        let right = is_told(text, &(0..=2_000), NOWHERE);
        note(tally, "at fault", text, right);
    }
}

/// Each event, item and message is told where the layout has put its first token.
fn as_laid_out(tally: &mut Tally) {
    let right = (1..=300).all(|seed| {
        let random = &mut Random::new(seed);
        let (tables, _) = texts::sound_text(random);
        let tokens = spelled(random, &tables);
        let page = place_layouts::laid_out(random, &tokens);
        let mut place = 32;
        [
            (Role::Event, EVENT_BYTES),
            (Role::Delay, ITEM_BYTES),
            (Role::Label, MESSAGE_BYTES),
        ]
        .iter()
        .all(|&(role, size)| {
            let starts = starts_of(role, &tokens, &page.starts);
            starts.iter().all(|&at| {
                place += size;
                place_in_text(&page.text, place - size) == counted(&page.text, at)
            })
        })
    });
    tally.note("places: as it was laid out", right);
}

fn starts_of(role: Role, tokens: &[Token], starts: &[usize]) -> Vec<usize> {
    let both = tokens.iter().zip(starts);
    let wanted = both.filter(|(token, _)| token.role == role);
    wanted.map(|(_, start)| *start).collect()
}

/// Line and column, byte by byte.
fn counted(text: &[u8], at: usize) -> Place {
    let (mut line, mut column) = (1, 1);
    for &byte in &text[..at] {
        if byte == b'\n' {
            (line, column) = (line + 1, 1);
        } else {
            column += 1;
        }
    }
    (line, column)
}

fn records(tally: &mut Tally) {
    let case = Case {
        asked: 0x0102_0304,
        text: b"messages\n".to_vec(),
    };
    let right = case.record() == b"\x02\x04\x03\x02\x01\x09\x00\x00\x00messages\n";
    tally.note("places: a record", right);
    let right = case.said().line() == "4 4 2 1 0 0\n";
    tally.note("places: a line", right);
}
