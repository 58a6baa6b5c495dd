//! The paper's own small scores, with the values it gives written out by hand.

use crate::extended_words::extended_words;
use crate::global_words::global_words;
use crate::graced_words::graced_words;
use crate::item_shown::item_shown;
use crate::item_words::item_words;
use crate::lines::{line, reason, shown, verdict};
use crate::odd::{self, What};
use crate::place_words::place_words;
use crate::play::play;
use crate::rules::performance;
use crate::scatter;
use crate::score::{self, Entry, Tables, CAUSAL, GLOBAL, LOCAL, LOOSE, PARTIAL, TIGHT};
use crate::session::Session;
use crate::text_words::text_words;
use std::ffi::OsStr;
use std::io;

const ANY: &[u8] = &[LOCAL, GLOBAL, PARTIAL, CAUSAL];

/// Events of 2, 1 and 1 beats; under event 1 a group holding a after 1 beat and
/// b 1.5 beats later.
fn a_and_b(synchrony: u8, error: u8) -> Tables {
    held(synchrony, error, &[(5_040, 0), (7_560, 1)])
}

/// The same with only a, after 2 beats.
fn only_a(synchrony: u8, error: u8) -> Tables {
    held(synchrony, error, &[(10_080, 0)])
}

fn held(synchrony: u8, error: u8, actions: &[(u32, u16)]) -> Tables {
    let mut tables = Tables {
        durations: vec![10_080, 5_040, 5_040],
        ..Tables::default()
    };
    tables.add_message(b"a");
    tables.add_message(b"b");
    tables.items.push(Entry {
        kind: 1,
        synchrony,
        error,
        event: 1,
        last: actions.len() as u16,
        ..Entry::default()
    });
    for &(delay, message) in actions {
        tables.items.push(Entry {
            delay,
            last: message,
            ..Entry::default()
        });
    }
    tables
}

/// A triple: event, delay and label.
pub type Played = (usize, i128, &'static str);

type Row = (
    &'static str,
    fn(u8, u8) -> Tables,
    u8,
    &'static [u8],
    &'static [usize],
    &'static [Played],
);

const TABLE: &[Row] = &[
    (
        "P1",
        a_and_b,
        LOOSE,
        ANY,
        &[1, 2],
        &[(1, 5_040, "a"), (1, 12_600, "b")],
    ),
    (
        "P2",
        a_and_b,
        TIGHT,
        ANY,
        &[1, 2],
        &[(1, 5_040, "a"), (2, 2_520, "b")],
    ),
    ("P3", a_and_b, TIGHT, &[LOCAL], &[1, 3], &[(1, 5_040, "a")]),
    (
        "P4",
        a_and_b,
        TIGHT,
        &[GLOBAL],
        &[1, 3],
        &[(1, 5_040, "a"), (3, 2_520, "b")],
    ),
    (
        "P5",
        a_and_b,
        TIGHT,
        &[CAUSAL],
        &[1, 3],
        &[(1, 5_040, "a"), (3, 0, "b")],
    ),
    (
        "P6",
        a_and_b,
        TIGHT,
        &[PARTIAL],
        &[1, 3],
        &[(1, 5_040, "a")],
    ),
    ("P7", a_and_b, LOOSE, &[LOCAL], &[2], &[]),
    (
        "P8",
        a_and_b,
        LOOSE,
        &[GLOBAL],
        &[2],
        &[(2, 5_040, "a"), (2, 12_600, "b")],
    ),
    (
        "P9",
        a_and_b,
        LOOSE,
        &[CAUSAL],
        &[2],
        &[(2, 0, "a"), (2, 2_520, "b")],
    ),
    ("P10", a_and_b, LOOSE, &[PARTIAL], &[2], &[(2, 2_520, "b")]),
    (
        "P11",
        a_and_b,
        TIGHT,
        &[GLOBAL],
        &[2, 3],
        &[(3, 0, "a"), (3, 7_560, "b")],
    ),
    ("P12", only_a, LOOSE, &[PARTIAL], &[2], &[(2, 0, "a")]),
];

#[derive(Default)]
pub struct Tally {
    passed: u64,
    failed: u64,
}

impl Tally {
    pub fn note(&mut self, name: &str, right: bool) {
        if right {
            self.passed += 1;
            println!("ok {name}");
        } else {
            self.failed += 1;
            println!("WRONG {name}");
        }
    }
}

/// Prints a line for each test; gives how many passed and failed.
pub fn words() -> (u64, u64) {
    let mut tally = Tally::default();
    for (name, tables, synchrony, errors, heard, expected) in TABLE {
        for &error in *errors {
            let tables = tables(*synchrony, error);
            let synchrony = ["loose", "tight"][usize::from(*synchrony)];
            let error = ["local", "global", "partial", "causal"][usize::from(error)];
            // Nothing in these scores stands within 630 grains before an event.
            for (grace, with) in [(0, ""), (630, ", grace 630")] {
                let right = plays(&tables, heard, grace, expected);
                tally.note(&format!("{name} {synchrony} {error}{with}"), right);
            }
        }
    }
    one_second(&mut tally);
    written_play(&mut tally);
    file_check(&mut tally);
    accepted_lines(&mut tally);
    refused_lines(&mut tally);
    names_and_reasons(&mut tally);
    item_words(&mut tally);
    item_shown(&mut tally);
    scattered(&mut tally);
    odd_entries(&mut tally);
    text_words(&mut tally);
    place_words(&mut tally);
    extended_words(&mut tally);
    graced_words(&mut tally);
    global_words(&mut tally);
    (tally.passed, tally.failed)
}

/// Are these the triples, in the order of the rules?
pub fn plays(tables: &Tables, heard: &[usize], grace: u64, expected: &[Played]) -> bool {
    let Ok(score) = score::read(&tables.encode()) else {
        return false;
    };
    let triples = performance(&score, heard, grace);
    let labelled = triples.iter().map(|triple| {
        let label = &score.labels[triple.action.message][..];
        (triple.event, triple.delay, label)
    });
    let expected = expected.iter();
    labelled.eq(expected.map(|&(event, delay, label)| (event, delay, label.as_bytes())))
}

/// P2 at tempo 5,040: after 999 ms nothing is sent; at 1,000 ms a is.
fn one_second(tally: &mut Tally) {
    for &error in ANY {
        let file = a_and_b(TIGHT, error).encode();
        let Ok(mut session) = Session::open(&file, 1, 5_040, 0) else {
            tally.note("one second: opening", false);
            continue;
        };
        let at_once = session.heard_note(1, 5_040);
        let at_999 = session.passing_time(999);
        let between = session.report();
        let at_1000 = session.passing_time(1);
        let report = session.report();
        let nothing = at_once.is_ok_and(|sent| sent.is_empty())
            && at_999.is_ok_and(|sent| sent.is_empty())
            && (between.clock, between.sent) == (5_034_960, 0);
        tally.note("one second: nothing after 999 ms", nothing);
        let a = at_1000.is_ok_and(|sent| {
            sent.len() == 1 && (sent[0].due, sent[0].part, sent[0].message) == (5_040_000, 0, 0)
        });
        tally.note("one second: a at 1,000 ms", a);
        let figures = (report.clock, report.tempo, report.last_heard, report.sent);
        tally.note("one second: report", figures == (5_040_000, 5_040, 1, 1));
    }
}

/// The example of `play`, and what stands in words beside it.
fn written_play(tally: &mut Tally) {
    let file = a_and_b(TIGHT, LOCAL).encode();
    let mut test = |name: &str, file: &[u8], input: &[u8], expected: &str| {
        tally.note(name, play(file, input, 0) == expected.as_bytes());
    };
    test(
        "play: the example",
        &file,
        b"O 1 5040\nH 1 5040\nT 1000\nH 2 10080\nT 250\n",
        "open 0 parts 1\n5040000 5040000 0 a\n7560000 7560000 0 b\nend 7560000 sent 2\n",
    );
    test(
        "play: 999 ms",
        &file,
        b"O 1 5040\nH 1 5040\nT 999\n",
        "open 0 parts 1\nend 5034960 sent 0\n",
    );
    test(
        "play: 1,000 ms",
        &file,
        b"O 1 5040\nH 1 5040\nT 999\nT 1",
        "open 0 parts 1\n5040000 5040000 0 a\nend 5040000 sent 1\n",
    );
    test("play: nothing in", &file, b"", "end 0 sent 0\n");
    test(
        "play: no score",
        b"",
        b"O 1 5040\nT 1\n",
        "open 3 parts 0\nbad 2\nend 0 sent 0\n",
    );
    test(
        "play: refused and unreadable",
        &file,
        b"O 65535 1\nH 0 1\nH 4 1\nH 4294967297 1\nH 1 50401\nH 1 1\nH 1 1\nT 1001\n\nO 1 1\nT  1\n",
        "open 0 parts 16\nno 11\nno 11\nno 11\nno 9\nno 12\nno 13\nbad 9\nbad 10\nbad 11\nend 0 sent 0\n",
    );
}

/// P2's file: events at 32, items at 44, messages at 80, text at 88, 90 bytes.
fn file_check(tally: &mut Tally) {
    let right = a_and_b(TIGHT, CAUSAL).encode();
    let mut test = |name: &str, file: &[u8], expected: (u64, usize)| {
        tally.note(name, score::check(file) == expected);
    };
    test("check: right", &right, (0, 0));
    test("check: 31 bytes", &right[..31], (3, 0));
    test("check: one byte short", &right[..89], (5, 0));
    let rows: &[(&str, usize, u8, (u64, usize))] = &[
        ("check: 259 events", 5, 1, (4, 4)),
        ("check: offset of the items", 8, 45, (5, 8)),
        ("check: event 2 of 0 grains", 36, 0, (6, 36)),
        ("check: kind 2", 44, 2, (20, 44)),
        ("check: a group past the table", 54, 3, (25, 54)),
        ("check: an action with a word", 57, 1, (21, 57)),
        ("check: an action within with an event", 76, 1, (24, 76)),
        ("check: no such message", 66, 2, (26, 66)),
        ("check: message 2 of length 0", 86, 0, (8, 84)),
        ("check: label byte 127", 88, 127, (8, 80)),
        ("check: label byte 126", 88, 126, (0, 0)),
        ("check: label byte 255", 89, 255, (0, 0)),
        ("check: label byte 31", 89, 31, (8, 84)),
    ];
    for &(name, place, byte, expected) in rows {
        let mut file = right.clone();
        // Event 2 lasts 5,040 grains, two bytes; the second one goes as well.
        if place == 36 {
            file[37] = 0;
        }
        file[place] = byte;
        test(name, &file, expected);
    }
    let mut longer = a_and_b(TIGHT, CAUSAL);
    longer.text.push(b'c');
    test("check: text not used up", &longer.encode(), (8, 24));
}

/// Byte by byte: events at 32, items at 40, messages at 76, text at 84, 87 bytes.
/// Part 2 has a group with an action in it, part 9 an empty group.
#[rustfmt::skip]
pub const SMALL: [u8; 87] = [
    32, 0, 0, 0, 2, 0, 0, 0,
    40, 0, 0, 0, 3, 0, 0, 0,
    76, 0, 0, 0, 2, 0, 0, 0,
    84, 0, 0, 0, 3, 0, 0, 0,
    5, 0, 0, 0,
    7, 0, 0, 0,
    1, 1, 3, 2, 0, 0, 0, 0, 1, 0, 1, 0,
    0, 0, 0, 2, 6, 0, 0, 0, 0, 0, 1, 0,
    1, 0, 0, 9, 0, 0, 0, 0, 2, 0, 0, 0,
    0, 0, 1, 0,
    1, 0, 2, 0,
    b'a', b'b', 200,
];

/// One event, nothing else.
#[rustfmt::skip]
pub const SMALLEST: [u8; 36] = [
    32, 0, 0, 0, 1, 0, 0, 0,
    36, 0, 0, 0, 0, 0, 0, 0,
    36, 0, 0, 0, 0, 0, 0, 0,
    36, 0, 0, 0, 0, 0, 0, 0,
    1, 0, 0, 0,
];

/// 1 event at 32, items from 36 on: so many actions of part 15, then message 0,
/// one byte long.
pub fn only_actions(count: u16) -> Vec<u8> {
    let mut file = Vec::new();
    let messages = 36 + 12 * u32::from(count);
    for word in [32, 1, 36, count.into(), messages, 1, messages + 4, 1, 1] {
        file.extend_from_slice(&u32::to_le_bytes(word));
    }
    for _ in 0..count {
        file.extend_from_slice(&[0, 0, 0, 15, 0, 0, 0, 0, 1, 0, 0, 0]);
    }
    file.extend_from_slice(&[0, 0, 1, 0, b'z']);
    file
}

fn accepted_lines(tally: &mut Tally) {
    let mut test = |name: &str, file: &[u8], expected: &str| {
        tally.note(name, verdict(file) == expected);
    };
    test(
        "line: two parts, one without an action",
        &SMALL,
        "accepted, 2 events, 3 items, 1 actions, 2 messages, parts 2 9",
    );
    test(
        "line: no item",
        &SMALLEST,
        "accepted, 1 events, 0 items, 0 actions, 0 messages, parts none",
    );
    test(
        "line: 1,024 actions",
        &only_actions(1_024),
        "accepted, 1 events, 1024 items, 1024 actions, 1 messages, parts 15",
    );
}

/// A byte of the small file, another value there, and what is said then.
#[rustfmt::skip]
const REFUSED: &[(usize, u8, &str)] = &[
    (4, 0, "refused 4 at byte 4, count of events: a count outside its limits"),
    (13, 8, "refused 4 at byte 12, count of items: a count outside its limits"),
    (21, 2, "refused 4 at byte 20, count of messages: a count outside its limits"),
    (29, 96, "refused 4 at byte 28, count of text bytes: a count outside its limits"),
    (0, 33, "refused 5 at byte 0, offset of the events: an offset not as above"),
    (8, 41, "refused 5 at byte 8, offset of the items: an offset not as above"),
    (16, 75, "refused 5 at byte 16, offset of the messages: an offset not as above"),
    (27, 1, "refused 5 at byte 24, offset of the text: an offset not as above"),
    (28, 4, "refused 5: offsets right, file length wrong"),
    (32, 0, "refused 6 at byte 32, event 1: an event's duration"),
    (39, 1, "refused 6 at byte 36, event 2: an event's duration"),
    (40, 2, "refused 20 at byte 40, item 0, kind: an item's kind, not 0 or 1"),
    (62, 2, "refused 26 at byte 62, item 1, last: an action's message number, not below the message count"),
    (67, 16, "refused 22 at byte 67, item 2, part: an item's part, above 15 or not its group's"),
    (84, 127, "refused 8 at byte 76, message 0: a message entry or its label bytes"),
    (82, 0, "refused 8 at byte 80, message 1: a message entry or its label bytes"),
    (82, 1, "refused 8 at byte 24, offset of the text: entries right, text not used up"),
];

fn refused_lines(tally: &mut Tally) {
    for &(place, byte, expected) in REFUSED {
        let mut file = SMALL;
        file[place] = byte;
        let name = format!("line: byte {place} is {byte}");
        tally.note(&name, verdict(&file) == expected);
    }
    let mut test = |name: &str, file: &[u8], expected: &str| {
        tally.note(name, verdict(file) == expected);
    };
    let short = "refused 3: file under 32 bytes";
    test("line: empty", b"", short);
    test("line: 31 bytes", &SMALL[..31], short);
    let length = "refused 5: offsets right, file length wrong";
    test("line: 32 bytes", &SMALL[..32], length);
    test("line: a byte more", &[&SMALL[..], b"c"].concat(), length);
    test(
        "line: the 1,025th action",
        &only_actions(1_025),
        "refused 27 at byte 12324, item 1024: the 1,025th action",
    );
}

fn names_and_reasons(tally: &mut Tally) {
    let mut test = |name: &str, got: &[u8], expected: &[u8]| {
        tally.note(name, got == expected);
    };
    test("name: as given", &shown(b"a b/\"c\".bin"), b"a b/\"c\".bin");
    test(
        "name: control bytes",
        &shown(b"\x01\n\x1f \x7f~"),
        b"??? ?~",
    );
    test("name: bytes above 127", &shown(b"\x80\xff"), b"\x80\xff");
    test("name: empty", &shown(b""), b"\"\"");
    test("name: standard input", &shown(b"-"), b"-");
    test(
        "unreadable: an empty name",
        &line(OsStr::new("")),
        b"\"\": can't be read: no such file\n",
    );
    test(
        "unreadable: a folder",
        &line(OsStr::new("/")),
        b"/: can't be read: a folder\n",
    );
    for (number, words) in [
        (1, "no permission"),
        (2, "no such file"),
        (3, "error 3"),
        (4, "error 4"),
        (5, "the disk or the device has failed"),
        (6, "error 6"),
        (9, "closed"),
        (12, "error 12"),
        (13, "no permission"),
        (19, "error 19"),
        (20, "the name leads through a file"),
        (21, "a folder"),
        (22, "error 22"),
        (36, "the name is too long"),
        (40, "links in a circle, or too many"),
        (116, "error 116"),
    ] {
        let said = reason(&io::Error::from_raw_os_error(number));
        test(
            &format!("unreadable: error {number}"),
            said.as_bytes(),
            words.as_bytes(),
        );
    }
}

/// 400 files of `scatter` show every row, deep places, and figures of all kinds.
fn scattered(tally: &mut Tally) {
    let files: Vec<Vec<u8>> = (1..=400).map(scatter::file_of_seed).collect();
    let said: Vec<String> = files.iter().map(|file| verdict(file)).collect();
    for row in [
        "accepted",
        "refused 3:",
        "refused 4 at byte 4,",
        "refused 4 at byte 12,",
        "refused 4 at byte 20,",
        "refused 4 at byte 28,",
        "refused 5 at byte 0,",
        "refused 5 at byte 8,",
        "refused 5 at byte 16,",
        "refused 5 at byte 24,",
        "refused 5:",
        "refused 8 at byte 24,",
        "refused 20 at byte ",
        "refused 21 at byte ",
        "refused 22 at byte ",
        "refused 23 at byte ",
        "refused 24 at byte ",
        "refused 25 at byte ",
        "refused 26 at byte ",
        "refused 27 at byte ",
    ] {
        let found = said.iter().any(|line| line.starts_with(row));
        tally.note(&format!("scatter: {row}"), found);
    }
    for entry in ["event", "item", "message"] {
        let deep = deepest(&said, entry) >= 100;
        tally.note(&format!("scatter: {entry} 100 or later"), deep);
    }
    let none = said.iter().any(|line| line.ends_with(" parts none"));
    tally.note("scatter: no item", none);
    let all = " parts 0 1 2 3 4 5 6 7 8 9 10 11 12 13 14 15";
    let all = said.iter().any(|line| line.ends_with(all));
    tally.note("scatter: all parts", all);
    let long = files.iter().any(|file| file.len() >= 70_000);
    tally.note("scatter: 70,000 bytes", long);
}

/// The highest number of such an entry that a refusal names.
fn deepest(said: &[String], entry: &str) -> usize {
    let before = format!(", {entry} ");
    let number = |line: &String| {
        let (_, rest) = line.split_once(&before)?;
        rest.split([':', ',']).next()?.parse().ok()
    };
    said.iter().filter_map(number).max().unwrap_or(0)
}

/// What stands beside them, in order, as its line begins where it is named by `./`.
const ODD: &[&[u8]] = &[
    b"./sound.bin",
    b"./empty.bin",
    b"./locked.bin",
    b"./folder.bin",
    b"./socket.bin",
    b"./to-sound.bin",
    b"./to-folder.bin",
    b"./to-nowhere.bin",
    b"./to-through.bin",
    b"./to-circle.bin",
    b"./to-circle-back.bin",
    b"./to-too-long.bin",
    b"./to-failing.bin",
    b"./two  spaces .bin",
    b"./new?line.bin",
    b"./no text \x80\xc3(\xfe\xff.bin",
    b"./control ????[7m??\xc2\x9b.bin",
];

fn odd_entries(tally: &mut Tally) {
    let names: Vec<&[u8]> = odd::ENTRIES.iter().map(|(name, _)| *name).collect();
    let lines = names.iter().map(|name| shown(&[b"./", *name].concat()));
    tally.note("odd: names as shown", lines.eq(ODD.iter().copied()));
    let found = |name: &&[u8]| {
        let number = name[0].is_ascii_digit();
        let one = names.iter().filter(|other| *other == name).count() == 1;
        // `./*.bin` leaves out what begins with a point.
        one && !number && name.ends_with(b".bin") && name[0] != b'.' && !name.contains(&b'/')
    };
    tally.note("odd: every name is found, once", names.iter().all(found));
    for (name, there) in [
        (&b"sound.bin"[..], true),
        (b"folder.bin", true),
        (b"to-circle.bin", true),
        (b"to-circle-back.bin", true),
        (b"nowhere", false),
    ] {
        let linked = |(_, what): &(&[u8], What)| matches!(what, What::Link(to) if *to == name);
        let right = odd::ENTRIES.iter().any(linked) && names.contains(&name) == there;
        let name = String::from_utf8_lossy(name);
        tally.note(&format!("odd: a link to {name}"), right);
    }
    tally.note(
        "odd: the sound file",
        verdict(&odd::sound()) == "accepted, 1 events, 1 items, 1 actions, 1 messages, parts 0",
    );
}
