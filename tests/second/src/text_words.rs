//! The text form against values written by hand: where a text is at fault, what
//! the file check says of the file it makes, the bytes that are read and the
//! text that is written.

use crate::random::Random;
use crate::text::{self, FILE_ROOM};
use crate::text_shown::text_shown;
use crate::texts;
use crate::words::{Tally, SMALL, SMALLEST};
use crate::writer::{self, TEXT_ROOM};
use crate::{case, scores};

pub fn text_words(tally: &mut Tally) {
    whole_texts(tally);
    fourth_lines(tally);
    checked_files(tally);
    repeated(tally);
    file_rooms(tally);
    read_bytes(tally);
    small_spelled(tally);
    written_texts(tally);
    text_rooms(tally);
    there_and_back(tally);
    text_shown(tally);
}

fn note(tally: &mut Tally, sort: &str, text: &[u8], right: bool) {
    let mut shown = String::from_utf8_lossy(text).escape_debug().to_string();
    if shown.chars().count() > 60 {
        shown = shown.chars().take(57).collect::<String>() + "...";
    }
    tally.note(&format!("text: {sort}: {shown}"), right);
}

/// Number, place, line and column of the text read into enough room.
fn figures(text: &[u8]) -> (u64, usize, usize, usize) {
    let reply = text::read(text, FILE_ROOM);
    (reply.number, reply.place, reply.line, reply.column)
}

// ---------------------------------------------------------------- faults

/// Texts that are at fault themselves: line and column.
const AT_FAULT: &[(&[u8], usize, usize)] = &[
    (b"", 1, 1),
    (b" ", 1, 2),
    (b"\n", 2, 1),
    (b"\n\n# x", 3, 4),
    (b"Messages", 1, 1),
    (b"message", 1, 1),
    (b"messagesevent 1", 1, 1),
    (b"event 1", 1, 1),
    (b"\xef\xbb\xbfmessages", 1, 1),
    (b"messages\x00", 1, 9),
    (b"messages\x0cevent 1", 1, 9),
    (b"messages\xff", 1, 9),
    (b"messages 0", 1, 11),
    (b"messages 0 a", 1, 12),
    (b"messages 1 \"a\"", 1, 10),
    (b"messages 0 \"a\" 0 \"b\"", 1, 16),
    (b"messages 0 \"a\" 2 \"b\"", 1, 16),
    (b"messages 4294967296 \"a\"", 1, 10),
    (b"messages 00000000000 \"a\"", 1, 10),
    (b"messages 0/1 \"a\"", 1, 11),
    (b"messages \"a\"", 1, 10),
    (b"messages 0 \"a\" \"b\"", 1, 16),
    // Within a label.
    (b"messages 0 \"a\nb\"", 1, 14),
    (b"messages\n0 \"\n", 2, 4),
    (b"messages 0 \"a\\nb\"", 1, 15),
    (b"messages 0 \"a\\\nb\"", 1, 15),
    (b"messages 0 \"a\\\xff\"", 1, 15),
    (b"messages 0 \"a", 1, 14),
    (b"messages 0 \"", 1, 13),
    (b"messages 0 \"\\", 1, 14),
    (b"messages 0 \"\\\"", 1, 15),
    (b"messages 0 \"# no comment", 1, 25),
    // Columns are bytes, and only a newline ends a line.
    (b"messages 0 \"\xc3\xa9\" X", 1, 17),
    (b"messages\revent X", 1, 16),
    (b"messages\r\nevent\tX\r\n", 2, 7),
    (b"messages # {\n# \"\n\tX", 3, 2),
    // Events and parts.
    (b"messages\nevent", 2, 6),
    (b"messages\nevent\n", 3, 1),
    (b"messages\nevent # 1", 2, 10),
    (b"messages\nevent # 1\n", 3, 1),
    (b"messages\nevent part", 2, 7),
    (b"messages\nevent1event", 2, 12),
    (b"messages event 1 part 256", 1, 23),
    (b"messages event 1 part 0000000256", 1, 23),
    (b"messages event 1 part 00000000001", 1, 23),
    (b"messages event 1 part", 1, 22),
    (b"messages event 1 part -1", 1, 23),
    (b"messages event 1 part 0/1", 1, 24),
    (b"messages event 1 part0part0 part1/1", 1, 34),
    (b"messages event 1 send 0", 1, 18),
    (b"messages event 1 0 send 0", 1, 18),
    (b"messages event 1 /2", 1, 18),
    (b"messages event 1 }", 1, 18),
    (b"messages event 1 messages", 1, 18),
    (b"messages event 1 0 \"a\"", 1, 18),
    (b"messages event 1 partpart 0", 1, 18),
    (b"messages event 1 part 0 part", 1, 29),
    (b"messages event 1/2/3", 1, 19),
];

fn whole_texts(tally: &mut Tally) {
    for &(text, line, column) in AT_FAULT {
        let right = figures(text) == (16, 0, line, column);
        note(tally, "at fault", text, right);
    }
}

/// Three lines, so that what follows them is line 4.
const THREE_LINES: &[u8] = b"messages 0 \"a\"\nevent 1\npart 0\n";

/// The column of the fault where this is line 4.
const FOURTH_LINES: &[(&str, usize)] = &[
    ("1 send 0/1", 9),
    ("1/ 2 send 0", 3),
    ("1/\t2 send 0", 3),
    ("1/\n2 send 0", 3),
    ("1/#\n2 send 0", 3),
    ("1 sen", 3),
    ("1 sen 0", 3),
    ("1 sendX", 7),
    ("1 sends 0", 3),
    ("1 Send 0", 3),
    ("1 /2 send 0", 3),
    ("1/2/3 send 0", 4),
    ("1", 2),
    ("1/", 3),
    ("1 send", 7),
    ("1 send ", 8),
    ("1 send# 0", 10),
    ("1 send 0 1 send", 16),
    ("1 send 0 1send0/", 16),
    ("1 send 01send", 10),
    ("1 group", 8),
    ("1 group {", 10),
    ("1 group { 0 send 0", 19),
    ("1 group { 0 send 0 }}", 21),
    ("1 group { 0 group { }", 22),
    ("1 group local loose {}", 15),
    ("1 group loose tight {}", 15),
    ("1 group looselocal {}", 9),
    ("1 group Loose {}", 9),
    ("1 group until 2 {}", 9),
    ("1 group loose local until 2 {}", 21),
    ("1 group loose local 0 send 0", 21),
    ("1 group { } }", 13),
    ("1 group { part 0 }", 11),
    ("1 group { event 1", 11),
    ("1 groupX", 8),
    ("send 0", 1),
    ("-1 send 0", 1),
    ("1.5 send 0", 2),
    ("/2 send 0", 1),
    ("1 until 2", 3),
    ("1 send \"a\"", 8),
    ("1 send 0 \"a\"", 10),
    ("1 send 0 {", 10),
    ("1 send 0;", 9),
    ("1 send 65536", 8),
    ("1 send 0000065536", 8),
    ("1 send 00000000000", 8),
    ("1 send 65536/1", 8),
    // Beats: digits, fields, then the fraction's value.
    ("12345678901 send 0", 1),
    ("00000000001 send 0", 1),
    ("12345678901/ send 0", 1),
    ("4294967296/ send 0", 1),
    ("1/12345678901 send 0", 3),
    ("1/00000000000 send 0", 3),
    ("1/4294967296 send 0", 3),
    ("0/4294967296 send 0", 3),
    ("4294967295/4294967296 send 0", 12),
    ("4294967296/4294967296 send 0", 1),
    ("1/0 send 0", 1),
    ("0/0 send 0", 1),
    ("0/0X", 1),
    ("1/11 send 0", 1),
    ("1/10080 send 0", 1),
    ("1/4294967295 send 0", 1),
    ("4294967295 send 0", 1),
    ("852177 send 0", 1),
    ("268435456/315 send 0", 1),
    ("4026531840/4725 send 0", 1),
];

fn fourth_lines(tally: &mut Tally) {
    for &(line, column) in FOURTH_LINES {
        let text = [THREE_LINES, line.as_bytes()].concat();
        let right = figures(&text) == (16, 0, 4, column);
        note(tally, "line 4 at fault", line.as_bytes(), right);
    }
    let text = [THREE_LINES, b"1 send 0\n1 send\n"].concat();
    let right = figures(&text) == (16, 0, 6, 1);
    note(tally, "at fault after its last newline", &text, right);
}

// ------------------------------------------------------------ file check

/// Texts that can be read, and what the file check says of the file: with one
/// event and no more the items stand at 36, and so do messages without items.
const CHECKED: &[(&[u8], u64, usize)] = &[
    (b"messages", 4, 4),
    (b"# nothing\nmessages 0 \"\"", 4, 4),
    (b"messages event 1", 0, 0),
    (b"messages event 0", 6, 32),
    (b"messages event 1 event 0/7", 6, 36),
    (b"messages event 1/5040", 0, 0),
    (b"messages event 1000", 0, 0),
    (b"messages event 5040001/5040", 6, 32),
    (b"messages event 4294967295/5040", 6, 32),
    (b"messages event 286331153/336", 6, 32),
    (b"messages event 852176", 6, 32),
    (b"messages event 4294967295/4294967295", 0, 0),
    (b"messages event 0000000001/0000000001", 0, 0),
    (b"messages event 1 part 99", 0, 0),
    (b"messages event 1 part 255 part 0 part 0000000000", 0, 0),
    (b"messages event 1 part 15 0 group{}", 0, 0),
    (b"messages event 1 part 16 0 group{}", 22, 39),
    (b"messages event 1 part 99 0 group{}", 22, 39),
    (b"messages event 1 part 255 0 group{}", 22, 39),
    (b"messages event 1 part 0 0 group{}part 0 0 group{}", 0, 0),
    (b"messages event 1 part 1 0 group{}part 0 0 group{}", 24, 56),
    (b"messages event 1 part 1 0 group{}part 0", 0, 0),
    (b"messages event 1 part 0 1000 group{}", 0, 0),
    (b"messages event 1 part 0 5040001/5040 group{}", 23, 40),
    (b"messages event 1 part 0 0 group{} 0 send 0", 26, 58),
    (b"messages 0 \"a\" event 1 part 0 0 send 0", 0, 0),
    (b"messages 0 \"a\" event 1 part 0 0 send 1", 26, 46),
    (b"messages 0 \"a\" event 1 part 0 0 send 65535", 26, 46),
    (b"messages 0 \"\" event 1", 8, 36),
    (b"messages 0 \"a\" 1 \"\" event 1", 8, 40),
    (b"messages 0 \"\t\" event 1", 8, 36),
    (b"messages 0 \"\r\" event 1", 8, 36),
    (b"messages 0 \"\x1f\" event 1", 8, 36),
    (b"messages 0 \"\x00\" event 1", 8, 36),
    (b"messages 0 \"\x20\" event 1", 0, 0),
    (b"messages 0 \"a\" 1 \"b\x7f\" event 1", 8, 40),
    (b"messages 0 \"\x80\xff\" event 1", 0, 0),
    // An item before a label, an event before an item, a count before all.
    (b"messages 0 \"\" event 1 part 16 0 group{}", 22, 39),
    (b"messages 0 \"\" event 0 part 16 0 group{}", 6, 32),
];

fn checked_files(tally: &mut Tally) {
    for &(text, number, place) in CHECKED {
        let right = figures(text) == (number, place, 0, 0);
        note(tally, "its file", text, right);
    }
}

/// Front, what is repeated, how often, the end; number, place, line, column.
type Repeated = (
    &'static str,
    &'static str,
    usize,
    &'static str,
    (u64, usize, usize, usize),
);

#[rustfmt::skip]
const REPEATED: &[Repeated] = &[
    ("messages", " event 1", 256, "", (0, 0, 0, 0)),
    ("messages", " event 1", 257, "", (4, 4, 0, 0)),
    ("messages", " event 1", 70_000, "", (4, 4, 0, 0)),
    // A fault comes before a count: 8 bytes, 257 times 8, then a blank.
    ("messages", " event 1", 257, " X", (16, 0, 1, 2_066)),
    ("messages event 1 part 0", " 0 group {}", 2_048, "", (0, 0, 0, 0)),
    ("messages event 1 part 0", " 0 group {}", 2_049, "", (4, 12, 0, 0)),
    ("messages 0 \"a\" event 1 part 0", " 0 send 0", 1_024, "", (0, 0, 0, 0)),
    ("messages 0 \"a\" event 1 part 0", " 0 send 0", 1_025, "", (27, 12_324, 0, 0)),
    ("messages 0 \"a\" event 1 part 0", " 0 send 0", 70_000, "", (4, 12, 0, 0)),
    ("messages event 1", " part 255", 100_000, "", (0, 0, 0, 0)),
    ("messages 0 \"", "x", 48, "\" event 1", (0, 0, 0, 0)),
    ("messages 0 \"", "x", 49, "\" event 1", (8, 36, 0, 0)),
    ("messages 0 \"", "\\\"", 48, "\" event 1", (0, 0, 0, 0)),
    ("messages 0 \"", "\\\\", 49, "\" event 1", (8, 36, 0, 0)),
    ("messages 0 \"", "x", 24_576, "\" event 1", (8, 36, 0, 0)),
    ("messages 0 \"", "x", 24_577, "\" event 1", (4, 28, 0, 0)),
    ("messages 0 \"", "x", 100_000, "\" event 1", (4, 28, 0, 0)),
    ("messages 0 \"", "x", 100_000, "", (16, 0, 1, 100_013)),
    ("messages event ", "0", 100_000, "", (16, 0, 1, 16)),
    ("messages event 1/", "0", 100_000, "", (16, 0, 1, 18)),
    ("messages ", "e", 100_000, "", (16, 0, 1, 10)),
    ("messages #", "\"{", 100_000, "\nevent 1", (0, 0, 0, 0)),
    ("messages", "\n", 100_000, "event", (16, 0, 100_001, 6)),
    ("messages event 1 part 0\n", "0group{", 10_000_000, "", (16, 0, 2, 70_000_001)),
];

fn repeated(tally: &mut Tally) {
    for &(front, part, times, end, expected) in REPEATED {
        let text = [front, &part.repeat(times), end].concat();
        let name = format!("{front} and {times} times {part}{end}");
        let right = figures(text.as_bytes()) == expected;
        note(tally, "repeated", name.as_bytes(), right);
    }
    // The ninth group from 36 on, 12 bytes each, is at 132; its last is at 142.
    for (depth, expected) in [
        (8, (0, 0, 0, 0)),
        (9, (25, 142, 0, 0)),
        (2_048, (25, 142, 0, 0)),
        (2_049, (4, 12, 0, 0)),
        (1_000_000, (4, 12, 0, 0)),
    ] {
        let groups = "0group{".repeat(depth) + &"}".repeat(depth);
        let text = format!("messages event 1 part 0 {groups}");
        let right = figures(text.as_bytes()) == expected;
        tally.note(&format!("text: groups {depth} deep"), right);
    }
    for (count, expected) in [
        (512, (0, 0, 0, 0)),
        (513, (4, 20, 0, 0)),
        (70_000, (4, 20, 0, 0)),
    ] {
        let list: String = (0..count).map(|number| format!("{number}\"m\"")).collect();
        let text = format!("messages {list} event 1");
        let right = figures(text.as_bytes()) == expected;
        tally.note(&format!("text: {count} messages"), right);
    }
}

fn file_rooms(tally: &mut Tally) {
    for (text, room, number) in [
        (&b"messages event 1"[..], 52_256, 0),
        (b"messages event 1", 52_257, 0),
        (b"messages event 1", 52_255, 2),
        (b"messages event 1", 36, 2),
        (b"messages event 1", 0, 2),
        (b"X", 52_255, 2),
        (b"X", 52_256, 16),
        (b"messages", 52_255, 2),
        (b"messages", 52_256, 4),
    ] {
        let reply = text::read(text, room);
        let right = reply.number == number && (number == 0) == (reply.written.len() == 36);
        note(tally, &format!("a file room of {room}"), text, right);
    }
}

// ----------------------------------------------------------------- bytes

/// One event of 5,040 grains (176 + 19 x 256), nothing else.
#[rustfmt::skip]
const ONE_BEAT: [u8; 36] = [
    32, 0, 0, 0, 1, 0, 0, 0,
    36, 0, 0, 0, 0, 0, 0, 0,
    36, 0, 0, 0, 0, 0, 0, 0,
    36, 0, 0, 0, 0, 0, 0, 0,
    176, 19, 0, 0,
];

/// One beat, a group of each word that can be missing.
#[rustfmt::skip]
const WORDS: [u8; 108] = [
    32, 0, 0, 0, 1, 0, 0, 0,
    36, 0, 0, 0, 6, 0, 0, 0,
    108, 0, 0, 0, 0, 0, 0, 0,
    108, 0, 0, 0, 0, 0, 0, 0,
    176, 19, 0, 0,
    1, 0, 0, 3, 0, 0, 0, 0, 1, 0, 0, 0,
    1, 1, 0, 3, 0, 0, 0, 0, 1, 0, 0, 0,
    1, 0, 1, 3, 0, 0, 0, 0, 1, 0, 0, 0,
    1, 0, 3, 3, 0, 0, 0, 0, 1, 0, 0, 0,
    1, 1, 2, 3, 0, 0, 0, 0, 1, 0, 1, 0,
    1, 0, 0, 3, 0, 0, 0, 0, 0, 0, 0, 0,
];

/// One beat and the label of a quote, a backslash, an n and byte 200.
#[rustfmt::skip]
const ESCAPED: [u8; 44] = [
    32, 0, 0, 0, 1, 0, 0, 0,
    36, 0, 0, 0, 0, 0, 0, 0,
    36, 0, 0, 0, 1, 0, 0, 0,
    40, 0, 0, 0, 4, 0, 0, 0,
    176, 19, 0, 0,
    0, 0, 4, 0,
    34, 92, 110, 200,
];

/// One beat and one action after 1.5 beats (7,560 is 136 + 29 x 256), label a.
#[rustfmt::skip]
const ONE_ACTION: [u8; 53] = [
    32, 0, 0, 0, 1, 0, 0, 0,
    36, 0, 0, 0, 1, 0, 0, 0,
    48, 0, 0, 0, 1, 0, 0, 0,
    52, 0, 0, 0, 1, 0, 0, 0,
    176, 19, 0, 0,
    0, 0, 0, 15, 136, 29, 0, 0, 1, 0, 0, 0,
    0, 0, 1, 0,
    97,
];

fn read_bytes(tally: &mut Tally) {
    let rows: &[(&[u8], &[u8])] = &[
        (b"messages event 1", &ONE_BEAT),
        (b"messages\nevent 0000000007/7 part 99 part 3\n", &ONE_BEAT),
        (b"#\n\r\tmessages#event\nevent#0\n2/2#}", &ONE_BEAT),
        (b"messages event 1/5040", &SMALLEST),
        (b"messages event 852176/4294967040", &SMALLEST),
        (
            b"messages event 1 part 3 0 group{} 0 group tight{} 0 group global{} \
              0 group causal {} 0 group tight partial { 0 group loose local {} }",
            &WORDS,
        ),
        (
            b"messages event 1 part 3 0group loose{} part 3 0group tight local{}0group#\n\
              loose global{}0group\ncausal{}0group tight\rpartial\t{0group local{}}part 3",
            &WORDS,
        ),
        (b"messages 0 \"\\\"\\\\n\xc8\" event 1", &ESCAPED),
        (b"messages0\"\\\"\\\\n\xc8\"event1", &ESCAPED),
        (b"messages 0 \"a\" event 1 part 15 3/2 send 0", &ONE_ACTION),
        (b"messages0\"a\"event1part15 3/2send0", &ONE_ACTION),
        (
            b"messages0\"a\"event1part15#\n0000000006/4send#/1\n0000000000#",
            &ONE_ACTION,
        ),
    ];
    for (text, file) in rows {
        let reply = text::read(text, FILE_ROOM);
        let right = reply.number == 0 && reply.written == *file;
        note(tally, "read", text, right);
    }
}

/// The small file in several ways: events of 5 and 7 grains; under the first a
/// tight causal group of part 2 with message 1 after 6 grains, under the second
/// an empty group of part 9.
fn small_spelled(tally: &mut Tally) {
    for text in [
        &b"messages 0 \"a\" 1 \"b\xc8\" event 5/5040 part 2 0 group tight causal \
           { 6/5040 send 1 } event 7/5040 part 9 0 group {}"[..],
        b"messages0\"a\"1\"b\xc8\"event1/1008part2 0group tight causal{1/840send1}\
          event1/720part9 0group{}",
        b"messages\r\n00\"a\"\r\n01\"b\xc8\"\r\nevent 10/10080 # {\r\npart 0 part 2 0/3 group\r\n\
          tight#\ncausal#\n{#\n0000000006/5040#\nsend#\n0000000001#\n}#\npart 1\
          event 3/2160 part 10 part 9 0 group local { } part 15",
    ] {
        let reply = text::read(text, FILE_ROOM);
        let right = reply.number == 0 && reply.written == SMALL;
        note(tally, "the small file", text, right);
    }
}

// ------------------------------------------------------------ the writer

const SMALL_TEXT: &[u8] = b"messages
  0 \"a\"
  1 \"b\xc8\"
event 1/1008 # 1
  part 2
    0 group tight causal {
      1/840 send 1 # b\xc8
    }
event 1/720 # 2
  part 9
    0 group loose local {
    }
";

const WORDS_TEXT: &[u8] = b"messages
event 1 # 1
  part 3
    0 group loose local {
    }
    0 group tight local {
    }
    0 group loose global {
    }
    0 group loose causal {
    }
    0 group tight partial {
      0 group loose local {
      }
    }
";

const ESCAPED_TEXT: &[u8] = b"messages
  0 \"\\\"\\\\n\xc8\"
event 1 # 1
";

const ONE_ACTION_TEXT: &[u8] = b"messages
  0 \"a\"
event 1 # 1
  part 15
    3/2 send 0 # a
";

/// Parts that change and parts that come again at the next event; a label with
/// a quote is behind `#` as it is; two top items of one part.
const PARTS: &[u8] = b"messages 0 \"\\\"\"
event 2/2 part 0 0 send 0 part 1 5040/5040 send 0 part 1 1/2 send 0
event 6/4 event 3 part 1 2/10080 send 0 0 group { 7 send 0 }";

const PARTS_TEXT: &[u8] = b"messages
  0 \"\\\"\"
event 1 # 1
  part 0
    0 send 0 # \"
  part 1
    1 send 0 # \"
    1/2 send 0 # \"
event 3/2 # 2
event 3 # 3
  part 1
    1/5040 send 0 # \"
    0 group loose local {
      7 send 0 # \"
    }
";

fn written_texts(tally: &mut Tally) {
    let parts = text::read(PARTS, FILE_ROOM).written;
    let rows: &[(&[u8], &[u8])] = &[
        (&SMALLEST, b"messages\nevent 1/5040 # 1\n"),
        (&ONE_BEAT, b"messages\nevent 1 # 1\n"),
        (&SMALL, SMALL_TEXT),
        (&WORDS, WORDS_TEXT),
        (&ESCAPED, ESCAPED_TEXT),
        (&ONE_ACTION, ONE_ACTION_TEXT),
        (&parts, PARTS_TEXT),
    ];
    for (file, text) in rows {
        let reply = writer::write(file, TEXT_ROOM);
        let right = reply.number == 0 && reply.written == *text;
        note(tally, "written", text, right);
    }
}

/// The smallest score's text is 9 bytes and 17.
fn text_rooms(tally: &mut Tally) {
    let mut bad = SMALL;
    bad[40] = 2;
    for (name, file, room, expected) in [
        ("just enough", &SMALLEST[..], 26, (0, 0, 26)),
        ("more than enough", &SMALLEST, 27, (0, 0, 26)),
        ("a byte short", &SMALLEST, 25, (2, 0, 0)),
        ("none", &SMALLEST, 0, (2, 0, 0)),
        ("none, and a bad item", &bad, 0, (20, 40, 0)),
        ("none, and no file", b"", 0, (3, 0, 0)),
        ("none, and a byte too few", &SMALL[..86], 0, (5, 0, 0)),
    ] {
        let reply = writer::write(file, room);
        let right = (reply.number, reply.place, reply.written.len()) == expected;
        tally.note(&format!("text: a text room, {name}"), right);
    }
}

// ----------------------------------------------------------------- cases

/// No text is longer. `messages` is 9 bytes; 512 messages with labels of 96 take
/// 102 each beside their numbers' 1,426 digits; 256 events 22 each beside their
/// 660; 1,024 actions at depth 8 take 91, as many groups 73. A `part` is 10, but
/// the top item behind it has 14 blanks fewer.
const LONGEST_TEXT: usize = 9 + (512 * 102 + 1_426) + (256 * 22 + 660) + 1_024 * (91 + 73);

/// Reading what was written, or spelled and laid out anyhow, gives the file.
fn there_and_back(tally: &mut Tally) {
    let back = |file: &[u8]| {
        let text = writer::write(file, TEXT_ROOM);
        text.number == 0 && text::read(&text.written, FILE_ROOM).written == file
    };
    let mut files = (1..=600).map(|seed| scores::invent(&mut Random::new(seed)).tables.encode());
    tally.note("text: written and read", files.all(|file| back(&file)));
    let spelled = (1..=600).all(|seed| {
        let (tables, text) = texts::sound_text(&mut Random::new(seed));
        text::read(&text, FILE_ROOM).written == tables.encode()
    });
    tally.note("text: spelled and read", spelled);
    let mut longest = (1..=5).map(|seed| {
        let file = texts::largest_grown(&mut Random::new(seed)).encode();
        writer::write(&file, TEXT_ROOM).written.len()
    });
    let fits = |length| (150_000..=LONGEST_TEXT).contains(&length);
    tally.note("text: the largest scores", longest.all(fits));
    tally.note("text: the text room", LONGEST_TEXT <= TEXT_ROOM);
    let refused = (1..=600).map(case::file_of_seed).all(|file| {
        let reply = writer::write(&file, TEXT_ROOM);
        (reply.number, reply.place) == crate::score::check(&file)
    });
    tally.note("text: what is written passes the check", refused);
}
