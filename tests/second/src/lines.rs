//! What `check` says of each file: a line each.

use crate::mutant;
use crate::score::{
    self, u32_at, Item, Refusal, Score, What, CONTENTS, EVENT_BYTES, ITEM_BYTES, MESSAGE_BYTES,
};
use std::ffi::OsStr;
use std::fs::{self, File};
use std::io::{self, Read};
use std::os::fd::AsFd;
use std::os::unix::ffi::OsStrExt;

/// What stands in the contents, four bytes each.
const IN_CONTENTS: [&str; 8] = [
    "offset of the events",
    "count of events",
    "offset of the items",
    "count of items",
    "offset of the messages",
    "count of messages",
    "offset of the text",
    "count of text bytes",
];

/// The system's numbers that have words.
const NOT_PERMITTED: i32 = 1;
const NO_SUCH_FILE: i32 = 2;
const DEVICE_FAILED: i32 = 5;
const NOT_OPEN: i32 = 9;
const NO_ACCESS: i32 = 13;
const NOT_A_FOLDER: i32 = 20;
const A_FOLDER: i32 = 21;
const NAME_TOO_LONG: i32 = 36;
const TOO_MANY_LINKS: i32 = 40;

/// The whole line, with its newline, for a file as it is named in the arguments.
pub fn line(argument: &OsStr) -> Vec<u8> {
    let said = match contents_of(argument) {
        Ok(file) => verdict(&file),
        Err(error) => format!("can't be read: {}", reason(&error)),
    };
    let mut line = shown(argument.as_bytes());
    line.extend(format!(": {said}\n").bytes());
    line
}

fn contents_of(argument: &OsStr) -> io::Result<Vec<u8>> {
    if argument != "-" {
        return fs::read(argument);
    }
    // The library's own standard input would take one that is not open for empty.
    let mut input = File::from(io::stdin().as_fd().try_clone_to_owned()?);
    let mut file = Vec::new();
    input.read_to_end(&mut file)?;
    Ok(file)
}

/// A name on one line, whatever its bytes; an empty one is seen as well.
pub fn shown(name: &[u8]) -> Vec<u8> {
    if name.is_empty() {
        return b"\"\"".to_vec();
    }
    let show = |&byte: &u8| match byte {
        0..=31 | 127 => b'?',
        _ => byte,
    };
    name.iter().map(show).collect()
}

/// In words, or by the system's number where there are none.
pub fn reason(error: &io::Error) -> String {
    let words = match error.raw_os_error().unwrap_or(0) {
        NO_SUCH_FILE if mutant::is(mutant::NOWHERE_IS_A_FOLDER) => "a folder",
        NO_SUCH_FILE => "no such file",
        A_FOLDER => "a folder",
        NOT_PERMITTED | NO_ACCESS => "no permission",
        NAME_TOO_LONG => "the name is too long",
        NOT_A_FOLDER => "the name leads through a file",
        TOO_MANY_LINKS => "links in a circle, or too many",
        NOT_OPEN => "closed",
        DEVICE_FAILED => "the disk or the device has failed",
        number => return format!("error {number}"),
    };
    String::from(words)
}

/// What follows the name of a file that could be read.
pub fn verdict(file: &[u8]) -> String {
    match score::read(file) {
        Ok(score) => accepted(&score),
        Err(refusal) => refused(file, refusal),
    }
}

// -------------------------------------------------------------- accepted

fn accepted(score: &Score) -> String {
    let (mut items, mut actions) = (0, 0);
    let mut used = [false; 16];
    for sequence in &score.sequences {
        let (all, played) = count(&sequence.items);
        items += all;
        actions += played;
        if played > 0 || !mutant::is(mutant::PARTS_OF_ACTIONS_ONLY) {
            used[sequence.part as usize] = true;
        }
    }
    if mutant::is(mutant::GROUPS_COUNT_AS_ACTIONS) {
        actions = items;
    }
    format!(
        "accepted, {} events, {items} items, {actions} actions, {} messages, parts {}",
        score.durations.len(),
        score.labels.len(),
        listed(&used)
    )
}

/// How many items, deeper ones too, and how many of them are actions.
fn count(items: &[Item]) -> (usize, usize) {
    let (mut all, mut actions) = (0, 0);
    for item in items {
        all += 1;
        match &item.what {
            What::Action(_) => actions += 1,
            What::Group(group) => {
                let within = count(&group.body);
                all += within.0;
                actions += within.1;
            }
        }
    }
    (all, actions)
}

fn listed(used: &[bool; 16]) -> String {
    let parts = (0..16).filter(|&part| used[part]);
    let digits: Vec<String> = parts.map(|part| part.to_string()).collect();
    if digits.is_empty() {
        return String::from("none");
    }
    digits.join(" ")
}

// --------------------------------------------------------------- refused

fn refused(file: &[u8], refusal: Refusal) -> String {
    let Refusal { number, place } = refusal;
    match (number, place) {
        (3, _) => String::from("refused 3: file under 32 bytes"),
        (5, 0) if u32_at(file, 0) == CONTENTS as u64 => {
            String::from("refused 5: offsets right, file length wrong")
        }
        _ => format!(
            "refused {number} at byte {place}, {}: {}",
            entry(file, number, place),
            when(number, place)
        ),
    }
}

/// The reply table's words for a row that names a byte.
fn when(number: u64, place: usize) -> &'static str {
    match (number, place) {
        (4, _) => "a count outside its limits",
        (5, _) => "an offset not as above",
        (6, _) => "an event's duration",
        // Given by wrong rules 56 and 60 alone.
        (7, _) => "an item against the rules; also the 1,025th action",
        (20, _) => "an item's kind, not 0 or 1",
        (21, _) => "an item's words, out of range or not 0 on an action",
        (22, _) => "an item's part, above 15 or not its group's",
        (23, _) => "an item's delay, above 5,040,000 grains (1,000 beats)",
        (24, _) => {
            "an item's event, out of range, out of order by event and part, or not 0 within a group"
        }
        (25, _) => "an item's nesting, at depth 9 or a group that ends past what holds it",
        (26, _) => "an action's message number, not below the message count",
        (27, _) => "the 1,025th action",
        (8, 24) => "entries right, text not used up",
        _ => "a message entry or its label bytes",
    }
}

/// What stands at this byte. Past the contents only where they are right.
fn entry(file: &[u8], number: u64, place: usize) -> String {
    if place < CONTENTS {
        return String::from(IN_CONTENTS[place / 4]);
    }
    let items = CONTENTS + EVENT_BYTES * u32_at(file, 4) as usize;
    let messages = items + ITEM_BYTES * u32_at(file, 12) as usize;
    if place < items {
        return format!("event {}", 1 + (place - CONTENTS) / EVENT_BYTES);
    }
    if place < messages {
        let first = usize::from(mutant::is(mutant::ITEMS_FROM_ONE));
        let item = format!("item {}", first + (place - items) / ITEM_BYTES);
        return match number {
            20..=26 => format!("{item}, {}", field((place - items) % ITEM_BYTES)),
            // The 1,025th action is no field's fault.
            _ => item,
        };
    }
    format!("message {}", (place - messages) / MESSAGE_BYTES)
}

/// The field of an item that this byte of it belongs to.
fn field(byte: usize) -> &'static str {
    match byte {
        0 => "kind",
        1 => "synchrony",
        2 => "error word",
        3 => "part",
        4..=7 => "delay",
        8..=9 => "event",
        _ => "last",
    }
}
