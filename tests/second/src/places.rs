//! Where a byte of the file comes from: line and column of what made it in the
//! text, asked of the text and the place alone.

use crate::mutant;
use crate::score::{
    CONTENTS, EVENT_BYTES, ITEM_BYTES, MESSAGE_BYTES, MOST_EVENTS, MOST_ITEMS, MOST_MESSAGES,
    MOST_TEXT,
};
use crate::text::{self, Mark};

/// Line and column; 0 and 0 where the text has a fault of its own or nothing in it
/// made that byte.
pub fn place_in_text(text: &[u8], place: usize) -> (usize, usize) {
    let Ok(marks) = text::marks(text) else {
        return (0, 0);
    };
    let origins = Origins::new(text, &marks);
    match origins.origin(place) {
        Some(at) => origins.line_and_column(at),
        None => (0, 0),
    }
}

/// The bytes of the text that are told.
struct Origins<'t> {
    text: &'t [u8],
    /// One for each event, item and message, of whatever number.
    events: Vec<usize>,
    items: Vec<usize>,
    messages: Vec<usize>,
    /// How many label bytes there are up to the end of each message.
    label_bytes: Vec<usize>,
    list_end: usize,
    comment_ends: Vec<usize>,
}

impl Origins<'_> {
    fn new<'t>(text: &'t [u8], marks: &[(Mark, usize)]) -> Origins<'t> {
        let mut origins = Origins {
            text,
            events: Vec::new(),
            items: Vec::new(),
            messages: Vec::new(),
            label_bytes: Vec::new(),
            list_end: 0,
            comment_ends: Vec::new(),
        };
        // The groups that are open, and the number before a label.
        let (mut open, mut number, mut bytes) = (Vec::new(), 0, 0);
        for &(mark, at) in marks {
            match mark {
                Mark::CommentEnd => origins.comment_ends.push(at),
                Mark::ListNumber => number = at,
                Mark::Label(length) => {
                    bytes += length;
                    origins.messages.push(message(number, at));
                    origins.label_bytes.push(bytes);
                }
                Mark::ListEnd => origins.list_end = at,
                Mark::Event => origins.events.push(at),
                Mark::Action => origins.items.push(item(&open, at)),
                Mark::Group => {
                    origins.items.push(item(&open, at));
                    open.push(at);
                }
                Mark::Close => drop(open.pop()),
            }
        }
        origins
    }

    fn origin(&self, place: usize) -> Option<usize> {
        match place {
            4..=7 if self.events.is_empty() => Some(self.text.len()),
            4..=7 => first_past(&self.events, MOST_EVENTS),
            12..=15 => first_past(&self.items, MOST_ITEMS),
            20..=23 => first_past(&self.messages, MOST_MESSAGES),
            24..=27 => Some(self.list_end),
            28..=31 => self.label_past(),
            _ => self.entry(place.checked_sub(CONTENTS)?),
        }
    }

    /// Of a place in the tables, counted from behind the contents. The file's text,
    /// which stands behind them, is told nowhere.
    fn entry(&self, mut place: usize) -> Option<usize> {
        for (told, size) in [
            (&self.events, EVENT_BYTES),
            (&self.items, ITEM_BYTES),
            (&self.messages, MESSAGE_BYTES),
        ] {
            if let Some(&at) = told.get(place / size) {
                return Some(at);
            }
            place -= size * told.len();
        }
        None
    }

    /// The label that has the first byte past the limit, where there is one.
    fn label_past(&self) -> Option<usize> {
        let has = |byte: usize| self.label_bytes.iter().position(|&bytes| bytes >= byte);
        let most = MOST_TEXT as usize;
        let past = has(most + 1)?;
        let told = if mutant::is(mutant::LAST_WITHIN_THE_LIMIT_TOLD) {
            has(most)?
        } else {
            past
        };
        Some(self.messages[told])
    }

    /// Lines from 1, columns in bytes from 1; only a newline ends a line.
    fn line_and_column(&self, at: usize) -> (usize, usize) {
        let before = &self.text[..at];
        let mut line = 1 + before.iter().filter(|&&byte| byte == b'\n').count();
        if mutant::is(mutant::COMMENT_ENDS_TWO_LINES) {
            line += self.comment_ends.iter().filter(|&&end| end < at).count();
        }
        let newline = before.iter().rposition(|&byte| byte == b'\n');
        (line, at - newline.map_or(0, |newline| newline + 1) + 1)
    }
}

/// "for a count the first one past its limit"
fn first_past(told: &[usize], most: u64) -> Option<usize> {
    let past = *told.get(most as usize)?;
    if mutant::is(mutant::LAST_WITHIN_THE_LIMIT_TOLD) {
        return told.get(most as usize - 1).copied();
    }
    Some(past)
}

/// "the item's first byte", also where groups are open around it.
fn item(open: &[usize], at: usize) -> usize {
    match open.last() {
        Some(&holder) if mutant::is(mutant::ITEMS_TOLD_AT_THEIR_HOLDERS) => holder,
        _ => at,
    }
}

/// "the label's quote"
fn message(number: usize, quote: usize) -> usize {
    if mutant::is(mutant::MESSAGES_TOLD_AT_THEIR_NUMBERS) {
        return number;
    }
    quote
}
