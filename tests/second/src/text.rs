//! The text form, read from front to back: line and column of the first fault,
//! or the tables that the text stands for, and then the file check on them.

use crate::mutant;
use crate::score::{self, Entry, Tables};

/// The largest file, which the lent room must hold whatever the text.
pub const FILE_ROOM: usize = 52_256;

pub const GRAINS: u64 = 5_040;

pub const SYNCHRONIES: [&str; 2] = ["loose", "tight"];
pub const ERROR_WORDS: [&str; 4] = ["local", "global", "partial", "causal"];

const MOST_DIGITS: usize = 10;

/// What fits each field is below these. A number of the list has only its digits.
const BEATS_FIELD: u64 = 1 << 32;
const MESSAGE_FIELD: u64 = 1 << 16;
const PART_FIELD: u64 = 1 << 8;
const NO_FIELD: u64 = u64::MAX;

/// A call's reply, and what it writes into the front of the lent room.
#[derive(Clone, Debug, Default, PartialEq)]
pub struct Reply {
    pub number: u64,
    pub place: usize,
    pub line: usize,
    pub column: usize,
    pub written: Vec<u8>,
}

impl Reply {
    pub fn granted(written: Vec<u8>) -> Reply {
        Reply {
            written,
            ..Reply::default()
        }
    }

    pub fn refused(number: u64, place: usize) -> Reply {
        Reply {
            number,
            place,
            ..Reply::default()
        }
    }
}

/// Where the first byte stands that can't be, and why it can't.
pub struct Fault {
    pub line: usize,
    pub column: usize,
    pub sort: Sort,
    /// What was being read.
    pub wanted: &'static str,
}

#[derive(Clone, Copy, Debug, PartialEq)]
pub enum Sort {
    /// A token that can't stand there.
    Token,
    /// The text ends too soon.
    End,
    TooManyDigits,
    TooBig,
    /// A number of the list that isn't the next one.
    OutOfTurn,
    DenominatorZero,
    NotWholeGrains,
    TooManyGrains,
    LabelNewline,
    LabelEscape,
    LabelEnd,
}

/// What the file is made of, as it stands in the text.
#[derive(Clone, Copy, PartialEq, Debug)]
pub enum Mark {
    /// The newline that ends a comment.
    CommentEnd,
    /// A message's number.
    ListNumber,
    /// A label's quote, and how many bytes the label has.
    Label(usize),
    /// The byte behind the list's last token.
    ListEnd,
    /// The word.
    Event,
    /// An action's first byte.
    Action,
    /// A group's first byte.
    Group,
    /// The brace that ends a group.
    Close,
}

/// Text into a room for the file.
pub fn read(text: &[u8], room: usize) -> Reply {
    if room < FILE_ROOM {
        return Reply::refused(2, 0);
    }
    let tables = match tables(text) {
        Ok(tables) => tables,
        Err(fault) => {
            return Reply {
                line: fault.line,
                column: fault.column,
                ..Reply::refused(16, 0)
            };
        }
    };
    // A count past its limit is refused before a field that can't hold it is read.
    let file = tables.encode();
    match score::check(&file) {
        (0, _) => Reply::granted(file),
        (number, place) => Reply::refused(number, place),
    }
}

/// What the text says, held against no limit but the fields'.
pub fn tables(text: &[u8]) -> Result<Tables, Fault> {
    let mut reader = Reader::new(text);
    reader.whole()?;
    Ok(reader.tables)
}

/// What the file is made of, and the byte of the text that each stands at.
pub fn marks(text: &[u8]) -> Result<Vec<(Mark, usize)>, Fault> {
    let mut reader = Reader::new(text);
    reader.marks = Some(Vec::new());
    reader.whole()?;
    Ok(reader.marks.unwrap_or_default())
}

struct Reader<'t> {
    text: &'t [u8],
    at: usize,
    /// The line that `at` is in, and where it begins. No token has a newline, so
    /// every fault is in the line that is being read.
    line: usize,
    line_start: usize,
    tables: Tables,
    /// Kept only where they are asked for.
    marks: Option<Vec<(Mark, usize)>>,
}

impl Reader<'_> {
    fn new(text: &[u8]) -> Reader<'_> {
        Reader {
            text,
            at: 0,
            line: 1,
            line_start: 0,
            tables: Tables::default(),
            marks: None,
        }
    }

    fn mark(&mut self, mark: Mark, at: usize) {
        if let Some(marks) = &mut self.marks {
            marks.push((mark, at));
        }
    }
}

// --------------------------------------------------------------- grammar

impl Reader<'_> {
    fn whole(&mut self) -> Result<(), Fault> {
        self.word("messages", &["messages"])?;
        let mut list_end = self.at;
        while self.digit_next() {
            self.message()?;
            list_end = self.at;
        }
        self.mark(Mark::ListEnd, list_end);
        while !self.end_next() {
            self.event()?;
        }
        Ok(())
    }

    fn message(&mut self) -> Result<(), Fault> {
        let first = self.at;
        let number = self.number("list number", NO_FIELD)?;
        if number != self.tables.messages.len() as u64 {
            return self.fault(first, Sort::OutOfTurn, "list number");
        }
        self.mark(Mark::ListNumber, first);
        self.blanks();
        let quote = self.at;
        let label = self.label()?;
        self.mark(Mark::Label(label.len()), quote);
        self.tables.add_message(&label);
        Ok(())
    }

    fn event(&mut self) -> Result<(), Fault> {
        self.mark(Mark::Event, self.at);
        self.word("event", &["event"])?;
        let duration = self.beats()?;
        self.tables.durations.push(duration);
        while self.one_of(&["part"]).is_some() {
            self.part()?;
        }
        Ok(())
    }

    fn part(&mut self) -> Result<(), Fault> {
        self.blanks();
        let part = self.number("part number", PART_FIELD)?;
        let items = self.tables.items.len();
        self.items(part as u8)?;
        let none = self.tables.items.len() == items;
        if none && mutant::is(mutant::EMPTY_PART_REFUSED) {
            return self.fault(self.at, Sort::Token, "item");
        }
        Ok(())
    }

    /// The items of one `part`. A loop, for groups nest as deep as they like.
    fn items(&mut self, part: u8) -> Result<(), Fault> {
        let mut open: Vec<usize> = Vec::new();
        loop {
            if self.digit_next() {
                let event = if open.is_empty() {
                    self.tables.durations.len()
                } else {
                    0
                };
                let first = self.at;
                let entry = self.item(part, event as u16)?;
                if entry.kind == 1 {
                    self.mark(Mark::Group, first);
                    open.push(self.tables.items.len());
                } else {
                    self.mark(Mark::Action, first);
                }
                self.tables.items.push(entry);
            } else if let Some(group) = open.pop() {
                self.mark(Mark::Close, self.at);
                self.byte(b'}', "item or }")?;
                let within = self.tables.items.len() - group - 1;
                self.tables.items[group].last = within as u16;
            } else {
                return Ok(());
            }
        }
    }

    /// An action, or a group up to its open brace.
    fn item(&mut self, part: u8, event: u16) -> Result<Entry, Fault> {
        let delay = self.beats()?;
        let mut entry = Entry {
            part,
            delay,
            event,
            ..Entry::default()
        };
        if self.word("send or group", &["send", "group"])? == 0 {
            self.blanks();
            entry.last = self.number("message number", MESSAGE_FIELD)? as u16;
            return Ok(entry);
        }
        entry.kind = 1;
        let missing = if mutant::is(mutant::MISSING_WORD_IS_CAUSAL) {
            3
        } else {
            0
        };
        entry.synchrony = self.one_of(&SYNCHRONIES).unwrap_or(0) as u8;
        entry.error = self.one_of(&ERROR_WORDS).unwrap_or(missing) as u8;
        self.byte(b'{', "{")?;
        Ok(entry)
    }

    /// Beats as grains. No blank is passed once the number has begun.
    fn beats(&mut self) -> Result<u32, Fault> {
        self.blanks();
        let first = self.at;
        let numerator = self.number("beats", BEATS_FIELD)?;
        let mut denominator = 1;
        if self.next() == Some(b'/') {
            self.at += 1;
            denominator = self.number("denominator", BEATS_FIELD)?;
        }
        if denominator == 0 {
            return self.fault(first, Sort::DenominatorZero, "beats");
        }
        let cut_down = mutant::is(mutant::FRACTION_CUT_DOWN);
        // Below 2^45.
        let whole = (numerator * GRAINS).is_multiple_of(denominator);
        if !whole && !cut_down {
            return self.fault(first, Sort::NotWholeGrains, "beats");
        }
        let grains = numerator * GRAINS / denominator;
        if grains >= BEATS_FIELD {
            return self.fault(first, Sort::TooManyGrains, "beats");
        }
        Ok(grains as u32)
    }

    fn label(&mut self) -> Result<Vec<u8>, Fault> {
        self.byte(b'"', "label")?;
        let mut label = Vec::new();
        loop {
            match self.next() {
                None => return self.fault(self.at, Sort::LabelEnd, "label"),
                Some(b'\n') => return self.fault(self.at, Sort::LabelNewline, "label"),
                Some(b'"') => {
                    self.at += 1;
                    return Ok(label);
                }
                Some(b'\\') => self.escaped(&mut label)?,
                Some(128..) if mutant::is(mutant::HIGH_BYTES_LOST) => self.at += 1,
                Some(byte) => {
                    label.push(byte);
                    self.at += 1;
                }
            }
        }
    }

    /// A backslash and what it stands before.
    fn escaped(&mut self, label: &mut Vec<u8>) -> Result<(), Fault> {
        self.at += 1;
        match self.next() {
            None => self.fault(self.at, Sort::LabelEnd, "escape"),
            Some(byte @ (b'"' | b'\\')) => {
                if mutant::is(mutant::BACKSLASH_KEPT) {
                    label.push(b'\\');
                }
                label.push(byte);
                self.at += 1;
                Ok(())
            }
            Some(_) => self.fault(self.at, Sort::LabelEscape, "escape"),
        }
    }
}

// ---------------------------------------------------------------- tokens

impl Reader<'_> {
    fn next(&self) -> Option<u8> {
        self.text.get(self.at).copied()
    }

    /// Passes blanks up to the next token or the text's end.
    fn blanks(&mut self) {
        loop {
            match self.next() {
                Some(b'\n') => {
                    self.at += 1;
                    self.line += 1;
                    self.line_start = self.at;
                }
                Some(b' ' | b'\t' | b'\r') => self.at += 1,
                Some(b'#') => self.comment(),
                _ => return,
            }
        }
    }

    /// Up to the newline, which is a blank of its own.
    fn comment(&mut self) {
        self.at += self.run(|byte| byte != b'\n');
        if self.next().is_some() {
            self.mark(Mark::CommentEnd, self.at);
        }
        if self.next().is_some() && mutant::is(mutant::COMMENT_SWALLOWS_ITS_LINE) {
            self.at += 1;
        }
    }

    /// How many bytes of this sort stand here in a row.
    fn run(&self, wanted: impl Fn(u8) -> bool) -> usize {
        let rest = &self.text[self.at..];
        let other = rest.iter().position(|&byte| !wanted(byte));
        other.unwrap_or(rest.len())
    }

    fn digit_next(&mut self) -> bool {
        self.blanks();
        self.next().is_some_and(|byte| byte.is_ascii_digit())
    }

    fn end_next(&mut self) -> bool {
        self.blanks();
        self.next().is_none()
    }

    /// Takes the next word if it is one of these; gives which.
    fn one_of(&mut self, words: &[&str]) -> Option<usize> {
        self.blanks();
        let length = self.run(|byte| byte.is_ascii_lowercase());
        let word = &self.text[self.at..self.at + length];
        let which = words.iter().position(|known| known.as_bytes() == word)?;
        self.at += length;
        Some(which)
    }

    fn word(&mut self, wanted: &'static str, words: &[&str]) -> Result<usize, Fault> {
        match self.one_of(words) {
            Some(which) => Ok(which),
            None => self.cannot_stand(wanted),
        }
    }

    fn byte(&mut self, byte: u8, wanted: &'static str) -> Result<(), Fault> {
        self.blanks();
        if self.next() != Some(byte) {
            return self.cannot_stand(wanted);
        }
        self.at += 1;
        Ok(())
    }

    /// The digits that stand right here; `field` is above all that fits.
    fn number(&mut self, wanted: &'static str, field: u64) -> Result<u64, Fault> {
        let first = self.at;
        let length = self.run(|byte| byte.is_ascii_digit());
        if length == 0 {
            return self.cannot_stand(wanted);
        }
        let most = MOST_DIGITS + usize::from(mutant::is(mutant::ELEVEN_DIGITS_READ));
        if length > most {
            return self.fault(first, Sort::TooManyDigits, wanted);
        }
        let mut value = 0;
        for &digit in &self.text[first..first + length] {
            value = 10 * value + u64::from(digit - b'0');
        }
        if value >= field {
            return self.fault(first, Sort::TooBig, wanted);
        }
        self.at += length;
        Ok(value)
    }

    /// What stands here isn't what is wanted, or there is nothing more.
    fn cannot_stand<T>(&self, wanted: &'static str) -> Result<T, Fault> {
        let sort = match self.next() {
            None => Sort::End,
            Some(_) => Sort::Token,
        };
        self.fault(self.at, sort, wanted)
    }

    fn fault<T>(&self, at: usize, sort: Sort, wanted: &'static str) -> Result<T, Fault> {
        let from = usize::from(!mutant::is(mutant::COLUMNS_FROM_ZERO));
        Err(Fault {
            line: self.line,
            column: at - self.line_start + from,
            sort,
            wanted,
        })
    }
}
