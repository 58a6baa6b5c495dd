//! What the cases of `places` must show.

use crate::mutant;
use crate::place_cases::{borders, wrong_counts, Case, Said, LONGEST};
use crate::score::{
    Tables, EVENT_BYTES, ITEM_BYTES, LONGEST_LABEL, MESSAGE_BYTES, MOST_EVENTS, MOST_ITEMS,
};
use crate::text::{self, Mark};
use crate::words::Tally;

const CASES: u64 = 3_000;

pub fn place_shown(tally: &mut Tally) {
    let cases: Vec<Shown> = (1..=CASES).map(Shown::of_seed).collect();
    all_cases(tally, &cases);
    let seen = &mut Seen {
        tally,
        cases: &cases,
    };
    refusals(seen);
    depths(seen);
    entries(seen);
    layouts(seen);
    several_faults(seen);
    asked_tables(seen);
    asked_borders(seen);
    asked_counts(seen);
    wrong_rules(tally, &cases);
    made_alike(tally);
}

// ----------------------------------------------------------------- shown

/// A case, what is said of it, and what its text says; nothing of one at fault.
struct Shown {
    case: Case,
    said: Said,
    file: Option<Tables>,
    marks: Vec<(Mark, usize)>,
}

/// What a refusal is told at.
#[derive(Clone, Copy, PartialEq, Debug)]
enum Told {
    Event(usize),
    Item(usize),
    Message(usize),
    TextEnd,
    /// A fault of the text.
    AtFault,
}

impl Shown {
    fn of_seed(seed: u64) -> Shown {
        let case = Case::of_seed(seed);
        Shown {
            said: case.said(),
            file: text::tables(&case.text).ok(),
            marks: text::marks(&case.text).unwrap_or_default(),
            case,
        }
    }

    fn is(&self, number: u64, place: Option<usize>) -> bool {
        self.said.number == number && place.is_none_or(|place| self.said.place == place)
    }

    fn events(&self) -> usize {
        self.file.as_ref().map_or(0, |file| file.durations.len())
    }

    /// By the number and the place of the refusal.
    fn told(&self) -> Told {
        let Some(file) = &self.file else {
            return Told::AtFault;
        };
        let [_, events, items, messages, ..] = borders(file);
        let place = self.said.place;
        match (self.said.number, place) {
            (4, 4) if file.durations.is_empty() => Told::TextEnd,
            (4, 4) => Told::Event(256),
            (4, 12) => Told::Item(2_048),
            (4, 20) => Told::Message(512),
            (4, _) => Told::Message(self.label_past()),
            (6, _) => Told::Event((place - events) / EVENT_BYTES),
            (8, _) => Told::Message((place - messages) / MESSAGE_BYTES),
            _ => Told::Item((place - items) / ITEM_BYTES),
        }
    }

    /// The message that the 24,577th label byte is of.
    fn label_past(&self) -> usize {
        let mut bytes = 0;
        let mut lengths = self.marks.iter().filter_map(|(mark, _)| match mark {
            Mark::Label(length) => Some(length),
            _ => None,
        });
        let past = lengths.position(|length| {
            bytes += length;
            bytes > 24_576
        });
        past.unwrap_or(0)
    }

    /// Where all that is of the same kind stands, in the order of the text.
    fn alike(&self) -> Vec<usize> {
        let told = self.told();
        let alike = |mark: Mark| match told {
            Told::Event(_) => mark == Mark::Event,
            Told::Item(_) => matches!(mark, Mark::Action | Mark::Group),
            Told::Message(_) => matches!(mark, Mark::Label(_)),
            _ => false,
        };
        let marks = self.marks.iter().filter(|(mark, _)| alike(*mark));
        marks.map(|(_, at)| *at).collect()
    }

    fn index(&self) -> Option<usize> {
        match self.told() {
            Told::Event(index) | Told::Item(index) | Told::Message(index) => Some(index),
            _ => None,
        }
    }

    /// The byte of the text that the refusal is told at.
    fn at(&self) -> Option<usize> {
        if self.told() == Told::TextEnd {
            return Some(self.case.text.len());
        }
        Some(self.alike()[self.index()?])
    }

    /// Of an item, 1 at the top.
    fn depth(&self) -> Option<usize> {
        let (Told::Item(_), Some(at)) = (self.told(), self.at()) else {
            return None;
        };
        let mut depth = 1;
        for (mark, place) in &self.marks {
            match mark {
                Mark::Action | Mark::Group if *place == at => return Some(depth),
                Mark::Group => depth += 1,
                Mark::Close => depth -= 1,
                _ => {}
            }
        }
        None
    }

    /// From what is told up to the next byte that is no blank: letters of a word or
    /// digits and a slash are passed first.
    fn newline_within(&self) -> bool {
        let Some(at) = self.at() else {
            return false;
        };
        let token = |byte: &&u8| byte.is_ascii_alphanumeric() || **byte == b'/';
        let rest = &self.case.text[at..];
        let behind = &rest[rest.iter().take_while(token).count()..];
        let blank = |byte: &&u8| byte.is_ascii_whitespace();
        behind.iter().take_while(blank).any(|&byte| byte == b'\n')
    }

    /// A newline or a comment between a message's number and its label.
    fn apart_from_its_number(&self) -> bool {
        let (Told::Message(index), Some(at)) = (self.told(), self.at()) else {
            return false;
        };
        let numbers = self.marks.iter().filter(|mark| mark.0 == Mark::ListNumber);
        let number = numbers.map(|mark| mark.1).nth(index).unwrap_or(at);
        self.case.text[number..at].contains(&b'\n')
    }

    /// Others of the kind in the same line, before it and behind it.
    fn beside(&self) -> (bool, bool) {
        let (Some(index), Some(at)) = (self.index(), self.at()) else {
            return (false, false);
        };
        let (text, alike) = (&self.case.text, self.alike());
        let one_line = |from: usize, to: usize| !text[from..to].contains(&b'\n');
        let before = index > 0 && one_line(alike[index - 1], at);
        let behind = alike.get(index + 1).is_some_and(|&to| one_line(at, to));
        (before, behind)
    }

    /// So many comments end before it.
    fn comments_before(&self) -> usize {
        let at = self.at().unwrap_or(0);
        let before = |&&(mark, end): &&(Mark, usize)| mark == Mark::CommentEnd && end < at;
        self.marks.iter().filter(before).count()
    }

    /// A newline more would end a comment more.
    fn comment_last(&self) -> bool {
        let longer = [&self.case.text[..], b"\n"].concat();
        let marks = text::marks(&longer).unwrap_or_default();
        marks.len() > self.marks.len()
    }

    /// Behind the list, one of whose labels has such a byte.
    fn behind_label_byte(&self, wanted: fn(u8) -> bool) -> bool {
        let behind = matches!(self.told(), Told::Event(_) | Told::Item(_));
        let file = self.file.as_ref().filter(|_| behind);
        file.is_some_and(|file| file.text.iter().any(|&byte| wanted(byte)))
    }

    /// A label that would be refused, were there nothing before it.
    fn bad_label(&self) -> bool {
        let Some(file) = &self.file else {
            return false;
        };
        let length = |&(_, length): &(u16, u16)| usize::from(length);
        let lengths = file.messages.iter().map(length);
        let bad = |&byte: &u8| byte < 32 || byte == 127;
        { lengths }.any(|length| length == 0 || length > LONGEST_LABEL) || file.text.iter().any(bad)
    }
}

struct Seen<'t> {
    tally: &'t mut Tally,
    cases: &'t [Shown],
}

impl Seen<'_> {
    fn note(&mut self, what: &str, least: usize, shows: impl Fn(&Shown) -> bool) {
        let count = self.cases.iter().filter(|case| shows(case)).count();
        let name = format!("places: {what} in {least} cases");
        self.tally.note(&name, count >= least);
    }
}

// -------------------------------------------------------------- refusals

fn all_cases(tally: &mut Tally, cases: &[Shown]) {
    let refused = cases.iter().all(|case| case.said.number != 0);
    tally.note("places: all are refused", refused);
    let at_fault = cases.iter().filter(|case| case.is(16, None)).count() as u64;
    let sixth = (CASES / 7..=CASES / 5).contains(&at_fault);
    tally.note("places: about a sixth are at fault", sixth);
    let nowhere = cases.iter().all(|case| {
        let at_fault = case.is(16, None);
        case.said.refusal.0 > 0 && (!at_fault || case.said.asked == (0, 0))
    });
    tally.note("places: every refusal is told", nowhere);
    let right = cases.iter().all(|case| {
        let at = case.at();
        at.is_none_or(|at| at == byte_at(&case.case.text, case.said.refusal))
    });
    tally.note("places: each where its kind stands", right);
    let right = cases.iter().all(stands);
    tally.note("places: at a word, a digit or a quote", right);
    let short = cases.iter().all(|case| case.case.text.len() < LONGEST);
    tally.note("places: none of 600,000 bytes", short);
    let bytes: usize = cases.iter().map(|case| case.case.record().len()).sum();
    tally.note("places: 40 MB at most", bytes <= 40_000_000);
}

/// The byte of the text in this line and column.
fn byte_at(text: &[u8], (line, column): (usize, usize)) -> usize {
    let lines = text.split(|&byte| byte == b'\n');
    let before: usize = lines.take(line - 1).map(|line| line.len() + 1).sum();
    before + column - 1
}

fn stands(case: &Shown) -> bool {
    let text = &case.case.text;
    let rest = &text[byte_at(text, case.said.refusal)..];
    match case.told() {
        Told::Event(_) => rest.starts_with(b"event"),
        Told::Item(_) => rest[0].is_ascii_digit(),
        Told::Message(_) => rest[0] == b'"',
        Told::TextEnd => rest.is_empty(),
        Told::AtFault => true,
    }
}

fn refusals(seen: &mut Seen) {
    for (number, place) in [
        (4, Some(12)),
        (4, Some(20)),
        (4, Some(28)),
        (6, None),
        (8, None),
        (16, None),
        (22, None),
        (23, None),
        (24, None),
        (25, None),
        (26, None),
        (27, None),
    ] {
        let at = place.map_or(String::new(), |place| format!(" at {place}"));
        seen.note(&format!("{number}{at}"), 100, |case| case.is(number, place));
    }
    seen.note("4 at 4, too many", 100, |case| {
        case.is(4, Some(4)) && case.events() as u64 > MOST_EVENTS
    });
    seen.note("4 at 4, none", 100, |case| {
        case.is(4, Some(4)) && case.events() == 0
    });
    seen.note("4 at 4, none, after a newline", 20, |case| {
        case.told() == Told::TextEnd && case.said.refusal.1 == 1
    });
    seen.note("4 at 4, none, not after a newline", 20, |case| {
        case.told() == Told::TextEnd && case.said.refusal.1 > 1
    });
    seen.note("100,000 bytes", 20, |case| case.case.text.len() > 100_000);
}

fn depths(seen: &mut Seen) {
    for depth in 1..=9 {
        seen.note(&format!("an item at depth {depth}"), 20, |case| {
            case.depth() == Some(depth)
        });
    }
    for (number, deepest) in [(23, 9), (26, 8)] {
        for depth in 1..=deepest {
            seen.note(&format!("{number} at depth {depth}"), 5, |case| {
                case.is(number, None) && case.depth() == Some(depth)
            });
        }
    }
    for (place, depths) in [("the top", 1..=1), ("a depth", 2..=7), ("depth 8", 8..=8)] {
        seen.note(&format!("27 at {place}"), 10, |case| {
            let there = |depth| depths.contains(&depth);
            case.is(27, None) && case.depth().is_some_and(there)
        });
    }
    seen.note("the 2,049th item at the top", 10, |case| {
        case.is(4, Some(12)) && case.depth() == Some(1)
    });
    seen.note("the 2,049th item within a group", 30, |case| {
        case.is(4, Some(12)) && case.depth() > Some(1)
    });
    seen.note("the 2,049th item as deep as that", 10, |case| {
        case.is(4, Some(12)) && case.depth() > Some(MOST_ITEMS as usize - 200)
    });
}

/// Of each kind the first, the last, and others, where the place is an entry's.
fn entries(seen: &mut Seen) {
    for (kind, numbers) in [("event", 6..=6), ("item", 22..=27), ("message", 8..=8)] {
        let entry = |case: &Shown| {
            let is = numbers.contains(&case.said.number);
            is.then(|| case.index()).flatten()
        };
        seen.note(&format!("the first {kind}"), 30, |case| {
            entry(case) == Some(0)
        });
        seen.note(&format!("the last {kind}"), 30, |case| {
            entry(case).is_some_and(|index| index + 1 == case.alike().len())
        });
        seen.note(&format!("another {kind}"), 30, |case| {
            entry(case).is_some_and(|index| index > 0 && index + 1 < case.alike().len())
        });
    }
}

// --------------------------------------------------------------- layouts

/// A kind of what is told.
type Kind = (&'static str, fn(Told) -> bool);

const KINDS: [Kind; 3] = [
    ("an event", |told| matches!(told, Told::Event(_))),
    ("an item", |told| matches!(told, Told::Item(_))),
    ("a message", |told| matches!(told, Told::Message(_))),
];

fn layouts(seen: &mut Seen) {
    for (kind, is) in KINDS {
        let mut note = |what: &str, least: usize, shows: fn(&Shown) -> bool| {
            seen.note(&format!("{kind}{what}"), least, |case| {
                is(case.told()) && shows(case)
            });
        };
        note(" behind others of its line", 50, |case| case.beside().0);
        note(" before others of its line", 50, |case| case.beside().1);
        note(" alone in its line", 50, |case| {
            case.beside() == (false, false)
        });
        note(" behind a comment", 50, |case| case.comments_before() > 0);
        note(" behind ten comments", 30, |case| {
            case.comments_before() >= 10
        });
        note(", all on one line", 20, |case| {
            !case.case.text.contains(&b'\n')
        });
    }
    newlines(seen);
    bytes_before(seen);
}

fn newlines(seen: &mut Seen) {
    seen.note("a newline behind `event`", 30, |case| {
        matches!(case.told(), Told::Event(_)) && case.newline_within()
    });
    seen.note("a newline within an item", 30, |case| {
        matches!(case.told(), Told::Item(_)) && case.newline_within()
    });
    seen.note("a newline before a quote", 30, Shown::apart_from_its_number);
    seen.note("a comment without newline last", 100, Shown::comment_last);
}

fn bytes_before(seen: &mut Seen) {
    for (what, wanted) in [
        ("a quote", (|byte| byte == b'"') as fn(u8) -> bool),
        ("a backslash", |byte| byte == b'\\'),
        ("a #", |byte| byte == b'#'),
        ("a brace", |byte| byte == b'{' || byte == b'}'),
        ("a byte above 127", |byte| byte > 127),
    ] {
        seen.note(&format!("behind a label with {what}"), 50, |case| {
            case.behind_label_byte(wanted)
        });
    }
    for (name, byte) in [("a tab", b'\t'), ("a carriage return", b'\r')] {
        seen.note(&format!("behind {name}"), 100, |case| {
            let at = case.at().unwrap_or(0);
            case.case.text[..at].contains(&byte)
        });
    }
}

fn several_faults(seen: &mut Seen) {
    for number in [6, 22, 23, 24, 25, 26, 27] {
        seen.note(&format!("{number} behind a bad label"), 10, |case| {
            case.is(number, None) && case.bad_label()
        });
    }
    seen.note("4 and a bad label", 30, |case| {
        case.is(4, None) && case.bad_label()
    });
    seen.note("6 behind an item's delay", 5, |case| {
        let Some(file) = &case.file else {
            return false;
        };
        let Told::Event(event) = case.told() else {
            return false;
        };
        let bad = file.items.iter().find(|item| item.delay > 5_040_000);
        case.is(6, None) && bad.is_some_and(|item| usize::from(item.event) <= event)
    });
    for (place, later) in [(4, 12), (4, 20), (12, 20), (20, 28)] {
        seen.note(&format!("4 at {place}, also at {later}"), 5, |case| {
            let wrong = case.file.as_ref().map_or([false; 4], wrong_counts);
            case.is(4, Some(place)) && wrong[later / 8]
        });
    }
}

// ----------------------------------------------------------------- asked

/// What a place is, of the file that the text makes.
fn table(case: &Shown) -> Option<usize> {
    let borders = borders(case.file.as_ref()?);
    let asked = case.case.asked as usize;
    (0..6).rfind(|&table| borders[table] <= asked)
}

fn asked_tables(seen: &mut Seen) {
    for field in 0..8 {
        seen.note(&format!("asked at {}", 4 * field), 20, |case| {
            case.file.is_some() && case.case.asked / 4 == field
        });
    }
    for (number, name) in ["events", "items", "messages", "text"].iter().enumerate() {
        seen.note(&format!("asked in the {name}"), 100, |case| {
            table(case) == Some(number + 1)
        });
    }
    seen.note("asked past the end", 100, |case| table(case) == Some(5));
    seen.note("asked far past the end", 50, |case| {
        case.case.asked > 1_000_000
    });
    seen.note("asked of a text at fault", 300, |case| case.file.is_none());
    seen.note("asked for an item within a group", 100, |case| {
        let Some(file) = &case.file else {
            return false;
        };
        let items = borders(file)[2];
        let index = || (case.case.asked as usize - items) / ITEM_BYTES;
        table(case) == Some(2) && file.items[index()].event == 0
    });
}

/// The first and the last byte of each body, and the first behind the file.
fn asked_borders(seen: &mut Seen) {
    for number in 1..6 {
        let at = |case: &Shown, place: fn(usize) -> usize| {
            let file = case.file.as_ref();
            file.is_some_and(|file| place(borders(file)[number]) == case.case.asked as usize)
        };
        seen.note(&format!("asked at border {number}"), 30, |case| {
            at(case, |border| border)
        });
        seen.note(&format!("asked before border {number}"), 30, |case| {
            at(case, |border| border - 1)
        });
    }
}

/// A count that is past its limit is asked for, and one that is not.
fn asked_counts(seen: &mut Seen) {
    for place in [4, 12, 20, 28] {
        let asked = |case: &Shown| case.file.is_some() && case.case.asked & !3 == place;
        seen.note(&format!("the count at {place}, told"), 5, |case| {
            asked(case) && case.said.asked != (0, 0)
        });
        seen.note(&format!("the count at {place}, not told"), 20, |case| {
            asked(case) && case.said.asked == (0, 0)
        });
    }
    seen.note("the count of events, told at the end", 5, |case| {
        let asked = case.case.asked & !3 == 4;
        asked && case.file.is_some() && case.events() == 0
    });
    seen.note("the list's end", 20, |case| {
        case.case.asked & !3 == 24 && case.said.asked != (0, 0)
    });
}

// ----------------------------------------------------------- wrong rules

/// Each shows on 30 cases and on three refusals, and only in lines and columns that
/// aren't a fault's own.
fn wrong_rules(tally: &mut Tally, cases: &[Shown]) {
    for number in mutant::ITEMS_TOLD_AT_THEIR_HOLDERS..=mutant::LAST_WITHIN_THE_LIMIT_TOLD {
        let (mut lines, mut refusals, mut only) = (0, 0, true);
        for Shown { case, said, .. } in cases {
            let wrong = mutant::under(number, || case.said());
            lines += usize::from(wrong != *said);
            refusals += usize::from(wrong.refusal != said.refusal);
            only &= (wrong.number, wrong.place) == (said.number, said.place);
            only &= said.number != 16 || wrong == *said;
        }
        let name = format!("places: wrong rule {number}");
        tally.note(&format!("{name} shows on 30 cases"), lines >= 30);
        tally.note(&format!("{name} shows on three refusals"), refusals >= 3);
        tally.note(&format!("{name} changes nothing else"), only);
    }
}

/// A case is the same by every wrong rule; these are the ones of texts and some more.
fn made_alike(tally: &mut Tally) {
    let right = (1..=120).all(|seed| {
        let record = Case::of_seed(seed).record();
        let rules = [13, 18, 23, 26, 27, 28, 29, 30, 60, 61, 62, 63, 64];
        rules
            .iter()
            .all(|&number| mutant::under(number, || Case::of_seed(seed).record()) == record)
    });
    tally.note("places: the same cases by every wrong rule", right);
}
