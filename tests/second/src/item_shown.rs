//! What the files of `files` and `scatter` must show of request (vi), and that but for
//! number and place all is as it was before.

use crate::item_faults::{self, FIRST_NUMBER, LAST_NUMBER, STYLES};
use crate::items::{AtFault, Way};
use crate::lines::verdict;
use crate::random::Random;
use crate::score::{self, Entry};
use crate::words::Tally;
use crate::{case, mutant, scatter};
use std::ops::RangeInclusive;

pub fn item_shown(tally: &mut Tally) {
    made_to_order(tally);
    as_before(tally);
    let files = faulty((1..=20_000).map(case::file_of_seed));
    shown(tally, &files);
    let files = faulty((1..=400).map(scatter::file_of_seed));
    shown_in_few(tally, &files);
    any_sixty(tally);
    wrong_rules(tally);
}

const NUMBERS: RangeInclusive<u64> = FIRST_NUMBER..=LAST_NUMBER;

/// Every sort gets the number that it is there for, whatever the seed.
fn made_to_order(tally: &mut Tally) {
    for number in NUMBERS {
        for style in STYLES {
            let right = (1..=20).all(|seed| {
                let file = item_faults::faulty(&mut Random::new(seed), number, style);
                score::check(&file).0 == number
            });
            tally.note(&format!("items: {number}, {style:?}"), right);
        }
    }
}

/// By wrong rule 60, which was right before the request, the same files are accepted,
/// and a 7 at b is now a 20 to 27 at b to b + 11.
fn as_before(tally: &mut Tally) {
    let (mut right, mut sevens, mut given) = (true, 0, 0);
    for seed in 1..=2_000 {
        let file = case::file_of_seed(seed);
        let (number, place) = score::check(&file);
        let before = mutant::under(mutant::ITEMS_GET_SEVEN, || score::check(&file));
        given += u64::from(number == 7);
        if before.0 == 7 {
            sevens += 1;
            right &= NUMBERS.contains(&number) && (before.1..=before.1 + 11).contains(&place);
        } else {
            right &= (number, place) == before && !NUMBERS.contains(&number);
        }
    }
    tally.note("items: a 7 at b is within b to b + 11", right);
    tally.note("items: there were 400 of them", sevens >= 400);
    tally.note("items: 7 is never given", given == 0);
}

// ----------------------------------------------------------------- shown

/// A file's items, and those at fault, of which there is one at least.
struct Faulty {
    items: Vec<Entry>,
    at_fault: Vec<AtFault>,
}

impl Faulty {
    /// The item that decides.
    fn first(&self) -> &AtFault {
        &self.at_fault[0]
    }

    fn entry(&self) -> Entry {
        self.items[self.first().index]
    }

    /// The rules that it breaks.
    fn rules(&self) -> Vec<u64> {
        let mut rules: Vec<u64> = self.first().ways.iter().map(|way| way.rule()).collect();
        rules.dedup();
        rules
    }

    fn number(&self) -> u64 {
        self.first().ways[0].rule()
    }

    /// A later item breaks an earlier rule.
    fn earlier_rule_later(&self) -> bool {
        let later = &self.at_fault[1..];
        later.iter().any(|item| item.ways[0].rule() < self.number())
    }
}

fn faulty(files: impl Iterator<Item = Vec<u8>>) -> Vec<Faulty> {
    let faulty = files.map(|file| {
        let (items, at_fault) = score::items_at_fault(&file);
        Faulty { items, at_fault }
    });
    faulty.filter(|file| !file.at_fault.is_empty()).collect()
}

/// Each thing must show on so many files at least.
struct Seen<'t> {
    tally: &'t mut Tally,
    name: &'static str,
    files: &'t [Faulty],
    least: usize,
}

impl Seen<'_> {
    fn note(&mut self, what: &str, shows: impl Fn(&Faulty) -> bool) {
        let count = self.files.iter().filter(|file| shows(file)).count();
        let (name, least) = (self.name, self.least);
        let name = format!("{name}: {what} on {least} files");
        self.tally.note(&name, count >= least);
    }
}

const WAYS: &[Way] = &[
    Way::Kind,
    Way::Synchrony,
    Way::ErrorWord,
    Way::PartAbove15,
    Way::PartNotItsGroups,
    Way::Delay,
    Way::EventZero,
    Way::EventAboveLast,
    Way::EventNotZeroWithin,
    Way::EventFalls,
    Way::PartFalls,
    Way::TooDeep,
    Way::Overruns,
    Way::Message,
    Way::TooMany,
];

/// 20,000 files of `files` show each of these often.
fn shown(tally: &mut Tally, files: &[Faulty]) {
    let seen = &mut Seen {
        tally,
        name: "files",
        files,
        least: 15,
    };
    ways(seen);
    words(seen);
    several_rules(seen);
    places(seen);
    for number in 21..=27 {
        let what = format!("{number}, then an earlier rule of a later item");
        seen.note(&what, |file| {
            file.number() == number && file.earlier_rule_later()
        });
    }
}

fn ways(seen: &mut Seen) {
    for way in WAYS {
        seen.note(&format!("{way:?} alone"), |file| {
            file.first().ways == [*way] && file.at_fault.len() == 1
        });
    }
    for (way, action, depth_one) in [
        (Way::PartAbove15, true, true),
        (Way::PartAbove15, false, true),
        (Way::PartAbove15, true, false),
        (Way::PartAbove15, false, false),
        (Way::PartNotItsGroups, true, false),
        (Way::PartNotItsGroups, false, false),
        (Way::EventNotZeroWithin, true, false),
        (Way::EventNotZeroWithin, false, false),
        (Way::EventFalls, true, true),
        (Way::EventFalls, false, true),
        (Way::PartFalls, true, true),
        (Way::PartFalls, false, true),
        (Way::TooDeep, true, false),
        (Way::TooDeep, false, false),
        (Way::Overruns, false, true),
        (Way::Overruns, false, false),
        (Way::Message, true, true),
        (Way::Message, true, false),
        (Way::TooMany, true, true),
        (Way::TooMany, true, false),
    ] {
        let what = if action { "an action's" } else { "a group's" };
        let place = if depth_one { "on top" } else { "within" };
        seen.note(&format!("{way:?}, {what}, {place}"), |file| {
            let top = file.first().depth == 1;
            file.first().ways[0] == way && file.entry().is_action() == action && top == depth_one
        });
    }
}

fn words(seen: &mut Seen) {
    let both: &[Way] = &[Way::Synchrony, Way::ErrorWord];
    for ways in [&both[..1], &both[1..], both] {
        for action in [true, false] {
            let what = if action { "an action" } else { "a group" };
            seen.note(&format!("{ways:?} of {what}"), |file| {
                let entry = file.entry();
                let kind = if action {
                    entry.is_action()
                } else {
                    entry.is_group()
                };
                file.first().ways == ways && kind
            });
        }
    }
}

/// Every pair of rules that one item can break. An item of kind above 1 has no message
/// number and isn't counted, so it only looks so.
fn several_rules(seen: &mut Seen) {
    for first in NUMBERS {
        for second in first + 1..=LAST_NUMBER {
            if first == 20 && second >= 26 {
                continue;
            }
            seen.note(&format!("{first} and {second} of one item"), |file| {
                file.number() == first && file.rules().contains(&second)
            });
        }
    }
    for first in 20..=25 {
        seen.note(&format!("{first} and two more of one item"), |file| {
            file.number() == first && file.rules().len() >= 3
        });
    }
    seen.note("kind above 1 behind 1,024 actions", |file| {
        let before = &file.items[..file.first().index];
        let actions = before.iter().filter(|item| item.is_action()).count();
        file.number() == 20 && actions == 1_024
    });
    seen.note("kind above 1, longer than the table", |file| {
        file.number() == 20 && usize::from(file.entry().last) >= file.items.len()
    });
    seen.note("a part that falls, and a delay", |file| {
        let ways = &file.first().ways;
        ways.contains(&Way::Delay) && ways.contains(&Way::PartFalls)
    });
}

fn places(seen: &mut Seen) {
    for number in NUMBERS {
        let found = |place: fn(&Faulty) -> bool| {
            move |file: &Faulty| file.number() == number && place(file)
        };
        let first = |file: &Faulty| file.first().index == 0;
        if number == 27 {
            // The first that can be.
            let first = |file: &Faulty| file.first().index == 1_024;
            seen.note("27 with no group before", found(first));
        } else {
            seen.note(&format!("{number} at the first item"), found(first));
        }
        let last = |file: &Faulty| file.first().index + 1 == file.items.len();
        seen.note(&format!("{number} at the last item"), found(last));
        let middle =
            |file: &Faulty| file.first().index > 0 && file.first().index + 1 < file.items.len();
        seen.note(&format!("{number} at one between"), found(middle));
        let deep = |file: &Faulty| file.first().depth >= 8;
        seen.note(&format!("{number} at depth 8 or 9"), found(deep));
    }
}

// --------------------------------------------------------------- scatter

/// 400 files of `scatter` show each number often, and each way.
fn shown_in_few(tally: &mut Tally, files: &[Faulty]) {
    let seen = &mut Seen {
        tally,
        name: "scatter",
        files,
        least: 6,
    };
    for number in NUMBERS {
        seen.note(&number.to_string(), |file| file.number() == number);
    }
    seen.least = 1;
    for way in WAYS {
        seen.note(&format!("{way:?}"), |file| file.first().ways[0] == *way);
    }
    for first in 20..=26 {
        let second = first + 1;
        seen.note(&format!("{first} and {second} of one item"), |file| {
            file.number() == first && file.rules().contains(&second)
        });
    }
    seen.note("three rules of one item", |file| file.rules().len() >= 3);
    seen.note(
        "an earlier rule of a later item",
        Faulty::earlier_rule_later,
    );
    seen.note("at depth 8 or 9", |file| file.first().depth >= 8);
    seen.note("at the first item", |file| file.first().index == 0);
    seen.note("at the last item", |file| {
        file.first().index + 1 == file.items.len()
    });
}

/// Any 60 seeds of `scatter` in a row show every number for an item.
fn any_sixty(tally: &mut Tally) {
    for seed in [1, 2, 31, 300, 10_007] {
        let files = (seed..seed + 60).map(scatter::file_of_seed);
        let numbers: Vec<u64> = files.map(|file| score::check(&file).0).collect();
        let right = { NUMBERS }.all(|number| numbers.contains(&number));
        tally.note(&format!("scatter: 20 to 27 in 60 from {seed} on"), right);
    }
}

// ----------------------------------------------------------- wrong rules

/// So many seeds, from 1 on, show each wrong rule on three files or more.
const SEEDS: u64 = 463;

/// Of how many seeds' files does `said` differ by this wrong rule?
fn differ<T: PartialEq>(
    number: u32,
    seeds: RangeInclusive<u64>,
    file_of_seed: fn(u64) -> Vec<u8>,
    said: fn(&[u8]) -> T,
) -> usize {
    let shows = |seed: &u64| {
        let file = file_of_seed(*seed);
        mutant::under(number, || said(&file)) != said(&file)
    };
    seeds.filter(shows).count()
}

fn wrong_rules(tally: &mut Tally) {
    for number in mutant::EVENT_BEFORE_DELAY..=mutant::ITEMS_GET_SEVEN {
        let count = differ(number, 1..=SEEDS, case::file_of_seed, score::check);
        let name = format!("files: wrong rule {number} shows three times in {SEEDS} seeds");
        tally.note(&name, count >= 3);
        let count = differ(number, 1..=400, scatter::file_of_seed, verdict);
        let name = format!("scatter: wrong rule {number} shows twice in 400 seeds");
        tally.note(&name, count >= 2);
    }
}
