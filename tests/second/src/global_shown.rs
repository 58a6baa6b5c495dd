//! What the cases of request (v) must show.

use crate::case::Case;
use crate::global_cases::of_seed;
use crate::graced_cases;
use crate::graced_words::{Shown, SORTS};
use crate::mutant;
use crate::play::perform;
use crate::rules::{Global, Met};
use crate::score::{ErrorWord, Item, Synchrony, What};
use crate::session::Session;
use crate::words::Tally;

/// 1,000 cases show every own date that decides, in every sort of group.
pub fn shown(tally: &mut Tally) {
    let cases: Vec<Shown> = (1..=1_000).map(|seed| Shown::of(of_seed(seed))).collect();
    graces(tally, &cases);
    own_dates(tally, &cases);
    moved_and_not(tally, &cases);
    sequences(tally, &cases);
    bodies(tally, &cases);
    within_groups(tally, &cases);
    wrong_rules(tally);
    as_before(tally);
}

/// Does request (v) move a group of this case?
pub fn is_moved(file: &[u8], input: &[u8], grace: u64) -> bool {
    let (_, session) = perform(file, input, grace);
    session.is_some_and(|session| session.moves_a_global())
}

/// A global group among the top items of a missed event, as the score has it.
struct TopGlobal<'s> {
    part: u64,
    synchrony: Synchrony,
    i: usize,
    j: usize,
    /// Its own date, and that less E(j).
    date: i128,
    gap: i128,
    /// Whether items stand before it and after it in its sequence.
    after: bool,
    before: bool,
    body: &'s [Item],
}

fn starts(session: &Session) -> Vec<i128> {
    let mut starts = vec![0];
    for duration in &session.score.durations {
        starts.push(starts[starts.len() - 1] + duration);
    }
    starts
}

fn top_globals(session: &Session) -> Vec<TopGlobal<'_>> {
    let (starts, heard) = (starts(session), session.heard());
    let mut found = Vec::new();
    for sequence in &session.score.sequences {
        let i = sequence.event;
        let next = heard.iter().copied().find(|event| *event > i);
        let (false, Some(j)) = (heard.contains(&i), next) else {
            continue;
        };
        let mut date = starts[i - 1];
        for (place, item) in sequence.items.iter().enumerate() {
            date += item.delay;
            let What::Group(group) = &item.what else {
                continue;
            };
            if group.error != ErrorWord::Global {
                continue;
            }
            found.push(TopGlobal {
                part: sequence.part,
                synchrony: group.synchrony,
                i,
                j,
                date,
                gap: date - starts[j - 1],
                after: place > 0,
                before: place + 1 < sequence.items.len(),
                body: &group.body,
            });
        }
    }
    found
}

fn graces(tally: &mut Tally, cases: &[Shown]) {
    let opened = cases.iter().all(|case| case.reply == Some(0));
    tally.note("globals: each is opened", opened);
    for written in ["0", "1", "629", "630"] {
        let found = cases.iter().any(|case| case.written() == written);
        tally.note(&format!("globals: a grace of {written}"), found);
    }
    let count = |wanted: fn(u64) -> bool| {
        let graces = cases.iter().map(|case| case.case.grace());
        graces.filter(|grace| wanted(*grace)).count()
    };
    let most = count(|grace| grace == 0) >= 500;
    tally.note("globals: most have no grace", most);
    let between = count(|grace| (2..=628).contains(&grace)) >= 100;
    tally.note("globals: a tenth lie between", between);
    let all = count(|grace| grace <= 630) == 1_000;
    tally.note("globals: no grace above 630", all);
}

fn sessions(cases: &[Shown]) -> impl Iterator<Item = (u64, &Session)> {
    cases.iter().filter_map(|case| {
        let session = case.session.as_ref()?;
        Some((case.case.grace(), session))
    })
}

fn any_top(cases: &[Shown], wanted: impl Fn(u64, &Session, &TopGlobal) -> bool) -> bool {
    sessions(cases).any(|(grace, session)| {
        let tops = top_globals(session);
        tops.iter().any(|top| wanted(grace, session, top))
    })
}

/// Is this how the own date stands to E(j), the grace and the later events?
type Relation = fn(i128, &Session, &TopGlobal) -> bool;

const RELATIONS: &[(&str, Relation)] = &[
    ("before E(j) - 1", |_, _, top| top.gap < -1),
    ("at E(j) - 1", |_, _, top| top.gap == -1),
    ("at E(j)", |_, _, top| top.gap == 0),
    ("at E(j) + 1", |_, _, top| top.gap == 1),
    ("a grain before a later event", |grace, session, top| {
        top.gap > grace + 1 && is_start(session, top, 1)
    }),
    ("at a later event", |grace, session, top| {
        top.gap > grace + 1 && is_start(session, top, 0)
    }),
    ("a grain after a later event", |grace, session, top| {
        top.gap > grace + 1 && is_start(session, top, -1)
    }),
    ("past the last event", |_, session, top| {
        starts(session)
            .last()
            .is_some_and(|end| top.gap > 0 && top.date >= *end)
    }),
    ("elsewhere after E(j) + g", |grace, session, top| {
        let beside = (-1..=1).any(|more| is_start(session, top, more));
        top.gap > grace + 1 && !beside
    }),
];

/// Two more, where there is a grace that can be told from a grain.
const WITH_A_GRACE: &[(&str, Relation)] = &[
    ("at E(j) + g", |grace, _, top| grace > 2 && top.gap == grace),
    ("at E(j) + g + 1", |grace, _, top| {
        grace > 2 && top.gap == grace + 1
    }),
];

/// Is the own date and so much more the start of an event after j?
fn is_start(session: &Session, top: &TopGlobal, more: i128) -> bool {
    let starts = starts(session);
    let events = &starts[..starts.len() - 1];
    events[top.j..].contains(&(top.date + more))
}

fn own_dates(tally: &mut Tally, cases: &[Shown]) {
    for synchrony in [Synchrony::Loose, Synchrony::Tight] {
        for graced in [false, true] {
            let with = if graced { "a grace" } else { "none" };
            let more = if graced { WITH_A_GRACE } else { &[] };
            for (date, relation) in RELATIONS.iter().chain(more) {
                let found = any_top(cases, |grace, session, top| {
                    (grace > 0, top.synchrony) == (graced, synchrony)
                        && relation(i128::from(grace), session, top)
                });
                let name = format!("globals: {synchrony:?} {date}, with {with}");
                tally.note(&name, found);
            }
        }
    }
}

fn moved_and_not(tally: &mut Tally, cases: &[Shown]) {
    for moved in [true, false] {
        for graced in [false, true] {
            let some = sessions(cases)
                .filter(|(grace, _)| (*grace > 0) == graced)
                .filter(|(_, session)| session.moves_a_global() == moved)
                .count();
            let word = if moved { "moved" } else { "unmoved" };
            let with = if graced { "a grace" } else { "none" };
            let name = format!("globals: a tenth are {word}, with {with}");
            tally.note(&name, some >= 100);
        }
    }
    // "Only a missed top group moves": the rules meet the score's own, in order.
    let same = |(_, session): (u64, &Session)| {
        let tops = top_globals(session);
        let met = session.globals();
        let written = met
            .iter()
            .filter(|global| !global.slice && global.within.is_none());
        let mut others = met
            .iter()
            .filter(|global| global.slice || global.within.is_some());
        written
            .map(|met| (met.part, met.synchrony, met.i, met.j, met.gap))
            .eq(tops
                .iter()
                .map(|top| (top.part, top.synchrony, top.i, top.j, top.gap)))
            && others.all(|global| !global.is_moved())
            && session.moves_a_global() == tops.iter().any(|top| top.gap > 0)
    };
    let right = sessions(cases).all(same);
    tally.note("globals: only top groups are moved", right);
}

fn sequences(tally: &mut Tally, cases: &[Shown]) {
    for (name, after, before) in [
        ("alone", false, false),
        ("after others", true, false),
        ("before others", false, true),
        ("between others", true, true),
    ] {
        for synchrony in [Synchrony::Loose, Synchrony::Tight] {
            let found = any_top(cases, |_, _, top| {
                (top.after, top.before) == (after, before)
                    && top.synchrony == synchrony
                    && top.gap > 0
            });
            tally.note(&format!("globals: {synchrony:?}, moved, {name}"), found);
        }
    }
    for missed in 1..=4 {
        let found = any_top(cases, |_, _, top| top.j - top.i == missed && top.gap > 0);
        let name = format!("globals: moved, {missed} missed in a row");
        tally.note(&name, found);
    }
    let parts = sessions(cases).any(|(_, session)| {
        let mut tops = top_globals(session);
        tops.retain(|top| top.gap > 0);
        let other = |one: &TopGlobal| {
            let mut others = tops.iter();
            others.any(|top| top.i == one.i && top.part != one.part)
        };
        tops.iter().any(other)
    });
    tally.note("globals: two parts moved at one event", parts);
}

/// A group within another, and how deep.
fn inner_groups(body: &[Item], depth: usize, found: &mut Vec<(usize, Synchrony, ErrorWord)>) {
    for item in body {
        if let What::Group(group) = &item.what {
            found.push((depth, group.synchrony, group.error));
            inner_groups(&group.body, depth + 1, found);
        }
    }
}

fn deepest(body: &[Item], depth: usize) -> usize {
    let inner = body.iter().map(|item| match &item.what {
        What::Action(_) => depth,
        What::Group(group) => deepest(&group.body, depth + 1),
    });
    inner.max().unwrap_or(0)
}

fn bodies(tally: &mut Tally, cases: &[Shown]) {
    use ErrorWord::{Causal, Global, Local, Partial};
    for error in [Local, Global, Partial, Causal] {
        for synchrony in [Synchrony::Loose, Synchrony::Tight] {
            for outer in [Synchrony::Loose, Synchrony::Tight] {
                let found = any_top(cases, |_, _, top| {
                    let mut inner = Vec::new();
                    inner_groups(top.body, 2, &mut inner);
                    let alike = |group: &(usize, Synchrony, ErrorWord)| {
                        (group.1, group.2) == (synchrony, error)
                    };
                    top.gap > 0 && top.synchrony == outer && inner.iter().any(alike)
                });
                let name = format!("globals: {synchrony:?} {error:?} in a moved {outer:?} one");
                tally.note(&name, found);
            }
        }
        let deep = any_top(cases, |_, _, top| {
            let mut inner = Vec::new();
            inner_groups(top.body, 2, &mut inner);
            let alike = |group: &(usize, Synchrony, ErrorWord)| group.0 == 7 && group.2 == error;
            top.gap > 0 && inner.iter().any(alike)
        });
        let name = format!("globals: {error:?} at depth 7 in a moved one");
        tally.note(&name, deep);
    }
    let found = any_top(cases, |_, _, top| top.gap > 0 && deepest(top.body, 2) == 8);
    tally.note("globals: an action at depth 8 in a moved one", found);
}

/// Global groups in missed causal and partial groups, and in slices of them: past,
/// within the grace, at E(j) and after it. A slice ends before E(j).
fn within_groups(tally: &mut Tally, cases: &[Shown]) {
    type Where = fn(i128, i128) -> bool;
    let places: [(&str, Where); 4] = [
        ("past", |gap, grace| gap + grace < 0),
        ("within the grace", |gap, grace| gap + grace >= 0 && gap < 0),
        ("at E(j)", |gap, _| gap == 0),
        ("future", |gap, _| gap > 0),
    ];
    for (sort, synchrony, slice) in SORTS {
        for error in [ErrorWord::Partial, ErrorWord::Causal] {
            for (place, there) in &places[..if *slice { 2 } else { 4 }] {
                let wanted = |grace: u64, met: &Met| {
                    (met.synchrony, met.slice, met.error) == (*synchrony, *slice, error)
                        && met.word == Some(ErrorWord::Global)
                        && there(met.gap, i128::from(grace))
                };
                let found = cases
                    .iter()
                    .any(|case| case.met.iter().any(|met| wanted(case.case.grace(), met)));
                let name = format!("globals: global in {sort} {error:?}, {place}");
                tally.note(&name, found);
            }
        }
    }
    let any = |wanted: fn(&Global) -> bool| {
        sessions(cases).any(|(_, session)| session.globals().iter().any(wanted))
    };
    let slices = any(|global| global.slice);
    tally.note("globals: a slice at a missed event", slices);
    for error in [ErrorWord::Partial, ErrorWord::Causal] {
        let found = sessions(cases).any(|(_, session)| {
            let met = session.globals();
            met.iter()
                .any(|global| !global.slice && global.within == Some(error))
        });
        let name = format!("globals: missed among the past of {error:?}");
        tally.note(&name, found);
    }
}

// ----------------------------------------------------------- wrong rules

/// So many seeds, from 1 on, show each wrong rule on three cases or more.
const SEEDS: u64 = 26;

fn wrong_rules(tally: &mut Tally) {
    for number in [2, 4, 47, 48, 49, 50, 51] {
        let shows = |seed: &u64| {
            let case = of_seed(*seed);
            mutant::under(number, || case.expected()) != case.expected()
        };
        let count = (1..=SEEDS).filter(shows).count();
        let name = format!("globals: wrong rule {number} shows three times in {SEEDS} seeds");
        tally.note(&name, count >= 3);
    }
}

/// By wrong rule 4, which was right before the request, an unmoved case is played as
/// it is now.
fn as_before(tally: &mut Tally) {
    type OfSeed = fn(u64) -> Case;
    let sorts: [(&str, OfSeed); 3] = [
        ("of globals", of_seed),
        ("with a grace", graced_cases::of_seed),
        ("without one", Case::of_seed),
    ];
    for (name, case_of_seed) in sorts {
        let (mut moved, mut changed, mut right) = (0, 0, true);
        for seed in 1..=500 {
            let case = case_of_seed(seed);
            let before = mutant::under(mutant::GLOBAL_DELAY_LOST, || case.expected());
            let differs = before != case.expected();
            if is_moved(case.file(), &case.commands, case.grace()) {
                moved += 1;
                changed += u64::from(differs);
            } else {
                right &= !differs;
            }
        }
        tally.note(&format!("globals: unmoved is as before, {name}"), right);
        let half = changed > 0 && 2 * changed >= moved;
        tally.note(&format!("globals: half of the moved aren't, {name}"), half);
    }
}
