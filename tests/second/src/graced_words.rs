//! The grace against values written by hand, and what the graced cases must show.

use crate::case::Case;
use crate::graced_cases::of_seed;
use crate::nodes::Node::{self, Action, Group};
use crate::nodes::{self, FOUR, THREE};
use crate::play::{number, perform, play};
use crate::rules::Met;
use crate::score::{ErrorWord, Synchrony, Tables, CAUSAL, GLOBAL, LOCAL, LOOSE, PARTIAL, TIGHT};
use crate::session::Session;
use crate::words::{plays, Played, Tally, SMALL};

pub fn graced_words(tally: &mut Tally) {
    rows(tally);
    written_play(tally);
    openings(tally);
    numbers(tally);
    shown(tally);
}

// ------------------------------------------------------------------ rows

/// A score with this one top item, under event 1.
fn score(durations: &[u32], top: &Node) -> Tables {
    nodes::score(durations, [(1, 0, top)])
}

/// Name, durations, the item under event 1, the events heard; then for each grace
/// what is played.
type Row = (
    &'static str,
    &'static [u32],
    Node,
    &'static [usize],
    &'static [(u64, &'static [Played])],
);

/// The rows of the request's table.
#[rustfmt::skip]
const TABLE: &[Row] = &[
    (
        "P12's twin", THREE, Group(0, LOOSE, PARTIAL, &[Action(9_450, b'a')]), &[2],
        &[(630, &[(2, 0, "a")]), (629, &[])],
    ),
    (
        "631 before", THREE, Group(0, LOOSE, PARTIAL, &[Action(9_449, b'a')]), &[2],
        &[(630, &[])],
    ),
    (
        "1 before", THREE, Group(0, LOOSE, PARTIAL, &[Action(10_079, b'a')]), &[2],
        &[(1, &[(2, 0, "a")]), (0, &[])],
    ),
    (
        "a raised group", THREE,
        Group(0, LOOSE, CAUSAL, &[Group(9_450, LOOSE, LOCAL, &[Action(630, b'a')])]), &[2],
        &[(630, &[(2, 630, "a")]), (629, &[])],
    ),
    (
        "a slice at a missed event", THREE,
        Group(0, TIGHT, PARTIAL, &[Action(5_040, b'a'), Action(9_450, b'b')]), &[1, 3],
        &[(630, &[(1, 5_040, "a"), (3, 0, "b")]), (629, &[(1, 5_040, "a")])],
    ),
    (
        "slices at heard events", THREE,
        Group(0, TIGHT, PARTIAL, &[Action(5_040, b'a'), Action(9_450, b'b')]), &[1, 2, 3],
        &[(630, &[(1, 5_040, "a"), (2, 4_410, "b")])],
    ),
    (
        "what follows keeps its date", THREE,
        Group(0, LOOSE, PARTIAL, &[Action(9_450, b'a'), Action(1_260, b'b')]), &[2],
        &[(630, &[(2, 0, "a"), (2, 630, "b")])],
    ),
    (
        "a past group", THREE,
        Group(0, LOOSE, PARTIAL, &[
            Group(9_449, LOOSE, PARTIAL, &[Action(0, b'a'), Action(1, b'b')]),
        ]), &[2],
        &[(630, &[(2, 0, "b")])],
    ),
    (
        "tight in tight", THREE,
        Group(0, TIGHT, CAUSAL, &[
            Group(9_450, TIGHT, LOCAL, &[Action(0, b'a'), Action(5_040, b'b')]),
        ]), &[2, 3],
        &[(630, &[(2, 0, "a"), (3, 0, "b")])],
    ),
    (
        "over a whole event", &[300, 200, 200],
        Group(0, LOOSE, PARTIAL, &[Action(100, b'a'), Action(500, b'b')]), &[3],
        &[(630, &[(3, 0, "a"), (3, 100, "b")])],
    ),
];

/// More of them, from the same sentences.
#[rustfmt::skip]
const MORE: &[Row] = &[
    (
        "P12", THREE, Group(0, LOOSE, PARTIAL, &[Action(10_080, b'a')]), &[2],
        &[(0, &[(2, 0, "a")]), (1, &[(2, 0, "a")]), (630, &[(2, 0, "a")])],
    ),
    (
        "a and b fall apart", THREE,
        Group(0, LOOSE, PARTIAL, &[
            Group(9_450, LOOSE, LOCAL, &[Action(630, b'a')]), Action(630, b'b'),
        ]), &[2],
        &[(630, &[(2, 630, "a"), (2, 0, "b")]), (629, &[(2, 0, "b")])],
    ),
    // At 9,450, 9,550, 10,080 and 10,081.
    (
        "each raised by itself", THREE,
        Group(0, LOOSE, PARTIAL, &[
            Action(9_450, b'a'), Action(100, b'b'), Action(530, b'c'), Action(1, b'd'),
        ]), &[2],
        &[
            (630, &[(2, 0, "a"), (2, 0, "b"), (2, 0, "c"), (2, 1, "d")]),
            (629, &[(2, 0, "b"), (2, 0, "c"), (2, 1, "d")]),
            (530, &[(2, 0, "b"), (2, 0, "c"), (2, 1, "d")]),
            (529, &[(2, 0, "c"), (2, 1, "d")]),
            (0, &[(2, 0, "c"), (2, 1, "d")]),
        ],
    ),
    (
        "a causal group plays its past", THREE,
        Group(0, LOOSE, CAUSAL, &[Action(9_449, b'a'), Action(1, b'b')]), &[2],
        &[(630, &[(2, 0, "a"), (2, 0, "b")]), (0, &[(2, 0, "a"), (2, 0, "b")])],
    ),
    // Raised to 10,080, a is at 19,530: 630 before E(4), at a missed event.
    (
        "a slice within a raised group", FOUR,
        Group(0, LOOSE, CAUSAL, &[
            Group(9_450, LOOSE, LOCAL, &[Group(0, TIGHT, PARTIAL, &[Action(9_450, b'a')])]),
        ]), &[2, 4],
        &[(630, &[(4, 0, "a")]), (629, &[])],
    ),
    (
        "631 before, within a raised group", FOUR,
        Group(0, LOOSE, CAUSAL, &[
            Group(9_450, LOOSE, LOCAL, &[Group(0, TIGHT, PARTIAL, &[Action(9_449, b'a')])]),
        ]), &[2, 4],
        &[(630, &[])],
    ),
    // b is at E(3), which is heard.
    (
        "a tight future", THREE,
        Group(0, TIGHT, PARTIAL, &[Action(9_450, b'a'), Action(5_670, b'b')]), &[2, 3],
        &[(630, &[(2, 0, "a"), (3, 0, "b")]), (629, &[(3, 0, "b")])],
    ),
    // A slice whose item is a group: raised from 14,490 to E(3).
    (
        "a group in a slice", THREE,
        Group(0, TIGHT, PARTIAL, &[Group(14_490, LOOSE, LOCAL, &[Action(7, b'a')])]), &[1, 3],
        &[(630, &[(3, 7, "a")]), (629, &[])],
    ),
    (
        "slicing stays", THREE, Group(0, TIGHT, PARTIAL, &[Action(10_079, b'a')]), &[1, 2],
        &[(0, &[(1, 10_079, "a")]), (630, &[(1, 10_079, "a")])],
    ),
    (
        "a missed action early", THREE, Action(10_079, b'a'), &[2],
        &[(0, &[(2, 0, "a")]), (630, &[(2, 0, "a")])],
    ),
    (
        "a missed action late", THREE, Action(10_085, b'a'), &[2],
        &[(0, &[(2, 5, "a")]), (630, &[(2, 5, "a")])],
    ),
    (
        "global isn't split", THREE, Group(0, LOOSE, GLOBAL, &[Action(9_450, b'a')]), &[2],
        &[(0, &[(2, 9_450, "a")]), (630, &[(2, 9_450, "a")])],
    ),
    (
        "local isn't split", THREE, Group(0, LOOSE, LOCAL, &[Action(10_080, b'a')]), &[2],
        &[(0, &[]), (630, &[])],
    ),
];

fn rows(tally: &mut Tally) {
    for (name, durations, top, heard, played) in TABLE.iter().chain(MORE) {
        let tables = score(durations, top);
        for (grace, expected) in *played {
            let right = plays(&tables, heard, *grace, expected);
            tally.note(&format!("grace {grace}: {name}, {heard:?} heard"), right);
        }
    }
}

// ------------------------------------------------------------------ play

/// a at 9,450, b at 10,710; 630 grains take 125 ms.
fn written_play(tally: &mut Tally) {
    let group = Group(
        0,
        LOOSE,
        PARTIAL,
        &[Action(9_450, b'a'), Action(1_260, b'b')],
    );
    let file = score(THREE, &group).encode();
    let input = b"O 1 5040\nT 1000\nH 2 5040\nT 124\nT 1\n";
    for (grace, expected) in [
        (
            630,
            "open 0 parts 1\n5040000 5040000 0 a\n5670000 5670000 0 b\nend 5670000 sent 2\n",
        ),
        (
            629,
            "open 0 parts 1\n5670000 5670000 0 b\nend 5670000 sent 1\n",
        ),
    ] {
        let right = play(&file, input, grace) == expected.as_bytes();
        tally.note(&format!("grace {grace}: play"), right);
    }
}

/// 19, after the file check and 9.
fn openings(tally: &mut Tally) {
    let mut test = |name: &str, file: &[u8], input: &[u8], grace: u64, expected: &str| {
        let right = play(file, input, grace) == expected.as_bytes();
        tally.note(&format!("grace {grace}: {name}"), right);
    };
    let granted = "open 0 parts 1\nend 5040000 sent 0\n";
    for grace in [0, 1, 629, 630] {
        test("opened", &SMALL, b"O 1 5040\nT 1000\n", grace, granted);
    }
    let refused = "open 19 parts 0\nbad 2\nend 0 sent 0\n";
    // 66,166 is 630 when cut to 16 bits, 4,294,967,926 when cut to 32.
    for grace in [
        631,
        632,
        65_535,
        65_536,
        66_166,
        4_294_967_295,
        4_294_967_296,
        4_294_967_926,
        9_999_999_999,
    ] {
        test("refused", &SMALL, b"O 1 5040\nT 1000\n", grace, refused);
    }
    let tempo = "open 9 parts 0\nend 0 sent 0\n";
    test("a tempo of 0 before it", &SMALL, b"O 1 0\n", 631, tempo);
    test("a bad tempo before it", &SMALL, b"O 1 50401\n", 631, tempo);
    test("a bad tempo alone", &SMALL, b"O 1 50401\n", 630, tempo);
    let short = "open 3 parts 0\nend 0 sent 0\n";
    test("3 before both", &SMALL[..31], b"O 1 0\n", 631, short);
    for (place, byte, number) in [(4, 0, 4), (0, 33, 5), (32, 0, 6), (40, 2, 20), (84, 127, 8)] {
        let mut file = SMALL;
        file[place] = byte;
        let name = format!("{number} before both");
        let expected = format!("open {number} parts 0\nend 0 sent 0\n");
        test(&name, &file, b"O 1 0\n", 631, &expected);
        test(&name, &file, b"O 1 5040\n", 631, &expected);
    }
    let bad = "bad 1\nbad 2\nend 0 sent 0\n";
    test("no opening", &SMALL, b"T 1\nO 1 5040\n", 631, bad);
    test("no command", &SMALL, b"", 631, "end 0 sent 0\n");
}

fn numbers(tally: &mut Tally) {
    for (written, value) in [
        ("0", Some(0)),
        ("630", Some(630)),
        ("0000000630", Some(630)),
        ("0000000000", Some(0)),
        ("9999999999", Some(9_999_999_999)),
        ("00000000630", None),
        ("", None),
        ("+1", None),
        ("-1", None),
        (" 1", None),
    ] {
        let right = number(written.as_bytes()) == value;
        tally.note(&format!("grace \"{written}\" as written"), right);
    }
}

// ----------------------------------------------------------------- cases

/// A case, the number that its opening got, if it has one, and its session.
pub struct Shown {
    pub case: Case,
    pub reply: Option<u64>,
    pub session: Option<Session>,
    pub met: Vec<Met>,
}

impl Shown {
    pub fn of(case: Case) -> Shown {
        let (output, session) = perform(case.file(), &case.commands, case.grace());
        let met = session.as_ref().map_or(Vec::new(), Session::met);
        Shown {
            case,
            reply: opening_reply(&output),
            session,
            met,
        }
    }

    pub fn written(&self) -> &str {
        self.case.grace.as_deref().unwrap_or("")
    }
}

fn opening_reply(output: &[u8]) -> Option<u64> {
    let rest = output.strip_prefix(b"open ")?;
    number(rest.split(|&byte| byte == b' ').next()?)
}

/// 1,000 graced cases show every sort of reply, of grace and of group.
fn shown(tally: &mut Tally) {
    let cases: Vec<Shown> = (1..=1_000).map(|seed| Shown::of(of_seed(seed))).collect();
    replies(tally, &cases);
    graces(tally, &cases);
    deciding_dates(tally, &cases);
    nestings(tally, &cases);
    sessions(tally, &cases);
}

fn replies(tally: &mut Tally, cases: &[Shown]) {
    for number in [0, 3, 4, 5, 6, 8, 9, 19, 21, 22, 23, 24, 25, 26, 27] {
        let found = cases.iter().any(|case| case.reply == Some(number));
        tally.note(&format!("graced: an opening gets {number}"), found);
    }
    for number in [3, 4, 5, 6, 8, 9, 21, 22, 23, 24, 25, 26] {
        let both = |case: &Shown| case.reply == Some(number) && case.case.grace() > 630;
        let found = cases.iter().any(both);
        tally.note(&format!("graced: {number} comes before 19"), found);
    }
    let known = |case: &Shown| matches!(case.reply, None | Some(0 | 3..=6 | 8..=9 | 19..=27));
    tally.note("graced: no other number", cases.iter().all(known));
    let granted = cases.iter().filter(|case| case.reply == Some(0)).count();
    tally.note("graced: seven of ten are opened", granted >= 700);
}

fn graces(tally: &mut Tally, cases: &[Shown]) {
    for written in [
        "0",
        "1",
        "629",
        "630",
        "631",
        "632",
        "65535",
        "65536",
        "4294967295",
        "4294967296",
        "9999999999",
    ] {
        let found = cases.iter().any(|case| case.written() == written);
        tally.note(&format!("graced: a grace of {written}"), found);
    }
    let zeros = |case: &&Shown| case.written().len() > 1 && case.written().starts_with('0');
    let (small, large): (Vec<&Shown>, Vec<&Shown>) = cases
        .iter()
        .filter(zeros)
        .partition(|case| case.case.grace() <= 630);
    tally.note("graced: zeros before a grace", !small.is_empty());
    tally.note("graced: zeros before too much", !large.is_empty());
    let right = |case: &Shown| number(case.written().as_bytes()).is_some();
    tally.note("graced: each can be read", cases.iter().all(right));
    let between = cases
        .iter()
        .filter(|case| (2..=628).contains(&case.case.grace()));
    tally.note("graced: a third lie between", between.count() >= 333);
}

/// A group that is split: one that is written, or a slice.
pub const SORTS: &[(&str, Synchrony, bool)] = &[
    ("loose", Synchrony::Loose, false),
    ("tight", Synchrony::Tight, false),
    ("sliced", Synchrony::Loose, true),
];

/// Each of the six dates, for an action and for a group, in each sort of group. A
/// slice at a missed event ends before E(j).
fn deciding_dates(tally: &mut Tally, cases: &[Shown]) {
    for (sort, synchrony, slice) in SORTS {
        for error in [ErrorWord::Partial, ErrorWord::Causal] {
            for group in [false, true] {
                for index in 0..if *slice { 4 } else { 6 } {
                    let hit = |grace: u64, met: &Met| {
                        (met.synchrony, met.slice) == (*synchrony, *slice)
                            && met.error == error
                            && met.length.is_some() == group
                            && met.gap == six_dates(grace)[index].1
                    };
                    let what = if group { "a group" } else { "an action" };
                    let date = six_dates(0)[index].0;
                    let name = format!("graced: {what} at {date}, {sort} {error:?}");
                    tally.note(&name, any_met(cases, hit));
                }
            }
        }
    }
}

/// Name and date less E(j).
fn six_dates(grace: u64) -> [(&'static str, i128); 6] {
    let grace = i128::from(grace);
    [
        ("E(j) - g - 1", -grace - 1),
        ("E(j) - g", -grace),
        ("E(j) - g + 1", 1 - grace),
        ("E(j) - 1", -1),
        ("E(j)", 0),
        ("E(j) + 1", 1),
    ]
}

/// Is there such an item, where the grace is large enough to tell the dates apart?
fn any_met(cases: &[Shown], wanted: impl Fn(u64, &Met) -> bool) -> bool {
    cases.iter().any(|case| {
        let grace = case.case.grace();
        grace >= 3 && case.met.iter().any(|met| wanted(grace, met))
    })
}

/// Within the grace: neither past nor as late as E(j).
fn raised(grace: u64, met: &Met) -> bool {
    (-i128::from(grace)..0).contains(&met.gap)
}

fn nestings(tally: &mut Tally, cases: &[Shown]) {
    use ErrorWord::{Causal, Partial};
    for (inner, outer) in [
        (Partial, Causal),
        (Causal, Partial),
        (Partial, Partial),
        (Causal, Causal),
    ] {
        for (sort, synchrony, slice) in SORTS {
            let found = any_met(cases, |grace, met| {
                (met.synchrony, met.slice) == (*synchrony, *slice)
                    && (met.error, met.within) == (inner, Some(outer))
                    && raised(grace, met)
            });
            let name = format!("graced: raised in {sort} {inner:?} in {outer:?}");
            tally.note(&name, found);
        }
    }
    for deep in 2..=4 {
        let found = any_met(cases, |grace, met| met.deep == deep && raised(grace, met));
        tally.note(&format!("graced: {deep} groups split around"), found);
    }
    for missed in 1..=4 {
        let found = any_met(cases, |grace, met| {
            met.missed == missed && raised(grace, met)
        });
        tally.note(&format!("graced: {missed} missed in a row"), found);
    }
}

/// What is seen of the events, and of the parts.
fn sessions(tally: &mut Tally, cases: &[Shown]) {
    let mut test = |name: &str, wanted: fn(&Shown, &Session) -> bool| {
        let seen = |case: &Shown| {
            let session = case.session.as_ref();
            session.is_some_and(|session| wanted(case, session))
        };
        tally.note(&format!("graced: {name}"), cases.iter().any(seen));
    };
    test("a raised body passes the next event", |case, session| {
        raised_where(case, |met| {
            let next = met.j < session.score.durations.len();
            let length = met.length.unwrap_or(0);
            next && length > session.score.durations[met.j - 1]
        })
    });
    test("the grace reaches over a missed event", |case, session| {
        raised_where(case, |met| -met.gap > session.score.durations[met.j - 2])
    });
    test("several parts at one event", |_, session| {
        let sequences = &session.score.sequences;
        sequences
            .windows(3)
            .any(|three| three[0].event == three[2].event)
    });
    test("every part sounds", |_, session| {
        session.sounding_parts() == 16
    });
    test("some parts sound", |case, session| {
        !case.met.is_empty() && session.sounding_parts() < 16
    });
}

fn raised_where(case: &Shown, wanted: impl Fn(&Met) -> bool) -> bool {
    let grace = case.case.grace();
    case.met.iter().any(|met| raised(grace, met) && wanted(met))
}
