//! What the cases of `texts` must show.

use crate::text::{self, Sort, FILE_ROOM};
use crate::texts::{Case, Kind};
use crate::words::Tally;

/// Every sort of fault, with what was being read.
const FAULTS: &[(Sort, &[&str])] = &[
    (
        Sort::Token,
        &[
            "messages",
            "label",
            "event",
            "part number",
            "item or }",
            "send or group",
            "message number",
            "{",
            "beats",
            "denominator",
        ],
    ),
    (
        Sort::End,
        &[
            "messages",
            "label",
            "part number",
            "item or }",
            "send or group",
            "message number",
            "{",
            "beats",
            "denominator",
        ],
    ),
    (
        Sort::TooManyDigits,
        &[
            "list number",
            "beats",
            "denominator",
            "part number",
            "message number",
        ],
    ),
    (
        Sort::TooBig,
        &["beats", "denominator", "part number", "message number"],
    ),
    (Sort::OutOfTurn, &["list number"]),
    (Sort::DenominatorZero, &["beats"]),
    (Sort::NotWholeGrains, &["beats"]),
    (Sort::TooManyGrains, &["beats"]),
    (Sort::LabelNewline, &["label"]),
    (Sort::LabelEscape, &["escape"]),
    (Sort::LabelEnd, &["label", "escape"]),
];

/// 2,000 cases show every number, for texts and files, and every sort of fault.
pub fn text_shown(tally: &mut Tally) {
    let cases: Vec<Case> = (1..=2_000).map(Case::of_seed).collect();
    let replies: Vec<_> = cases.iter().map(Case::expected).collect();
    let mut test = |kind: Kind, number: u64, place: Option<usize>| {
        let found = cases.iter().zip(&replies).any(|(case, reply)| {
            let there = place.is_none_or(|place| reply.place == place);
            case.kind == kind && reply.number == number && there
        });
        let what = match kind {
            Kind::Read => "a text",
            Kind::Write => "a file",
        };
        let place = place.map_or(String::new(), |place| format!(" at {place}"));
        tally.note(&format!("texts: {what} gets {number}{place}"), found);
    };
    for number in [0, 2, 6, 8, 16, 22, 23, 24, 25, 26, 27] {
        test(Kind::Read, number, None);
    }
    for place in [4, 12, 20, 28] {
        test(Kind::Read, 4, Some(place));
    }
    for number in [0, 2, 3, 4, 5, 6, 8, 20, 21, 22, 23, 24, 25, 26, 27] {
        test(Kind::Write, number, None);
    }
    // A text has no other kinds, and no words but those that are read.
    let never = cases.iter().zip(&replies).all(|(case, reply)| {
        let number = reply.number;
        number != 7 && (case.kind == Kind::Write || number != 20 && number != 21)
    });
    tally.note("texts: no 7, nor 20 or 21 of a text", never);
    let faults: Vec<_> = cases.iter().filter_map(fault).collect();
    for (sort, wanted) in FAULTS {
        for wanted in *wanted {
            let found = faults.contains(&(*sort, wanted));
            tally.note(&format!("texts: {sort:?}, {wanted}"), found);
        }
    }
    let long = cases.iter().all(|case| case.input.len() < 600_000);
    tally.note("texts: none of 600,000 bytes", long);
}

fn fault(case: &Case) -> Option<(Sort, &'static str)> {
    if case.kind == Kind::Write || case.room < FILE_ROOM {
        return None;
    }
    let fault = text::tables(&case.input).err()?;
    Some((fault.sort, fault.wanted))
}
