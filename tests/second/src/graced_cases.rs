//! Random cases with a grace.

use crate::case::{Case, ScoreFile};
use crate::random::Random;
use crate::score::{Tables, CONTENTS};
use crate::session::MOST_GRACE;
use crate::{commands, damage, graced_scores, scores};

/// Graces that are refused: next to the limit, and such as become small ones when
/// they are cut to 16 or 32 bits.
const TOO_MUCH: &[u64] = &[
    631,
    632,
    65_535,
    65_536,
    66_166,
    4_294_967_295,
    4_294_967_296,
    4_294_967_926,
    9_999_999_999,
];

pub fn of_seed(seed: u64) -> Case {
    let random = &mut Random::new(seed);
    let grace = grace(random);
    let refused = grace > MOST_GRACE;
    let (tables, commands) = if random.percent(15) {
        let score = scores::invent(random);
        let commands = commands::invent(random, &score);
        (score.tables, commands)
    } else {
        let graced = graced_scores::invent(random, grace.min(MOST_GRACE));
        let bad = random.percent(if refused { 25 } else { 3 });
        let commands = commands::hearing(random, &graced.score, graced.heard, bad);
        (graced.score.tables, commands)
    };
    let score = ScoreFile::Bytes(file(random, tables, refused));
    Case {
        score,
        commands,
        grace: Some(written(random, grace)),
    }
}

fn grace(random: &mut Random) -> u64 {
    match random.below(100) {
        0..=8 => 0,
        9..=16 => 1,
        17..=26 => MOST_GRACE - 1,
        27..=42 => MOST_GRACE,
        43..=88 => random.between(0, MOST_GRACE),
        89..=91 => MOST_GRACE + 1,
        _ => random.pick(TOO_MUCH),
    }
}

/// Now and then with leading zeros.
pub fn written(random: &mut Random, grace: u64) -> String {
    let width = if random.percent(6) {
        random.between(2, 10) as usize
    } else {
        0
    };
    format!("{grace:0width$}")
}

/// A refused grace meets a refused file more often, so that their order shows.
fn file(random: &mut Random, tables: Tables, refused: bool) -> Vec<u8> {
    if !random.percent(if refused { 35 } else { 9 }) {
        return tables.encode();
    }
    match random.below(10) {
        0..=6 => damage::damaged(random, tables),
        7..=8 => damage::fine(random, tables),
        _ => {
            let mut file = tables.encode();
            file.truncate(random.index(CONTENTS));
            file
        }
    }
}
