//! Random cases for request (v): global groups at missed events. Every score is sound
//! and every opening granted.

use crate::case::{Case, ScoreFile};
use crate::graced_cases::written;
use crate::random::Random;
use crate::session::MOST_GRACE;
use crate::{commands, graced_scores};

pub fn of_seed(seed: u64) -> Case {
    let random = &mut Random::new(seed);
    let grace = grace(random);
    let graced = graced_scores::invent_globals(random, grace);
    let commands = commands::hearing(random, &graced.score, graced.heard, false);
    Case {
        score: ScoreFile::Bytes(graced.score.tables.encode()),
        commands,
        grace: Some(written(random, grace)),
    }
}

fn grace(random: &mut Random) -> u64 {
    match random.below(100) {
        0..=54 => 0,
        55..=62 => 1,
        63..=70 => MOST_GRACE - 1,
        71..=80 => MOST_GRACE,
        _ => random.between(0, MOST_GRACE),
    }
}
