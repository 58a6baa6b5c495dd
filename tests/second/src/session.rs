//! A session: the history of its granted calls. The performance and what a call
//! sends are worked out from the whole history each time.

use crate::mutant;
use crate::rules::{globals, met, performance, Global, Met, Triple};
use crate::score::{self, Refusal, Score};

pub const FASTEST: u64 = 50_400;
pub const LONGEST_WAIT: u64 = 1_000;
pub const MOST_GRACE: u64 = 630;
pub const CLOCK_END: i128 = 1_000_000_000_000_000;

/// One granted call: the event it heard, if any, and tempo and clock after it.
/// The opening is the first of them.
struct Call {
    heard: Option<usize>,
    tempo: u64,
    clock: i128,
}

pub struct Sent {
    pub clock: i128,
    pub due: i128,
    pub part: u64,
    pub message: usize,
    page: usize,
}

pub struct Report {
    pub clock: i128,
    pub tempo: u64,
    pub last_heard: usize,
    pub sent: usize,
}

pub struct Session {
    pub score: Score,
    parts: u64,
    grace: u64,
    calls: Vec<Call>,
}

fn is_tempo(tempo: u64) -> bool {
    (1..=FASTEST).contains(&tempo)
}

fn is_grace(grace: u64) -> bool {
    let one_more = mutant::is(mutant::GRACE_631_LET_IN);
    grace <= MOST_GRACE + u64::from(one_more)
}

/// What is wrong with an opening whose file is right: 9, then 19.
fn opening_fault(tempo: u64, grace: u64) -> Option<u64> {
    let mut checks = [(9, is_tempo(tempo)), (19, is_grace(grace))];
    if mutant::is(mutant::GRACE_CHECKED_BEFORE_TEMPO) {
        checks.reverse();
    }
    let (number, _) = checks.into_iter().find(|(_, right)| !right)?;
    Some(number)
}

impl Session {
    pub fn open(file: &[u8], parts: u64, tempo: u64, grace: u64) -> Result<Session, Refusal> {
        let score = score::read(file)?;
        if let Some(number) = opening_fault(tempo, grace) {
            return Err(Refusal { number, place: 0 });
        }
        let opening = Call {
            heard: None,
            tempo,
            clock: 0,
        };
        Ok(Session {
            score,
            parts,
            grace,
            calls: vec![opening],
        })
    }

    /// How many parts sound, whether the score uses them or not.
    pub fn sounding_parts(&self) -> u64 {
        (0..16).filter(|&part| self.sounds(part)).count() as u64
    }

    fn sounds(&self, part: u64) -> bool {
        (self.parts >> part) & 1 == 1
    }

    fn now(&self) -> &Call {
        &self.calls[self.calls.len() - 1]
    }

    /// D: the events heard so far.
    pub fn heard(&self) -> Vec<usize> {
        self.calls.iter().filter_map(|call| call.heard).collect()
    }

    fn triples(&self) -> Vec<Triple> {
        performance(&self.score, &self.heard(), self.grace)
    }

    /// What was met in the sounding parts where groups were split.
    pub fn met(&self) -> Vec<Met> {
        let mut met = met(&self.score, &self.heard(), self.grace);
        met.retain(|met| self.sounds(met.part));
        met
    }

    /// The missed global groups of every part, sounding or not, as far as the calls
    /// went.
    pub fn globals(&self) -> Vec<Global> {
        globals(&self.score, &self.heard(), self.grace)
    }

    /// Is there a missed global group, at any call, whose own date is after E(j)?
    pub fn moves_a_global(&self) -> bool {
        let heard = self.heard();
        (1..=heard.len()).any(|count| {
            let so_far = globals(&self.score, &heard[..count], self.grace);
            so_far.iter().any(Global::is_moved)
        })
    }

    pub fn heard_note(&mut self, event: u64, tempo: u64) -> Result<Vec<Sent>, u64> {
        if mutant::is(mutant::TEMPO_CHECKED_FIRST) && !is_tempo(tempo) {
            return Err(9);
        }
        if event == 0 || event > self.score.durations.len() as u64 {
            return Err(11);
        }
        let event = event as usize;
        if event <= self.last_heard() {
            return Err(12);
        }
        if !is_tempo(tempo) {
            return Err(9);
        }
        let clock = self.now().clock;
        self.calls.push(Call {
            heard: Some(event),
            tempo,
            clock,
        });
        Ok(self.sent_at_last_call())
    }

    pub fn passing_time(&mut self, milliseconds: u64) -> Result<Vec<Sent>, u64> {
        if !(1..=LONGEST_WAIT).contains(&milliseconds) {
            return Err(13);
        }
        let tempo = self.now().tempo;
        let clock = self.now().clock + i128::from(milliseconds) * i128::from(tempo);
        if clock > CLOCK_END {
            return Err(14);
        }
        self.calls.push(Call {
            heard: None,
            tempo,
            clock,
        });
        Ok(self.sent_at_last_call())
    }

    pub fn report(&self) -> Report {
        let sent = self
            .triples()
            .iter()
            .filter(|triple| self.sounds(triple.action.part))
            .filter(|triple| self.sending(triple).is_some())
            .count();
        Report {
            clock: self.now().clock,
            tempo: self.now().tempo,
            last_heard: self.last_heard(),
            sent,
        }
    }

    fn last_heard(&self) -> usize {
        self.heard().last().copied().unwrap_or(0)
    }

    /// What the last call sends: by due date and then page place.
    fn sent_at_last_call(&self) -> Vec<Sent> {
        let last = self.calls.len() - 1;
        let mut sent = Vec::new();
        for triple in self.triples() {
            if !self.sounds(triple.action.part) {
                continue;
            }
            let Some((call, due)) = self.sending(&triple) else {
                continue;
            };
            if call == last {
                sent.push(Sent {
                    clock: self.now().clock,
                    due,
                    part: triple.action.part,
                    message: triple.action.message,
                    page: triple.action.page,
                });
            }
        }
        if mutant::is(mutant::SENT_BY_PAGE_ONLY) {
            sent.sort_by_key(|message| message.page);
        } else {
            sent.sort_by_key(|message| (message.due, message.page));
        }
        sent
    }

    /// The first call, from the one that heard the triple's event on, whose
    /// clock has reached the due date; and that due date.
    fn sending(&self, triple: &Triple) -> Option<(usize, i128)> {
        let hearing = self
            .calls
            .iter()
            .position(|call| call.heard == Some(triple.event))?;
        let mut due = self.calls[hearing].clock + 1_000 * triple.delay;
        for number in hearing..self.calls.len() {
            let call = &self.calls[number];
            if mutant::is(mutant::DUE_DATES_RESTART)
                && number > hearing
                && call.tempo != self.calls[number - 1].tempo
            {
                due = call.clock + 1_000 * triple.delay;
            }
            if call.clock >= due {
                return Some((number, due));
            }
        }
        None
    }
}
