//! Random scores for graced cases: events short and long, most of them missed, and
//! items within a grain of every date at which a grace decides. And such scores for
//! request (v), with global groups at missed events.

use crate::random::Random;
use crate::score::{Entry, Tables, CAUSAL, DEEPEST, GLOBAL, LAST_PART, LOCAL, PARTIAL};
use crate::scores::Invented;
use crate::session::MOST_GRACE;

/// A score, and the events that are to be heard.
pub struct Graced {
    pub score: Invented,
    pub heard: Vec<u64>,
}

/// No item from E(j) - g on is past, none from E(j) on is raised: both dates less
/// E(j), and a grain beside them.
fn deciding(grace: u64) -> [i64; 6] {
    let grace = grace as i64;
    [-grace - 1, -grace, -grace + 1, -1, 0, 1]
}

pub fn invent(random: &mut Random, grace: u64) -> Graced {
    let durations = durations(random, grace);
    let heard = heard(random, durations.len() as u64);
    let habits = Habits {
        groups: random.pick(&[25, 40, 55, 70]),
        widest: random.pick(&[2, 4, 6, 8]),
        tight: random.pick(&[0, 50, 50, 50, 100]),
        words: random.pick(&[
            &[PARTIAL, CAUSAL][..],
            &[PARTIAL, CAUSAL],
            &[PARTIAL, CAUSAL],
            &[PARTIAL],
            &[CAUSAL],
            &[LOCAL, GLOBAL, PARTIAL, CAUSAL],
            &[LOCAL, PARTIAL, PARTIAL, CAUSAL, CAUSAL],
            &[GLOBAL, PARTIAL, PARTIAL, CAUSAL, CAUSAL],
        ]),
        globals: 0,
        late: false,
    };
    write(random, grace, durations, heard, habits)
}

/// A score whose top groups are mostly global.
pub fn invent_globals(random: &mut Random, grace: u64) -> Graced {
    // Without a grace the events would be of a few grains.
    let width = if grace == 0 {
        random.between(0, MOST_GRACE)
    } else {
        grace
    };
    let durations = durations(random, width);
    let heard = heard(random, durations.len() as u64);
    let habits = Habits {
        groups: random.pick(&[25, 40, 55, 70]),
        widest: random.pick(&[2, 3, 4, 6]),
        tight: random.pick(&[0, 40, 40, 40, 60, 100]),
        words: random.pick(&[
            &[LOCAL, GLOBAL, PARTIAL, CAUSAL][..],
            &[LOCAL, GLOBAL, PARTIAL, CAUSAL],
            &[GLOBAL, PARTIAL, CAUSAL],
            &[GLOBAL, GLOBAL, PARTIAL, CAUSAL],
            &[GLOBAL],
        ]),
        globals: random.pick(&[50, 70, 90]),
        late: random.percent(75),
    };
    write(random, grace, durations, heard, habits)
}

fn write(
    random: &mut Random,
    grace: u64,
    durations: Vec<u32>,
    heard: Vec<u64>,
    habits: Habits,
) -> Graced {
    let mut starts = vec![0];
    for &duration in &durations {
        starts.push(starts[starts.len() - 1] + u64::from(duration));
    }
    let mut tables = Tables {
        durations,
        ..Tables::default()
    };
    for letter in b'a'..=b'z' {
        tables.add_message(&[letter]);
    }
    let mut writer = Writer {
        tables,
        barlines: barlines(&heard),
        missed: missed(&heard),
        starts,
        dates: Vec::new(),
        grace,
        limit: 0,
        actions: 0,
        habits,
        random,
    };
    writer.top();
    let score = Invented {
        tables: writer.tables,
        unit: grace.max(60),
        starts: writer.starts,
        dates: writer.dates,
    };
    Graced { score, heard }
}

fn durations(random: &mut Random, grace: u64) -> Vec<u32> {
    let count = random.between(3, 14);
    let mostly = random.below(4);
    let mut durations = Vec::new();
    for _ in 0..count {
        let any = random.below(4);
        let sort = random.pick(&[mostly, mostly, any]);
        durations.push(duration(random, grace, sort) as u32);
    }
    durations
}

fn duration(random: &mut Random, grace: u64, sort: u64) -> u64 {
    match sort {
        0 => random.between(1, 700),
        // The grace reaches just over the event, to its start, or not quite.
        1 => grace + random.pick(&[1, 1, 2, 3]),
        2 => (grace + 1).saturating_sub(random.between(1, 20)).max(1),
        _ => random.pick(&[1_260, 2_520, 5_040, 10_080]),
    }
}

/// Events to be heard, most of them after one or more that are missed.
fn heard(random: &mut Random, events: u64) -> Vec<u64> {
    let mut heard = Vec::new();
    let mut event = random.pick(&[1, 2, 2, 3, 4, 5]);
    while event <= events {
        heard.push(event);
        event += random.pick(&[1, 2, 2, 2, 3, 3, 4, 5]);
    }
    if heard.is_empty() {
        heard.push(events);
    }
    heard
}

/// Of the heard events, those right after a missed one.
fn barlines(heard: &[u64]) -> Vec<u64> {
    let after_missed = |event: &u64| *event > 1 && !heard.contains(&(event - 1));
    heard.iter().copied().filter(after_missed).collect()
}

/// The missed events that one heard comes after.
fn missed(heard: &[u64]) -> Vec<u64> {
    let last = heard[heard.len() - 1];
    (1..last).filter(|event| !heard.contains(event)).collect()
}

/// What the items of one score are like.
struct Habits {
    /// Of 100 items within a group, how many are groups.
    groups: u64,
    widest: u64,
    tight: u64,
    words: &'static [u8],
    /// Of 100 top groups, how many are made global; 0 in a score that isn't made for
    /// request (v).
    globals: u64,
    /// Whether an own date may be after E(j).
    late: bool,
}

/// Writes the item table from front to back.
struct Writer<'r> {
    random: &'r mut Random,
    tables: Tables,
    starts: Vec<u64>,
    dates: Vec<u64>,
    /// The events at which the grace decides.
    barlines: Vec<u64>,
    missed: Vec<u64>,
    grace: u64,
    /// How long the table may be after the top items being written.
    limit: usize,
    actions: usize,
    habits: Habits,
}

/// Where an item stands.
#[derive(Clone, Copy)]
struct Spot {
    depth: usize,
    event: u16,
    part: u8,
}

impl Writer<'_> {
    fn top(&mut self) {
        for (event, part) in self.places() {
            self.limit = self.tables.items.len() + self.random.pick(&[4, 10, 20, 40]);
            let mut date = self.start(u64::from(event));
            let spot = Spot {
                depth: 1,
                event,
                part,
            };
            for _ in 0..self.random.pick(&[1, 1, 2, 3]) {
                date = self.item(date, spot);
            }
        }
    }

    /// Mostly at missed events, and often several parts at one event.
    fn places(&mut self) -> Vec<(u16, u8)> {
        let events = self.tables.durations.len() as u64;
        let mut places = Vec::new();
        for _ in 0..self.random.between(1, 6) {
            let event = if self.missed.is_empty() || self.random.percent(35) {
                self.random.between(1, events) as u16
            } else {
                self.random.pick(&self.missed) as u16
            };
            for _ in 0..self.random.pick(&[1, 1, 2, 3]) {
                places.push((event, self.random.below(u64::from(LAST_PART) + 1) as u8));
            }
        }
        places.sort_unstable();
        places.dedup();
        places
    }

    fn start(&self, event: u64) -> u64 {
        self.starts[event as usize - 1]
    }

    /// One item after `date`; gives its own date, from which the next counts.
    fn item(&mut self, date: u64, spot: Spot) -> u64 {
        if self.tables.items.len() >= self.limit {
            return date;
        }
        let delay = self.delay(date, spot);
        let date = date + delay;
        let groups = if spot.depth == 1 {
            90
        } else {
            self.habits.groups
        };
        let mut entry = Entry {
            part: spot.part,
            event: spot.event,
            delay: delay as u32,
            ..Entry::default()
        };
        if spot.depth == DEEPEST || !self.random.percent(groups) {
            // One letter after the other, so that each action is told apart.
            entry.last = (self.actions % self.tables.messages.len()) as u16;
            self.actions += 1;
            self.tables.items.push(entry);
            self.dates.push(date);
            return date;
        }
        entry.kind = 1;
        entry.synchrony = u8::from(self.random.percent(self.habits.tight));
        entry.error = self.word(date, spot);
        let index = self.tables.items.len();
        self.tables.items.push(entry);
        self.body(date, spot, entry.error);
        let within = self.tables.items.len() - index - 1;
        self.tables.items[index].last = within as u16;
        date
    }

    fn word(&mut self, date: u64, spot: Spot) -> u8 {
        if self.for_globals() {
            return self.word_for_globals(date, spot);
        }
        self.random.pick(self.habits.words)
    }

    /// Groups that are split mostly start early, so that they have a past.
    fn word_for_globals(&mut self, date: u64, spot: Spot) -> u8 {
        let any = self.random.pick(self.habits.words);
        if spot.depth > 1 {
            return self.random.pick(&[any, any, GLOBAL]);
        }
        let start = self.start_when_missed(spot.event);
        let early = start.is_some_and(|start| date + 1 < start);
        let globals = self.habits.globals / if early { 3 } else { 1 };
        if self.random.percent(globals) {
            return GLOBAL;
        }
        self.random.pick(&[PARTIAL, CAUSAL, any])
    }

    fn for_globals(&self) -> bool {
        self.habits.globals > 0
    }

    fn body(&mut self, date: u64, spot: Spot, word: u8) {
        let inside = Spot {
            depth: spot.depth + 1,
            event: 0,
            ..spot
        };
        let mut date = self.body_start(date, spot, word);
        for _ in 0..self.random.between(1, self.habits.widest) {
            date = self.item(date, inside);
        }
    }

    /// Where a body runs from: at the barline, if its group is raised to it, or if it
    /// is global and starts there.
    fn body_start(&mut self, date: u64, spot: Spot, word: u8) -> u64 {
        if self.for_globals() && word == GLOBAL && spot.depth == 1 {
            let start = self.start_when_missed(spot.event);
            return start.map_or(date, |start| start.max(date));
        }
        let barline = self.next_barline(date).map(|index| self.barlines[index]);
        let start = barline.map_or(date, |event| self.start(event));
        if self.for_globals() && word == GLOBAL && self.random.percent(50) {
            return start;
        }
        let within = (date..=date + self.grace).contains(&start);
        if spot.depth > 1 && within && self.random.percent(60) {
            return start;
        }
        date
    }

    fn next_barline(&self, date: u64) -> Option<usize> {
        let to_come = |event: &u64| self.start(*event) + 1 > date;
        self.barlines.iter().position(to_come)
    }

    /// E(j) of a missed event.
    fn start_when_missed(&self, event: u16) -> Option<u64> {
        let event = u64::from(event);
        if !self.missed.contains(&event) {
            return None;
        }
        let j = self.barlines.iter().find(|barline| **barline > event)?;
        Some(self.start(*j))
    }

    fn delay(&mut self, date: u64, spot: Spot) -> u64 {
        if self.for_globals() {
            if let Some(delay) = self.delay_for_globals(date, spot) {
                return delay;
            }
        }
        let aims = if spot.depth == 1 { 20 } else { 75 };
        if self.random.percent(aims) {
            return self.aimed(date);
        }
        match self.random.below(10) {
            0..=5 => 0,
            6..=7 => self.random.below(self.grace + 2),
            8 => self.random.below(700),
            _ => {
                let index = self.random.index(self.tables.durations.len());
                u64::from(self.tables.durations[index])
            }
        }
    }

    /// The delay to a date at which the grace decides, mostly at the next barline.
    fn aimed(&mut self, date: u64) -> u64 {
        let Some(next) = self.next_barline(date) else {
            return self.random.below(3);
        };
        let farther = self.random.pick(&[0, 0, 0, 0, 1, 2]);
        let index = (next + farther).min(self.barlines.len() - 1);
        let start = self.start(self.barlines[index]);
        let mut dates: Vec<u64> = deciding(self.grace)
            .iter()
            .filter_map(|&gap| start.checked_add_signed(gap))
            .filter(|&deciding| deciding > date)
            .collect();
        dates.sort_unstable();
        // Mostly the next, so that a body goes through all of them.
        let any = self.random.pick(&dates);
        self.random.pick(&[dates[0], dates[0], any]) - date
    }

    /// Of a top item at a missed event, the delay to an own date that decides; of
    /// items within a group, some start beside an event, heard or not.
    fn delay_for_globals(&mut self, date: u64, spot: Spot) -> Option<u64> {
        if spot.depth > 1 {
            if !self.random.percent(15) {
                return None;
            }
            return self.beside_an_event(date).map(|beside| beside - date);
        }
        let start = self.start_when_missed(spot.event)?;
        if self.random.percent(30) {
            return None;
        }
        // What stands before it in the sequence may be past a date already.
        for _ in 0..6 {
            let any = self.own_date(date, start);
            let own = if self.habits.late {
                any
            } else {
                any.min(start)
            };
            if own >= date {
                return Some(own - date);
            }
        }
        Some(0)
    }

    /// An own date: about E(j), at the grace after it, beside a later event, past the
    /// last one, or anywhere.
    fn own_date(&mut self, date: u64, start: u64) -> u64 {
        let end = self.starts[self.starts.len() - 1];
        match self.random.below(16) {
            0..=1 => start - 1,
            2..=3 => start,
            4..=5 => start + 1,
            6 => start + self.grace,
            7 => start + self.grace + 1,
            8..=11 => self.beside_an_event(start + 2).unwrap_or(end),
            12 => end + self.random.below(700),
            13 => self.random.between(date.min(start), start),
            _ => self.random.between(date.min(end), end + 700),
        }
    }

    /// A date from this one on: one of the next events' starts, or a grain beside it.
    fn beside_an_event(&mut self, date: u64) -> Option<u64> {
        let events = &self.starts[..self.starts.len() - 1];
        let next = events.partition_point(|&start| start < date + 1);
        let left = events.len() - next;
        if left == 0 {
            return None;
        }
        let start = events[next + self.random.index(left.min(4))];
        Some(start + self.random.pick(&[0, 1, 1, 2]) - 1)
    }
}
