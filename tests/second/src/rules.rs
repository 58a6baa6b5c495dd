//! The rules of performance, group by group: from a score and the events heard
//! to all triples. Slices, past and future are really built as groups.

use crate::mutant;
use crate::score::{Action, ErrorWord, Group, Item, Score, Synchrony, What};
use std::rc::Rc;

/// An action that is played: at which heard event, after how many grains.
#[derive(Clone, Copy)]
pub struct Triple {
    pub event: usize,
    pub delay: i128,
    pub action: Action,
}

/// All triples of a score when the events of `heard` were heard.
pub fn performance(score: &Score, heard: &[usize], grace: u64) -> Vec<Triple> {
    run(score, heard, grace).triples
}

/// An item as it was met where a group was split, to see what a case shows.
#[derive(Clone, Copy)]
pub struct Met {
    pub part: u64,
    /// The group that was split, and whether it is a slice.
    pub synchrony: Synchrony,
    pub error: ErrorWord,
    pub slice: bool,
    pub j: usize,
    /// How many events were missed in a row before j.
    pub missed: usize,
    /// Its date less E(j).
    pub gap: i128,
    /// Of a group, how far its body goes, and its error word.
    pub length: Option<i128>,
    pub word: Option<ErrorWord>,
    /// The group around it that was split last, and how many were.
    pub within: Option<ErrorWord>,
    pub deep: usize,
}

/// A missed global group as it was met.
#[derive(Clone, Copy)]
pub struct Global {
    pub part: u64,
    pub synchrony: Synchrony,
    pub slice: bool,
    /// Its event, and the one at which it is heard.
    pub i: usize,
    pub j: usize,
    /// Its own date less E(j).
    pub gap: i128,
    /// The group around it that was split, if it is among the past of one.
    pub within: Option<ErrorWord>,
}

impl Global {
    /// Does it start after E(j)? Before request (v) it started at E(j).
    pub fn is_moved(&self) -> bool {
        self.gap > 0
    }
}

/// Every missed global group of this performance.
pub fn globals(score: &Score, heard: &[usize], grace: u64) -> Vec<Global> {
    run(score, heard, grace).globals
}

/// Every item of every group that is split in this performance.
pub fn met(score: &Score, heard: &[usize], grace: u64) -> Vec<Met> {
    run(score, heard, grace).met
}

fn run(score: &Score, heard: &[usize], grace: u64) -> Rules {
    let mut starts = Vec::new();
    let mut sum = 0;
    for duration in &score.durations {
        starts.push(sum);
        sum += duration;
    }
    let mut rules = Rules {
        starts,
        heard: vec![false; score.durations.len()],
        grace: i128::from(grace),
        triples: Vec::new(),
        part: 0,
        splitting: Vec::new(),
        met: Vec::new(),
        globals: Vec::new(),
    };
    for &event in heard {
        rules.heard[event - 1] = true;
    }
    rules.whole(score);
    rules
}

struct Rules {
    starts: Vec<i128>,
    heard: Vec<bool>,
    grace: i128,
    triples: Vec<Triple>,
    /// For what is met: the part, and the words of the groups whose past or
    /// future is running.
    part: u64,
    splitting: Vec<ErrorWord>,
    met: Vec<Met>,
    globals: Vec<Global>,
}

/// What a missed group is: one that is written, with its own delay, or a slice of a
/// tight one.
#[derive(Clone, Copy, PartialEq)]
enum Missed {
    Written(i128),
    Slice,
}

/// The items of a sequence, each with its summed delay: an item's own delay
/// counts for it and for what follows, a body's delays do not.
fn summed(items: &[Item], from: i128) -> Vec<(i128, &Item)> {
    let mut sum = from;
    let mut placed = Vec::new();
    for item in items {
        sum += item.delay;
        placed.push((sum, item));
        if mutant::is(mutant::GROUP_DELAY_LOST) {
            if let What::Group(_) = item.what {
                sum -= item.delay;
            }
        }
    }
    placed
}

/// "A future item's delay is never below 0": its date is the later of its own and
/// E(j); the gap is its own less E(j).
fn raised(gap: i128, what: &What) -> i128 {
    if mutant::is(mutant::GROUPS_NOT_RAISED) && matches!(what, What::Group(_)) {
        return gap;
    }
    if mutant::is(mutant::DELAY_BELOW_ZERO_WRAPS) {
        return gap.rem_euclid(1 << 64);
    }
    gap.max(0)
}

/// A sequence under the making, whose items are given by their summed delays.
#[derive(Default)]
struct Building {
    items: Vec<Item>,
    sum: i128,
}

impl Building {
    fn put(&mut self, summed: i128, what: &What) {
        self.items.push(Item {
            delay: summed - self.sum,
            what: what.clone(),
        });
        self.sum = summed;
        if mutant::is(mutant::GROUP_DELAY_LOST) {
            if let What::Group(_) = what {
                self.sum -= self.items[self.items.len() - 1].delay;
            }
        }
    }
}

impl Rules {
    /// E(i).
    fn start(&self, i: usize) -> i128 {
        self.starts[i - 1]
    }

    /// M(i): the first heard event after i.
    fn next_heard(&self, i: usize) -> Option<usize> {
        (i + 1..=self.heard.len()).find(|&j| self.heard[j - 1])
    }

    /// The last event k with E(k) <= t.
    fn event_at(&self, t: i128) -> usize {
        if mutant::is(mutant::EXACTLY_E_K_GOES_BEFORE) {
            return self.starts.partition_point(|&start| start < t).max(1);
        }
        self.starts.partition_point(|&start| start <= t)
    }

    fn whole(&mut self, score: &Score) {
        let mut carried = (0, 0);
        for sequence in &score.sequences {
            let i = sequence.event;
            self.part = sequence.part;
            // Each part begins its own sequence at the event.
            let mut from = 0;
            if mutant::is(mutant::PARTS_SHARE_A_SEQUENCE) {
                if carried.0 == i {
                    from = carried.1;
                }
                let length: i128 = sequence.items.iter().map(|item| item.delay).sum();
                carried = (i, from + length);
            }
            if self.heard[i - 1] {
                self.heard_sequence(&sequence.items, i, from);
            } else if mutant::is(mutant::MISSED_TOP_IS_CAUSAL) {
                let group = Group {
                    synchrony: Synchrony::Loose,
                    error: ErrorWord::Causal,
                    body: sequence.items.clone(),
                };
                self.missed_group(&group, Missed::Written(0), i, from);
            } else {
                self.missed_sequence(&sequence.items, i, from);
            }
        }
    }

    // ------------------------------------------------------------- heard

    fn heard_sequence(&mut self, items: &[Item], i: usize, d: i128) {
        for (d, item) in summed(items, d) {
            match &item.what {
                What::Action(action) => self.heard_action(action, i, d),
                What::Group(group) => self.heard_group(group, i, d),
            }
        }
    }

    fn heard_action(&mut self, action: &Action, i: usize, d: i128) {
        // Only a body that runs from before E(j) has a delay to be held at 0.
        let held =
            mutant::is(mutant::GROUPS_NOT_RAISED) || mutant::is(mutant::GLOBAL_STARTS_BEFORE_E_J);
        self.triples.push(Triple {
            event: i,
            delay: if held { d.max(0) } else { d },
            action: *action,
        });
    }

    fn heard_group(&mut self, group: &Group, i: usize, d: i128) {
        match group.synchrony {
            Synchrony::Loose => self.heard_sequence(&group.body, i, d),
            Synchrony::Tight => {
                for (k, slice) in self.slices(group, i, d) {
                    self.run_slice(&slice, k);
                }
            }
        }
    }

    /// A tight group from (i, d) as loose groups at the events its items go to.
    fn slices(&self, group: &Group, i: usize, d: i128) -> Vec<(usize, Group)> {
        let mut receiving: Vec<(usize, Building)> = Vec::new();
        for (delay, item) in summed(&group.body, d) {
            let t = self.start(i) + delay;
            let k = self.event_at(t);
            if receiving.last().map(|(event, _)| *event) != Some(k) {
                receiving.push((k, Building::default()));
            }
            if let Some((_, slice)) = receiving.last_mut() {
                slice.put(t - self.start(k), &item.what);
            }
        }
        let loose = |body| Group {
            synchrony: Synchrony::Loose,
            error: group.error,
            body,
        };
        receiving
            .into_iter()
            .map(|(k, slice)| (k, loose(slice.items)))
            .collect()
    }

    /// A slice stands at k with delay 0 and runs by the rules, k heard or missed.
    fn run_slice(&mut self, slice: &Group, k: usize) {
        if self.heard[k - 1] {
            self.heard_group(slice, k, 0);
        } else if mutant::is(mutant::MISSED_SLICE_HEARD) {
            if let Some(j) = self.next_heard(k) {
                self.heard_group(slice, j, 0);
            }
        } else {
            self.missed_group(slice, Missed::Slice, k, 0);
        }
    }

    // ------------------------------------------------------------ missed

    fn missed_sequence(&mut self, items: &[Item], i: usize, d: i128) {
        for (d, item) in summed(items, d) {
            match &item.what {
                What::Action(action) => self.missed_action(action, i, d),
                What::Group(group) => {
                    self.missed_group(group, Missed::Written(item.delay), i, d);
                }
            }
        }
    }

    fn missed_action(&mut self, action: &Action, i: usize, d: i128) {
        let Some(j) = self.next_heard(i) else { return };
        let late = self.start(i) + d - self.start(j);
        self.triples.push(Triple {
            event: j,
            delay: late.max(0),
            action: *action,
        });
    }

    fn missed_group(&mut self, group: &Group, missed: Missed, i: usize, d: i128) {
        let Some(j) = self.next_heard(i) else { return };
        match group.error {
            ErrorWord::Local => {}
            ErrorWord::Global => self.missed_global(group, missed, i, d, j),
            ErrorWord::Causal if mutant::is(mutant::CAUSAL_NOT_SPLIT) => {
                self.missed_sequence(&group.body, i, d);
            }
            ErrorWord::Causal | ErrorWord::Partial => {
                let (past, future) = self.split(group, missed, i, d, j);
                self.splitting.push(group.error);
                if group.error == ErrorWord::Causal {
                    self.missed_sequence(&past, i, d);
                } else {
                    self.missed_past_of_partial(&past, i, d);
                }
                self.heard_group(&future, j, 0);
                self.splitting.pop();
            }
        }
    }

    /// "A missed global group is heard at j with delay max(0, E(i) + d - E(j))";
    /// "E(i) + d is the group's own date, whatever holds it". A slice has delay 0 at
    /// its event and a past group starts before E(j), so "only a missed top group
    /// moves".
    fn missed_global(&mut self, group: &Group, missed: Missed, i: usize, d: i128, j: usize) {
        let gap = self.start(i) + d - self.start(j);
        self.globals.push(Global {
            part: self.part,
            synchrony: group.synchrony,
            slice: missed == Missed::Slice,
            i,
            j,
            gap,
            within: self.splitting.last().copied(),
        });
        let tight = group.synchrony == Synchrony::Tight;
        if tight && mutant::is(mutant::SLICE_FROM_THE_MISSED_EVENT) {
            self.heard_group(group, i, d);
            return;
        }
        if tight && mutant::is(mutant::TIGHT_GLOBAL_MOVED_AFTER_SLICING) {
            let first = self.triples.len();
            self.heard_group(group, j, 0);
            for triple in &mut self.triples[first..] {
                triple.delay += gap.max(0);
            }
            return;
        }
        let delay = if mutant::is(mutant::GLOBAL_DELAY_LOST) {
            0
        } else if mutant::is(mutant::GLOBAL_DELAY_FROM_E_J) {
            d
        } else if mutant::is(mutant::GLOBAL_STARTS_BEFORE_E_J) {
            gap
        } else if mutant::is(mutant::GLOBAL_DATE_FROM_ITS_OWN_DELAY) {
            let own = match missed {
                Missed::Written(own) => own,
                Missed::Slice => 0,
            };
            (gap - d + own).max(0)
        } else if mutant::is(mutant::GRACE_HOLDS_GLOBALS) && gap <= self.grace {
            0
        } else {
            gap.max(0)
        };
        self.heard_group(group, j, delay);
    }

    /// "An item is past exactly if its date plus g is before E(j)"; the gap is
    /// its date less E(j).
    fn is_past(&self, gap: i128, missed: Missed) -> bool {
        if mutant::is(mutant::EXACTLY_E_J_IS_PAST) && gap == 0 {
            return true;
        }
        if mutant::is(mutant::EXACTLY_AT_THE_GRACE_IS_PAST) {
            return gap + self.grace <= 0;
        }
        if mutant::is(mutant::GRACE_ADDED_TO_E_J) {
            return gap < self.grace;
        }
        if mutant::is(mutant::SLICES_FORGET_THE_GRACE) && missed == Missed::Slice {
            return gap < 0;
        }
        gap + self.grace < 0
    }

    /// The past items, at their own delays, and the others as a group of the same
    /// words, to be heard at j: their dates less E(j), each raised by itself.
    fn split(
        &mut self,
        group: &Group,
        missed: Missed,
        i: usize,
        d: i128,
        j: usize,
    ) -> (Vec<Item>, Group) {
        let mut past = Vec::new();
        let mut future = Building::default();
        // What follows a raised item keeps its date; only a wrong rule moves it.
        let mut moved = 0;
        for (delay, item) in summed(&group.body, d) {
            let gap = self.start(i) + delay - self.start(j);
            self.meet(group, missed, j, gap, item);
            if self.is_past(gap, missed) {
                past.push(item.clone());
                continue;
            }
            let gap = gap + moved;
            future.put(raised(gap, &item.what), &item.what);
            if mutant::is(mutant::RAISING_MOVES_WHAT_FOLLOWS) {
                moved += (-gap).max(0);
            }
        }
        let synchrony = if mutant::is(mutant::FUTURE_BECOMES_LOOSE) {
            Synchrony::Loose
        } else {
            group.synchrony
        };
        let future = Group {
            synchrony,
            error: group.error,
            body: future.items,
        };
        (past, future)
    }

    fn meet(&mut self, group: &Group, missed: Missed, j: usize, gap: i128, item: &Item) {
        let before = self.heard[..j - 1].iter().rev();
        let inner = match &item.what {
            What::Action(_) => None,
            What::Group(inner) => Some(inner),
        };
        let length = |inner: &Rc<Group>| inner.body.iter().map(|item| item.delay).sum();
        self.met.push(Met {
            part: self.part,
            synchrony: group.synchrony,
            error: group.error,
            slice: missed == Missed::Slice,
            j,
            missed: before.take_while(|heard| !**heard).count(),
            gap,
            length: inner.map(length),
            word: inner.map(|inner| inner.error),
            within: self.splitting.last().copied(),
            deep: self.splitting.len(),
        });
    }

    /// Past actions are dropped, past groups run as missed at their own dates.
    fn missed_past_of_partial(&mut self, past: &[Item], i: usize, d: i128) {
        let mut dropped = 0;
        for (d, item) in summed(past, d) {
            match &item.what {
                What::Action(action) => {
                    if mutant::is(mutant::PARTIAL_PLAYS_PAST_ACTIONS) {
                        self.missed_action(action, i, d);
                    }
                    if mutant::is(mutant::DROPPED_ACTIONS_TAKE_THEIR_DELAY) {
                        dropped += item.delay;
                    }
                }
                What::Group(group) => {
                    if !mutant::is(mutant::PARTIAL_DROPS_PAST_GROUPS) {
                        let missed = Missed::Written(item.delay);
                        self.missed_group(group, missed, i, d - dropped);
                    }
                }
            }
        }
    }
}
