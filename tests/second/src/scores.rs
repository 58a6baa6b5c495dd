//! Random scores that the file check accepts. Delays are aimed at the starts of
//! events, at one grain beside them and at each other, since that is where
//! rules go wrong.

use crate::random::Random;
use crate::score::{
    Entry, Tables, DEEPEST, LAST_PART, LONGEST_LABEL, LONGEST_TIME, MOST_ACTIONS, MOST_EVENTS,
    MOST_ITEMS, MOST_MESSAGES,
};

/// A score and what the maker of commands wants to know of it.
pub struct Invented {
    pub tables: Tables,
    /// The length that durations and delays are mostly multiples of.
    pub unit: u64,
    /// E(1), E(2) and so on, and the end of the last event.
    pub starts: Vec<u64>,
    /// The ideal dates of the actions.
    pub dates: Vec<u64>,
}

#[derive(Clone, Copy, PartialEq)]
enum Size {
    Small,
    Large,
    Largest,
}

pub fn invent(random: &mut Random) -> Invented {
    let size = match random.below(1_000) {
        0..=9 => Size::Largest,
        10..=69 => Size::Large,
        _ => Size::Small,
    };
    let unit = random.pick(&[
        1, 1, 2, 3, 5, 10, 60, 1_260, 2_520, 2_520, 5_040, 5_040, 5_040, 10_080, 1_000_000,
    ]);
    let durations = durations(random, size, unit);
    let mut starts = vec![0];
    let mut end = 0;
    for &duration in &durations {
        end += u64::from(duration);
        starts.push(end);
    }
    let mut tables = Tables {
        durations,
        ..Tables::default()
    };
    add_messages(random, size, &mut tables);
    let most_items = match size {
        Size::Small if random.percent(15) => random.between(1, 8),
        Size::Small => random.between(8, 80),
        Size::Large => random.between(100, 400),
        Size::Largest => MOST_ITEMS,
    };
    let mut writer = Writer {
        tables,
        unit,
        starts,
        dates: Vec::new(),
        most_items: most_items as usize,
        limit: 0,
        actions: 0,
        groups: random.pick(&[20, 35, 45, 55, 70]),
        widest: random.pick(&[2, 3, 4, 4, 6]),
        tight: random.pick(&[0, 50, 50, 50, 50, 80, 100]),
        words: random.pick(&[
            &[0, 1, 2, 3][..],
            &[0, 1, 2, 3],
            &[0, 1, 2, 3],
            &[1, 2, 3],
            &[1, 3],
            &[2, 3],
            &[1],
            &[2],
            &[3],
        ]),
        aims: random.pick(&[20, 50, 80]),
        zeros: random.pick(&[5, 15, 40]),
        random,
    };
    if !writer.random.percent(3) {
        writer.top();
    }
    Invented {
        tables: writer.tables,
        unit,
        starts: writer.starts,
        dates: writer.dates,
    }
}

fn durations(random: &mut Random, size: Size, unit: u64) -> Vec<u32> {
    let count = match size {
        Size::Largest => random.pick(&[MOST_EVENTS, MOST_EVENTS, 100, 3]),
        Size::Large => random.between(1, MOST_EVENTS),
        Size::Small => match random.below(100) {
            0..=4 => 1,
            5..=24 => random.between(2, 4),
            25..=69 => random.between(5, 12),
            70..=96 => random.between(13, 40),
            _ => random.between(41, MOST_EVENTS),
        },
    };
    let most = random.pick(&[1, 2, 4, 4]);
    let uneven = random.percent(20);
    let mut durations = Vec::new();
    for _ in 0..count {
        let duration = if random.below(400) == 0 {
            random.pick(&[1, u64::from(LONGEST_TIME)])
        } else if uneven {
            random.between(1, 2 * unit)
        } else {
            unit * random.between(1, most)
        };
        durations.push(duration as u32);
    }
    durations
}

fn add_messages(random: &mut Random, size: Size, tables: &mut Tables) {
    let count = match size {
        Size::Largest => random.pick(&[MOST_MESSAGES, MOST_MESSAGES, 100]),
        Size::Large => random.between(1, 200),
        Size::Small if random.percent(2) => 0,
        Size::Small => random.between(1, 20),
    };
    let alphabet = random.below(4);
    let longest = random.pick(&[1, 3, 3, 8, LONGEST_LABEL as u64]);
    for _ in 0..count {
        let length = if size == Size::Largest {
            LONGEST_LABEL as u64
        } else {
            random.between(1, longest)
        };
        let mut label = Vec::new();
        for _ in 0..length {
            label.push(label_byte(random, alphabet));
        }
        tables.add_message(&label);
    }
}

fn label_byte(random: &mut Random, alphabet: u64) -> u8 {
    let byte = match alphabet {
        0 => random.between(u64::from(b'a'), u64::from(b'z')),
        1 => random.between(128, 255),
        2 => random.pick(&[32, 126, 128, 255, 195, 169, 48]),
        _ => random.between(32, 255),
    };
    if byte == 127 {
        return 128;
    }
    byte as u8
}

/// Writes the item table from front to back.
struct Writer<'r> {
    random: &'r mut Random,
    tables: Tables,
    unit: u64,
    starts: Vec<u64>,
    dates: Vec<u64>,
    most_items: usize,
    /// How long the table may be after the sequence being written.
    limit: usize,
    actions: usize,
    /// Of 100 items, how many are groups.
    groups: u64,
    widest: u64,
    tight: u64,
    words: &'static [u8],
    aims: u64,
    zeros: u64,
}

impl Writer<'_> {
    fn top(&mut self) {
        let parts = self.parts();
        let events = self.tables.durations.len() as u64;
        // Front events get more, for they can be missed.
        let most = self.most_items as u64;
        let wanted = self.random.between(1, 1 + most.min(15)).max(most / 40);
        let mut places = Vec::new();
        for _ in 0..wanted {
            let mut event = self.random.between(1, events);
            if self.random.percent(50) {
                event = self.random.between(1, event);
            }
            places.push((event as u16, self.random.pick(&parts)));
        }
        places.sort_unstable();
        places.dedup();
        // A share each, or the first deep group would take all.
        let share = 4 + 3 * self.most_items / places.len();
        for (event, part) in places {
            let room = 1 + self.random.index(share);
            self.limit = (self.tables.items.len() + room).min(self.most_items);
            let mut date = self.starts[usize::from(event) - 1];
            for _ in 0..self.random.pick(&[1, 1, 2, 2, 3, 5, 20]) {
                date = self.item(date, 1, event, part);
            }
        }
    }

    fn parts(&mut self) -> Vec<u8> {
        let all: Vec<u8> = (0..=LAST_PART).collect();
        if self.random.percent(15) {
            return all;
        }
        let count = self.random.between(1, 4);
        (0..count).map(|_| self.random.pick(&all)).collect()
    }

    /// One item after `date`; gives its own date, from which the next counts.
    fn item(&mut self, date: u64, depth: usize, event: u16, part: u8) -> u64 {
        if self.tables.items.len() >= self.limit {
            return date;
        }
        let delay = self.delay(date);
        let date = date + u64::from(delay);
        let no_action = self.tables.messages.is_empty() || self.actions >= MOST_ACTIONS;
        let deepest = depth == DEEPEST;
        let group = if deepest {
            no_action || self.random.percent(5)
        } else {
            no_action || self.random.percent(self.groups)
        };
        let mut entry = Entry {
            kind: u8::from(group),
            part,
            delay,
            event,
            ..Entry::default()
        };
        if !group {
            entry.last = self.random.below(self.tables.messages.len() as u64) as u16;
            self.actions += 1;
            self.tables.items.push(entry);
            self.dates.push(date);
            return date;
        }
        entry.synchrony = u8::from(self.random.percent(self.tight));
        entry.error = self.random.pick(self.words);
        let index = self.tables.items.len();
        self.tables.items.push(entry);
        if !deepest && !self.random.percent(8) {
            let mut inner = date;
            for _ in 0..self.random.between(1, self.widest) {
                inner = self.item(inner, depth + 1, 0, part);
            }
        }
        let within = self.tables.items.len() - index - 1;
        self.tables.items[index].last = within as u16;
        date
    }

    fn delay(&mut self, date: u64) -> u32 {
        let delay = if self.random.percent(self.zeros) {
            0
        } else if self.random.percent(self.aims) {
            self.aimed(date)
        } else {
            match self.random.below(100) {
                0..=69 => self.unit * self.random.between(0, 4),
                70..=79 => (self.unit * self.random.between(1, 3)) + self.random.below(3) - 1,
                80..=93 => self.random.below(2 * self.unit + 1),
                94..=98 => {
                    // Beyond the last event's start.
                    let last = self.starts[self.starts.len() - 2];
                    last.saturating_sub(date) + self.unit * self.random.between(1, 3)
                }
                _ => u64::from(LONGEST_TIME) - self.random.below(2),
            }
        };
        delay.min(u64::from(LONGEST_TIME)) as u32
    }

    /// A delay that ends at the start of an event to come, or one grain beside;
    /// or the distance between two events, for groups that are heard elsewhere.
    fn aimed(&mut self, date: u64) -> u64 {
        let events = &self.starts[..self.starts.len() - 1];
        let target = if self.random.percent(70) {
            let next = events.partition_point(|&start| start < date);
            let left = events.len() - next;
            if left == 0 {
                return self.unit;
            }
            events[next + self.random.index(left.min(4))] - date
        } else {
            let from = self.random.index(events.len());
            let to = from + self.random.index((events.len() - from).min(4));
            events[to] - events[from]
        };
        match self.random.below(4) {
            0 => target + 1,
            1 => target.saturating_sub(1),
            _ => target,
        }
    }
}
