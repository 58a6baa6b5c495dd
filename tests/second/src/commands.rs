//! Random command lists for a score: heard notes with skipped events, passing
//! time that reaches many due dates, refused calls and unreadable lines.

use crate::random::Random;
use crate::scores::Invented;
use crate::session::{FASTEST, LONGEST_WAIT};

pub fn invent(random: &mut Random, score: &Invented) -> Vec<u8> {
    let count = if score.tables.items.len() > 500 {
        random.between(30, 60)
    } else if random.percent(80) {
        random.between(30, 120)
    } else {
        random.between(120, 300)
    };
    let mut listener = Listener::new(random, score, count);
    let lines = match listener.random.below(200) {
        0 => Vec::new(),
        1 => return Vec::new(),
        2..=3 => vec![listener.other_first_line()],
        4..=7 => vec![listener.unreadable_opening()],
        8..=10 => vec![listener.refused_opening()],
        _ => vec![listener.opening()],
    };
    listener.input(lines, count)
}

/// Commands that hear these events, as far as the list goes, and no others. The
/// opening may have a bad tempo.
pub fn hearing(random: &mut Random, score: &Invented, events: Vec<u64>, bad: bool) -> Vec<u8> {
    let count = random.between(20, 50) + 3 * events.len() as u64;
    let mut listener = Listener {
        planned: Some(events),
        ..Listener::new(random, score, count)
    };
    let opening = if bad {
        listener.refused_opening()
    } else {
        listener.opening()
    };
    listener.input(vec![opening], count)
}

struct Listener<'r> {
    random: &'r mut Random,
    score: &'r Invented,
    events: u64,
    last: u64,
    tempo: u64,
    clock: u64,
    /// The clock at each heard event.
    heard: Vec<(usize, u64)>,
    /// How far the clock should move at a call, to reach the piece's end.
    step: u64,
    odd_lines: u64,
    skips: u64,
    /// The events to be heard, where that is settled beforehand.
    planned: Option<Vec<u64>>,
}

impl<'r> Listener<'r> {
    fn new(random: &'r mut Random, score: &'r Invented, count: u64) -> Listener<'r> {
        let end = score.starts[score.starts.len() - 1];
        let farthest = score.dates.iter().copied().max().unwrap_or(0);
        let span = farthest.min(3 * end) + end / 2 + score.unit;
        let events = score.tables.durations.len() as u64;
        let mut listener = Listener {
            events,
            last: 0,
            tempo: 1,
            clock: 0,
            heard: Vec::new(),
            step: (1_000 * span / count).max(1),
            odd_lines: random.pick(&[0, 4, 8, 15]),
            skips: random.pick(&[5, 40, 60, 80]),
            planned: None,
            random,
            score,
        };
        listener.tempo = listener.next_tempo();
        listener
    }

    /// These lines and more, up to `count`, as they are read.
    fn input(&mut self, mut lines: Vec<Vec<u8>>, count: u64) -> Vec<u8> {
        while (lines.len() as u64) < count {
            let left = count - lines.len() as u64;
            let line = self.line(left);
            lines.push(line);
        }
        let mut input = lines.join(&b'\n');
        match self.random.below(20) {
            0..=3 => {}
            4 => input.extend_from_slice(b"\n\n"),
            _ => input.push(b'\n'),
        }
        input
    }

    fn line(&mut self, left: u64) -> Vec<u8> {
        if self.random.percent(self.odd_lines) {
            return if self.random.percent(55) {
                self.refused()
            } else {
                self.unreadable()
            };
        }
        let events_left = self.events_left();
        // Heard notes come rather in the list's front half, so that what they
        // set going falls due before its end.
        let chance = (250 * events_left / (left + 1)).clamp(4, 60);
        if events_left > 0 && self.random.percent(chance) {
            self.heard_note(left)
        } else {
            self.passing_time()
        }
    }

    // ----------------------------------------------------- granted calls

    fn opening(&mut self) -> Vec<u8> {
        let parts = self.parts();
        let tempo = self.tempo;
        self.words('O', &[parts, tempo])
    }

    fn parts(&mut self) -> u64 {
        match self.random.below(100) {
            0..=54 => 65_535,
            55..=58 => 0,
            59..=69 => self.random.below(65_536),
            _ => {
                // Most of the parts that the score uses, some of the others.
                let mut used = 0;
                for item in &self.score.tables.items {
                    used |= 1 << item.part;
                }
                let some = self.random.below(65_536);
                let most = some | self.random.below(65_536);
                (used & most) | (!used & some & 65_535)
            }
        }
    }

    fn heard_note(&mut self, left: u64) -> Vec<u8> {
        let event = self.next_event(left);
        if !self.random.percent(25) {
            self.tempo = self.next_tempo();
        }
        self.last = event;
        self.heard.push((event as usize, self.clock));
        let tempo = self.tempo;
        self.words('H', &[event, tempo])
    }

    fn events_left(&self) -> u64 {
        match &self.planned {
            Some(events) => events.iter().filter(|event| **event > self.last).count() as u64,
            None => self.events - self.last,
        }
    }

    fn next_event(&mut self, left: u64) -> u64 {
        if let Some(events) = &self.planned {
            let next = events.iter().find(|event| **event > self.last);
            return next.copied().unwrap_or(self.events);
        }
        let events_left = self.events - self.last;
        let crowd = 2 * events_left / (left + 1);
        let mut skipped = self.random.between(0, crowd);
        if self.random.percent(self.skips) {
            skipped += match self.random.below(10) {
                0..=5 => 1,
                6..=8 => self.random.between(1, 3),
                _ => self.random.below(events_left),
            };
        }
        (self.last + 1 + skipped).min(self.events)
    }

    /// A tempo at which steps of 1 to 1,000 ms go as far as wanted.
    fn next_tempo(&mut self) -> u64 {
        let low = (self.step / 1_000).clamp(1, FASTEST);
        let high = self.step.clamp(low, FASTEST);
        let unit = self.score.unit;
        let tempo = match self.random.below(10) {
            0..=3 => {
                // Even over the orders of magnitude.
                let mut tempo = low;
                while tempo * 2 < high && self.random.percent(70) {
                    tempo *= 2;
                }
                self.random.between(tempo, (2 * tempo).min(high).max(tempo))
            }
            4..=7 => {
                let choices = [unit, 2 * unit, unit / 2, unit / 5, 10 * unit, 4 * unit];
                self.random.pick(&choices).clamp(low, high)
            }
            8 => self.random.pick(&[1, 5_040, 2_520, 10_080, FASTEST]),
            _ => self.random.between(low, high),
        };
        tempo.clamp(1, FASTEST)
    }

    fn passing_time(&mut self) -> Vec<u8> {
        let spread = self.random.below(2 * self.step / self.tempo + 2);
        let milliseconds = match self.random.below(100) {
            0..=39 => self.aimed().unwrap_or(spread),
            40..=54 => self
                .random
                .pick(&[1, 1, 10, 100, 125, 250, 500, 999, 1_000]),
            _ => spread,
        };
        let milliseconds = milliseconds.clamp(1, LONGEST_WAIT);
        self.clock += milliseconds * self.tempo;
        self.words('T', &[milliseconds])
    }

    /// The milliseconds to a date that is likely to be due, or one fewer.
    fn aimed(&mut self) -> Option<u64> {
        if self.heard.is_empty() || self.score.dates.is_empty() {
            return None;
        }
        let mut nearest = None;
        for _ in 0..8 {
            let back = self.random.pick(&[0, 0, 1, 2, 5]).min(self.heard.len() - 1);
            let (event, clock) = self.heard[self.heard.len() - 1 - back];
            let date = self.random.pick(&self.score.dates);
            let earlier = 1 + self.random.index(event);
            let from = self.random.pick(&[event, event, earlier]);
            let Some(delay) = date.checked_sub(self.score.starts[from - 1]) else {
                continue;
            };
            let due = clock + 1_000 * delay;
            if due > self.clock && nearest.is_none_or(|other| due < other) {
                nearest = Some(due);
            }
        }
        let milliseconds = (nearest? - self.clock).div_ceil(self.tempo);
        Some(milliseconds - self.random.pick(&[0, 0, 1]))
    }

    /// A letter and numbers; now and then with leading zeros.
    fn words(&mut self, letter: char, numbers: &[u64]) -> Vec<u8> {
        let mut line = String::from(letter);
        for number in numbers {
            let width = if self.random.percent(4) {
                self.random.index(11)
            } else {
                0
            };
            line.push_str(&format!(" {number:0width$}"));
        }
        line.into_bytes()
    }

    // ----------------------------------------------------- refused calls

    fn bad_tempo(&mut self) -> u64 {
        self.random.pick(&[
            0,
            0,
            50_401,
            50_401,
            65_536,
            70_576,
            4_294_967_296,
            4_294_972_336,
            9_999_999_999,
        ])
    }

    fn bad_event(&mut self) -> u64 {
        let (last, events) = (self.last, self.events);
        match self.random.below(10) {
            0..=1 => 0,
            2..=3 => events + 1,
            4..=5 => last,
            6 => self.random.between(1, last.max(1)).min(last),
            7 => {
                self.random.pick(&[
                    256,
                    257,
                    258,
                    65_536,
                    65_537,
                    4_294_967_296,
                    4_294_967_297,
                    9_999_999_999,
                ]) + last % 2
            }
            8 => 65_536 + last + 1,
            _ => 4_294_967_296 + last + 1,
        }
    }

    /// A heard note or passing time that has something wrong; where the number
    /// happens to be right after all it is left out.
    fn refused(&mut self) -> Vec<u8> {
        let next = (self.last + 1).min(self.events);
        let tempo = self.next_tempo();
        match self.random.below(10) {
            0..=3 => {
                let event = self.bad_event();
                if event > self.last && event <= self.events {
                    return self.words('T', &[0]);
                }
                self.words('H', &[event, tempo])
            }
            4..=5 => {
                let tempo = self.bad_tempo();
                self.words('H', &[next, tempo])
            }
            6 => {
                // Two faults: their order shows.
                let (event, tempo) = (self.bad_event(), self.bad_tempo());
                self.words('H', &[event, tempo])
            }
            _ => {
                let milliseconds = self.random.pick(&[
                    0,
                    0,
                    1_001,
                    1_001,
                    1_002,
                    65_536,
                    65_537,
                    4_294_967_297,
                    9_999_999_999,
                ]);
                self.words('T', &[milliseconds])
            }
        }
    }

    fn refused_opening(&mut self) -> Vec<u8> {
        let (parts, tempo) = (self.parts(), self.bad_tempo());
        self.words('O', &[parts, tempo])
    }

    // -------------------------------------------------- unreadable lines

    fn other_first_line(&mut self) -> Vec<u8> {
        self.random
            .pick(&[&b""[..], b"H 1 5040", b"T 1000", b"T 0", b"O"])
            .to_vec()
    }

    fn unreadable_opening(&mut self) -> Vec<u8> {
        if self.random.percent(40) {
            let parts = self.random.pick(&[
                65_536,
                65_537,
                131_071,
                4_294_967_295,
                4_294_967_297,
                9_999_999_999,
            ]);
            let tempo = self.tempo;
            return self.words('O', &[parts, tempo]);
        }
        let line = self.opening();
        self.spoil(line)
    }

    fn unreadable(&mut self) -> Vec<u8> {
        match self.random.below(10) {
            // Readable, but out of turn.
            0 => self.opening(),
            1 => self.random_line(),
            _ => {
                let (event, tempo) = ((self.last + 1).min(self.events), self.tempo);
                let line = if self.random.percent(50) {
                    format!("H {event} {tempo}")
                } else {
                    format!("T {}", self.random.between(1, LONGEST_WAIT))
                };
                self.spoil(line.into_bytes())
            }
        }
    }

    fn random_line(&mut self) -> Vec<u8> {
        if self.random.percent(10) {
            let length = self.random.between(300, 3_000);
            return [&b"T "[..], &vec![b'1'; length as usize]].concat();
        }
        let length = self.random.between(1, 20);
        (0..length)
            .map(|_| match self.random.below(256) as u8 {
                b'\n' => 0,
                byte => byte,
            })
            .collect()
    }

    /// A good line made unreadable in one of the ways that are named.
    fn spoil(&mut self, mut line: Vec<u8>) -> Vec<u8> {
        let space = line.iter().position(|&byte| byte == b' ').unwrap_or(0);
        match self.random.below(22) {
            0 => line.clear(),
            1 => line.push(b'\r'),
            2 => line[space] = b'\t',
            3 => line.insert(space, b' '),
            4 => line.insert(0, b' '),
            5 => line.push(b' '),
            6 => line.insert(space + 1, b'-'),
            7 => line.insert(space + 1, b'+'),
            8 => line[0] = line[0].to_ascii_lowercase(),
            9 => {
                let place = self.random.index(line.len() + 1);
                line.insert(place, 0);
            }
            10 => {
                // Eleven digits.
                while line.len() < space + 12 || line[space + 1..space + 12].contains(&b' ') {
                    line.insert(space + 1, b'0');
                }
            }
            11 => {
                let last = line.iter().rposition(|&byte| byte == b' ').unwrap_or(0);
                line.truncate(last);
            }
            12 => line.extend_from_slice(b" 1"),
            13 => line.push(self.random.pick(b"abxOHT.,;:_")),
            14 => line[0] = self.random.pick(b"XQS0IoR"),
            15 => {
                line.remove(space);
            }
            16 => line.push(self.random.between(128, 255) as u8),
            17 => line.truncate(1),
            18 => line.truncate(space + 1),
            19 => line.push(self.random.pick(&[b'\t', 11, 12, 0])),
            20 => {
                let last = line.len() - 1;
                line.insert(last, b' ');
                line.insert(last, b' ');
            }
            _ => line.extend_from_slice(self.random.pick(&[&b".0"[..], b"e1", b"x1"])),
        }
        line
    }
}
