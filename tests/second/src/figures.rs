//! Random extended scores that unfold into an accepted file. What they unfold
//! into is counted here without unfolding them.

use crate::additions::{curve, group, looped};
use crate::extended::{Extended, Figure, Point, ACTION, CURVE, GROUP, LOOP, MOST_PASSES};
use crate::random::Random;
use crate::score::{
    Entry, DEEPEST, LAST_PART, LONGEST_LABEL, LONGEST_TIME, MOST_ACTIONS, MOST_EVENTS, MOST_ITEMS,
    MOST_MESSAGES,
};

/// An extended score, and how many items and actions it unfolds into.
pub struct Sketch {
    pub score: Extended,
    pub items: u64,
    pub actions: u64,
}

/// How large an unfolded score may become.
#[derive(Clone, Copy)]
pub struct Bounds {
    pub items: u64,
    pub actions: u64,
    /// Messages of the list, and values that may each need one.
    pub labels: u64,
    pub values: u64,
}

const SMALL: Bounds = Bounds {
    items: 120,
    actions: 80,
    labels: 12,
    values: 40,
};

/// No value needs a message, and no label can be one's.
const WITHOUT_CURVES: Bounds = Bounds { values: 0, ..SMALL };

/// A sound score of any size.
pub fn invent(random: &mut Random) -> Sketch {
    let bounds = match random.below(100) {
        0..=74 => SMALL,
        75..=94 => Bounds {
            items: 500,
            actions: 300,
            labels: 60,
            values: 150,
        },
        _ => {
            let labels = random.below(MOST_MESSAGES + 1);
            Bounds {
                items: MOST_ITEMS,
                actions: MOST_ACTIONS as u64,
                labels,
                values: MOST_MESSAGES - labels,
            }
        }
    };
    sketch(random, bounds)
}

/// A sound score that has each of the four kinds, and a curve of several points.
pub fn piece(random: &mut Random) -> Sketch {
    loop {
        let sketch = sketch(random, SMALL);
        let items = &sketch.score.items;
        let has = |kind: u8| items.iter().any(|item| item.entry.kind == kind);
        let several = |item: &Figure| item.points() > 1;
        if has(ACTION) && has(GROUP) && has(LOOP) && items.iter().any(several) {
            return sketch;
        }
    }
}

/// A small sound score to which something is added at the end.
pub fn base(random: &mut Random) -> Sketch {
    sketch(random, SMALL)
}

/// One in which every message is in the list, and none is a number's.
pub fn base_without_curves(random: &mut Random) -> Sketch {
    sketch(random, WITHOUT_CURVES)
}

pub fn sketch(random: &mut Random, bounds: Bounds) -> Sketch {
    let unit = random.pick(&[1, 2, 60, 1_260, 2_520, 5_040, 5_040, 10_080, 1_000_000]);
    let (low, high) = random.pick(&[
        (0, 9),
        (0, 127),
        (-9, 9),
        (-100, 100),
        (-30_000, -1),
        (i64::from(i32::MIN), i64::from(i32::MAX)),
        (i64::from(i32::MIN), i64::from(i32::MAX)),
    ]);
    let mut maker = Maker {
        sketch: Sketch {
            score: Extended::default(),
            items: 0,
            actions: 0,
        },
        bounds,
        limit: 0,
        values: 0,
        unit,
        low,
        high,
        kinds: random.pick(&[
            &[ACTION, GROUP, LOOP, CURVE][..],
            &[ACTION, ACTION, GROUP, LOOP, CURVE],
            &[ACTION, LOOP, LOOP, CURVE],
            &[ACTION, ACTION, LOOP],
            &[GROUP, CURVE, CURVE],
            &[LOOP, CURVE],
        ]),
        widest: random.pick(&[2, 3, 5]),
        random,
    };
    maker.durations();
    maker.top();
    maker.labels();
    maker.sketch
}

// ----------------------------------------------------------------- maker

/// Writes the item table from front to back, then the message list.
struct Maker<'r> {
    random: &'r mut Random,
    sketch: Sketch,
    bounds: Bounds,
    /// How many items there may be after the top items being written.
    limit: u64,
    /// Values so far, each counted once however often it is unfolded.
    values: u64,
    unit: u64,
    low: i64,
    high: i64,
    kinds: &'static [u8],
    widest: u64,
}

/// Where an item stands: its depth in the unfolded score, how often it is
/// unfolded, its event and its part.
#[derive(Clone, Copy)]
struct Spot {
    depth: usize,
    copies: u64,
    event: u16,
    part: u8,
}

impl Spot {
    fn within(self, depths: usize, passes: u64) -> Spot {
        Spot {
            depth: self.depth + depths,
            copies: self.copies * passes,
            event: 0,
            ..self
        }
    }
}

impl Maker<'_> {
    fn durations(&mut self) {
        let count = match self.random.below(100) {
            0..=3 => MOST_EVENTS,
            4..=19 => 1,
            20..=89 => self.random.between(2, 9),
            _ => self.random.between(10, 60),
        };
        for _ in 0..count {
            let duration = match self.random.below(50) {
                0 => self.random.pick(&[1, u64::from(LONGEST_TIME)]),
                _ => self.unit * self.random.between(1, 4),
            };
            self.sketch.score.durations.push(duration as u32);
        }
    }

    fn top(&mut self) {
        let events = self.sketch.score.durations.len() as u64;
        let mut places = Vec::new();
        for _ in 0..self.random.between(1, 6) {
            let event = self.random.between(1, events) as u16;
            let part = self.random.below(u64::from(LAST_PART) + 1) as u8;
            places.push((event, part));
        }
        places.sort_unstable();
        // A share each, or the first loop would take all.
        let share = 1 + 2 * self.bounds.items / places.len() as u64;
        for (event, part) in places {
            self.limit = self.bounds.items.min(self.sketch.items + share);
            for _ in 0..self.random.pick(&[1, 1, 2, 3, 8]) {
                self.item(Spot {
                    depth: 1,
                    copies: 1,
                    event,
                    part,
                });
            }
        }
    }

    /// Counts what an item comes to; false, and nothing counted, if it is too much.
    fn afford(&mut self, items: u64, actions: u64) -> bool {
        let items = self.sketch.items + items;
        let actions = self.sketch.actions + actions;
        if items > self.limit || actions > self.bounds.actions {
            return false;
        }
        self.sketch.items = items;
        self.sketch.actions = actions;
        true
    }

    fn item(&mut self, spot: Spot) {
        match self.random.pick(self.kinds) {
            ACTION => self.action(spot),
            GROUP => self.group(spot),
            LOOP => self.looped(spot),
            _ => self.curve(spot),
        }
    }

    fn push(&mut self, spot: Spot, figure: Figure) {
        let delay = self.delay();
        let entry = Entry {
            part: spot.part,
            event: spot.event,
            delay,
            ..figure.entry
        };
        self.sketch.score.items.push(Figure { entry, ..figure });
    }

    fn delay(&mut self) -> u32 {
        let delay = match self.random.below(100) {
            0..=34 => 0,
            35..=89 => self.unit * self.random.between(1, 4),
            90..=96 => self.random.below(self.unit + 1),
            _ => u64::from(LONGEST_TIME) - self.random.below(2),
        };
        delay.min(u64::from(LONGEST_TIME)) as u32
    }

    fn action(&mut self, spot: Spot) {
        if self.afford(spot.copies, spot.copies) {
            self.push(spot, Figure::default());
        }
    }

    fn group(&mut self, spot: Spot) {
        if self.afford(spot.copies, 0) {
            let figure = group(self.random);
            self.push(spot, figure);
            self.body(spot.within(1, 1));
        }
    }

    fn looped(&mut self, spot: Spot) {
        let passes = match self.random.below(100) {
            0..=79 => self.random.between(1, 4),
            80..=94 => self.random.between(5, 20),
            95..=97 => self.random.between(21, u64::from(MOST_PASSES)),
            _ => u64::from(MOST_PASSES),
        };
        if spot.depth == DEEPEST || !self.afford(spot.copies * (1 + passes), 0) {
            return;
        }
        let figure = Figure {
            each: self.delay(),
            ..looped(self.random, passes as u16)
        };
        self.push(spot, figure);
        self.body(spot.within(2, passes));
    }

    /// What the last item holds, and how much that is.
    fn body(&mut self, spot: Spot) {
        let holder = self.sketch.score.items.len() - 1;
        if spot.depth <= DEEPEST && !self.random.percent(5) {
            for _ in 0..self.random.between(1, self.widest) {
                self.item(spot);
            }
        }
        let within = self.sketch.score.items.len() - holder - 1;
        self.sketch.score.items[holder].entry.last = within as u16;
    }

    fn curve(&mut self, spot: Spot) {
        let step = self.step();
        let points = self.points(step);
        let values = count(&points, step);
        let enough = self.values + values > self.bounds.values;
        if enough || spot.depth == DEEPEST {
            return;
        }
        if self.afford(spot.copies * (1 + values), spot.copies * values) {
            self.values += values;
            let figure = curve(self.random, step, points.len());
            self.push(spot, figure);
            self.sketch.score.points.extend(points);
        }
    }

    fn step(&mut self) -> u32 {
        let step = match self.random.below(10) {
            0 => 1,
            1 => u64::from(LONGEST_TIME),
            2 => self.random.between(1, u64::from(LONGEST_TIME)),
            3..=5 => self.random.pick(&[2, 3, 7, 60, 630, 1_260]),
            _ => self.unit,
        };
        step as u32
    }

    /// A curve's points, the last with span 0.
    fn points(&mut self, step: u32) -> Vec<Point> {
        let most = self.random.pick(&[2, 3, 7, 7, 13, 60]);
        let mut points = Vec::new();
        let mut value = self.value(0);
        for _ in 0..self.random.pick(&[0, 1, 1, 1, 2, 2, 3, 5]) {
            let steps = self.random.between(1, most) as u32;
            let span = steps * step;
            points.push(Point { value, span });
            value = self.value(value);
        }
        points.push(Point { value, span: 0 });
        points
    }

    fn value(&mut self, before: i32) -> i32 {
        let width = (self.high - self.low) as u64;
        let any = self.low + self.random.below(width + 1) as i64;
        match self.random.below(20) {
            0..=1 => before,
            2 => before.wrapping_add(1),
            3 => before.wrapping_sub(1),
            4 => self.random.pick(&[i32::MIN, i32::MIN + 1, -10, -1]),
            5 => self.random.pick(&[i32::MAX, i32::MAX - 1, 0, 1, 10]),
            _ => any as i32,
        }
    }

    /// The list, with some of the values in it and some that only look like them;
    /// then each action's message.
    fn labels(&mut self) {
        for _ in 0..self.random.below(self.bounds.labels + 1) {
            let label = self.label();
            self.sketch.score.add_message(&label);
        }
        let known = known_messages(&self.sketch.score);
        for item in &mut self.sketch.score.items {
            if item.entry.kind == ACTION && known > 0 {
                item.entry.last = self.random.below(known) as u16;
            } else if item.entry.kind == ACTION {
                // An empty group stands for an action that has no message.
                item.entry.kind = GROUP;
                item.entry.last = 0;
            }
        }
        if known == 0 {
            self.sketch.actions = 0;
        }
    }

    fn label(&mut self) -> Vec<u8> {
        let points = &self.sketch.score.points;
        if points.is_empty() || self.random.percent(40) {
            return word(self.random);
        }
        let index = self.random.index(points.len());
        let next = (index + 1).min(points.len() - 1);
        let (one, other) = (points[index].value, points[next].value);
        let (low, high) = (i64::from(one.min(other)), i64::from(one.max(other)));
        let between = low + self.random.below((high - low + 1) as u64) as i64;
        let value = self.random.pick(&[between, between, i64::from(one)]);
        if self.random.percent(60) {
            return value.to_string().into_bytes();
        }
        looks_like(self.random, value)
    }
}

// ---------------------------------------------------------------- pieces

/// How many values the points give.
fn count(points: &[Point], step: u32) -> u64 {
    let steps = points.iter().map(|point| u64::from(point.span / step));
    steps.sum::<u64>() + 1
}

/// A label that is no number.
pub fn word(random: &mut Random) -> Vec<u8> {
    let alphabet: &[u8] = random.pick(&[&b"abcxyz"[..], b"a0 -+9", b"\x80\xff\xe9 ~", b"-1"]);
    let longest = random.pick(&[1, 3, 8, LONGEST_LABEL as u64]);
    let length = random.between(1, longest);
    let mut label: Vec<u8> = (0..length).map(|_| random.pick(alphabet)).collect();
    label[0] = random.pick(b"az\xff+");
    label
}

/// A label with a number's digits that is none of the numbers' own: '007', '-0'.
fn looks_like(random: &mut Random, value: i64) -> Vec<u8> {
    let size = value.unsigned_abs();
    let label = match random.below(9) {
        0 => format!("0{size}"),
        1 => format!("00{size}"),
        2 => format!("+{size}"),
        3 => format!(" {value}"),
        4 => format!("{value} "),
        5 => format!("-0{size}"),
        6 => format!("--{size}"),
        7 => format!("{value}.0"),
        _ => String::from("-0"),
    };
    label.into_bytes()
}

/// Messages that the unfolded list has at the least: a point's value is always
/// one of its curve's.
fn known_messages(score: &Extended) -> u64 {
    let labels: Vec<&[u8]> = (0..score.messages.len())
        .map(|number| {
            let (start, length) = score.messages[number];
            let start = usize::from(start);
            &score.text[start..start + usize::from(length)]
        })
        .collect();
    let mut values: Vec<i32> = score.points.iter().map(|point| point.value).collect();
    values.sort_unstable();
    values.dedup();
    values.retain(|value| !labels.contains(&value.to_string().as_bytes()));
    (labels.len() + values.len()) as u64
}
