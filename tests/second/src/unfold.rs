//! The ordinary file that an extended score unfolds into. Sizes are found first;
//! then the real tree of groups, passes and values is built and laid out.

use crate::extended::{self, fault, Extended, Fault, Figure, Point, Why, ACTION, CURVE, GROUP};
use crate::mutant;
use crate::score::{
    self, Entry, Tables, DEEPEST, MOST_ACTIONS, MOST_EVENTS, MOST_ITEMS, MOST_MESSAGES, MOST_TEXT,
};
use crate::text::FILE_ROOM;

/// The file that is written into the lent room, or the refusal: 2, 17, 18, then
/// the unfolded file's own check.
pub fn unfold(input: &[u8], room: usize) -> Result<Vec<u8>, Fault> {
    if room < FILE_ROOM {
        return Err(fault(2, 0, Why::Room));
    }
    let score = extended::tables(input)?;
    if mutant::is(mutant::LIMITS_BEFORE_FAULTS) {
        contents_in_limits(&score)?;
    }
    score.check_items()?;
    contents_in_limits(&score)?;
    sizes_in_limits(&score)?;
    let tables = unfolded(&score);
    list_in_limits(&tables.messages, &tables.text)?;
    let file = tables.encode();
    match score::check(&file) {
        (0, _) => Ok(file),
        (number, place) => Err(fault(number, place, Why::File)),
    }
}

// ---------------------------------------------------------------- limits

fn past_a_limit(why: Why) -> Result<(), Fault> {
    Err(fault(18, 0, why))
}

/// What the contents tell of the unfolded score. Every item becomes at least one.
fn contents_in_limits(score: &Extended) -> Result<(), Fault> {
    let events = score.durations.len() as u64;
    if !(1..=MOST_EVENTS).contains(&events) {
        return past_a_limit(Why::Events);
    }
    if score.items.len() as u64 > MOST_ITEMS {
        return past_a_limit(Why::Items);
    }
    list_in_limits(&score.messages, &score.text)
}

fn list_in_limits(messages: &[(u16, u16)], text: &[u8]) -> Result<(), Fault> {
    if messages.len() as u64 > MOST_MESSAGES {
        return past_a_limit(Why::Messages);
    }
    if text.len() as u64 > MOST_TEXT {
        return past_a_limit(Why::Text);
    }
    Ok(())
}

/// How many items and actions a stretch of the page unfolds into, and how many
/// depths.
#[derive(Clone, Copy, Default)]
struct Size {
    items: i128,
    actions: i128,
    depths: usize,
}

/// Far past every limit, so that a size that is still larger needn't be told.
const FAR: i128 = 1 << 40;

impl Size {
    /// Two stretches, one after the other.
    fn and(self, next: Size) -> Size {
        Size {
            items: (self.items + next.items).min(FAR),
            actions: (self.actions + next.actions).min(FAR),
            depths: self.depths.max(next.depths),
        }
    }

    /// A group around it.
    fn held(self) -> Size {
        Size {
            items: (1 + self.items).min(FAR),
            actions: self.actions,
            depths: self.depths + 1,
        }
    }

    /// The same so many times over, at least once.
    fn repeated(self, times: u16) -> Size {
        Size {
            items: (i128::from(times) * self.items).min(FAR),
            actions: (i128::from(times) * self.actions).min(FAR),
            depths: self.depths,
        }
    }
}

/// From back to front, so that what an item holds has its size before it.
fn sizes_in_limits(score: &Extended) -> Result<(), Fault> {
    let first_points = score.first_points();
    let mut sizes = vec![Size::default(); score.items.len()];
    for index in (0..score.items.len()).rev() {
        let item = &score.items[index];
        let body = stretch(score, &sizes, index + 1, index + 1 + item.within());
        let first = first_points[index];
        sizes[index] = match item.entry.kind {
            ACTION => row_of_actions(1),
            GROUP => body.held(),
            CURVE => {
                let points = &score.points[first..first + item.points()];
                row_of_actions(count_of_values(points, item.each)).held()
            }
            _ => body.held().repeated(item.times).held(),
        };
    }
    let whole = stretch(score, &sizes, 0, score.items.len());
    if whole.items > i128::from(MOST_ITEMS) {
        return past_a_limit(Why::Items);
    }
    if whole.actions > MOST_ACTIONS as i128 {
        return past_a_limit(Why::Actions);
    }
    if whole.depths > DEEPEST && !mutant::is(mutant::DEPTH_NOT_COUNTED) {
        return past_a_limit(Why::Depth);
    }
    Ok(())
}

/// The items from `index` up to `end`, each with what lies within it.
fn stretch(score: &Extended, sizes: &[Size], mut index: usize, end: usize) -> Size {
    let mut size = Size::default();
    while index < end {
        size = size.and(sizes[index]);
        index += 1 + score.items[index].within();
    }
    size
}

fn row_of_actions(count: i128) -> Size {
    Size {
        items: count.min(FAR),
        actions: count.min(FAR),
        depths: usize::from(count > 0),
    }
}

// ---------------------------------------------------------------- values

/// "for j from 0 to below the span's end; the last point closes the curve"
fn count_of_values(points: &[Point], step: u32) -> i128 {
    let spans = points[..points.len() - 1].iter();
    let steps = spans.map(|point| i128::from(point.span / step));
    let closing = i128::from(!mutant::is(mutant::LAST_POINT_LEFT_OUT));
    steps.sum::<i128>() + closing
}

fn values(points: &[Point], step: u32) -> Vec<i128> {
    let mut values = Vec::new();
    for pair in points.windows(2) {
        let (v, w) = (i128::from(pair[0].value), i128::from(pair[1].value));
        let (step, d) = (i128::from(step), i128::from(pair[0].span));
        let mut j = 0;
        while j * step < d {
            values.push(v + floor(j * step * (w - v), d));
            j += 1;
        }
    }
    if !mutant::is(mutant::LAST_POINT_LEFT_OUT) {
        values.push(i128::from(points[points.len() - 1].value));
    }
    values
}

/// "floor goes down, below 0 too"; `d` is above 0.
fn floor(product: i128, d: i128) -> i128 {
    if mutant::is(mutant::ROUNDED_TOWARDS_ZERO) {
        return product / d;
    }
    product.div_euclid(d)
}

// ------------------------------------------------------------------ tree

/// An action, or a group and what it holds.
struct Node {
    entry: Entry,
    body: Vec<Node>,
}

impl Node {
    fn group(entry: Entry, body: Vec<Node>) -> Node {
        let entry = Entry {
            kind: GROUP,
            ..entry
        };
        Node { entry, body }
    }

    fn action(entry: Entry) -> Node {
        let body = Vec::new();
        Node { entry, body }
    }

    /// Into the item table, with how many items then lie within it.
    fn lay_out(&self, items: &mut Vec<Entry>) {
        let index = items.len();
        items.push(self.entry);
        for node in &self.body {
            node.lay_out(items);
        }
        if self.entry.kind == GROUP {
            items[index].last = (items.len() - index - 1) as u16;
        }
    }
}

/// A score within its limits, so that the recursion is shallow.
fn unfolded(score: &Extended) -> Tables {
    let mut unfolding = Unfolding {
        score,
        first_points: score.first_points(),
        messages: score.messages.clone(),
        text: score.text.clone(),
    };
    let nodes = unfolding.body(0, score.items.len());
    let mut items = Vec::new();
    for node in nodes {
        node.lay_out(&mut items);
    }
    Tables {
        durations: score.durations.clone(),
        items,
        messages: unfolding.messages,
        text: unfolding.text,
    }
}

struct Unfolding<'s> {
    score: &'s Extended,
    first_points: Vec<usize>,
    /// The list as it stands.
    messages: Vec<(u16, u16)>,
    text: Vec<u8>,
}

impl Unfolding<'_> {
    /// The items from `index` up to `end`, unfolded in page order.
    fn body(&mut self, mut index: usize, end: usize) -> Vec<Node> {
        let mut nodes = Vec::new();
        while index < end {
            nodes.push(self.node(index));
            index += 1 + self.score.items[index].within();
        }
        nodes
    }

    fn node(&mut self, index: usize) -> Node {
        let item = self.score.items[index];
        let end = index + 1 + item.within();
        match item.entry.kind {
            ACTION => Node::action(item.entry),
            GROUP => Node::group(item.entry, self.body(index + 1, end)),
            CURVE => Node::group(item.entry, self.curve(index, item)),
            _ => {
                let passes = (0..item.times).map(|pass| self.pass(index, item, pass));
                Node::group(item.entry, passes.collect())
            }
        }
    }

    /// "the first with delay 0, the others with the period, each with the loop's
    /// body unfolded"
    fn pass(&mut self, index: usize, item: Figure, pass: u16) -> Node {
        let mut body = self.body(index + 1, index + 1 + item.within());
        let mut delay = if pass == 0 { 0 } else { item.each };
        if mutant::is(mutant::PERIOD_INSIDE_THE_PASS) {
            if let Some(first) = body.first_mut() {
                first.entry.delay = first.entry.delay.saturating_add(delay);
            }
            delay = 0;
        }
        let entry = Entry {
            delay,
            event: 0,
            ..item.entry
        };
        Node::group(entry, body)
    }

    /// "of actions: the first with delay 0, the others with the step"
    fn curve(&mut self, index: usize, item: Figure) -> Vec<Node> {
        let first = self.first_points[index];
        let points = &self.score.points[first..first + item.points()];
        let mut nodes = Vec::new();
        for (step, value) in values(points, item.each).into_iter().enumerate() {
            nodes.push(Node::action(Entry {
                kind: ACTION,
                part: item.entry.part,
                delay: if step == 0 { 0 } else { item.each },
                last: self.message(value),
                ..Entry::default()
            }));
        }
        nodes
    }

    /// "the first one of the list, as it then stands, with just those bytes; else it
    /// is added at the end"
    fn message(&mut self, value: i128) -> u16 {
        let label = value.to_string().into_bytes();
        let mut known = self.messages.len();
        if mutant::is(mutant::ONLY_OLD_MESSAGES_FOUND) {
            known = self.score.messages.len();
        }
        let found = (0..known).find(|&number| self.label(number) == Some(&label[..]));
        if let Some(number) = found {
            return number as u16;
        }
        self.messages
            .push((self.text.len() as u16, label.len() as u16));
        self.text.extend(label);
        (self.messages.len() - 1) as u16
    }

    /// None for an entry that doesn't lie within the text as it stands.
    fn label(&self, number: usize) -> Option<&[u8]> {
        let (start, length) = self.messages[number];
        let start = usize::from(start);
        self.text.get(start..start + usize::from(length))
    }
}
