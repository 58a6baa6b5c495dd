//! The check of the item table, group by group: every way in which an item is
//! against the rules, in the order in which request (vi) has them checked, and the
//! number and place that are replied.

use crate::mutant;
use crate::score::{Entry, DEEPEST, ITEM_BYTES, LAST_PART, LONGEST_TIME, MOST_ACTIONS};

// ------------------------------------------------------------------ ways

/// A way to break a rule. They stand in the order in which the rules are checked.
#[derive(Clone, Copy, PartialEq, Debug)]
pub enum Way {
    Kind,
    Synchrony,
    ErrorWord,
    PartAbove15,
    PartNotItsGroups,
    Delay,
    EventZero,
    EventAboveLast,
    EventNotZeroWithin,
    EventFalls,
    PartFalls,
    TooDeep,
    Overruns,
    Message,
    TooMany,
}

impl Way {
    /// The number that stands for the rule: "20 to 27 in that order".
    pub fn rule(self) -> u64 {
        match self {
            Way::PartNotItsGroups if mutant::is(mutant::GROUPS_PART_IS_NESTING) => 25,
            Way::PartFalls if mutant::is(mutant::PARTS_FALL_BY_PART) => 22,
            Way::Kind => 20,
            Way::Synchrony | Way::ErrorWord => 21,
            Way::PartAbove15 | Way::PartNotItsGroups => 22,
            Way::Delay => 23,
            Way::EventZero
            | Way::EventAboveLast
            | Way::EventNotZeroWithin
            | Way::EventFalls
            | Way::PartFalls => 24,
            Way::TooDeep | Way::Overruns => 25,
            Way::Message => 26,
            Way::TooMany => 27,
        }
    }

    /// When its rule is checked.
    fn turn(self) -> u64 {
        match self.rule() {
            23 if mutant::is(mutant::EVENT_BEFORE_DELAY) => 24,
            24 if mutant::is(mutant::EVENT_BEFORE_DELAY) => 23,
            rule => rule,
        }
    }

    /// The byte of the item that is replied: "21 at the synchrony byte where that is
    /// wrong, else at the error byte", "the 1,025th action 27 at the item's first
    /// byte".
    fn byte(self) -> usize {
        match self.rule() {
            _ if mutant::is(mutant::PLACE_IS_THE_ITEM) => 0,
            20 => 0,
            21 if self == Way::Synchrony || mutant::is(mutant::WORDS_AT_SYNCHRONY) => 1,
            21 => 2,
            22 => 3,
            23 => 4,
            24 => 8,
            25 | 26 => 10,
            _ if mutant::is(mutant::NUMBER_OF_ACTIONS_AT_LAST) => 10,
            _ => 0,
        }
    }

    /// Number, and byte of the item.
    fn reply(self) -> (u64, usize) {
        let overrun = self == Way::Overruns && mutant::is(mutant::OVERRUN_IS_SEVEN);
        if overrun || mutant::is(mutant::ITEMS_GET_SEVEN) {
            return (7, 0);
        }
        (self.rule(), self.byte())
    }
}

// ----------------------------------------------------------------- check

/// An item at fault, and every way in which it is, in their order.
pub struct AtFault {
    pub index: usize,
    pub depth: usize,
    pub ways: Vec<Way>,
}

/// Number and place in the item table: "The first item at fault decides, then the
/// first rule broken."
pub fn reply(at_fault: &[AtFault]) -> Option<(u64, usize)> {
    let item = if mutant::is(mutant::RULE_BEFORE_ITEM) {
        at_fault.iter().min_by_key(|item| item.ways[0].turn())
    } else {
        at_fault.first()
    }?;
    let (number, byte) = item.ways[0].reply();
    Some((number, ITEM_BYTES * item.index + byte))
}

/// The items at fault in page order. The first of them decides; those after it are
/// told as well as they can be.
pub fn at_fault(items: &[Entry], events: usize, messages: usize) -> Vec<AtFault> {
    let mut checker = Checker {
        items,
        events,
        messages,
        actions: 0,
        before: (0, 0),
        found: Vec::new(),
    };
    checker.body(
        0,
        Holder {
            part: None,
            end: items.len(),
            depth: 1,
        },
    );
    checker.found
}

/// What holds an item: a group, or the table itself.
#[derive(Clone, Copy)]
struct Holder {
    /// A group's part.
    part: Option<u8>,
    /// The index after the last item within.
    end: usize,
    /// The depth of the items within.
    depth: usize,
}

struct Checker<'t> {
    items: &'t [Entry],
    events: usize,
    messages: usize,
    /// So many so far, at all depths.
    actions: usize,
    /// Event and part of the top item before.
    before: (u16, u8),
    found: Vec<AtFault>,
}

impl Checker<'_> {
    fn body(&mut self, mut index: usize, holder: Holder) {
        while index < holder.end {
            index = self.item(index, holder);
        }
    }

    /// Gives the index after the item and what is within it. What is nested wrongly
    /// holds nothing, nor does an item of kind above 1, so that this stays shallow.
    fn item(&mut self, index: usize, holder: Holder) -> usize {
        let item = self.items[index];
        self.actions += usize::from(item.is_action());
        let ways = self.ways(index, holder);
        if holder.part.is_none() {
            self.before = (item.event, item.part);
        }
        let nested = !ways.contains(&Way::TooDeep) && !ways.contains(&Way::Overruns);
        if !ways.is_empty() {
            let depth = holder.depth;
            self.found.push(AtFault { index, depth, ways });
        }
        if !item.is_group() || !nested {
            return index + 1;
        }
        let within = Holder {
            part: Some(item.part),
            end: index + 1 + usize::from(item.last),
            depth: holder.depth + 1,
        };
        self.body(index + 1, within);
        within.end
    }

    fn ways(&self, index: usize, holder: Holder) -> Vec<Way> {
        let item = self.items[index];
        let mut ways = Vec::new();
        // An item of kind above 1 gets 20, whatever else is wrong with it: kind is the
        // first rule. It is neither action nor group: it has no message number, holds
        // nothing, isn't counted, and its words are held to their fields' ranges.
        if item.kind > 1 {
            ways.push(Way::Kind);
        }
        ways.extend(words(item));
        ways.extend(part(item, holder));
        if item.delay > LONGEST_TIME {
            ways.push(Way::Delay);
        }
        ways.extend(self.event(item, holder));
        ways.extend(nesting(item, index, holder));
        if item.is_action() && usize::from(item.last) >= self.messages {
            ways.push(Way::Message);
        }
        if item.is_action() && self.actions > MOST_ACTIONS {
            ways.push(Way::TooMany);
        }
        ways.sort_by_key(|way| way.turn());
        ways
    }

    /// "event (range, 0 inside groups, order by event and part)"
    fn event(&self, item: Entry, holder: Holder) -> Option<Way> {
        let (event, part) = self.before;
        if holder.part.is_some() {
            return (item.event != 0).then_some(Way::EventNotZeroWithin);
        }
        if item.event == 0 {
            Some(Way::EventZero)
        } else if usize::from(item.event) > self.events {
            Some(Way::EventAboveLast)
        } else if item.event < event {
            Some(Way::EventFalls)
        } else if item.event == event && item.part < part {
            Some(Way::PartFalls)
        } else {
            None
        }
    }
}

/// "For an action both words are 0"; synchrony is 0 or 1, error word 0 to 3.
fn words(item: Entry) -> Vec<Way> {
    let (synchrony, error) = if item.is_action() { (0, 0) } else { (1, 3) };
    let mut ways = Vec::new();
    if item.synchrony > synchrony {
        ways.push(Way::Synchrony);
    }
    if item.error > error {
        ways.push(Way::ErrorWord);
    }
    ways
}

/// "part (its group's too)"
fn part(item: Entry, holder: Holder) -> Option<Way> {
    if item.part > LAST_PART {
        return Some(Way::PartAbove15);
    }
    let other = holder.part.is_some_and(|part| part != item.part);
    other.then_some(Way::PartNotItsGroups)
}

/// "nesting 25 (depth, and a group that overruns)": what holds it, or the table.
fn nesting(item: Entry, index: usize, holder: Holder) -> Vec<Way> {
    let mut ways = Vec::new();
    let deepest = DEEPEST + usize::from(mutant::is(mutant::DEPTH_NINE_ACCEPTED));
    if holder.depth > deepest {
        ways.push(Way::TooDeep);
    }
    if item.is_group() && index + 1 + usize::from(item.last) > holder.end {
        ways.push(Way::Overruns);
    }
    ways
}
