//! Files with an item at fault, made to order: the number that they must get, and
//! whether it is told by one rule or several, of one item or two, and where.

use crate::item_pages::{self, Page, Spot};
use crate::items::Way;
use crate::random::Random;
use crate::score::{Entry, Tables, LAST_PART, LONGEST_TIME};

#[derive(Clone, Copy, PartialEq, Debug)]
pub enum Style {
    /// One rule broken, of any item, of the first, the last, or one at depth 8 (9
    /// where that is the fault). An action that is one too many can't be the first;
    /// it then has no group before it.
    Anywhere,
    First,
    Last,
    Deep,
    /// Of one item the next rule is broken as well, or any later one, or two or three.
    WithTheNext,
    WithALater,
    WithMore,
    /// A later item breaks an earlier rule; behind a wrong kind, any.
    EarlierRuleLater,
}

pub const STYLES: [Style; 8] = [
    Style::Anywhere,
    Style::WithTheNext,
    Style::EarlierRuleLater,
    Style::WithALater,
    Style::Deep,
    Style::WithMore,
    Style::Last,
    Style::First,
];

pub const FIRST_NUMBER: u64 = 20;
pub const LAST_NUMBER: u64 = 27;

/// With 27 no later rule can be broken.
const BY_THE_LAST_RULE: [Style; 5] = [
    Style::Anywhere,
    Style::First,
    Style::Last,
    Style::Deep,
    Style::EarlierRuleLater,
];

/// Any number and any style. The files that get 27 are long, so there are fewer.
pub fn any(random: &mut Random) -> Vec<u8> {
    let number = random.between(FIRST_NUMBER, LAST_NUMBER);
    let number = random.pick(&[number, number.min(LAST_NUMBER - 1)]);
    let any = random.pick(&STYLES);
    let style = if number == LAST_NUMBER {
        random.pick(&BY_THE_LAST_RULE)
    } else {
        random.pick(&[any, any, any, Style::WithALater, Style::WithMore])
    };
    faulty(random, number, style)
}

/// A file that gets this number.
pub fn faulty(random: &mut Random, number: u64, style: Style) -> Vec<u8> {
    loop {
        let rules = rules(random, number, style);
        let ways: Vec<Way> = rules.iter().flat_map(|rule| ways(random, *rule)).collect();
        let Some(mut page) = page_for(random, &ways, style) else {
            continue;
        };
        for way in &ways {
            spoil(random, &mut page.tables, page.spot, *way);
        }
        if style == Style::EarlierRuleLater && !spoil_later(random, &mut page, number) {
            continue;
        }
        return page.tables.encode();
    }
}

/// After so many pages other ways are tried.
const PAGES: usize = 100;

/// A page where an item stands as the ways and the style want it.
pub fn page_for(random: &mut Random, ways: &[Way], style: Style) -> Option<Page> {
    if clash(ways) || !can_stand(style, ways) {
        return None;
    }
    for _ in 0..PAGES {
        let page = item_pages::page(random, ways, style);
        if stands(style, &page, ways) && ways.iter().all(|way| fits(*way, page.spot)) {
            return Some(page);
        }
    }
    None
}

// --------------------------------------------------------------- choices

/// The rules that the item breaks, this number's and later ones.
fn rules(random: &mut Random, number: u64, style: Style) -> Vec<u64> {
    let mut later: Vec<u64> = (number + 1..=LAST_NUMBER).collect();
    let more = match style {
        Style::WithTheNext => {
            later.truncate(1);
            1
        }
        Style::WithALater => 1,
        Style::WithMore => random.pick(&[2, 2, 3]),
        _ => 0,
    };
    // Rather without 27, which makes long files.
    if later.len() > more && random.percent(60) {
        later.pop();
    }
    while later.len() > more {
        later.remove(random.index(later.len()));
    }
    later.insert(0, number);
    later
}

/// How this rule is broken; the words may both be wrong.
fn ways(random: &mut Random, rule: u64) -> Vec<Way> {
    let ways: &[&[Way]] = match rule {
        20 => &[&[Way::Kind]],
        21 => &[
            &[Way::Synchrony],
            &[Way::ErrorWord],
            &[Way::ErrorWord],
            &[Way::Synchrony, Way::ErrorWord],
        ],
        22 => &[&[Way::PartAbove15], &[Way::PartNotItsGroups]],
        23 => &[&[Way::Delay]],
        24 => &[
            &[Way::EventZero],
            &[Way::EventAboveLast],
            &[Way::EventNotZeroWithin],
            &[Way::EventFalls],
            &[Way::PartFalls],
        ],
        25 => &[&[Way::TooDeep], &[Way::Overruns]],
        26 => &[&[Way::Message]],
        _ => &[&[Way::TooMany]],
    };
    random.pick(ways).to_vec()
}

fn top_only(way: &Way) -> bool {
    matches!(way, Way::EventZero | Way::EventAboveLast) || falls(way)
}

/// There is a top item before.
fn falls(way: &Way) -> bool {
    matches!(way, Way::EventFalls | Way::PartFalls)
}

fn within_only(way: &Way) -> bool {
    matches!(
        way,
        Way::PartNotItsGroups | Way::EventNotZeroWithin | Way::TooDeep
    )
}

fn action_only(way: &Way) -> bool {
    matches!(way, Way::Message | Way::TooMany)
}

/// No item can be against the rules in all of these ways.
fn clash(ways: &[Way]) -> bool {
    let any = |sort: fn(&Way) -> bool| ways.iter().any(sort);
    any(top_only) && any(within_only)
        || any(action_only) && ways.contains(&Way::Overruns)
        || ways.contains(&Way::PartFalls) && ways.contains(&Way::PartAbove15)
}

fn can_stand(style: Style, ways: &[Way]) -> bool {
    match style {
        Style::First => !ways.iter().any(|way| within_only(way) || falls(way)),
        Style::Deep => !ways.iter().any(top_only),
        _ => true,
    }
}

/// Does the item stand where this style has it?
fn stands(style: Style, page: &Page, ways: &[Way]) -> bool {
    let Spot { index, depth, .. } = page.spot;
    match style {
        Style::First if ways.contains(&Way::TooMany) => index == item_pages::FULL,
        Style::First => index == 0,
        Style::Last => index + 1 == page.tables.items.len(),
        Style::Deep => depth >= 8,
        _ => true,
    }
}

/// Can this item be against the rules in this way? One that is an action too many is
/// so by its page.
pub fn fits(way: Way, spot: Spot) -> bool {
    let before = spot.before.unwrap_or_default();
    let (top, action) = (spot.depth == 1, spot.action);
    match way {
        Way::EventFalls => top && before.event > 1,
        Way::PartFalls => top && before.part > 0,
        Way::TooDeep => spot.depth == 9,
        Way::Overruns => !action,
        _ => {
            (top || !top_only(&way))
                && (!top || !within_only(&way))
                && (action || !action_only(&way))
        }
    }
}

// ---------------------------------------------------------------- faults

/// This item's field, just out or far out.
pub fn spoil(random: &mut Random, tables: &mut Tables, spot: Spot, way: Way) {
    let events = tables.durations.len() as u16;
    let messages = tables.messages.len() as u16;
    let before = spot.before.unwrap_or_default();
    let item = &mut tables.items[spot.index];
    match way {
        Way::Kind => item.kind = random.pick(&[2, 2, 3, 128, 255]),
        Way::Synchrony if spot.action => item.synchrony = random.pick(&[1, 1, 2, 255]),
        Way::Synchrony => item.synchrony = random.pick(&[2, 2, 3, 255]),
        Way::ErrorWord if spot.action => item.error = random.pick(&[1, 2, 3, 4, 255]),
        Way::ErrorWord => item.error = random.pick(&[4, 4, 5, 255]),
        Way::PartAbove15 => item.part = random.pick(&[16, 16, 17, 255]),
        Way::PartNotItsGroups => {
            let more = random.between(1, u64::from(LAST_PART)) as u8;
            item.part = (item.part + more) % (LAST_PART + 1);
        }
        Way::Delay => {
            let most = LONGEST_TIME;
            item.delay = random.pick(&[most + 1, most + 1, 1 << 24, 1 << 31, u32::MAX]);
        }
        Way::EventZero => item.event = 0,
        Way::EventAboveLast => {
            item.event = random.pick(&[events + 1, events + 1, events + 256, u16::MAX]);
        }
        Way::EventNotZeroWithin => {
            item.event = random.pick(&[1, 1, events, events + 1, 256, u16::MAX]);
        }
        Way::EventFalls => item.event = random.between(1, u64::from(before.event) - 1) as u16,
        Way::PartFalls => part_falls(random, tables, spot.index, before),
        Way::Overruns => {
            let most = (spot.end - spot.index - 1) as u16;
            item.last = random.pick(&[most + 1, most + 1, most + 2, 2_048, u16::MAX]);
        }
        Way::Message => item.last = random.pick(&[messages, messages, messages + 1, u16::MAX]),
        // The page is made so.
        Way::TooDeep | Way::TooMany => {}
    }
}

/// What is within it takes its part along, so that nothing else is wrong.
fn part_falls(random: &mut Random, tables: &mut Tables, index: usize, before: Entry) {
    let item = tables.items[index];
    let within = if item.is_group() {
        usize::from(item.last)
    } else {
        0
    };
    let part = random.below(u64::from(before.part)) as u8;
    for item in &mut tables.items[index..=index + within] {
        item.part = part;
    }
    tables.items[index].event = before.event;
}

/// One of the items behind breaks an earlier rule; false where none could.
fn spoil_later(random: &mut Random, page: &mut Page, number: u64) -> bool {
    let later = &page.spots[page.spot.index + 1..];
    if later.is_empty() {
        return false;
    }
    let spot = random.pick(later);
    let last = if number == FIRST_NUMBER {
        LAST_NUMBER
    } else {
        number
    };
    let rule = random.between(FIRST_NUMBER, last - 1);
    let ways = ways(random, rule);
    if !ways.iter().all(|way| fits(*way, spot)) {
        return false;
    }
    for way in ways {
        spoil(random, &mut page.tables, spot, way);
    }
    true
}
