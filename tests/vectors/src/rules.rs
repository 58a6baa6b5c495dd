//! The rules of an item as request (vi) of document 02 numbers them: "Split it
//! by the first rule broken, checked in this order: kind, words, part (its
//! group's too), delay, event (range, 0 inside groups, order by event and
//! part), nesting, message, number of actions; and give the place of the field
//! instead of the item (for nesting the field last, for the number of actions
//! still the item's first byte)"; "20 to 27 in that order, where 7 stood".
//!
//! Where the fields are is document 01's: kind, synchrony, error word and part
//! are a byte each, delay is four, event and last are two.

#[derive(Clone, Copy)]
pub struct Rule {
    pub number: u32,
    /// From the item's first byte to the place.
    pub offset: u32,
}

const fn rule(number: u32, offset: u32) -> Rule {
    Rule { number, offset }
}

pub const KIND: Rule = rule(20, 0);
/// Wrong words are at the synchrony where that is wrong, else at the error word
/// (a reading).
pub const SYNCHRONY: Rule = rule(21, 1);
pub const ERROR: Rule = rule(21, 2);
pub const PART: Rule = rule(22, 3);
pub const DELAY: Rule = rule(23, 4);
pub const EVENT: Rule = rule(24, 8);
pub const NESTING: Rule = rule(25, 10);
/// An action's last is its message number.
pub const MESSAGE: Rule = rule(26, 10);
pub const ACTIONS: Rule = rule(27, 0);

#[cfg(test)]
mod tests {
    use super::*;
    use crate::base::one_event;
    use crate::score::Item;

    /// Each field of a written item stands where its rule says.
    #[test]
    fn fields_by_hand() {
        let item = Item {
            kind: 201,
            synchrony: 202,
            error: 203,
            part: 204,
            delay: 0x08_07_06_05,
            event: 0x0a_09,
            last: 0x0c_0b,
        };
        let file = one_event(&[item]).bytes();
        let at = |rule: Rule| file[36 + rule.offset as usize];
        assert_eq!([KIND, SYNCHRONY, ERROR, PART].map(at), [201, 202, 203, 204]);
        assert_eq!([DELAY, EVENT, NESTING, MESSAGE].map(at), [0x05, 0x09, 0x0b, 0x0b]);
        assert_eq!(at(ACTIONS), 201);
    }
}
