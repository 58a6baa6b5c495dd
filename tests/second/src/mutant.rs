//! One wrong rule at a time, so that it can be seen that a comparison fails
//! where it should. Without the variable every rule is the paper's.

use std::cell::Cell;
use std::sync::OnceLock;

pub const VARIABLE: &str = "SECOND_MUTANT";
pub const LAST: u32 = 64;

pub const EXACTLY_E_J_IS_PAST: u32 = 1;
pub const SLICE_FROM_THE_MISSED_EVENT: u32 = 2;
pub const GROUP_DELAY_LOST: u32 = 3;
pub const GLOBAL_DELAY_LOST: u32 = 4;
pub const PARTIAL_PLAYS_PAST_ACTIONS: u32 = 5;
pub const PARTS_SHARE_A_SEQUENCE: u32 = 6;
pub const CAUSAL_NOT_SPLIT: u32 = 7;
pub const DUE_DATES_RESTART: u32 = 8;
pub const SENT_BY_PAGE_ONLY: u32 = 9;
pub const PARTIAL_DROPS_PAST_GROUPS: u32 = 10;
pub const MISSED_SLICE_HEARD: u32 = 11;
pub const MISSED_TOP_IS_CAUSAL: u32 = 12;
pub const BYTE_127_ACCEPTED: u32 = 13;
pub const EXACTLY_E_K_GOES_BEFORE: u32 = 14;
pub const DROPPED_ACTIONS_TAKE_THEIR_DELAY: u32 = 15;
pub const FUTURE_BECOMES_LOOSE: u32 = 16;
pub const TEMPO_CHECKED_FIRST: u32 = 17;
pub const DEPTH_NINE_ACCEPTED: u32 = 18;
pub const ITEMS_FROM_ONE: u32 = 19;
pub const GROUPS_COUNT_AS_ACTIONS: u32 = 20;
pub const PARTS_OF_ACTIONS_ONLY: u32 = 21;
pub const NOWHERE_IS_A_FOLDER: u32 = 22;
pub const MISSING_WORD_IS_CAUSAL: u32 = 23;
pub const COLUMNS_FROM_ZERO: u32 = 24;
pub const COMMENT_SWALLOWS_ITS_LINE: u32 = 25;
pub const FRACTION_CUT_DOWN: u32 = 26;
pub const HIGH_BYTES_LOST: u32 = 27;
pub const BACKSLASH_KEPT: u32 = 28;
pub const ELEVEN_DIGITS_READ: u32 = 29;
pub const EMPTY_PART_REFUSED: u32 = 30;
pub const ROUNDED_TOWARDS_ZERO: u32 = 31;
pub const LAST_POINT_LEFT_OUT: u32 = 32;
pub const PERIOD_INSIDE_THE_PASS: u32 = 33;
pub const ONLY_OLD_MESSAGES_FOUND: u32 = 34;
pub const DEPTH_NOT_COUNTED: u32 = 35;
pub const PASSES_257_LET_IN: u32 = 36;
pub const LIMITS_BEFORE_FAULTS: u32 = 37;
pub const PAD_NOT_LOOKED_AT: u32 = 38;
pub const EXACTLY_AT_THE_GRACE_IS_PAST: u32 = 39;
pub const SLICES_FORGET_THE_GRACE: u32 = 40;
pub const GROUPS_NOT_RAISED: u32 = 41;
pub const DELAY_BELOW_ZERO_WRAPS: u32 = 42;
pub const GRACE_ADDED_TO_E_J: u32 = 43;
pub const GRACE_CHECKED_BEFORE_TEMPO: u32 = 44;
pub const GRACE_631_LET_IN: u32 = 45;
pub const RAISING_MOVES_WHAT_FOLLOWS: u32 = 46;
pub const GLOBAL_DELAY_FROM_E_J: u32 = 47;
pub const GLOBAL_STARTS_BEFORE_E_J: u32 = 48;
pub const GLOBAL_DATE_FROM_ITS_OWN_DELAY: u32 = 49;
pub const GRACE_HOLDS_GLOBALS: u32 = 50;
pub const TIGHT_GLOBAL_MOVED_AFTER_SLICING: u32 = 51;
pub const EVENT_BEFORE_DELAY: u32 = 52;
pub const PLACE_IS_THE_ITEM: u32 = 53;
pub const WORDS_AT_SYNCHRONY: u32 = 54;
pub const NUMBER_OF_ACTIONS_AT_LAST: u32 = 55;
pub const OVERRUN_IS_SEVEN: u32 = 56;
pub const PARTS_FALL_BY_PART: u32 = 57;
pub const GROUPS_PART_IS_NESTING: u32 = 58;
pub const RULE_BEFORE_ITEM: u32 = 59;
pub const ITEMS_GET_SEVEN: u32 = 60;
pub const ITEMS_TOLD_AT_THEIR_HOLDERS: u32 = 61;
pub const COMMENT_ENDS_TWO_LINES: u32 = 62;
pub const MESSAGES_TOLD_AT_THEIR_NUMBERS: u32 = 63;
pub const LAST_WITHIN_THE_LIMIT_TOLD: u32 = 64;

/// Tried, it stands for no wrong rule, whatever the environment says.
pub const NONE: u32 = u32::MAX;

/// The number in the environment, 0 without one; an unreadable one is an error
/// so that a slip is never taken for a run without a mutant.
pub fn from_environment() -> Result<u32, String> {
    let Some(value) = std::env::var_os(VARIABLE) else {
        return Ok(0);
    };
    let number = value.to_str().and_then(|text| text.parse::<u32>().ok());
    match number {
        Some(number) if (1..=LAST).contains(&number) => Ok(number),
        _ => Err(format!("{VARIABLE} must be 1 to {LAST}")),
    }
}

thread_local! {
    /// The wrong rule that is being tried, 0 for none.
    static TRIED: Cell<u32> = const { Cell::new(0) };
}

/// Does the work by this wrong rule, on this thread only.
pub fn under<T>(number: u32, work: impl FnOnce() -> T) -> T {
    let before = TRIED.replace(number);
    let done = work();
    TRIED.set(before);
    done
}

pub fn is(number: u32) -> bool {
    let tried = TRIED.get();
    if tried != 0 {
        return tried == number;
    }
    static CHOSEN: OnceLock<u32> = OnceLock::new();
    *CHOSEN.get_or_init(|| from_environment().unwrap_or(0)) == number
}
