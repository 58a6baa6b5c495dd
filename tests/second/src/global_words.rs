//! Missed global groups against values written by hand.

use crate::global_shown::{is_moved, shown};
use crate::nodes::Node::{self, Action, Group};
use crate::nodes::{self, FOUR, THREE};
use crate::play::play;
use crate::rules::{globals, Global};
use crate::score::{self, CAUSAL, GLOBAL, LOCAL, LOOSE, PARTIAL, TIGHT};
use crate::words::{plays, Played, Tally};

pub fn global_words(tally: &mut Tally) {
    rows(tally);
    written_play(tally);
    shown(tally);
}

// ------------------------------------------------------------------ rows

/// Event, part and item.
type Top = (u16, u8, Node);

/// Name, durations, top items, the events heard; then whether a missed global group
/// has an own date after E(j), and for each grace what is played.
type Row = (
    &'static str,
    &'static [u32],
    &'static [Top],
    &'static [usize],
    bool,
    &'static [(u64, &'static [Played])],
);

const MOVED: bool = true;
const UNMOVED: bool = false;

/// E is 0, 10,080, 20,160 and 30,240.
const EVEN: &[u32] = &[10_080, 10_080, 10_080, 10_080];

/// "The pair" is a after 5,040 and b 7,560 later.
const PAIR: &[Node] = &[Action(5_040, b'a'), Action(7_560, b'b')];
const A: &[Node] = &[Action(0, b'a')];
const B: &[Node] = &[Action(0, b'b')];
/// a 3 grains into the group.
const A_AT_3: &[Node] = &[Action(3, b'a')];

/// The rows of the request's table.
#[rustfmt::skip]
const TABLE: &[Row] = &[
    (
        "four beats after", THREE, &[(1, 0, Group(20_160, LOOSE, GLOBAL, PAIR))], &[2], MOVED,
        &[(0, &[(2, 15_120, "a"), (2, 22_680, "b")])],
    ),
    (
        "own date before E(2)", THREE, &[(1, 0, Group(5_040, LOOSE, GLOBAL, PAIR))], &[2], UNMOVED,
        &[(0, &[(2, 5_040, "a"), (2, 12_600, "b")])],
    ),
    (
        "own date at E(2)", THREE, &[(1, 0, Group(10_080, LOOSE, GLOBAL, PAIR))], &[2], UNMOVED,
        &[(0, &[(2, 5_040, "a"), (2, 12_600, "b")])],
    ),
    (
        "a grain after E(2)", THREE, &[(1, 0, Group(10_081, LOOSE, GLOBAL, PAIR))], &[2], MOVED,
        &[(0, &[(2, 5_041, "a"), (2, 12_601, "b")])],
    ),
    (
        "tight, at E(3)", THREE, &[(1, 0, Group(15_120, TIGHT, GLOBAL, PAIR))], &[2, 3], MOVED,
        &[(0, &[(3, 5_040, "a"), (3, 12_600, "b")])],
    ),
    (
        "tight, at E(3), not yet heard", THREE,
        &[(1, 0, Group(15_120, TIGHT, GLOBAL, PAIR))], &[2], MOVED,
        &[(0, &[])],
    ),
    (
        "after an action", THREE,
        &[(1, 0, Action(10_080, b'c')), (1, 0, Group(5_040, LOOSE, GLOBAL, PAIR))], &[2], MOVED,
        &[(0, &[(2, 0, "c"), (2, 10_080, "a"), (2, 17_640, "b")])],
    ),
    (
        "past, in a causal group", THREE,
        &[(1, 0, Group(0, LOOSE, CAUSAL, &[Group(5_040, LOOSE, GLOBAL, PAIR)]))], &[2], UNMOVED,
        &[(0, &[(2, 5_040, "a"), (2, 12_600, "b")])],
    ),
    (
        "four beats after, two missed", THREE,
        &[(1, 0, Group(20_160, LOOSE, GLOBAL, PAIR))], &[3], MOVED,
        &[(0, &[(3, 10_080, "a"), (3, 17_640, "b")])],
    ),
    // a is at 29,610: 630 before E(4), in a slice at event 3.
    (
        "a slice within a moved group", EVEN,
        &[(1, 0, Group(15_120, LOOSE, GLOBAL, &[
            Group(0, TIGHT, PARTIAL, &[Action(14_490, b'a')]),
        ]))], &[2, 4], MOVED,
        &[(630, &[(4, 0, "a")]), (629, &[]), (0, &[])],
    ),
];

/// More of them, from the same sentences.
#[rustfmt::skip]
const MORE: &[Row] = &[
    (
        "a grain before E(2)", THREE, &[(1, 0, Group(10_079, LOOSE, GLOBAL, PAIR))], &[2], UNMOVED,
        &[
            (0, &[(2, 5_040, "a"), (2, 12_600, "b")]),
            (630, &[(2, 5_040, "a"), (2, 12_600, "b")]),
        ],
    ),
    // Sliced from E(2): a is at E(3).
    (
        "tight, a grain before E(2)", THREE,
        &[(1, 0, Group(10_079, TIGHT, GLOBAL, PAIR))], &[2, 3], UNMOVED,
        &[(0, &[(3, 0, "a"), (3, 7_560, "b")])],
    ),
    (
        "tight, at E(2)", THREE,
        &[(1, 0, Group(10_080, TIGHT, GLOBAL, PAIR))], &[2, 3], UNMOVED,
        &[(0, &[(3, 0, "a"), (3, 7_560, "b")])],
    ),
    // Sliced from 10,081: a is at 15,121.
    (
        "tight, a grain after E(2)", THREE,
        &[(1, 0, Group(10_081, TIGHT, GLOBAL, PAIR))], &[2, 3], MOVED,
        &[(0, &[(3, 1, "a"), (3, 7_561, "b")])],
    ),
    // At 15,119 and 15,120.
    (
        "tight, on both sides of E(3)", THREE,
        &[(1, 0, Group(10_081, TIGHT, GLOBAL, &[Action(5_038, b'a'), Action(1, b'b')]))],
        &[2, 3], MOVED,
        &[(0, &[(2, 5_039, "a"), (3, 0, "b")])],
    ),
    (
        "tight, a grain before E(3)", THREE,
        &[(1, 0, Group(15_119, TIGHT, GLOBAL, &[Action(0, b'a'), Action(1, b'b')]))],
        &[2, 3], MOVED,
        &[(0, &[(2, 5_039, "a"), (3, 0, "b")])],
    ),
    // The grace is no part of the rule.
    (
        "the grace isn't asked a grain after", THREE,
        &[(1, 0, Group(10_081, LOOSE, GLOBAL, A))], &[2], MOVED,
        &[(0, &[(2, 1, "a")]), (1, &[(2, 1, "a")]), (629, &[(2, 1, "a")]), (630, &[(2, 1, "a")])],
    ),
    (
        "the grace isn't asked 630 after", THREE,
        &[(1, 0, Group(10_710, LOOSE, GLOBAL, A))], &[2], MOVED,
        &[(0, &[(2, 630, "a")]), (629, &[(2, 630, "a")]), (630, &[(2, 630, "a")])],
    ),
    (
        "the grace isn't asked 631 after", THREE,
        &[(1, 0, Group(10_711, LOOSE, GLOBAL, A))], &[2], MOVED,
        &[(0, &[(2, 631, "a")]), (630, &[(2, 631, "a")])],
    ),
    (
        "the grace isn't asked 630 before", THREE,
        &[(1, 0, Group(9_450, LOOSE, GLOBAL, A))], &[2], UNMOVED,
        &[(0, &[(2, 0, "a")]), (630, &[(2, 0, "a")])],
    ),
    // c is at 15,120, d at 15,121.
    (
        "what follows a moved group", THREE,
        &[
            (1, 0, Group(15_120, LOOSE, GLOBAL, PAIR)),
            (1, 0, Action(0, b'c')), (1, 0, Action(1, b'd')),
        ], &[2], MOVED,
        &[(0, &[(2, 10_080, "a"), (2, 17_640, "b"), (2, 5_040, "c"), (2, 5_041, "d")])],
    ),
    // The group starts 5,040 late at E(2); c stays at 10,081.
    (
        "what follows one that isn't moved", THREE,
        &[(1, 0, Group(5_040, LOOSE, GLOBAL, PAIR)), (1, 0, Action(5_041, b'c'))], &[2], UNMOVED,
        &[(0, &[(2, 5_040, "a"), (2, 12_600, "b"), (2, 1, "c")])],
    ),
    (
        "a moved group after one that isn't", THREE,
        &[(1, 0, Group(5_040, LOOSE, GLOBAL, A)), (1, 0, Group(5_041, LOOSE, GLOBAL, B))],
        &[2], MOVED,
        &[(0, &[(2, 0, "a"), (2, 1, "b")])],
    ),
    (
        "after an empty moved group", THREE,
        &[(1, 0, Group(20_160, LOOSE, GLOBAL, &[])), (1, 0, Action(0, b'a'))], &[2], MOVED,
        &[(0, &[(2, 10_080, "a")])],
    ),
    // Both own dates are 15,121; b is 7 into its group.
    (
        "two missed in a row, a grain after E(3)", FOUR,
        &[
            (1, 0, Group(15_121, LOOSE, GLOBAL, A)),
            (2, 0, Group(5_041, LOOSE, GLOBAL, &[Action(7, b'b')])),
        ], &[3], MOVED,
        &[(0, &[(3, 1, "a"), (3, 8, "b")])],
    ),
    (
        "two missed in a row, at E(3)", FOUR,
        &[
            (1, 0, Group(15_120, LOOSE, GLOBAL, A)),
            (2, 0, Group(5_040, LOOSE, GLOBAL, &[Action(7, b'b')])),
        ], &[3], UNMOVED,
        &[(0, &[(3, 0, "a"), (3, 7, "b")])],
    ),
    (
        "three missed in a row", FOUR,
        &[
            (1, 0, Group(15_121, LOOSE, GLOBAL, A)),
            (2, 0, Group(5_041, LOOSE, GLOBAL, &[Action(7, b'b')])),
        ], &[4], UNMOVED,
        &[(0, &[(4, 0, "a"), (4, 7, "b")])],
    ),
    // Part 0's delay doesn't move part 1's group.
    (
        "beside another part's action", THREE,
        &[(1, 0, Action(20_160, b'c')), (1, 1, Group(10_081, LOOSE, GLOBAL, A))], &[2], MOVED,
        &[(0, &[(2, 10_080, "c"), (2, 1, "a")])],
    ),
    // Part 0's own date is 12,600, part 3's 10,081: c is at E(3).
    (
        "groups of two parts", THREE,
        &[
            (1, 0, Group(12_600, LOOSE, GLOBAL, A)),
            (1, 3, Group(10_081, TIGHT, GLOBAL, &[Action(0, b'b'), Action(5_039, b'c')])),
        ], &[2, 3], MOVED,
        &[(0, &[(2, 2_520, "a"), (2, 1, "b"), (3, 0, "c")])],
    ),
    // The outer one starts 2,520 after E(2), the inner one 2,520 after that.
    (
        "global in global", THREE,
        &[(1, 0, Group(12_600, LOOSE, GLOBAL, &[
            Group(2_520, LOOSE, GLOBAL, &[Action(5, b'a')]), Action(1, b'b'),
        ]))], &[2], MOVED,
        &[(0, &[(2, 5_045, "a"), (2, 5_041, "b")])],
    ),
    // The inner one starts at E(3), which is missed; b is at E(4).
    (
        "tight global in global", FOUR,
        &[(1, 0, Group(12_600, LOOSE, GLOBAL, &[
            Group(2_520, TIGHT, GLOBAL, &[Action(0, b'a'), Action(5_040, b'b')]),
        ]))], &[2, 4], MOVED,
        &[(0, &[(4, 0, "a"), (4, 0, "b")])],
    ),
    (
        "tight local in global", FOUR,
        &[(1, 0, Group(15_120, LOOSE, GLOBAL, &[
            Group(0, TIGHT, LOCAL, &[Action(0, b'a'), Action(5_040, b'b')]),
        ]))], &[2, 4], MOVED,
        &[(0, &[(4, 0, "b")])],
    ),
    (
        "tight causal in global", FOUR,
        &[(1, 0, Group(15_120, LOOSE, GLOBAL, &[
            Group(0, TIGHT, CAUSAL, &[Action(0, b'a'), Action(5_040, b'b')]),
        ]))], &[2, 4], MOVED,
        &[(0, &[(4, 0, "a"), (4, 0, "b")])],
    ),
    // Heard: b is at 13,860, 3,780 into a slice at event 2, which starts at E(3).
    (
        "a slice at a missed event", THREE,
        &[(1, 0, Group(1_260, TIGHT, GLOBAL, PAIR))], &[1, 3], UNMOVED,
        &[
            (0, &[(1, 6_300, "a"), (3, 3_780, "b")]),
            (630, &[(1, 6_300, "a"), (3, 3_780, "b")]),
        ],
    ),
    // The global group is at 10,079, b at 10,081.
    (
        "past, in a late causal group", THREE,
        &[(1, 0, Group(2_520, LOOSE, CAUSAL, &[
            Group(7_559, LOOSE, GLOBAL, A_AT_3), Action(2, b'b'),
        ]))], &[2], UNMOVED,
        &[(0, &[(2, 3, "a"), (2, 1, "b")]), (1, &[(2, 3, "a"), (2, 1, "b")])],
    ),
    (
        "past, in a late partial group", THREE,
        &[(1, 0, Group(2_520, LOOSE, PARTIAL, &[
            Action(0, b'c'), Group(7_559, LOOSE, GLOBAL, A_AT_3), Action(2, b'b'),
        ]))], &[2], UNMOVED,
        &[(0, &[(2, 3, "a"), (2, 1, "b")]), (1, &[(2, 3, "a"), (2, 1, "b")])],
    ),
    // Sliced from E(2): a is at E(3).
    (
        "past and tight, in a tight causal group", THREE,
        &[(1, 0, Group(0, TIGHT, CAUSAL, &[
            Group(10_079, TIGHT, GLOBAL, &[Action(5_040, b'a')]),
        ]))], &[2, 3], UNMOVED,
        &[(0, &[(3, 0, "a")])],
    ),
    (
        "future, in a causal group", THREE,
        &[(1, 0, Group(0, LOOSE, CAUSAL, &[Group(10_081, LOOSE, GLOBAL, A_AT_3)]))], &[2], UNMOVED,
        &[(0, &[(2, 4, "a")]), (630, &[(2, 4, "a")])],
    ),
    (
        "future, in a partial group", THREE,
        &[(1, 0, Group(0, LOOSE, PARTIAL, &[Group(10_081, LOOSE, GLOBAL, A_AT_3)]))], &[2], UNMOVED,
        &[(0, &[(2, 4, "a")]), (630, &[(2, 4, "a")])],
    ),
    (
        "at E(2), in a causal group", THREE,
        &[(1, 0, Group(0, LOOSE, CAUSAL, &[Group(10_080, LOOSE, GLOBAL, A_AT_3)]))], &[2], UNMOVED,
        &[(0, &[(2, 3, "a")])],
    ),
    // The future is sliced: the group is at 20,160, 5,040 after E(3).
    (
        "future, in a tight causal group", THREE,
        &[(1, 0, Group(0, TIGHT, CAUSAL, &[Group(20_160, LOOSE, GLOBAL, A_AT_3)]))],
        &[2, 3], UNMOVED,
        &[(0, &[(3, 5_043, "a")])],
    ),
    // The future is sliced to event 3, where the group, at 15,130, is past.
    (
        "future, then past in a slice", FOUR,
        &[(1, 0, Group(0, TIGHT, PARTIAL, &[Group(15_130, LOOSE, GLOBAL, A_AT_3)]))],
        &[2, 4], UNMOVED,
        &[(0, &[(4, 3, "a")])],
    ),
    // Raised with 630, past with 629: it starts at E(2) either way. b is at 10,081.
    (
        "within the grace of a causal group", THREE,
        &[(1, 0, Group(0, LOOSE, CAUSAL, &[
            Group(9_450, LOOSE, GLOBAL, A_AT_3), Action(631, b'b'),
        ]))], &[2], UNMOVED,
        &[
            (630, &[(2, 3, "a"), (2, 1, "b")]),
            (629, &[(2, 3, "a"), (2, 1, "b")]),
            (0, &[(2, 3, "a"), (2, 1, "b")]),
        ],
    ),
    (
        "tight, within the grace of a tight causal group", THREE,
        &[(1, 0, Group(0, TIGHT, CAUSAL, &[
            Group(9_450, TIGHT, GLOBAL, &[Action(5_040, b'a')]),
        ]))], &[2, 3], UNMOVED,
        &[(630, &[(3, 0, "a")]), (629, &[(3, 0, "a")])],
    ),
    // At 15,125, 20,159 and 20,160.
    (
        "tight, after E(3)", FOUR,
        &[(1, 0, Group(15_125, TIGHT, GLOBAL, &[
            Action(0, b'a'), Action(5_034, b'b'), Action(1, b'c'),
        ]))], &[2, 3, 4], MOVED,
        &[(0, &[(3, 5, "a"), (3, 5_039, "b"), (4, 0, "c")])],
    ),
    // The slice at event 3 starts at E(4).
    (
        "tight, after E(3), which is missed", FOUR,
        &[(1, 0, Group(15_125, TIGHT, GLOBAL, &[
            Action(0, b'a'), Action(5_034, b'b'), Action(1, b'c'),
        ]))], &[2, 4], MOVED,
        &[(0, &[(4, 5, "a"), (4, 5_039, "b"), (4, 0, "c")])],
    ),
    (
        "tight, after E(3), heard at 3", FOUR,
        &[(1, 0, Group(15_125, TIGHT, GLOBAL, &[
            Action(0, b'a'), Action(5_034, b'b'), Action(1, b'c'),
        ]))], &[3, 4], MOVED,
        &[(0, &[(3, 5, "a"), (3, 5_039, "b"), (4, 0, "c")])],
    ),
    (
        "tight, after E(3), heard at 4", FOUR,
        &[(1, 0, Group(15_125, TIGHT, GLOBAL, &[
            Action(0, b'a'), Action(5_034, b'b'), Action(1, b'c'),
        ]))], &[4], UNMOVED,
        &[(0, &[(4, 0, "a"), (4, 5_034, "b"), (4, 5_035, "c")])],
    ),
    // 25,200 is 5,040 after the last event's end, 10,080 after its start.
    (
        "past the last event", THREE, &[(1, 0, Group(25_200, LOOSE, GLOBAL, PAIR))], &[2], MOVED,
        &[(0, &[(2, 20_160, "a"), (2, 27_720, "b")])],
    ),
    (
        "tight, past the last event", THREE,
        &[(1, 0, Group(25_200, TIGHT, GLOBAL, PAIR))], &[2, 3], MOVED,
        &[(0, &[(3, 15_120, "a"), (3, 22_680, "b")])],
    ),
    (
        "tight, past the last event, heard at 3", THREE,
        &[(1, 0, Group(25_200, TIGHT, GLOBAL, PAIR))], &[3], MOVED,
        &[(0, &[(3, 15_120, "a"), (3, 22_680, "b")])],
    ),
    (
        "tight, past the last event, not yet heard", THREE,
        &[(1, 0, Group(25_200, TIGHT, GLOBAL, PAIR))], &[2], MOVED,
        &[(0, &[])],
    ),
    (
        "the longest delays", THREE,
        &[(1, 0, Group(5_040_000, LOOSE, GLOBAL, &[Action(5_040_000, b'a')]))], &[2], MOVED,
        &[(0, &[(2, 10_069_920, "a")])],
    ),
    // The other words, a heard group and one that nothing is heard after.
    (
        "local, four beats after", THREE,
        &[(1, 0, Group(20_160, LOOSE, LOCAL, PAIR))], &[2], UNMOVED,
        &[(0, &[])],
    ),
    (
        "partial, four beats after", THREE,
        &[(1, 0, Group(20_160, LOOSE, PARTIAL, PAIR))], &[2], UNMOVED,
        &[(0, &[(2, 15_120, "a"), (2, 22_680, "b")])],
    ),
    (
        "causal, four beats after", THREE,
        &[(1, 0, Group(20_160, LOOSE, CAUSAL, PAIR))], &[2], UNMOVED,
        &[(0, &[(2, 15_120, "a"), (2, 22_680, "b")])],
    ),
    (
        "four beats after, heard", THREE,
        &[(1, 0, Group(20_160, LOOSE, GLOBAL, PAIR))], &[1, 2], UNMOVED,
        &[(0, &[(1, 25_200, "a"), (1, 32_760, "b")])],
    ),
    (
        "nothing heard after it", THREE, &[(2, 0, Group(5_041, LOOSE, GLOBAL, PAIR))], &[1], UNMOVED,
        &[(0, &[])],
    ),
];

fn rows(tally: &mut Tally) {
    for (name, durations, tops, heard, moved, played) in TABLE.iter().chain(MORE) {
        let tops = tops.iter().map(|(event, part, top)| (*event, *part, top));
        let tables = nodes::score(durations, tops);
        for (grace, expected) in *played {
            let name = format!("globals: {name}, {heard:?} heard, grace {grace}");
            tally.note(&name, plays(&tables, heard, *grace, expected));
            let right = score::read(&tables.encode()).is_ok_and(|score| {
                let met = globals(&score, heard, *grace);
                met.iter().any(Global::is_moved) == *moved
            });
            tally.note(&format!("{name}: moved or not"), right);
        }
    }
}

// ------------------------------------------------------------------ play

fn written_play(tally: &mut Tally) {
    let mut test = |name: &str, tops: &[Top], input: &[u8], moved: bool, expected: &str| {
        let tops = tops.iter().map(|(event, part, top)| (*event, *part, top));
        let file = nodes::score(THREE, tops).encode();
        for grace in [0, 630] {
            let right = play(&file, input, grace) == expected.as_bytes();
            tally.note(&format!("globals: play, {name}, grace {grace}"), right);
            let right = is_moved(&file, input, grace) == moved;
            let name = format!("globals: play, {name}, grace {grace}: moved or not");
            tally.note(&name, right);
        }
    };
    // Own date 12,600, 2,520 after E(2): 500 ms at a beat a second.
    test(
        "loose",
        &[(
            1,
            0,
            Group(12_600, LOOSE, GLOBAL, &[Action(0, b'a'), Action(630, b'b')]),
        )],
        b"O 1 5040\nT 1000\nH 2 5040\nT 499\nT 1\nT 125\n",
        MOVED,
        "open 0 parts 1\n7560000 7560000 0 a\n8190000 8190000 0 b\nend 8190000 sent 2\n",
    );
    // a and b are 5,040 and 12,600 after E(3), which is heard at 5,040,000.
    test(
        "tight",
        &[(1, 0, Group(15_120, TIGHT, GLOBAL, PAIR))],
        b"O 1 5040\nH 2 5040\nT 1000\nH 3 10080\nT 500\nT 750\n",
        MOVED,
        "open 0 parts 1\n10080000 10080000 0 a\n17640000 17640000 0 b\nend 17640000 sent 2\n",
    );
    // a's group is at E(2), b's a grain after it.
    test(
        "at E(2) and a grain after",
        &[
            (1, 0, Group(10_080, LOOSE, GLOBAL, A)),
            (1, 0, Group(1, LOOSE, GLOBAL, B)),
        ],
        b"O 1 5040\nH 2 1\nT 999\nT 1\n",
        MOVED,
        "open 0 parts 1\n0 0 0 a\n1000 1000 0 b\nend 1000 sent 2\n",
    );
    // Part 0 doesn't sound; part 1's group is 2 grains after E(2).
    test(
        "two parts",
        &[
            (1, 0, Group(10_081, LOOSE, GLOBAL, A)),
            (1, 1, Group(10_082, LOOSE, GLOBAL, B)),
        ],
        b"O 2 5040\nH 2 1\nT 1\nT 1000\nT 999\n",
        MOVED,
        "open 0 parts 1\n2000 2000 1 b\nend 2000 sent 1\n",
    );
    // Its own date is E(3), where it is heard.
    test(
        "two missed",
        &[(1, 0, Group(15_120, LOOSE, GLOBAL, A))],
        b"O 1 5040\nH 3 5040\n",
        UNMOVED,
        "open 0 parts 1\n0 0 0 a\nend 0 sent 1\n",
    );
    test(
        "not opened",
        &[(1, 0, Group(15_120, LOOSE, GLOBAL, A))],
        b"O 1 0\nH 2 5040\n",
        UNMOVED,
        "open 9 parts 0\nbad 2\nend 0 sent 0\n",
    );
    // The refused note hears nothing.
    test(
        "not heard",
        &[(1, 0, Group(15_120, LOOSE, GLOBAL, A))],
        b"O 1 5040\nH 2 0\nT 1000\n",
        UNMOVED,
        "open 0 parts 1\nno 9\nend 5040000 sent 0\n",
    );
}
