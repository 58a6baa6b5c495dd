//! Texts with one thing wrong: among the tokens, or in the bytes. A slip says
//! nothing of what must come of it, and some of them leave the text right.

use crate::random::Random;
use crate::tokens::{goes_on, Role, Token};

/// Every word there is, words that are nearly one, and what stands nowhere.
const STRANGERS: &[&[u8]] = &[
    b"messages",
    b"event",
    b"part",
    b"send",
    b"group",
    b"loose",
    b"tight",
    b"local",
    b"global",
    b"partial",
    b"causal",
    b"message",
    b"events",
    b"until",
    b"loop",
    b"a",
    b"zzzz",
    b"0",
    b"1",
    b"7",
    b"0000000000",
    b"1/2",
    b"3/1",
    b"\"a\"",
    b"\"\"",
    b"\"\\\\\"",
    b"{",
    b"}",
    b"{}",
    b"/",
    b"\\",
    b"'a'",
    b"X",
    b"Send",
    b";",
    b",",
    b"(",
    b"-1",
    b"+1",
    b".",
    b"_",
    b"`",
    b":",
    b"@",
    b"[",
    b"!",
    b"\x00",
    b"\x0b",
    b"\x0c",
    b"\x1f",
    b"\x7f",
    b"\x80",
    b"\x85",
    b"\xa0",
    b"\xc2\xa0",
    b"\xef\xbb\xbf",
    b"\xff",
];

/// Beats that can be read, some of them past the file's limits. Then, row by
/// row: too many digits above and below, too big above and below, a denominator
/// of 0, no whole number of grains, too many grains.
const BEATS: [&[&str]; 8] = [
    &[
        "0",
        "1000",
        "1001",
        "5040000/5040",
        "5040001/5040",
        "852176",
        "4294967295/5040",
        "286331153/336",
        "4294967295/4294967295",
        "0/4294967295",
        "0000000001/0000000001",
        "1/16",
        "1/5040",
        "2/10080",
        "22/11",
    ],
    &[
        "10000000000",
        "00000000001",
        "00000000001/1",
        "99999999999/0",
    ],
    &[
        "1/00000000001",
        "1/00000000000",
        "1/10000000000",
        "0000000001/00000000001",
    ],
    &[
        "4294967296",
        "9999999999",
        "4294967296/5040",
        "4294967296/4294967296",
        "4294967296/0",
    ],
    &[
        "4294967295/4294967296",
        "0/4294967296",
        "1/4294967296",
        "1/9999999999",
    ],
    &["1/0", "0/0", "5/0000000000", "4294967295/0"],
    &[
        "1/11",
        "7/13",
        "1/32",
        "1/5041",
        "1/10080",
        "3/10080",
        "5039/5041",
        "1/4294967295",
        "4294967294/4294967295",
    ],
    &[
        "852177",
        "4294967295",
        "268435456/315",
        "4026531840/4725",
        "1073741824/1260",
    ],
];

/// Beats that aren't written as beats are.
const ODD_BEATS: &[&[u8]] = &[
    b"1/ 2",
    b"1 /2",
    b"1 / 2",
    b"1/",
    b"/2",
    b"1//2",
    b"1/2/3",
    b"1/\n2",
    b"1\n/2",
    b"1/#\n2",
    b"1#\n/2",
    b"1/-2",
    b"1/x",
    b"1/\"",
    b"1/{",
    b"-1",
    b"+1",
    b"1.5",
    b"1,5",
    b"1\\2",
    b"1 1/2",
    b"0x1",
    b"1e3",
    b"\xc2\xbd",
    b"1/\xff",
    b"1\x00",
];

/// A part's numbers at the limits and past them.
const PARTS: &[&str] = &[
    "15",
    "16",
    "99",
    "255",
    "256",
    "0000000255",
    "0000000256",
    "00000000000",
    "00000000255",
    "65536",
    "4294967296",
    "10000000000",
    "0/1",
    "255/1",
    "x",
];

/// A message's after `send`.
const MESSAGES: &[&str] = &[
    "0",
    "511",
    "512",
    "65535",
    "65536",
    "0000065535",
    "0000065536",
    "00000000000",
    "00000065535",
    "4294967296",
    "10000000000",
    "18446744073709551616",
    "0/1",
    "65536/1",
    "\"a\"",
    "a",
];

/// Where any whole number stands.
const NUMBERS: &[&str] = &[
    "0",
    "1",
    "0000000000",
    "00000000000",
    "00000000001",
    "65536",
    "4294967296",
    "9999999999",
    "10000000000",
    "0/1",
    "-0",
    "0.",
    "0a",
    "a0",
];

/// What stands in a label that can't, and some that can.
const IN_LABELS: &[&[u8]] = &[
    b"\n", b"\r\n", b"\\n", b"\\a", b"\\\n", b"\\ ", b"\\'", b"\\\x00", b"\\\xff", b"\\\\\\x",
    b"\"", b"\\", b"\\\"", b"\\\\", b"\t", b"\r", b"\x00", b"#", b"{}",
];

/// How many sorts of slips there are.
pub const SORTS: u64 = 48;

/// What the text ends behind, too soon.
const ENDS: [&[Role]; 5] = [
    &[Role::Event],
    &[Role::PartWord],
    &[Role::Send],
    &[Role::ListNumber],
    &[Role::Delay, Role::Group, Role::Synchrony, Role::Open],
];

/// One thing wrong among the tokens. Another slip may have left few of them.
pub fn slip(random: &mut Random, tokens: &mut Vec<Token>, sort: u64) {
    if tokens.is_empty() {
        return;
    }
    match sort {
        0..=2 => replaced(random, tokens),
        3..=5 => put_in(random, tokens),
        6..=8 => left_out(random, tokens),
        9 => swapped(random, tokens),
        10 => twice(random, tokens),
        11..=18 => beats(random, tokens, BEATS[sort as usize - 11]),
        19..=20 => odd_beats(random, tokens),
        21..=23 => number(random, tokens, Role::Part, PARTS),
        24..=26 => number(random, tokens, Role::Message, MESSAGES),
        27..=28 => number(random, tokens, Role::ListNumber, NUMBERS),
        29 => list_number(random, tokens),
        30..=31 => label(random, tokens),
        32..=33 => open_label(random, tokens),
        34..=35 => misspelt(random, tokens),
        36 => upper_case(random, tokens),
        37..=38 => run_together(random, tokens),
        39..=40 => words(random, tokens),
        41 => braces(random, tokens),
        42..=46 => ended(random, tokens, ENDS[sort as usize - 42]),
        _ => stuck_on(random, tokens),
    }
}

/// One of the tokens in these roles.
fn place_of(random: &mut Random, tokens: &[Token], roles: &[Role]) -> Option<usize> {
    let places: Vec<usize> = (0..tokens.len())
        .filter(|&place| roles.contains(&tokens[place].role))
        .collect();
    if places.is_empty() {
        return None;
    }
    Some(random.pick(&places))
}

/// One of the tokens; each role that is there has the same chance.
fn any_place(random: &mut Random, tokens: &[Token]) -> usize {
    let mut roles: Vec<Role> = Vec::new();
    for token in tokens {
        if !roles.contains(&token.role) {
            roles.push(token.role);
        }
    }
    let role = random.pick(&roles);
    place_of(random, tokens, &[role]).unwrap_or(0)
}

/// Other bytes for one of the tokens in these roles, if there is one.
fn respell(random: &mut Random, tokens: &mut [Token], roles: &[Role], bytes: &[u8]) {
    if let Some(place) = place_of(random, tokens, roles) {
        tokens[place].bytes = bytes.to_vec();
    }
}

fn replaced(random: &mut Random, tokens: &mut [Token]) {
    let place = any_place(random, tokens);
    tokens[place].bytes = random.pick(STRANGERS).to_vec();
}

fn put_in(random: &mut Random, tokens: &mut Vec<Token>) {
    let place = any_place(random, tokens) + random.index(2);
    let token = Token::new(Role::Group, random.pick(STRANGERS));
    tokens.insert(place, token);
}

fn left_out(random: &mut Random, tokens: &mut Vec<Token>) {
    let place = any_place(random, tokens);
    tokens.remove(place);
}

fn swapped(random: &mut Random, tokens: &mut [Token]) {
    let place = any_place(random, tokens);
    tokens.swap(place, (place + 1) % tokens.len());
}

fn twice(random: &mut Random, tokens: &mut Vec<Token>) {
    let place = any_place(random, tokens);
    tokens.insert(place, tokens[place].clone());
}

fn beats(random: &mut Random, tokens: &mut [Token], row: &[&str]) {
    let bytes = random.pick(row).as_bytes();
    respell(random, tokens, &[Role::Duration, Role::Delay], bytes);
}

fn odd_beats(random: &mut Random, tokens: &mut [Token]) {
    let bytes = random.pick(ODD_BEATS);
    respell(random, tokens, &[Role::Duration, Role::Delay], bytes);
}

fn number(random: &mut Random, tokens: &mut [Token], role: Role, list: &[&str]) {
    let own = random.pick(list);
    let any = random.pick(NUMBERS);
    let number = random.pick(&[own, own, own, any]);
    respell(random, tokens, &[role], number.as_bytes());
}

/// One of the list's numbers is near the right one.
fn list_number(random: &mut Random, tokens: &mut [Token]) {
    let Some(place) = place_of(random, tokens, &[Role::ListNumber]) else {
        return;
    };
    let digits = String::from_utf8_lossy(&tokens[place].bytes);
    let number: u64 = digits.parse().unwrap_or(0);
    let other = random.pick(&[
        number + 1,
        number + 1,
        number.saturating_sub(1),
        number + 10,
        number + (1 << 16),
        number + (1 << 32),
    ]);
    tokens[place].bytes = other.to_string().into_bytes();
}

/// Something more within a label.
fn label(random: &mut Random, tokens: &mut [Token]) {
    if let Some(place) = place_of(random, tokens, &[Role::Label]) {
        let bytes = &mut tokens[place].bytes;
        let at = 1 + random.index(bytes.len() - 1);
        let more = random.pick(IN_LABELS);
        bytes.splice(at..at, more.iter().copied());
    }
}

/// A label without its end, in the middle of the text or at the text's end.
fn open_label(random: &mut Random, tokens: &mut Vec<Token>) {
    let Some(place) = place_of(random, tokens, &[Role::Label]) else {
        return;
    };
    let bytes = &mut tokens[place].bytes;
    bytes.pop();
    let length = 1 + random.index(bytes.len());
    bytes.truncate(random.pick(&[length, bytes.len()]));
    if random.percent(40) {
        bytes.push(b'\\');
    }
    if random.percent(70) {
        tokens.truncate(place + 1);
        tokens.push(Token::new(Role::End, b""));
    }
}

fn is_word(token: &Token) -> bool {
    token.bytes.first().is_some_and(u8::is_ascii_lowercase)
}

/// One of the words, if there is one; each role has the same chance.
fn place_of_word(random: &mut Random, tokens: &[Token]) -> Option<usize> {
    if !tokens.iter().any(is_word) {
        return None;
    }
    loop {
        let place = any_place(random, tokens);
        if is_word(&tokens[place]) {
            return Some(place);
        }
    }
}

/// A letter too many, too few or another one.
fn misspelt(random: &mut Random, tokens: &mut [Token]) {
    let Some(place) = place_of_word(random, tokens) else {
        return;
    };
    let bytes = &mut tokens[place].bytes;
    let at = random.index(bytes.len());
    let letter = random.between(u64::from(b'a'), u64::from(b'z')) as u8;
    match random.below(6) {
        0 => bytes[at] = letter,
        1 => bytes.insert(at, letter),
        2 => drop(bytes.remove(at)),
        3 => bytes.push(letter),
        4 => bytes.truncate(bytes.len() - 1),
        _ => bytes.insert(at, random.pick(b"X_- 0\n#\"\x00\xff")),
    }
}

fn upper_case(random: &mut Random, tokens: &mut [Token]) {
    let Some(place) = place_of_word(random, tokens) else {
        return;
    };
    let bytes = &mut tokens[place].bytes;
    match random.below(3) {
        0 => bytes.make_ascii_uppercase(),
        1 => bytes[0].make_ascii_uppercase(),
        _ => {
            let at = random.index(bytes.len());
            bytes[at].make_ascii_uppercase();
        }
    }
}

/// Two tokens with no blank between, mostly where one is needed.
fn run_together(random: &mut Random, tokens: &mut [Token]) {
    let needed = |place: &usize| {
        let (before, after) = (&tokens[*place - 1].bytes, &tokens[*place].bytes);
        goes_on(before.last(), after.first())
    };
    let mut places: Vec<usize> = (1..tokens.len()).filter(needed).collect();
    if places.is_empty() {
        places.push(tokens.len() - 1);
    }
    tokens[random.pick(&places)].glued = true;
}

/// A group's words in a wrong order, or too many of them.
fn words(random: &mut Random, tokens: &mut Vec<Token>) {
    let Some(place) = place_of(random, tokens, &[Role::Open]) else {
        return;
    };
    let mut first = place;
    while first > 0 && matches!(tokens[first - 1].role, Role::Synchrony | Role::ErrorWord) {
        first -= 1;
    }
    let words: &[&str] = random.pick(&[
        &["local", "loose"][..],
        &["causal", "tight"],
        &["loose", "tight"],
        &["tight", "tight"],
        &["global", "partial"],
        &["loose", "local", "local"],
        &["loose", "local", "loose"],
        &["looselocal"],
        &["tight", "none"],
        &["loose,", "local"],
        &["tight"],
        &["causal"],
    ]);
    let spelled = words
        .iter()
        .map(|word| Token::new(Role::ErrorWord, word.as_bytes()));
    tokens.splice(first..place, spelled);
}

/// A brace too many or too few.
fn braces(random: &mut Random, tokens: &mut Vec<Token>) {
    let place = match place_of(random, tokens, &[Role::Open, Role::Close]) {
        Some(place) if random.percent(60) => place,
        _ => any_place(random, tokens) + 1,
    };
    match random.below(3) {
        0 if place < tokens.len() => drop(tokens.remove(place)),
        1 => tokens.insert(place, Token::new(Role::Close, b"}")),
        2 => tokens.insert(place, Token::new(Role::Open, b"{")),
        _ => tokens.push(Token::new(Role::Close, b"}")),
    }
}

/// Nothing after one of the tokens, or no token at all.
fn ended(random: &mut Random, tokens: &mut Vec<Token>, roles: &[Role]) {
    let any = any_place(random, tokens) + 1;
    let length = place_of(random, tokens, roles).map_or(any, |place| place + 1);
    tokens.truncate(random.pick(&[length, length, length, length, any, 0]));
    if !tokens.is_empty() && random.percent(10) {
        // Within beats.
        tokens.push(Token::new(Role::Delay, b"1/"));
    }
    if random.percent(60) {
        tokens.push(Token::new(Role::End, b""));
    }
}

/// Something right behind a token, where a blank or another token should stand.
fn stuck_on(random: &mut Random, tokens: &mut Vec<Token>) {
    let place = any_place(random, tokens) + 1;
    let mut token = Token::new(Role::Group, random.pick(STRANGERS));
    token.glued = true;
    tokens.insert(place, token);
}

// ---------------------------------------------------------- in the bytes

/// Bytes that mean something somewhere, and bytes that never do.
const TELLING: &[u8] = b"\"\"\\\\##{}//  \n\n\t\r0019azesXZ.-'\x00\x01\x0b\x1f\x7f\x80\xa0\xff";

/// One byte changed, put in or left out, or the text cut off.
pub fn smudge(random: &mut Random, text: &mut Vec<u8>) {
    if text.is_empty() {
        return;
    }
    let at = random.index(text.len());
    let any = random.below(256) as u8;
    let telling = random.pick(TELLING);
    let byte = random.pick(&[any, telling, telling]);
    match random.below(12) {
        0..=1 => text.truncate(at),
        2..=4 => cut_behind(random, text),
        5..=7 => text[at] = byte,
        8..=9 => text.insert(at, byte),
        10 => drop(text.remove(at)),
        _ => {
            let other = random.index(text.len());
            text.swap(at, other);
        }
    }
}

/// Cuts the text off behind a byte that something should follow.
fn cut_behind(random: &mut Random, text: &mut Vec<u8>) {
    let byte = random.pick(b"\"\\\\//#\n{} ");
    let places: Vec<usize> = (0..text.len())
        .filter(|&place| text[place] == byte)
        .collect();
    if !places.is_empty() {
        text.truncate(random.pick(&places) + 1);
    }
}
