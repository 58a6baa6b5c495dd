//! Commands that are mostly none: lines of random bytes, of any length, and
//! commands with bytes changed, put in or left out.

use crate::random::Random;

/// What a mangled command gets: digits, letters, and bytes that make a line
/// unreadable.
const MANGLING: &[u8] = b"0123456789 OHT\t\r-+abc\x00\xff";

/// An opening that is granted on a sound score, then this many lines, and now
/// and then some bytes with no newline after them.
pub fn commands(seed: u64, lines: u64) -> Vec<u8> {
    let mut random = Random::new(seed);
    let parts = random.pick(&[1, 3, 65_535]);
    let mut out = format!("O {parts} {}\n", random.between(1, 50_400)).into_bytes();
    for _ in 0..lines {
        let line = match random.below(20) {
            0..=6 => bytes(&mut random),
            7..=14 => mangled(&mut random),
            _ => command(&mut random),
        };
        out.extend(line);
        out.push(b'\n');
    }
    if random.percent(50) {
        out.extend(bytes(&mut random));
    }
    out
}

fn bytes(random: &mut Random) -> Vec<u8> {
    let length = random.pick(&[0, 1, 2, 3, 5, 8, 22, 23, 24, 25, 40, 100, 5_000]);
    (0..length).map(|_| random.below(256) as u8).collect()
}

fn command(random: &mut Random) -> Vec<u8> {
    if random.percent(90) {
        format!("T {}", random.below(1_200)).into_bytes()
    } else {
        let tempo = random.pick(&[0, 1, 5_040, 50_400, 50_401]);
        format!("H {} {tempo}", random.below(7)).into_bytes()
    }
}

fn mangled(random: &mut Random) -> Vec<u8> {
    let mut line = command(random);
    for _ in 0..random.below(3) {
        let at = random.index(line.len());
        match random.below(3) {
            0 => line[at] = random.pick(MANGLING),
            1 => line.insert(at, random.pick(MANGLING)),
            _ => drop(line.remove(at)),
        }
    }
    line
}
