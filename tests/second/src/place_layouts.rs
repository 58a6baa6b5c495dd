//! Tokens laid out as a composer might: a line for each message, event and item,
//! several on a line or all on one, with comments at the ends of lines and on lines
//! of their own.

use crate::random::Random;
use crate::tokens::{comment, goes_on, Role, Token};

/// A text, and the byte that each of the tokens begins at.
pub struct LaidOut {
    pub text: Vec<u8>,
    pub starts: Vec<usize>,
}

pub fn laid_out(random: &mut Random, tokens: &[Token]) -> LaidOut {
    let mut page = Page {
        broken: random.pick(&[0, 0, 30, 70, 100, 100, 100]),
        remarks: random.pick(&[0, 10, 30, 60]),
        alone: random.pick(&[0, 0, 10, 40]),
        wide: random.pick(&[0, 0, 20]),
        grown: random.pick(&[0, 0, 50, 100]),
        newline: random.pick(&[&b"\n"[..], b"\n", b"\n", b"\r\n", b" \n", b"\n\n"]),
        indent: random.pick(&[&b""[..], b" ", b"  ", b"  ", b"\t"]),
        depth: 0,
        out: Vec::new(),
        random,
    };
    let mut starts = Vec::new();
    for token in tokens {
        if token.role == Role::End {
            let text = page.out;
            return LaidOut { text, starts };
        }
        if !token.glued {
            page.gap(token);
        }
        starts.push(page.out.len());
        page.out.extend_from_slice(&token.bytes);
        page.depth += usize::from(token.role == Role::Open);
    }
    page.end();
    let text = page.out;
    LaidOut { text, starts }
}

/// How often of 100 times each liberty is taken.
struct Page<'r> {
    random: &'r mut Random,
    /// A new line for what may begin one.
    broken: u64,
    /// A comment at a line's end.
    remarks: u64,
    /// A comment on a line of its own, and then another.
    alone: u64,
    /// Several blanks.
    wide: u64,
    /// No blank where none is needed.
    grown: u64,
    newline: &'static [u8],
    indent: &'static [u8],
    /// How many groups are open.
    depth: usize,
    out: Vec<u8>,
}

impl Page<'_> {
    fn gap(&mut self, token: &Token) {
        if token.role == Role::Close {
            self.depth = self.depth.saturating_sub(1);
        }
        match self.steps(token.role) {
            Some(steps) if self.random.percent(self.broken) => self.line(steps),
            _ => self.blanks(goes_on(self.out.last(), token.bytes.first())),
        }
    }

    /// How far it stands from a line's beginning, if it may begin one.
    fn steps(&self, role: Role) -> Option<usize> {
        match role {
            Role::Messages | Role::Event => Some(0),
            Role::ListNumber | Role::PartWord => Some(1),
            Role::Delay | Role::Close => Some(2 + self.depth),
            _ => None,
        }
    }

    fn line(&mut self, steps: usize) {
        if self.random.percent(self.remarks) {
            self.out.extend_from_slice(self.indent);
            comment(self.random, &mut self.out);
        } else {
            self.out.extend_from_slice(self.newline);
        }
        while self.random.percent(self.alone) {
            self.indented(steps);
            comment(self.random, &mut self.out);
        }
        self.indented(steps);
    }

    /// Not further than a screen is wide, for groups may be very deep.
    fn indented(&mut self, steps: usize) {
        self.out.extend(self.indent.repeat(steps.min(20)));
    }

    fn blanks(&mut self, needed: bool) {
        if !needed && self.random.percent(self.grown) {
            return;
        }
        let more = if self.random.percent(self.wide) {
            self.random.below(5)
        } else {
            0
        };
        for _ in 0..=more {
            self.out.push(self.random.pick(b"        \t\r"));
        }
    }

    fn end(&mut self) {
        match self.random.below(6) {
            0 => {}
            1..=2 => self.out.extend_from_slice(self.newline),
            3 => self.out.extend_from_slice(b" \t"),
            4 => comment(self.random, &mut self.out),
            _ => {
                // The text's end ends a comment too.
                comment(self.random, &mut self.out);
                self.out.pop();
            }
        }
    }
}
