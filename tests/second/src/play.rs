//! The program `play`: a score file and command lines in, bytes out.

use crate::session::{Sent, Session};

enum Command {
    Open { parts: u64, tempo: u64 },
    Heard { event: u64, tempo: u64 },
    Time { milliseconds: u64 },
}

/// 1 to 10 digits; leading zeros are fine.
pub fn number(word: &[u8]) -> Option<u64> {
    if !(1..=10).contains(&word.len()) {
        return None;
    }
    let mut value = 0;
    for &byte in word {
        if !byte.is_ascii_digit() {
            return None;
        }
        value = value * 10 + u64::from(byte - b'0');
    }
    Some(value)
}

fn command(line: &[u8]) -> Option<Command> {
    // A space too many leaves an empty word, which is no number.
    let words: Vec<&[u8]> = line.split(|&byte| byte == b' ').collect();
    match words[..] {
        [b"O", parts, tempo] => {
            let (parts, tempo) = (number(parts)?, number(tempo)?);
            (parts <= 65_535).then_some(Command::Open { parts, tempo })
        }
        [b"H", event, tempo] => {
            let (event, tempo) = (number(event)?, number(tempo)?);
            Some(Command::Heard { event, tempo })
        }
        [b"T", milliseconds] => {
            let milliseconds = number(milliseconds)?;
            Some(Command::Time { milliseconds })
        }
        _ => None,
    }
}

/// Lines end at a newline byte or the input's end; nothing after the last
/// newline is no line.
fn lines(input: &[u8]) -> Vec<&[u8]> {
    let mut lines: Vec<&[u8]> = input.split(|&byte| byte == b'\n').collect();
    if lines.last().is_some_and(|line| line.is_empty()) {
        lines.pop();
    }
    lines
}

/// All that `play` writes for this score file and this input, opened with this
/// grace.
pub fn play(file: &[u8], input: &[u8], grace: u64) -> Vec<u8> {
    perform(file, input, grace).0
}

/// What is written, and the session that was opened, if one was.
pub fn perform(file: &[u8], input: &[u8], grace: u64) -> (Vec<u8>, Option<Session>) {
    let mut output = Vec::new();
    let mut session: Option<Session> = None;
    for (index, line) in lines(input).into_iter().enumerate() {
        let place = index + 1;
        match (command(line), &mut session) {
            (Some(Command::Open { parts, tempo }), None) if place == 1 => {
                match Session::open(file, parts, tempo, grace) {
                    Ok(opened) => {
                        let count = opened.sounding_parts();
                        output.extend(format!("open 0 parts {count}\n").bytes());
                        session = Some(opened);
                    }
                    Err(refusal) => {
                        output.extend(format!("open {} parts 0\n", refusal.number).bytes());
                    }
                }
            }
            (Some(Command::Heard { event, tempo }), Some(session)) => {
                let sent = session.heard_note(event, tempo);
                write_reply(&mut output, session, sent);
            }
            (Some(Command::Time { milliseconds }), Some(session)) => {
                let sent = session.passing_time(milliseconds);
                write_reply(&mut output, session, sent);
            }
            _ => output.extend(format!("bad {place}\n").bytes()),
        }
    }
    let (clock, sent) = match &session {
        Some(session) => {
            let report = session.report();
            (report.clock, report.sent)
        }
        None => (0, 0),
    };
    output.extend(format!("end {clock} sent {sent}\n").bytes());
    (output, session)
}

fn write_reply(output: &mut Vec<u8>, session: &Session, reply: Result<Vec<Sent>, u64>) {
    match reply {
        Ok(sent) => {
            for message in sent {
                let Sent {
                    clock, due, part, ..
                } = message;
                output.extend(format!("{clock} {due} {part} ").bytes());
                output.extend_from_slice(&session.score.labels[message.message]);
                output.push(b'\n');
            }
        }
        Err(number) => output.extend(format!("no {number}\n").bytes()),
    }
}
