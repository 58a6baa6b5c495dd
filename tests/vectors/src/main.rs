//! Writes test vectors for the score file: `vectors DIR` makes
//! `DIR/data/vectors.bin` and `DIR/stdout`. `vectors DIR examples` makes
//! `DIR/NAME/score.bin` for each of the pieces under examples/, with
//! `DIR/NAME/score.ext` where it was unfolded from an extended score, and `vectors
//! DIR largest` makes `DIR/largest.bin` and `DIR/folded.bin`.
//!
//! Every expected number, place and label is written down beside its vector,
//! from the words of documents 01 and 02 that are quoted there; no file is
//! checked by program here.
//!
//! Where the papers leave a choice the vectors rest on a decided reading:
//! all counts come before any offset; an offset is exact with count 0 too; the
//! item that falls out of order, that stands at depth 9 or that overruns is
//! itself the one at fault; a part that falls within an event breaks the rule
//! event, not the rule part; both words wrong are at the synchrony; equal top
//! items, equal labels and unused messages are fine; messages go entry by entry,
//! each with its label; an entry past the text's end is itself at fault; numbers
//! are never cut to a narrower width.

mod base;
mod book;
mod contents;
mod events;
mod examples;
mod extended;
mod folded;
mod items;
mod large;
mod largest;
mod looks;
mod messages;
mod order;
mod pairs;
mod rules;
mod score;
mod sound;

use std::path::Path;
use std::process::ExitCode;

fn write(dir: &Path) -> std::io::Result<()> {
    let mut book = book::Book::default();
    sound::add(&mut book);
    looks::add(&mut book);
    contents::add(&mut book);
    events::add(&mut book);
    items::add(&mut book);
    messages::add(&mut book);
    order::add(&mut book);
    pairs::add(&mut book);
    large::add(&mut book);
    std::fs::create_dir_all(dir.join("data"))?;
    std::fs::write(dir.join("data").join("vectors.bin"), book.data())?;
    std::fs::write(dir.join("stdout"), book.lines())
}

fn write_examples(dir: &Path) -> std::io::Result<()> {
    for (name, score) in examples::all() {
        std::fs::create_dir_all(dir.join(name))?;
        std::fs::write(dir.join(name).join("score.bin"), score.bytes())?;
    }
    for (name, extended) in examples::extended() {
        std::fs::write(dir.join(name).join("score.ext"), extended.bytes())?;
    }
    Ok(())
}

fn write_largest(dir: &Path) -> std::io::Result<()> {
    std::fs::create_dir_all(dir)?;
    std::fs::write(dir.join("largest.bin"), largest::score().bytes())?;
    std::fs::write(dir.join("folded.bin"), folded::bytes())
}

fn main() -> ExitCode {
    let args: Vec<_> = std::env::args_os().collect();
    let done = match args.len() {
        2 => write(Path::new(&args[1])),
        3 if args[2] == "examples" => write_examples(Path::new(&args[1])),
        3 if args[2] == "largest" => write_largest(Path::new(&args[1])),
        _ => {
            eprintln!("usage: vectors DIR [examples | largest]");
            return ExitCode::from(2);
        }
    };
    match done {
        Ok(()) => ExitCode::SUCCESS,
        Err(error) => {
            eprintln!("vectors: {error}");
            ExitCode::FAILURE
        }
    }
}
