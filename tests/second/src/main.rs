//! What Poolmirror must do, worked out a second time from the paper alone, and
//! a comparison with any program that should do it.

mod additions;
mod bounds;
mod case;
mod commands;
mod compare;
mod damage;
mod extended;
mod extended_cases;
mod extended_faults;
mod extended_file_faults;
mod extended_limits;
mod extended_refusals;
mod extended_specials;
mod extended_words;
mod figures;
mod global_cases;
mod global_shown;
mod global_words;
mod graced_cases;
mod graced_scores;
mod graced_words;
mod item_faults;
mod item_pages;
mod item_shown;
mod item_words;
mod items;
mod lines;
mod mutant;
mod nodes;
mod noise;
mod odd;
mod place_cases;
mod place_faults;
mod place_layouts;
mod place_shown;
mod place_words;
mod places;
mod play;
mod random;
mod rules;
mod scatter;
mod score;
mod scores;
mod session;
mod slips;
mod text;
mod text_shown;
mod text_words;
mod texts;
mod tokens;
mod unfold;
mod words;
mod writer;

use case::Case;
use std::ffi::OsString;
use std::fs;
use std::io::{self, BufWriter, Read, Write};
use std::path::{Path, PathBuf};
use std::process::ExitCode;

const USAGE: &str = "usage:
  second check FILE ..
  second reply FILE
  second answer DIR [GRACE]
  second graced FILE COMMANDS GRACE
  second globals-moved DIR [GRACE]
  second make [--graces | --globals] SEED DIR
  second compare [--graces | --globals] --runs N --seed S [--threads T] [--keep DIR] -- CMD ARG..
  second files SEED COUNT OUT
  second scatter DIR SEED COUNT
  second noise SEED LINES
  second texts SEED COUNT OUT
  second places SEED COUNT OUT
  second extended SEED COUNT OUT
  second words";

/// What went wrong; bad arguments show the usage.
enum Fault {
    Arguments,
    Other(String),
}

impl From<io::Error> for Fault {
    fn from(error: io::Error) -> Fault {
        Fault::Other(error.to_string())
    }
}

fn main() -> ExitCode {
    let arguments: Vec<OsString> = std::env::args_os().skip(1).collect();
    match run(&arguments) {
        Ok(true) => ExitCode::SUCCESS,
        Ok(false) => ExitCode::from(1),
        Err(Fault::Arguments) => {
            eprintln!("{USAGE}");
            ExitCode::from(2)
        }
        Err(Fault::Other(why)) => {
            eprintln!("second: {why}");
            ExitCode::from(2)
        }
    }
}

/// Runs one command; false where something failed that was tested.
fn run(arguments: &[OsString]) -> Result<bool, Fault> {
    mutant::from_environment().map_err(Fault::Other)?;
    let Some((command, rest)) = arguments.split_first() else {
        return Err(Fault::Arguments);
    };
    match (command.to_str().unwrap_or(""), rest) {
        ("check", files @ [_, ..]) => check(files),
        ("reply", [file]) => reply(Path::new(file)),
        ("answer", [folder]) => answer(Path::new(folder), 0),
        ("answer", [folder, grace]) => answer(Path::new(folder), self::grace(grace)?),
        ("graced", [file, commands, grace]) => graced(file, commands, self::grace(grace)?),
        ("globals-moved", [folder]) => globals_moved(Path::new(folder), 0),
        ("globals-moved", [folder, grace]) => globals_moved(Path::new(folder), self::grace(grace)?),
        ("make", [seed, folder]) => make(Case::of_seed, number(seed)?, Path::new(folder)),
        ("make", [sort, seed, folder]) => {
            let case = sort_of_case(sort).ok_or(Fault::Arguments)?;
            make(case, number(seed)?, Path::new(folder))
        }
        ("compare", rest) => compare(rest),
        ("files", [seed, count, out]) => files(number(seed)?, number(count)?, Path::new(out)),
        ("scatter", [folder, seed, count]) => {
            scatter(Path::new(folder), number(seed)?, number(count)?)
        }
        ("noise", [seed, lines]) => {
            io::stdout().write_all(&noise::commands(number(seed)?, number(lines)?))?;
            Ok(true)
        }
        ("texts", [seed, count, out]) => texts(number(seed)?, number(count)?, Path::new(out)),
        ("places", [seed, count, out]) => places(number(seed)?, number(count)?, Path::new(out)),
        ("extended", [seed, count, out]) => extended(number(seed)?, number(count)?, Path::new(out)),
        ("words", []) => Ok(tally(words::words())),
        _ => Err(Fault::Arguments),
    }
}

fn number(argument: &OsString) -> Result<u64, Fault> {
    argument
        .to_str()
        .and_then(|text| text.parse().ok())
        .ok_or(Fault::Arguments)
}

/// A grace as the product takes it: a number as in the commands.
fn grace(argument: &OsString) -> Result<u64, Fault> {
    play::number(argument.as_encoded_bytes()).ok_or(Fault::Arguments)
}

fn tally((passed, failed): (u64, u64)) -> bool {
    println!("{passed} passed, {failed} failed");
    failed == 0
}

/// A line for each file, in the order of the arguments.
fn check(files: &[OsString]) -> Result<bool, Fault> {
    let mut out = BufWriter::new(io::stdout().lock());
    for file in files {
        out.write_all(&lines::line(file))?;
    }
    out.flush()?;
    Ok(true)
}

fn reply(file: &Path) -> Result<bool, Fault> {
    let (number, place) = score::check(&fs::read(file)?);
    println!("{number} {place}");
    Ok(true)
}

fn answer(folder: &Path, grace: u64) -> Result<bool, Fault> {
    let (file, input) = read_case(folder)?;
    write_play(&file, &input, grace)
}

/// The score file, empty where it can't be read, and the commands.
fn read_case(folder: &Path) -> io::Result<(Vec<u8>, Vec<u8>)> {
    let file = fs::read(folder.join(case::SCORE)).unwrap_or_default();
    let commands = folder.join(case::COMMANDS);
    let input = if commands.exists() {
        fs::read(commands)?
    } else {
        standard_input()?
    };
    Ok((file, input))
}

/// Does request (v) move a group of this case?
fn globals_moved(folder: &Path, grace: u64) -> Result<bool, Fault> {
    let (file, input) = read_case(folder)?;
    let moved = global_shown::is_moved(&file, &input, grace);
    println!("{}", if moved { "moved" } else { "unmoved" });
    Ok(true)
}

/// Takes the arguments that the product's `play` takes, to stand in for it.
fn graced(file: &OsString, commands: &OsString, grace: u64) -> Result<bool, Fault> {
    let file = fs::read(file)?;
    let input = if commands == "-" {
        standard_input()?
    } else {
        fs::read(commands)?
    };
    write_play(&file, &input, grace)
}

fn write_play(file: &[u8], input: &[u8], grace: u64) -> Result<bool, Fault> {
    io::stdout().write_all(&play::play(file, input, grace))?;
    Ok(true)
}

fn standard_input() -> io::Result<Vec<u8>> {
    let mut input = Vec::new();
    io::stdin().read_to_end(&mut input)?;
    Ok(input)
}

/// The cases of an option, which have a grace each.
fn sort_of_case(option: &OsString) -> Option<fn(u64) -> Case> {
    match option.to_str() {
        Some("--graces") => Some(graced_cases::of_seed),
        Some("--globals") => Some(global_cases::of_seed),
        _ => None,
    }
}

fn make(case: fn(u64) -> Case, seed: u64, folder: &Path) -> Result<bool, Fault> {
    fs::create_dir_all(folder)?;
    case(seed).write(folder)?;
    Ok(true)
}

/// For each file its length (u32, little-endian) and its bytes into `out`; its
/// number and the reply that it must get on a line of its own.
fn files(seed: u64, count: u64, out: &Path) -> Result<bool, Fault> {
    let mut batch = BufWriter::new(fs::File::create(out)?);
    let mut lines = BufWriter::new(io::stdout().lock());
    for index in 0..count {
        let file = case::file_of_seed(seed.wrapping_add(index));
        let name = index.to_string();
        batch.write_all(&(name.len() as u32).to_le_bytes())?;
        batch.write_all(name.as_bytes())?;
        batch.write_all(&(file.len() as u32).to_le_bytes())?;
        batch.write_all(&index.to_le_bytes())?;
        batch.write_all(&file)?;
        let (number, place) = score::check(&file);
        writeln!(lines, "{index} {number} {place}")?;
    }
    batch.flush()?;
    lines.flush()?;
    Ok(true)
}

/// Each seed's case for the text form into `out`; what must come of it on
/// standard output.
fn texts(seed: u64, count: u64, out: &Path) -> Result<bool, Fault> {
    let mut batch = BufWriter::new(fs::File::create(out)?);
    let mut lines = BufWriter::new(io::stdout().lock());
    for index in 0..count {
        let case = texts::Case::of_seed(seed.wrapping_add(index));
        batch.write_all(&case.record())?;
        lines.write_all(&texts::lines(&case.expected()))?;
    }
    batch.flush()?;
    lines.flush()?;
    Ok(true)
}

/// Each seed's refused text and the place that is asked into `out`; what must be said
/// of them on standard output.
fn places(seed: u64, count: u64, out: &Path) -> Result<bool, Fault> {
    let mut batch = BufWriter::new(fs::File::create(out)?);
    let mut lines = BufWriter::new(io::stdout().lock());
    for index in 0..count {
        let case = place_cases::Case::of_seed(seed.wrapping_add(index));
        batch.write_all(&case.record())?;
        lines.write_all(case.said().line().as_bytes())?;
    }
    batch.flush()?;
    lines.flush()?;
    Ok(true)
}

/// Each seed's extended score into `out`; what must come of it on standard output.
fn extended(seed: u64, count: u64, out: &Path) -> Result<bool, Fault> {
    let mut batch = BufWriter::new(fs::File::create(out)?);
    let mut lines = BufWriter::new(io::stdout().lock());
    for index in 0..count {
        let case = extended_cases::Case::of_seed(seed.wrapping_add(index));
        batch.write_all(&case.record())?;
        lines.write_all(&extended_cases::lines(&case.expected()))?;
    }
    batch.flush()?;
    lines.flush()?;
    Ok(true)
}

/// Each seed's file for `check`, under its number in the row of seeds, and the
/// odd entries beside them.
fn scatter(folder: &Path, seed: u64, count: u64) -> Result<bool, Fault> {
    fs::create_dir_all(folder)?;
    for index in 0..count {
        let file = scatter::file_of_seed(seed.wrapping_add(index));
        fs::write(folder.join(format!("{index:04}.bin")), file)?;
    }
    for entry in odd::make_all(folder) {
        eprintln!("second: left out: {entry}");
    }
    Ok(true)
}

fn compare(arguments: &[OsString]) -> Result<bool, Fault> {
    let (mut runs, mut seed, mut threads, mut keep) = (None, None, 2, None);
    let (mut case, mut option): (fn(u64) -> Case, _) = (Case::of_seed, String::new());
    let mut rest = arguments;
    let program = loop {
        match rest {
            [word, program @ ..] if word == "--" => break program,
            [word, others @ ..] if sort_of_case(word).is_some() => {
                case = sort_of_case(word).ok_or(Fault::Arguments)?;
                option = format!("{} ", word.to_string_lossy());
                rest = others;
            }
            [word, value, others @ ..] => {
                match word.to_str() {
                    Some("--runs") => runs = Some(number(value)?),
                    Some("--seed") => seed = Some(number(value)?),
                    Some("--threads") => threads = number(value)?,
                    Some("--keep") => keep = Some(std::path::absolute(PathBuf::from(value))?),
                    _ => return Err(Fault::Arguments),
                }
                rest = others;
            }
            _ => return Err(Fault::Arguments),
        }
    };
    let (Some(runs @ 1..), Some(seed)) = (runs, seed) else {
        return Err(Fault::Arguments);
    };
    if program.is_empty() || threads == 0 {
        return Err(Fault::Arguments);
    }
    let words: Vec<_> = program.iter().map(|word| word.to_string_lossy()).collect();
    println!("seeds {seed} to {}", seed.wrapping_add(runs - 1));
    println!(
        "one seed alone: second compare {option}--runs 1 --seed SEED -- {}",
        words.join(" ")
    );
    match mutant::from_environment() {
        Ok(0) | Err(_) => {}
        Ok(number) => println!("expected by wrong rule {number}"),
    }
    Ok(tally(compare::compare(compare::Plan {
        case,
        runs,
        seed,
        threads,
        keep,
        program: program.to_vec(),
    })))
}
