//! Runs another program on random cases and compares what it writes.

use crate::case::{Case, SCORE};
use crate::mutant;
use std::collections::BTreeMap;
use std::ffi::OsString;
use std::fs;
use std::io::{Read, Write};
use std::path::{Path, PathBuf};
use std::process::{Command, Stdio};
use std::sync::atomic::{AtomicU64, Ordering};
use std::sync::mpsc;
use std::thread;
use std::time::Duration;

/// A program that takes longer for one case is taken to hang.
const PATIENCE: Duration = Duration::from_secs(60);

pub struct Plan {
    /// The case of a seed.
    pub case: fn(u64) -> Case,
    pub runs: u64,
    pub seed: u64,
    pub threads: u64,
    pub keep: Option<PathBuf>,
    pub program: Vec<OsString>,
}

/// A folder that is gone when it is let go of.
struct Folder(PathBuf);

impl Folder {
    fn new(seed: u64) -> Result<Folder, String> {
        let name = format!("second-{}-{seed}", std::process::id());
        let path = std::env::temp_dir().join(name);
        fs::create_dir(&path).map_err(|error| format!("{}: {error}", path.display()))?;
        Ok(Folder(path))
    }
}

impl Drop for Folder {
    fn drop(&mut self) {
        let _ = fs::remove_dir_all(&self.0);
    }
}

/// Prints a line for each seed that fails; gives how many passed and failed.
pub fn compare(mut plan: Plan) -> (u64, u64) {
    // The program runs elsewhere, so its path must not hang on this folder.
    let path = PathBuf::from(&plan.program[0]);
    if path.components().count() > 1 {
        if let Ok(full) = fs::canonicalize(&path) {
            plan.program[0] = full.into_os_string();
        }
    }
    let plan = &plan;
    let next = &AtomicU64::new(0);
    let (sender, results) = mpsc::channel();
    thread::scope(|scope| {
        for _ in 0..plan.threads {
            let sender = sender.clone();
            scope.spawn(move || loop {
                let index = next.fetch_add(1, Ordering::Relaxed);
                if index >= plan.runs {
                    return;
                }
                let result = run(plan, plan.seed.wrapping_add(index));
                if sender.send((index, result)).is_err() {
                    return;
                }
            });
        }
        drop(sender);
        tell(plan, &results)
    })
}

/// Prints in the order of the seeds, whichever thread is first.
fn tell(plan: &Plan, results: &mpsc::Receiver<(u64, Result<(), String>)>) -> (u64, u64) {
    let mut waiting = BTreeMap::new();
    let (mut passed, mut failed) = (0, 0);
    for (index, result) in results {
        waiting.insert(index, result);
        while let Some(result) = waiting.remove(&(passed + failed)) {
            match result {
                Ok(()) => passed += 1,
                Err(why) => {
                    println!("seed {}: {why}", plan.seed.wrapping_add(passed + failed));
                    failed += 1;
                }
            }
        }
    }
    (passed, failed)
}

fn run(plan: &Plan, seed: u64) -> Result<(), String> {
    let case = (plan.case)(seed);
    let expected = case.expected();
    let folder = Folder::new(seed)?;
    case.write_score(&folder.0)
        .map_err(|error| error.to_string())?;
    let (output, ending) = run_program(plan, &folder.0, &case)?;
    let result = judge(&expected, &output, ending);
    if let (Err(_), Some(keep)) = (&result, &plan.keep) {
        let kept = keep.join(format!("seed-{seed}"));
        fs::create_dir_all(&kept)
            .and_then(|()| case.write(&kept))
            .and_then(|()| fs::write(kept.join("expected"), &expected))
            .and_then(|()| fs::write(kept.join("got"), &output))
            .map_err(|error| format!("can't keep the case: {error}"))?;
    }
    result
}

/// What the program wrote and, if it didn't end well, how it ended.
fn run_program(
    plan: &Plan,
    folder: &Path,
    case: &Case,
) -> Result<(Vec<u8>, Option<String>), String> {
    let mut child = Command::new(&plan.program[0])
        .args(&plan.program[1..])
        .args(graced_arguments(case))
        .current_dir(folder)
        .env_remove(mutant::VARIABLE)
        .stdin(Stdio::piped())
        .stdout(Stdio::piped())
        .stderr(Stdio::null())
        .spawn()
        .map_err(|error| format!("can't start the program: {error}"))?;
    let stdin = child.stdin.take();
    let stdout = child.stdout.take();
    let (sender, receiver) = mpsc::channel();
    thread::scope(|scope| {
        // Fed beside the reading, for either pipe may fill up.
        scope.spawn(move || {
            if let Some(mut stdin) = stdin {
                // A program may stop reading early; its output tells.
                let _ = stdin.write_all(&case.commands);
            }
        });
        scope.spawn(move || {
            let mut output = Vec::new();
            if let Some(mut stdout) = stdout {
                let _ = stdout.read_to_end(&mut output);
            }
            let _ = sender.send(output);
        });
        match receiver.recv_timeout(PATIENCE) {
            Ok(output) => {
                let status = child.wait().map_err(|error| error.to_string())?;
                let ending = (!status.success()).then(|| status.to_string());
                Ok((output, ending))
            }
            Err(_) => {
                let _ = child.kill();
                let _ = child.wait();
                Ok((Vec::new(), Some(String::from("no end in sight, stopped"))))
            }
        }
    })
}

/// What a program that takes a grace gets behind its own arguments.
fn graced_arguments(case: &Case) -> Vec<&str> {
    match &case.grace {
        Some(grace) => vec![SCORE, "-", grace],
        None => Vec::new(),
    }
}

fn judge(expected: &[u8], output: &[u8], ending: Option<String>) -> Result<(), String> {
    let mut faults = Vec::new();
    if let Some(ending) = ending {
        faults.push(format!("ended badly ({ending})"));
    }
    if expected != output {
        faults.push(first_difference(expected, output));
    }
    if faults.is_empty() {
        Ok(())
    } else {
        Err(faults.join("; "))
    }
}

/// The first line that differs, as both have it; newlines are shown, so that a
/// missing one at the end is seen.
fn first_difference(expected: &[u8], output: &[u8]) -> String {
    let mut expected = expected.split_inclusive(|&byte| byte == b'\n');
    let mut output = output.split_inclusive(|&byte| byte == b'\n');
    let mut number = 0;
    loop {
        number += 1;
        let (ours, theirs) = (expected.next(), output.next());
        if ours != theirs || ours.is_none() {
            return format!(
                "line {number}: expected {}, got {}",
                shown(ours),
                shown(theirs)
            );
        }
    }
}

fn shown(line: Option<&[u8]>) -> String {
    match line {
        Some(line) => format!("\"{}\"", line.escape_ascii()),
        None => String::from("nothing"),
    }
}
