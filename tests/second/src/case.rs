//! One seed's random case: a score file, or none, and commands; in the graced
//! cases and those of request (v) a grace too.

use crate::play::{number, play};
use crate::random::Random;
use crate::{commands, damage, item_faults, scores};
use std::fs;
use std::io;
use std::path::Path;

pub const SCORE: &str = "score.bin";
pub const COMMANDS: &str = "commands";
pub const GRACE: &str = "grace";

pub enum ScoreFile {
    Bytes(Vec<u8>),
    Missing,
    /// There, but a folder: it can't be read and counts as missing.
    Folder,
}

pub struct Case {
    pub score: ScoreFile,
    pub commands: Vec<u8>,
    /// As it is written on the command line, where the program gets one.
    pub grace: Option<String>,
}

impl Case {
    pub fn of_seed(seed: u64) -> Case {
        let random = &mut Random::new(seed);
        let invented = scores::invent(random);
        let commands = commands::invent(random, &invented);
        let score = match random.below(200) {
            0..=1 => ScoreFile::Missing,
            2 => ScoreFile::Folder,
            3..=16 => ScoreFile::Bytes(damage::damaged(random, invented.tables)),
            17..=22 => ScoreFile::Bytes(damage::fine(random, invented.tables)),
            _ => ScoreFile::Bytes(invented.tables.encode()),
        };
        Case {
            score,
            commands,
            grace: None,
        }
    }

    /// The grace that the session is opened with.
    pub fn grace(&self) -> u64 {
        let written = self.grace.as_ref();
        written
            .and_then(|grace| number(grace.as_bytes()))
            .unwrap_or(0)
    }

    /// What `play` must write.
    pub fn expected(&self) -> Vec<u8> {
        play(self.file(), &self.commands, self.grace())
    }

    /// The score file's bytes, as they are read.
    pub fn file(&self) -> &[u8] {
        match &self.score {
            ScoreFile::Bytes(bytes) => bytes,
            ScoreFile::Missing | ScoreFile::Folder => &[],
        }
    }

    /// Writes the files into a folder that is there.
    pub fn write(&self, folder: &Path) -> io::Result<()> {
        self.write_score(folder)?;
        if let Some(grace) = &self.grace {
            fs::write(folder.join(GRACE), grace)?;
        }
        fs::write(folder.join(COMMANDS), &self.commands)
    }

    pub fn write_score(&self, folder: &Path) -> io::Result<()> {
        let score = folder.join(SCORE);
        if score.is_dir() {
            fs::remove_dir(&score)?;
        } else if score.exists() {
            fs::remove_file(&score)?;
        }
        match &self.score {
            ScoreFile::Bytes(bytes) => fs::write(&score, bytes),
            ScoreFile::Missing => Ok(()),
            ScoreFile::Folder => fs::create_dir(&score),
        }
    }
}

/// One file for the file check: 55 of 100 are damaged, 15 have an item at fault that is
/// made to order, the others are sound.
pub fn file_of_seed(seed: u64) -> Vec<u8> {
    let random = &mut Random::new(seed);
    let tables = scores::invent(random).tables;
    if !random.percent(45) {
        damage::damaged(random, tables)
    } else if random.below(3) == 0 {
        item_faults::any(random)
    } else {
        tables.encode()
    }
}
