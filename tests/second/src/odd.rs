//! What stands beside the files of `scatter`, the same for every seed: what
//! can't be read, for each reason that any user can bring about; what a link
//! leads to; and names that can't be shown as they are.

use crate::lines::shown;
use crate::score::{Entry, Tables};
use std::ffi::OsStr;
use std::fs::{self, OpenOptions};
use std::io::{self, Write};
use std::os::unix::ffi::OsStrExt;
use std::os::unix::fs::{symlink, OpenOptionsExt};
use std::os::unix::net::UnixListener;
use std::path::Path;
use What::{Empty, Folder, Link, Locked, Socket, Sound};

pub enum What {
    Sound,
    Empty,
    /// A sound file that nobody may read; the system lets root read it.
    Locked,
    Folder,
    /// Can be named and not opened, by a number that has no words.
    Socket,
    Link(&'static [u8]),
}

/// Longer than a name may be, and short enough for a link everywhere.
const TOO_LONG: [u8; 1_000] = [b'n'; 1_000];

/// None is a number, as the names of the other files are.
pub const ENTRIES: &[(&[u8], What)] = &[
    (b"sound.bin", Sound),
    (b"empty.bin", Empty),
    (b"locked.bin", Locked),
    (b"folder.bin", Folder),
    (b"socket.bin", Socket),
    (b"to-sound.bin", Link(b"sound.bin")),
    (b"to-folder.bin", Link(b"folder.bin")),
    (b"to-nowhere.bin", Link(b"nowhere")),
    (b"to-through.bin", Link(b"sound.bin/x")),
    (b"to-circle.bin", Link(b"to-circle-back.bin")),
    (b"to-circle-back.bin", Link(b"to-circle.bin")),
    (b"to-too-long.bin", Link(&TOO_LONG)),
    // A process has nothing at its address 0: reading there fails as a bad disk does.
    (b"to-failing.bin", Link(b"/proc/self/mem")),
    (b"two  spaces .bin", Sound),
    (b"new\nline.bin", Sound),
    (b"no text \x80\xc3(\xfe\xff.bin", Sound),
    (b"control \x01\t\r\x1b[7m\x1f\x7f\xc2\x9b.bin", Sound),
];

/// An action and no group, so that the wrong rules about counts don't show in it.
pub fn sound() -> Vec<u8> {
    let mut tables = Tables {
        durations: vec![1],
        ..Tables::default()
    };
    tables.add_message(b"a");
    tables.items.push(Entry {
        event: 1,
        ..Entry::default()
    });
    tables.encode()
}

/// Makes them all anew in this folder; gives a line for each that the system
/// refuses to make, which is left out.
pub fn make_all(folder: &Path) -> Vec<String> {
    let mut left_out = Vec::new();
    for (name, what) in ENTRIES {
        if let Err(error) = make(&folder.join(OsStr::from_bytes(name)), what) {
            let name = shown(name);
            left_out.push(format!("{}: {error}", String::from_utf8_lossy(&name)));
        }
    }
    left_out
}

fn make(path: &Path, what: &What) -> io::Result<()> {
    // Of an earlier run; what can't be removed is the folder, or refused below.
    let _ = fs::remove_file(path);
    match what {
        Sound => file(path, &sound(), 0o666),
        Empty => file(path, b"", 0o666),
        Locked => file(path, &sound(), 0),
        Folder => fs::create_dir_all(path),
        Socket => UnixListener::bind(path).map(drop),
        Link(target) => symlink(OsStr::from_bytes(target), path),
    }
}

fn file(path: &Path, bytes: &[u8], mode: u32) -> io::Result<()> {
    let mut options = OpenOptions::new();
    options.write(true).create_new(true).mode(mode);
    options.open(path)?.write_all(bytes)
}
