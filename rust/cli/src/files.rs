//! Files: read within bounds, written whole or not at all.

use crate::lines::BadLine;
use crate::said::Failure;
use std::fs::{self, File, OpenOptions};
use std::io::{self, ErrorKind, Read, Write};
use std::path::{Path, PathBuf};
use std::process;
use std::sync::atomic::{AtomicBool, Ordering};

/// More than any file of the week has; a device without end is not read for ever.
const MOST: u64 = 1 << 24;

/// Stands for standard input.
const INPUT: &str = "-";

/// Whether standard input was read: it has nothing to say a second time.
static INPUT_READ: AtomicBool = AtomicBool::new(false);

/// The bytes of a file, or of standard input for `-`.
pub fn read(file: &str) -> Result<Vec<u8>, Failure> {
    let mut bytes = Vec::new();
    let all = if file == INPUT {
        if INPUT_READ.swap(true, Ordering::Relaxed) {
            return Err(Failure::of(file, "standard input is read only once"));
        }
        io::stdin().lock().take(MOST + 1).read_to_end(&mut bytes)
    } else {
        File::open(file).and_then(|open| open.take(MOST + 1).read_to_end(&mut bytes))
    };
    let len = all.map_err(|error| Failure::of(file, error))?;
    if len as u64 > MOST {
        return Err(Failure::of(file, format!("is longer than {MOST} bytes")));
    }
    Ok(bytes)
}

/// Some editors begin a text with it; it says nothing.
const MARK: char = '\u{FEFF}';

/// The text of a file.
pub fn read_text(file: &str) -> Result<String, Failure> {
    let text = String::from_utf8(read(file)?).map_err(|error| {
        let fine = &error.as_bytes()[..error.utf8_error().valid_up_to()];
        let ends = fine.iter().filter(|byte| **byte == b'\n').count();
        let bad = BadLine {
            line: ends + 1,
            why: "is not UTF-8 text".into(),
        };
        Failure::at(file, &bad)
    })?;
    Ok(text.strip_prefix(MARK).map(str::to_owned).unwrap_or(text))
}

/// Refuses to write where a file is that is only read: a text or a names file in the place of OUT would be lost.
pub fn apart<'a>(out: &str, read: impl IntoIterator<Item = &'a str>) -> Result<(), Failure> {
    let place = fs::canonicalize(out).ok();
    let mut read = read.into_iter();
    if place.is_some() && read.any(|file| fs::canonicalize(file).ok() == place) {
        let why = "is read by this command and would be lost, name another file to write";
        return Err(Failure::of(out, why));
    }
    Ok(())
}

/// Where a file is to be put: behind a link its target. What is there and is no plain file, a device or a folder, is left alone, and so
/// are a file that nobody may write and a link that leads nowhere.
fn target(file: &str) -> io::Result<PathBuf> {
    match fs::metadata(file) {
        Ok(old) if !old.is_file() => Err(io::Error::other("is not a plain file")),
        Ok(old) if old.permissions().readonly() => Err(io::Error::other("is read-only")),
        Ok(_) => {
            // Who may not write the file may not replace it either, though a rename asks only for rights on the folder.
            OpenOptions::new().write(true).open(file)?;
            fs::canonicalize(file)
        }
        Err(_) if fs::symlink_metadata(file).is_ok() => {
            Err(io::Error::other("is a link that leads nowhere"))
        }
        Err(_) => Ok(file.into()),
    }
}

/// A name beside the target that no other run of this program uses.
fn beside(target: &Path) -> io::Result<PathBuf> {
    let name = target
        .file_name()
        .ok_or_else(|| io::Error::other("names no file"))?;
    // A name may be as long as the system allows; the part's has to be no longer.
    let name: String = name.to_string_lossy().chars().take(40).collect();
    Ok(target.with_file_name(format!(".{name}.{}.part", process::id())))
}

/// Gives the part the rights of the file that it replaces before anything is in it, fills it, and puts it in that file's place when it is on the disk.
fn fill(mut open: File, part: &Path, target: &Path, bytes: &[u8]) -> io::Result<()> {
    if let Ok(old) = fs::metadata(target) {
        open.set_permissions(old.permissions())?;
    }
    open.write_all(bytes)?;
    open.sync_all()?;
    fs::rename(part, target)
}

fn replace(file: &str, bytes: &[u8]) -> io::Result<()> {
    if file == INPUT {
        return Err(io::Error::other("is standard input, name a file to write"));
    }
    let target = target(file)?;
    let part = beside(&target)?;
    // A part that is there already is somebody else's.
    let open = OpenOptions::new().write(true).create_new(true).open(&part);
    let open = open.map_err(|error| match error.kind() {
        ErrorKind::AlreadyExists => {
            let part = part.display();
            io::Error::other(format!(
                "{part}, where it is to be filled, is there already"
            ))
        }
        _ => error,
    })?;
    let filled = fill(open, &part, &target, bytes);
    if filled.is_err() {
        // What went wrong first is what is told.
        let _ = fs::remove_file(&part);
    }
    filled
}

/// Writes a file whole or not at all: a part beside it, then renamed. Where that fails, the file is as it was and the part is removed.
pub fn write_whole(file: &str, bytes: &[u8]) -> Result<(), Failure> {
    replace(file, bytes).map_err(|error| Failure::of(file, error))
}
