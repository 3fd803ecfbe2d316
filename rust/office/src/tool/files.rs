//! Files as the command line names them: `-` is standard input and output, and a file that is there is kept.
use super::{refused, unusable, Said};
use std::ffi::{OsStr, OsString};
use std::fs::{self, File};
use std::io::{self, ErrorKind, Read, Write};
use std::path::{Path, PathBuf};
use std::process;
use std::sync::atomic::{AtomicBool, Ordering};

const STANDARD: &str = "-";

/// No table, no sheet and no tariff comes near so many bytes.
const MOST_BYTES: u64 = 16_777_216;

static INPUT_WAS_READ: AtomicBool = AtomicBool::new(false);

/// How a file is called in messages.
pub fn name(file: &OsStr) -> String {
    if file == STANDARD {
        return "standard input".into();
    }
    file.to_string_lossy().into_owned()
}

/// How several files are called.
pub fn names(files: &[&OsStr]) -> String {
    files.iter().map(|file| name(file)).collect::<Vec<_>>().join(", ")
}

/// The bytes of a file.
pub fn bytes(file: &OsStr) -> Result<Vec<u8>, Said> {
    if file == STANDARD && INPUT_WAS_READ.swap(true, Ordering::Relaxed) {
        return Err(unusable("standard input, -, can be read once only\n"));
    }
    let read = match file == STANDARD {
        true => some_bytes(io::stdin().lock()),
        false => File::open(file).and_then(some_bytes),
    };
    let bytes = read.map_err(|error| unusable(format!("{} cannot be read: {error}\n", name(file))))?;
    match bytes.len() as u64 > MOST_BYTES {
        true => Err(refused(format!("{} has more than {MOST_BYTES} bytes: no table is so large\n", name(file)))),
        false => Ok(bytes),
    }
}

/// All bytes, but of more than there may be, or of an endless input, just one too many.
fn some_bytes(from: impl Read) -> io::Result<Vec<u8>> {
    let mut bytes = Vec::new();
    from.take(MOST_BYTES + 1).read_to_end(&mut bytes).map(|_| bytes)
}

/// Whether both name one file that is there.
pub fn is_same(file: &OsStr, other: &OsStr) -> bool {
    let path = |file: &OsStr| fs::canonicalize(file).ok().filter(|_| file != STANDARD);
    path(file).is_some_and(|file| path(other) == Some(file))
}

/// Whether the file is there and would be lost if it were written over: a pipe or a device would not.
pub fn is_there(file: &OsStr) -> bool {
    file != STANDARD && fs::metadata(file).is_ok_and(|found| found.is_file())
}

/// Writes a whole file: beside its place first, then renamed, so that a file that is there stays whole until the new one is. Without
/// `over` one that is there is kept.
pub fn write(file: &OsStr, made: &[u8], over: bool) -> Result<(), Said> {
    let unwritten = |error: io::Error| match error.kind() {
        ErrorKind::AlreadyExists => there_already(file),
        _ => unusable(format!("{} cannot be written: {error}\n", name(file))),
    };
    if file == STANDARD {
        let mut output = io::stdout().lock();
        let written = output.write_all(made).and_then(|()| output.flush());
        return written.map_err(|error| unusable(format!("standard output cannot be written: {error}\n")));
    }
    match fs::metadata(file) {
        Ok(found) if !found.is_file() => fs::write(file, made).map_err(unwritten),
        Ok(_) if !over => Err(there_already(file)),
        _ => beside_and_renamed(file, made, over).map_err(unwritten),
    }
}

fn there_already(file: &OsStr) -> Said {
    unusable(format!("{} is there already and was kept; --force writes over it\n", name(file)))
}

fn beside_and_renamed(file: &OsStr, made: &[u8], over: bool) -> io::Result<()> {
    // Behind a link, the file that it leads to is written.
    let place = fs::canonicalize(file).unwrap_or(PathBuf::from(file));
    let beside = beside(&place);
    let written = whole(&beside, made).and_then(|()| match over {
        true => over_other(&beside, &place),
        false => without_losing(&beside, &place),
    });
    if written.is_err() {
        // What failed is told; a part of a file that cannot be removed either is left.
        let _ = fs::remove_file(&beside);
    }
    written
}

/// A name in the same folder, hidden, that no other run uses.
fn beside(place: &Path) -> PathBuf {
    let mut name = OsString::from(".");
    name.push(place.file_name().unwrap_or_default());
    name.push(format!(".{}", process::id()));
    place.with_file_name(name)
}

fn whole(file: &Path, made: &[u8]) -> io::Result<()> {
    let mut new = File::create_new(file)?;
    new.write_all(made)?;
    new.sync_all()
}

/// Gives the file its name, and who may read and write the one that has it.
fn over_other(beside: &Path, place: &Path) -> io::Result<()> {
    if let Ok(found) = fs::metadata(place) {
        fs::set_permissions(beside, found.permissions())?;
    }
    fs::rename(beside, place)
}

/// Gives the file its name, but not that of a file which came there meanwhile. A folder that knows no second names for a file renames.
fn without_losing(beside: &Path, place: &Path) -> io::Result<()> {
    match fs::hard_link(beside, place) {
        Ok(()) => fs::remove_file(beside),
        Err(error) if error.kind() == ErrorKind::AlreadyExists => Err(error),
        Err(_) => fs::rename(beside, place),
    }
}
