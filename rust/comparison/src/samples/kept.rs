//! The sheets kept in `sheets/drops`: the open plan of each drops a yard on its way.
use super::Sample;
use std::path::{Path, PathBuf};
use std::{fs, io};

const FOLDER: &str = concat!(env!("CARGO_MANIFEST_DIR"), "/../../sheets/drops");

/// The sheets of the folder by name.
pub fn kept() -> io::Result<Vec<Sample>> {
    let entries: io::Result<Vec<PathBuf>> = fs::read_dir(FOLDER)?.map(|entry| Ok(entry?.path())).collect();
    let mut paths = entries?;
    paths.retain(|path| path.extension().is_some_and(|extension| extension == "sheet"));
    paths.sort();
    paths.iter().map(|path| kept_sheet(path)).collect()
}

fn kept_sheet(path: &Path) -> io::Result<Sample> {
    let name = path.file_stem().unwrap_or_default().to_string_lossy().into_owned();
    Ok(Sample { name, sheet: fs::read(path)?, reading: None })
}

/// The moves of a kept sheet's open plan, a line for each, from the file beside it.
pub fn kept_moves(name: &str) -> io::Result<String> {
    fs::read_to_string(Path::new(FOLDER).join(format!("{name}.moves")))
}
