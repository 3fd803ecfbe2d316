//! Sheets and tariffs made from tables. A file that is there is kept unless it is told otherwise, and never for a refused sheet.
use super::arguments::Arguments;
use super::loaded::{faulty, held_to_folder, typed, Pricing};
use super::{files, refused, unusable, Said, Told};
use crate::csv::{self, Amounts};
use crate::words::{read, tariffs, ACCEPTED};
use planner::{bands, Sheet, Tariff};
use std::ffi::OsStr;

/// Writes the sheet, also one that reading refuses, and says what it answers.
pub fn sheet(tables: &[&OsStr], file: &OsStr, arguments: &Arguments) -> Result<Told, Said> {
    let mut typed = typed(tables)?;
    let pricing = Pricing::of(arguments)?;
    typed.names.tariff = pricing.file().into();
    let (bytes, tariff) = (typed.table.sheet(), pricing.tariff());
    held_to_folder(&bytes, &files::names(tables), arguments)?;
    if typed.amounts == Amounts::Hauls && tariff != Tariff::None {
        return Err(refused(format!("{} has hauls, and a tariff is for distances\n", files::names(tables))));
    }
    if arguments.value("--tariff").is_some_and(|tariff| files::is_same(file, tariff)) {
        let file = files::name(file);
        return Err(unusable(format!("{file} is the tariff itself: the sheet would be written over it\n")));
    }
    let said = match (typed.amounts, tariff) {
        (Amounts::Distances, Tariff::None) => tariffs::without_tariff(&bytes, &typed.names),
        _ => read(Sheet { bytes: &bytes, tariff }, &typed.names),
    };
    written(file, &bytes, tables, "sheet", arguments.has("--force"), said)
}

/// Writes the tariff, also one that is refused, and says what reading answers.
pub fn tariff(table: &OsStr, file: &OsStr, over: bool) -> Result<Told, Said> {
    let (name, bytes) = (files::name(table), files::bytes(table)?);
    let bands = csv::read_tariff(csv::File { name: &name, bytes: &bytes }).map_err(faulty)?;
    let tariff = bands::bytes(&bands);
    written(file, &tariff, &[table], "tariff", over, tariffs::read(&tariff))
}

/// Writes what tables make, but never over one of them, nor what is refused over a file that is there.
fn written(file: &OsStr, made: &[u8], tables: &[&OsStr], what: &str, over: bool, mut said: Said) -> Result<Told, Said> {
    let name = files::name(file);
    if tables.iter().any(|table| files::is_same(file, table)) {
        return Err(unusable(format!("{name} is the table itself: the {what} would be written over it\n")));
    }
    if said.status != ACCEPTED && files::is_there(file) {
        said.text += &format!("{name} was kept as it was: a {what} that is refused is written over no file\n");
        return Ok(Told::Message(said));
    }
    files::write(file, made, over)?;
    Ok(Told::Message(said))
}
