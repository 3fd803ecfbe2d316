//! Places for a map, typed as a table:
//!
//! ```text
//! kind,name,latitude,longitude
//! large yard,Magdeburg,52.13,11.64
//! farm,Barleben,52.20,11.62
//! ```
//!
//! Angles are degrees, with decimals after a point or a comma, and below 0 in the south and in the west. A yard may
//! have a size.
use super::columns::{Columns, Entry};
use super::faults::{Fault, Faults};
use super::units::{is_whole, DECIMAL_MARKS};
use super::File;
use std::collections::HashMap;

const COLUMNS: Columns = Columns {
    heads: &["kind", "name", "latitude", "longitude"],
    asked: "the table of places has four columns, kind, name, latitude and longitude",
    nothing: "there is no place; asked: one line for each place, at least one",
};
const YARDS: [&str; 4] = ["yard", "small yard", "medium yard", "large yard"];
const MOST_LATITUDE: u32 = 90;
const MOST_LONGITUDE: u32 = 180;

#[derive(Clone, Debug, PartialEq)]
pub struct Place {
    pub name: String,
    pub is_yard: bool,
    /// In degrees.
    pub latitude: f64,
    pub longitude: f64,
}

/// The places of a table in its order, or all its faults.
pub fn read_places(table: File) -> Result<Vec<Place>, Vec<Fault>> {
    let mut faults = Faults::of(table.name);
    let mut lines = HashMap::new();
    let places = COLUMNS.entries(table, &mut faults, |entry, faults| place(entry, &mut lines, faults));
    faults.result(places)
}

/// `lines` has the line of each place before it, by kind and name.
fn place(entry: Entry, lines: &mut HashMap<(bool, String), usize>, faults: &mut Faults) -> Option<Place> {
    let is_yard = entry.read(0, faults, kind);
    let name = entry.read(1, faults, name);
    let latitude = entry.read(2, faults, |cell| degrees(cell, MOST_LATITUDE));
    let longitude = entry.read(3, faults, |cell| degrees(cell, MOST_LONGITUDE));
    let (is_yard, name) = (is_yard?, name?);
    if let Some(line) = lines.insert((is_yard, name.clone()), entry.line()) {
        let what = if is_yard { "yard" } else { "farm" };
        entry.tell(1, faults, format!("another {what} is called {name} too, in line {line}"));
    }
    Some(Place { name, is_yard, latitude: latitude?, longitude: longitude? })
}

fn kind(cell: &str) -> Result<bool, String> {
    let is = |word: &&str| cell.eq_ignore_ascii_case(word);
    match (is(&"farm"), YARDS.iter().any(is)) {
        (true, _) => Ok(false),
        (_, true) => Ok(true),
        _ if cell.is_empty() => Err(format!("the kind is missing; asked: farm, {}", YARDS.join(", "))),
        _ => Err(format!("'{cell}' is no kind of place; asked: farm, {}", YARDS.join(", "))),
    }
}

fn name(cell: &str) -> Result<String, String> {
    match cell {
        "" => Err("the name is missing".into()),
        cell => Ok(cell.into()),
    }
}

/// An angle from `-most` to `most`.
fn degrees(cell: &str, most: u32) -> Result<f64, String> {
    if cell.is_empty() {
        return Err("the number is missing".into());
    }
    let angle = cell.strip_prefix('-').unwrap_or(cell);
    let (whole, decimals) = angle.split_once(DECIMAL_MARKS).unwrap_or((angle, "0"));
    let number = format!("{whole}.{decimals}").parse::<f64>();
    match number {
        Ok(number) if is_whole(whole) && is_whole(decimals) => {
            let degrees = if cell.starts_with('-') { -number } else { number };
            let is_within = number <= f64::from(most);
            is_within.then_some(degrees).ok_or(format!("{cell} is outside -{most} to {most} degrees"))
        }
        _ => Err(format!("'{cell}' is no number of degrees; asked: digits, with decimals after a point or a comma")),
    }
}
