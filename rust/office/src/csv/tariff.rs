//! A tariff typed as a table, in CSV as a spreadsheet saves it:
//!
//! ```text
//! end in hundreds of metres,rate in cents per hundred metres
//! 100,40
//! 250,34
//! ```
//!
//! One line for each band. The first band starts at 0, each other one at its predecessor's end.
use super::columns::{Columns, Entry};
use super::faults::{Fault, Faults};
use super::units::is_whole;
use super::File;
use planner::bands::{following, Band};
use planner::format::MOST_BANDS;

const COLUMNS: Columns = Columns {
    heads: &["end in hundreds of metres", "rate in cents per hundred metres"],
    asked: "the table of a tariff has two columns, end and rate",
    nothing: "there is no band; asked: one line for each band, at least one (question 11)",
};

/// The bands of a table, or all its faults.
pub fn read_tariff(table: File) -> Result<Vec<Band>, Vec<Fault>> {
    let mut faults = Faults::of(table.name);
    let mut bands = 0;
    let band = |entry: Entry, faults: &mut Faults| {
        bands += 1;
        if bands == MOST_BANDS + 1 {
            entry.tell(0, faults, format!("a tariff has at most {MOST_BANDS} bands (question 11)"));
        }
        let end = entry.read(0, faults, two_bytes);
        let rate = entry.read(1, faults, two_bytes);
        end.zip(rate)
    };
    let ends_and_rates = COLUMNS.entries(table, &mut faults, band);
    faults.result(ends_and_rates.map(|ends_and_rates| following(&ends_and_rates)))
}

fn two_bytes(cell: &str) -> Result<u16, String> {
    if cell.is_empty() {
        return Err("the number is missing".into());
    }
    if !is_whole(cell) {
        return Err(format!("'{cell}' is no whole number; asked: digits alone"));
    }
    cell.parse().map_err(|_| format!("{cell} is more than its two bytes hold, {}", u16::MAX))
}
