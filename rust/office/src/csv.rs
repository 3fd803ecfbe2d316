//! A sheet typed as a table, in CSV as a spreadsheet saves it (`tariff` has the table of a tariff, `places` that of
//! places):
//!
//! ```text
//! cents,Magdeburg,"Burg, harbour"
//! fee,900000,600000
//! Barleben,58400,120500
//! ```
//!
//! The first cell says what the amounts are: `cents`, whole cents as on the sheet, or `euros`, with exactly two
//! decimals after a point or a comma and no thousands mark.
//!
//! The second column may be headed `loads` and hold the loads of each farm, with no fee. An empty cell is one load:
//!
//! ```text
//! euros;loads;Magdeburg;Burg
//! fee;;9000,00;6000,00
//! Barleben;12;584,00;1205,00
//! Möser;;601,00;337,00
//! ```
//!
//! A table of distances says so in its first cell, and what its fees are (paper 3 of document 02): `fee in cents` or
//! `fee in euros`. A tariff prices them:
//!
//! ```text
//! distances in hundreds of metres,Magdeburg,"Burg, harbour"
//! fee in cents,900000,600000
//! Barleben,103,236
//! ```
//!
//! A sheet may come in several tables, each with some of the yards and all of the farms, in any order (`joined`).
//!
//! Cells are parted by commas, semicolons or tabs. Empty rows and columns around a table are passed over. A line is a
//! row as the spreadsheet numbers it: empty rows and columns before the table count, a line break within quotes does
//! not, and a first line `sep=;` does not either, since the spreadsheet takes it off.
mod cells;
mod columns;
mod faults;
mod grid;
mod head;
mod joined;
mod line;
mod part;
mod places;
mod rows;
mod tariff;
mod text;
mod units;
mod written;

use crate::words::Names;
pub use cells::{Cell, Cells};
pub use faults::Fault;
use faults::Faults;
pub use head::is_table;
pub use line::csv_line;
use part::part;
pub use places::{read_places, Place};
use planner::table::Table;
pub use tariff::read_tariff;
pub use written::written;

/// A file as it was named and its bytes.
#[derive(Clone, Copy, Debug)]
pub struct File<'a> {
    pub name: &'a str,
    pub bytes: &'a [u8],
}

/// A table, what its first cell says that it is of, and the names that the sheet has no room for.
#[derive(Clone, Debug, PartialEq, Eq)]
pub struct Typed {
    pub table: Table,
    pub amounts: Amounts,
    pub names: Names,
}

/// What a table has for each farm and yard.
#[derive(Clone, Copy, Debug, PartialEq, Eq)]
pub enum Amounts {
    Hauls,
    Distances,
}

/// The sheet of one table or of several, or all faults in the order of tables, lines and columns. A fault that follows
/// from another one is not told.
pub fn read(tables: &[File]) -> Result<Typed, Vec<Fault>> {
    let mut faults: Vec<Faults> = tables.iter().map(|file| Faults::of(file.name)).collect();
    let parts: Vec<_> = tables.iter().zip(&mut faults).map(|(&file, faults)| part(file, faults)).collect();
    joined::tell(tables, &parts, &mut faults);
    let faults: Vec<Fault> = faults.into_iter().flat_map(Faults::in_order).collect();
    if !faults.is_empty() {
        return Err(faults);
    }
    joined::typed(tables, &parts).ok_or_else(|| {
        let mut faults = Faults::of("");
        faults.add(1, 1, "no table was given");
        faults.in_order()
    })
}
