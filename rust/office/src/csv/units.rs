//! What the amounts of a table count, how the table says so, and how an amount is typed.
use super::Amounts;
use planner::format::MOST_LOADS;

#[derive(Clone, Copy, Debug, PartialEq, Eq)]
pub enum Unit {
    Cents,
    Euros,
    HundredsOfMetres,
}

/// The first cell of a table, and what follows from it.
#[derive(Debug, PartialEq, Eq)]
pub struct Corner {
    pub words: &'static str,
    pub amounts: Amounts,
    pub unit: Unit,
    /// What the line of fees may begin with, and what its amounts count then.
    pub fees: &'static [(&'static str, Unit)],
}

pub static CENTS: Corner =
    Corner { words: "cents", amounts: Amounts::Hauls, unit: Unit::Cents, fees: &[("fee", Unit::Cents)] };

pub static EUROS: Corner =
    Corner { words: "euros", amounts: Amounts::Hauls, unit: Unit::Euros, fees: &[("fee", Unit::Euros)] };

pub static DISTANCES: Corner = Corner {
    words: "distances in hundreds of metres",
    amounts: Amounts::Distances,
    unit: Unit::HundredsOfMetres,
    fees: &[("fee in cents", Unit::Cents), ("fee in euros", Unit::Euros)],
};

/// An amount in the sheet's unit, which is cents for euros.
pub fn amount(cell: &str, unit: Unit) -> Result<u32, String> {
    if cell.is_empty() {
        return Err("the amount is missing".into());
    }
    let (digits, highest) = match unit {
        Unit::Cents => (whole(cell, "cents")?, u32::MAX.to_string()),
        Unit::HundredsOfMetres => (whole(cell, "hundreds of metres")?, u32::MAX.to_string()),
        Unit::Euros => (euros(cell)?, format!("{}.{}", u32::MAX / 100, u32::MAX % 100)),
    };
    digits.parse().map_err(|_| format!("{cell} is more than the four bytes of an amount hold, {highest}"))
}

fn whole(cell: &str, unit: &str) -> Result<String, String> {
    match is_whole(cell) {
        true => Ok(cell.into()),
        false => Err(format!("'{cell}' is no whole number of {unit}; asked: digits alone")),
    }
}

pub fn is_whole(cell: &str) -> bool {
    !cell.is_empty() && cell.bytes().all(|byte| byte.is_ascii_digit())
}

/// The digits of an amount in euros, its two decimals the last two.
fn euros(cell: &str) -> Result<String, String> {
    let asked = "asked: euros with two decimals after a point or a comma and no thousands mark, as 2041.87 or 2041,87 \
                 (in quotes where commas part the cells)";
    let (euros, cents) = cell.rsplit_once(DECIMAL_MARKS).unwrap_or((cell, ""));
    let found = if !cell.bytes().any(|byte| byte.is_ascii_digit()) {
        "is no amount"
    } else if !cell.chars().all(|letter| letter.is_ascii_digit() || is_mark(letter)) {
        "has more than digits and a point or a comma"
    } else if !is_whole(cents) || cents.len() != 2 {
        "does not have two decimals"
    } else if euros.is_empty() {
        "has no digit before its decimals"
    } else if !is_whole(euros) {
        "has a thousands mark"
    } else {
        return Ok(format!("{euros}{cents}"));
    };
    Err(format!("'{cell}' {found}; {asked}"))
}

pub const DECIMAL_MARKS: [char; 2] = ['.', ','];

/// Whether a letter stands between digits somewhere as a decimal or thousands mark.
fn is_mark(letter: char) -> bool {
    DECIMAL_MARKS.contains(&letter) || letter.is_whitespace() || letter == '\'' || letter == '’'
}

/// The byte of a farm's loads. An empty cell is the byte 0, which is read as one load.
pub fn loads(cell: &str) -> Result<u8, String> {
    let asked = format!("asked: 1 to {MOST_LOADS}, or an empty cell for one load");
    if cell.is_empty() {
        return Ok(0);
    }
    if !is_whole(cell) {
        return Err(format!("'{cell}' is no whole number; {asked}"));
    }
    cell.parse().map_err(|_| format!("{cell} is more than the byte of loads holds, {}; {asked}", u8::MAX))
}
