//! One table of a sheet: its yards with their fees, and each farm's loads and hauls. Where amounts are faulty, others
//! may stand for them: a table with faults is not given to anybody.
use super::faults::Faults;
use super::grid::Grid;
use super::head::{found, Head, Yard};
use super::rows::Row;
use super::units::{self, amount, Corner, Unit};
use super::File;
use std::collections::HashMap;

pub struct Part {
    pub head: Head,
    pub fees: Vec<u32>,
    pub fee_line: usize,
    pub farms: Vec<Farm>,
    /// Whether each line of a farm was understood, so that a farm which is not among them is missing.
    pub has_all_farms: bool,
}

pub struct Farm {
    pub name: String,
    pub line: usize,
    /// The byte of its loads, none where the table has no column of loads or the cell is faulty.
    pub loads: Option<u8>,
    pub hauls: Vec<u32>,
}

/// The table of a file; none, with a fault, where its first line is not understood or is all that it has.
pub fn part(file: File, faults: &mut Faults) -> Option<Part> {
    let grid = Grid::of(file, faults)?;
    let head = Head::of(&grid, faults)?;
    grid.tell(faults);
    let Some((fee_row, farm_rows)) = grid.body().split_first() else {
        faults.add(head.line + 1, head.names, "the line of fees is missing");
        return None;
    };
    let fees = fees(fee_row, &head, faults);
    let farms = farms(farm_rows, &head, faults);
    if farm_rows.is_empty() {
        let asked = "asked: one line for each farm, at least one (question 4)";
        faults.add(fee_row.number + 1, head.names, format!("there is no farm; {asked}"));
    }
    let is_understood = fees.is_some() && !farms.is_empty() && !grid.has_faulty_cells();
    let has_all_farms = is_understood && farms.len() == farm_rows.len();
    Some(Part { head, fees: fees.unwrap_or_default(), fee_line: fee_row.number, farms, has_all_farms })
}

/// The fees, from the second line; none where the line is not the one of fees. Loads have no fee.
fn fees(row: &Row, head: &Head, faults: &mut Faults) -> Option<Vec<u32>> {
    if let Some(column) = head.loads.filter(|&column| row.cell(column).is_some_and(|cell| !cell.is_empty())) {
        let asked = "asked here: an empty cell. A yard cannot be called loads";
        faults.add(row.number, column, format!("this is the column of loads, which have no fee; {asked}"));
    }
    let begin = row.cell(head.names)?;
    let unit = head.corner.fees.iter().find(|(words, _)| begin.eq_ignore_ascii_case(words)).map(|&(_, unit)| unit);
    if unit.is_none() {
        faults.add(row.number, head.names, format!("{}; asked here: {}", found(begin), begin_asked(head.corner)));
    }
    // Where fees count the same whatever the line begins with, they are looked at all the same.
    let only_unit = || (head.corner.fees.len() == 1).then_some(head.corner.unit);
    let fees = unit.or_else(only_unit).map(|unit| amounts(row, head, unit, faults));
    unit.and(fees)
}

fn begin_asked(corner: &Corner) -> String {
    let words: Vec<&str> = corner.fees.iter().map(|&(words, _)| words).collect();
    let word = if words == ["fee"] { "word" } else { "words" };
    format!("the {word} {}, then the fee of each yard", words.join(" or "))
}

/// The farms whose names are known.
fn farms(rows: &[Row], head: &Head, faults: &mut Faults) -> Vec<Farm> {
    let mut lines = HashMap::new();
    let mut farms = Vec::new();
    for row in rows {
        let name = farm_name(row, head, &mut lines, faults);
        let loads = loads(row, head, faults);
        let hauls = amounts(row, head, head.corner.unit, faults);
        farms.extend(name.map(|name| Farm { name, line: row.number, loads, hauls }));
    }
    farms
}

/// The name of the line's farm, which none of the others before it has.
fn farm_name<'r>(
    row: &'r Row,
    head: &Head,
    lines: &mut HashMap<&'r str, usize>,
    faults: &mut Faults,
) -> Option<String> {
    let name = row.cell(head.names)?;
    if name.is_empty() {
        faults.add(row.number, head.names, "the name of the farm is missing");
        return None;
    }
    if let Some(line) = lines.get(name) {
        faults.add(row.number, head.names, format!("another farm is called {name} too, in line {line}"));
        return None;
    }
    lines.insert(name, row.number);
    Some(name.into())
}

fn loads(row: &Row, head: &Head, faults: &mut Faults) -> Option<u8> {
    let column = head.loads?;
    let loads = units::loads(row.cell(column)?);
    loads.map_err(|words| faults.add(row.number, column, format!("under loads: {words}"))).ok()
}

/// The amounts of a line, one for each yard.
fn amounts(row: &Row, head: &Head, unit: Unit, faults: &mut Faults) -> Vec<u32> {
    let last = head.yards.last().map_or(head.names, |yard| yard.column);
    if let Some(column) = row.filled().find(|&column| column > last && row.cell(column).is_some()) {
        faults.add(row.number, column, format!("line {} names no yard above this cell", head.line));
    }
    match &head.yards[..] {
        [first, _, ..] if head.yards.iter().all(|yard| row.has_nothing_in(yard.column)) => {
            faults.add(row.number, first.column, "the line has no amounts; asked: one for each yard");
            Vec::new()
        }
        yards => yards.iter().map(|yard| amount_at(row, yard, unit, faults).unwrap_or_default()).collect(),
    }
}

fn amount_at(row: &Row, yard: &Yard, unit: Unit, faults: &mut Faults) -> Option<u32> {
    let (name, cell) = (yard.name.as_ref()?, row.cell(yard.column)?);
    amount(cell, unit).map_err(|words| faults.add(row.number, yard.column, format!("under yard {name}: {words}"))).ok()
}
