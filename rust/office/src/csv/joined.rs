//! The tables of one sheet, joined by the names of the farms: what is wrong between them, and the table that they make
//! together.
use super::cells::{Cell, Cells, Lines};
use super::faults::Faults;
use super::part::{Farm, Part};
use super::{Amounts, File, Typed};
use crate::words::Names;
use planner::format::{MOST_FARMS, MOST_YARDS};
use planner::table::Table;
use std::collections::HashMap;

/// A table's place among the tables of the sheet, its name, and what it has.
struct Source<'p> {
    place: usize,
    table: &'p str,
    part: &'p Part,
    farms: HashMap<&'p str, &'p Farm>,
}

impl Source<'_> {
    fn cell(&self, line: usize, column: usize) -> Cell {
        Cell { table: self.table.into(), line, column }
    }

    /// A farm's loads, 1 for an empty cell, and their cell.
    fn loads(&self, farm: &str) -> Option<(u8, Cell)> {
        let (farm, column) = (self.farms.get(farm)?, self.part.head.loads?);
        Some((farm.loads?.max(1), self.cell(farm.line, column)))
    }
}

/// The tables that were understood.
fn sources<'p>(tables: &'p [File], parts: &'p [Option<Part>]) -> Vec<Source<'p>> {
    let source = |(place, (file, part)): (usize, (&'p File, &'p Option<Part>))| {
        let part = part.as_ref()?;
        let farms = part.farms.iter().map(|farm| (&farm.name[..], farm)).collect();
        Some(Source { place, table: file.name, part, farms })
    };
    tables.iter().zip(parts).enumerate().filter_map(source).collect()
}

/// Tells what is wrong with tables that belong together, each fault to the table where it is seen. The first table is
/// the one that the others are held against; where it was not understood, nothing is said of farms.
pub fn tell(tables: &[File], parts: &[Option<Part>], faults: &mut [Faults]) {
    let sources = sources(tables, parts);
    tell_yards(&sources, faults);
    let Some((first, others)) = sources.split_first().filter(|(first, _)| first.place == 0) else {
        return;
    };
    if let Some(farm) = first.part.farms.get(MOST_FARMS) {
        faults[0].add(farm.line, first.part.head.names, format!("a sheet has at most {MOST_FARMS} farms (question 4)"));
    }
    for other in others {
        let faults = &mut faults[other.place];
        tell_other_amounts(first, other, faults);
        tell_other_farms(first, other, faults);
        tell_missing_farms(first, other, faults);
    }
    first.part.farms.iter().for_each(|farm| tell_other_loads(&farm.name, &sources, faults));
}

/// No two yards of the sheet share a name, and there are not too many.
fn tell_yards(sources: &[Source], faults: &mut [Faults]) {
    let yards = sources.iter().flat_map(|source| source.part.head.yards.iter().map(move |yard| (source, yard)));
    let mut cells: HashMap<&str, Cell> = HashMap::new();
    for (number, (source, yard)) in yards.enumerate() {
        let cell = source.cell(source.part.head.line, yard.column);
        let faults = &mut faults[source.place];
        if number == MOST_YARDS {
            faults.add(cell.line, cell.column, format!("a sheet has at most {MOST_YARDS} yards (question 3)"));
        }
        let Some(name) = &yard.name else {
            continue;
        };
        if let Some(other) = cells.get(&name[..]) {
            faults.add(cell.line, cell.column, format!("another yard is called {name} too, in {other}"));
        }
        cells.entry(name).or_insert(cell);
    }
}

fn tell_other_amounts(first: &Source, other: &Source, faults: &mut Faults) {
    let [asked, found] = [first, other].map(|source| match source.part.head.corner.amounts {
        Amounts::Hauls => "hauls",
        Amounts::Distances => "distances",
    });
    if asked != found {
        let head = &other.part.head;
        let words = format!("this table has {found} and {} has {asked}; such tables are not joined", first.table);
        faults.add(head.line, head.names, words);
    }
}

/// Tells the farms that the first table does not have.
fn tell_other_farms(first: &Source, other: &Source, faults: &mut Faults) {
    if !first.part.has_all_farms {
        return;
    }
    for farm in other.part.farms.iter().filter(|farm| !first.farms.contains_key(&farm.name[..])) {
        let words = format!("farm {} is not in {}; asked: every farm in every table", farm.name, first.table);
        faults.add(farm.line, other.part.head.names, words);
    }
}

/// Tells the farms of the first table that another does not have, at the line after its last one.
fn tell_missing_farms(first: &Source, other: &Source, faults: &mut Faults) {
    let Some(last) = other.part.farms.last().filter(|_| other.part.has_all_farms) else {
        return;
    };
    for farm in first.part.farms.iter().filter(|farm| !other.farms.contains_key(&farm.name[..])) {
        let cell = first.cell(farm.line, first.part.head.names);
        let words = format!("farm {} is missing, which is in {cell}; asked: every farm in every table", farm.name);
        faults.add(last.line + 1, other.part.head.names, words);
    }
}

/// Tells where a table has other loads for a farm than the first one that has loads.
fn tell_other_loads(farm: &str, sources: &[Source], faults: &mut [Faults]) {
    let mut said = sources.iter().filter_map(|source| Some((source.place, source.loads(farm)?)));
    let Some((_, (asked, first))) = said.next() else {
        return;
    };
    for (place, (loads, cell)) in said.filter(|&(_, (loads, _))| loads != asked) {
        let words = format!("under loads: {loads} here and {asked} in {first} (an empty cell is one load)");
        faults[place].add(cell.line, cell.column, format!("{words}; asked: the same in every table that has loads"));
    }
}

/// What tables without a fault make together: every farm is in every one of them.
pub fn typed(tables: &[File], parts: &[Option<Part>]) -> Option<Typed> {
    let sources = sources(tables, parts);
    let first = sources.first()?.part;
    let names: Vec<String> = first.farms.iter().map(|farm| farm.name.clone()).collect();
    let joined = |name: &String| sources.iter().flat_map(|source| source.farms[&name[..]].hauls.clone()).collect();
    let loads = |name: &String| sources.iter().find_map(|source| source.farms[&name[..]].loads).unwrap_or(0);
    let table = Table {
        fees: sources.iter().flat_map(|source| source.part.fees.clone()).collect(),
        hauls: names.iter().map(joined).collect(),
        loads: names.iter().map(loads).collect(),
    };
    let yards = sources.iter().flat_map(|source| &source.part.head.yards);
    let yards = yards.filter_map(|yard| yard.name.clone()).collect();
    let cells = cells(&sources, &names);
    Some(Typed {
        table,
        amounts: first.head.corner.amounts,
        names: Names { yards, farms: names, cells, ..Names::default() },
    })
}

fn cells(sources: &[Source], farms: &[String]) -> Cells {
    let lines = |source: &Source| Lines {
        table: source.table.into(),
        fees: source.part.fee_line,
        farms: farms.iter().map(|name| source.farms[&name[..]].line).collect(),
        loads: source.part.head.loads,
    };
    let columns =
        |source: &Source| source.part.head.yards.iter().map(|yard| (source.place, yard.column)).collect::<Vec<_>>();
    Cells { tables: sources.iter().map(lines).collect(), yards: sources.iter().flat_map(columns).collect() }
}
