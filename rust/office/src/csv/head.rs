//! The first line of a table: what the table is of, its column of loads and its yards.
use super::faults::Faults;
use super::grid::{tell_faulty_cells, Grid};
use super::units::{Corner, CENTS, DISTANCES, EUROS};
use super::File;

pub struct Head {
    pub corner: &'static Corner,
    pub line: usize,
    /// The column of the farms' names.
    pub names: usize,
    pub loads: Option<usize>,
    pub yards: Vec<Yard>,
}

/// A yard's column. There is no name where it is missing or cannot be one; then nothing is said of the amounts below.
pub struct Yard {
    pub column: usize,
    pub name: Option<String>,
}

impl Head {
    /// None, with a fault, where the line is not understood.
    pub fn of(grid: &Grid, faults: &mut Faults) -> Option<Head> {
        let (row, names) = (grid.head(), grid.first_column);
        if let Some(cell) = row.cell(names).filter(|cell| corner(cell).is_none()) {
            faults.add(row.number, names, format!("{}; asked here: {}", found(cell), corner_asked()));
            return None;
        }
        if row.faulty().next().is_some() {
            tell_faulty_cells(row, faults);
            return None;
        }
        let corner = corner(row.cell(names)?)?;
        let loads = row.cell(names + 1).is_some_and(heads_loads).then_some(names + 1);
        let first = loads.unwrap_or(names) + 1;
        let yards = yards(grid, first, faults);
        if yards.is_empty() {
            let called = if loads.is_some() { ", and a yard cannot be called loads" } else { "" };
            let words = format!("there is no yard{called}; asked: the name of each yard, at least one (question 3)");
            faults.add(row.number, first, words);
            return None;
        }
        Some(Head { corner, line: row.number, names, loads, yards })
    }
}

fn corner(cell: &str) -> Option<&'static Corner> {
    [&CENTS, &EUROS, &DISTANCES].into_iter().find(|corner| cell.eq_ignore_ascii_case(corner.words))
}

fn corner_asked() -> String {
    let whole = format!("the word {} (amounts are whole cents)", CENTS.words);
    let decimals = format!("the word {} (amounts have two decimals)", EUROS.words);
    format!("{whole}, {decimals} or the words {}, then the name of each yard", DISTANCES.words)
}

/// What a message says of a cell that should have something else.
pub fn found(cell: &str) -> String {
    match cell {
        "" => "the cell is empty".into(),
        cell => format!("'{cell}' stands here"),
    }
}

/// The last column that line 1 has a name in or line 2 a fee.
fn last_yard(grid: &Grid) -> usize {
    let rows = [Some(grid.head()), grid.body().first()];
    rows.into_iter().flatten().filter_map(|row| row.filled().next_back()).max().unwrap_or(0)
}

/// The yards from a column on. Empty columns between others are told once where several follow each other.
fn yards(grid: &Grid, first: usize, faults: &mut Faults) -> Vec<Yard> {
    let mut yards = Vec::new();
    for column in first..=last_yard(grid) {
        if !grid.has_nothing_in(column) {
            yards.push(yard(grid, column, faults));
        } else if !grid.has_nothing_in(column - 1) {
            faults.add(grid.head().number, column, "the column is empty");
        }
    }
    yards
}

fn yard(grid: &Grid, column: usize, faults: &mut Faults) -> Yard {
    let row = grid.head();
    let name = row.cell(column).unwrap_or("");
    let wrong = wrong_name(name).map(|words| faults.add(row.number, column, words));
    Yard { column, name: wrong.is_none().then(|| name.into()) }
}

fn wrong_name(name: &str) -> Option<String> {
    if name.is_empty() {
        return Some("the name of the yard is missing".into());
    }
    heads_loads(name).then(|| {
        let asked = "the column of loads is the second one, right after the names of the farms";
        format!("{asked}, and there is only one; a yard cannot be called {name}")
    })
}

fn heads_loads(name: &str) -> bool {
    name.eq_ignore_ascii_case("loads")
}

/// Whether bytes that are no sheet are a table of one: its first cell says what it is of.
pub fn is_table(bytes: &[u8]) -> bool {
    let grid = Grid::of(File { name: "", bytes }, &mut Faults::of(""));
    let corner_cell = |grid: &Grid| grid.head().cell(grid.first_column).and_then(corner).is_some();
    grid.is_some_and(|grid| corner_cell(&grid))
}
