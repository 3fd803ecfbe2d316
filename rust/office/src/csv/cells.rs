//! Where the amounts of a sheet stand in its tables.
use std::fmt;

/// A cell of a table: lines and columns count from 1.
#[derive(Clone, Debug, PartialEq, Eq)]
pub struct Cell {
    pub table: String,
    pub line: usize,
    pub column: usize,
}

impl fmt::Display for Cell {
    fn fmt(&self, to: &mut fmt::Formatter) -> fmt::Result {
        write!(to, "{}: line {}, column {}", self.table, self.line, self.column)
    }
}

/// The cells of a sheet's amounts, by the numbers of yards and farms; none where they are not known.
#[derive(Clone, Debug, Default, PartialEq, Eq)]
pub struct Cells {
    pub(super) tables: Vec<Lines>,
    /// The place of each yard's table among the tables, and the yard's column there.
    pub(super) yards: Vec<(usize, usize)>,
}

/// The lines of one table, and its column of loads.
#[derive(Clone, Debug, PartialEq, Eq)]
pub(super) struct Lines {
    pub table: String,
    pub fees: usize,
    /// The line of each farm, by the farm's number.
    pub farms: Vec<usize>,
    pub loads: Option<usize>,
}

impl Lines {
    fn cell(&self, line: usize, column: usize) -> Cell {
        Cell { table: self.table.clone(), line, column }
    }

    fn loads(&self, farm: usize) -> Option<Cell> {
        Some(self.cell(*self.farms.get(farm)?, self.loads?))
    }
}

impl Cells {
    /// The cell of a yard's fee.
    pub fn fee(&self, yard: usize) -> Option<Cell> {
        let &(table, column) = self.yards.get(yard)?;
        let lines = &self.tables[table];
        Some(lines.cell(lines.fees, column))
    }

    /// The cell of a farm's haul to a yard, or of its distance.
    pub fn haul(&self, yard: usize, farm: usize) -> Option<Cell> {
        let &(table, column) = self.yards.get(yard)?;
        let lines = &self.tables[table];
        Some(lines.cell(*lines.farms.get(farm)?, column))
    }

    /// The cell of a farm's loads, in the first table that has a column of loads.
    pub fn loads(&self, farm: usize) -> Option<Cell> {
        self.tables.iter().find_map(|lines| lines.loads(farm))
    }
}
