//! Tables whose columns are fixed: a tariff's and those of places.
use super::faults::Faults;
use super::grid::{tell_faulty_cells, Grid};
use super::head::found;
use super::rows::Row;
use super::File;

pub struct Columns {
    /// The cells of line 1.
    pub heads: &'static [&'static str],
    /// What a line with more cells is told.
    pub asked: &'static str,
    /// What a table without a line after line 1 is told.
    pub nothing: &'static str,
}

/// A line and the column that its cells begin in.
pub struct Entry<'r> {
    row: &'r Row,
    first_column: usize,
    heads: &'static [&'static str],
}

impl Entry<'_> {
    /// What is read from a cell, counted from 0; none, with a fault, where it cannot be.
    pub fn read<T>(
        &self,
        index: usize,
        faults: &mut Faults,
        read: impl FnOnce(&str) -> Result<T, String>,
    ) -> Option<T> {
        let words = match read(self.row.cell(self.first_column + index)?) {
            Ok(value) => return Some(value),
            Err(words) => words,
        };
        self.tell(index, faults, format!("under {}: {words}", self.heads[index]));
        None
    }

    pub fn tell(&self, index: usize, faults: &mut Faults, words: impl Into<String>) {
        faults.add(self.row.number, self.first_column + index, words);
    }

    pub fn line(&self) -> usize {
        self.row.number
    }
}

impl Columns {
    /// Has each line after line 1 read; none, with a fault, where line 1 is not understood. What cannot be read is left
    /// out.
    pub fn entries<T>(
        &self,
        file: File,
        faults: &mut Faults,
        mut read: impl FnMut(Entry, &mut Faults) -> Option<T>,
    ) -> Option<Vec<T>> {
        let grid = Grid::of(file, faults)?;
        self.head(&grid, faults)?;
        grid.tell(faults);
        if grid.body().is_empty() {
            faults.add(grid.head().number + 1, grid.first_column, self.nothing);
        }
        let entry = |row| {
            self.tell_more(&grid, row, faults);
            read(Entry { row, first_column: grid.first_column, heads: self.heads }, faults)
        };
        Some(grid.body().iter().filter_map(entry).collect())
    }

    fn head(&self, grid: &Grid, faults: &mut Faults) -> Option<()> {
        let row = grid.head();
        for (column, asked) in (grid.first_column..).zip(self.heads) {
            match row.cell(column) {
                Some(cell) if cell.eq_ignore_ascii_case(asked) => continue,
                Some(cell) => faults.add(row.number, column, words(cell, asked)),
                None => tell_faulty_cells(row, faults),
            }
            return None;
        }
        self.more(grid, row).for_each(|column| faults.add(row.number, column, self.asked));
        Some(())
    }

    /// The columns of a row's cells past the last column.
    fn more<'g>(&self, grid: &'g Grid, row: &'g Row) -> impl Iterator<Item = usize> + 'g {
        let past = grid.first_column + self.heads.len();
        row.filled().filter(move |&column| column >= past && row.cell(column).is_some())
    }

    /// Tells the first of them that line 1 has nothing above.
    fn tell_more(&self, grid: &Grid, row: &Row, faults: &mut Faults) {
        if let Some(column) = self.more(grid, row).find(|&column| grid.head().has_nothing_in(column)) {
            faults.add(row.number, column, self.asked);
        }
    }
}

fn words(cell: &str, asked: &str) -> String {
    let word = if asked.contains(' ') { "words" } else { "word" };
    format!("{}; asked here: the {word} {asked}", found(cell))
}
