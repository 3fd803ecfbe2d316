//! The filled rows of a file, without the empty rows and columns around a table.
use super::faults::Faults;
use super::rows::Row;
use super::text::rows_of;
use super::File;

/// The rows of a table that are not empty, at least one.
pub struct Grid {
    rows: Vec<Row>,
    /// The first column that has a filled cell.
    pub first_column: usize,
}

impl Grid {
    /// The rows of a file; none, with a fault, where it cannot be read or has nothing.
    pub fn of(file: File, faults: &mut Faults) -> Option<Grid> {
        let mut rows = rows_of(file.bytes, faults)?;
        rows.retain(|row| row.filled().next().is_some());
        let first_column = rows.iter().filter_map(|row| row.filled().next()).min();
        if first_column.is_none() {
            faults.add(1, 1, "the table is empty");
        }
        Some(Grid { rows, first_column: first_column? })
    }

    /// The first line.
    pub fn head(&self) -> &Row {
        &self.rows[0]
    }

    /// The lines after the first.
    pub fn body(&self) -> &[Row] {
        &self.rows[1..]
    }

    pub fn has_nothing_in(&self, column: usize) -> bool {
        self.rows.iter().all(|row| row.has_nothing_in(column))
    }

    pub fn has_faulty_cells(&self) -> bool {
        self.rows.iter().any(|row| row.faulty().next().is_some())
    }

    /// Tells faulty cells, and empty lines between others, once where several follow each other.
    pub fn tell(&self, faults: &mut Faults) {
        for (index, row) in self.rows.iter().enumerate() {
            tell_faulty_cells(row, faults);
            if index > 0 && self.rows[index - 1].number + 1 < row.number {
                faults.add(self.rows[index - 1].number + 1, self.first_column, "the line is empty");
            }
        }
    }
}

pub fn tell_faulty_cells(row: &Row, faults: &mut Faults) {
    row.faulty().for_each(|(column, words)| faults.add(row.number, column, words));
}
