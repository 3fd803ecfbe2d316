//! A line of CSV as it is written.

/// Cells parted by commas.
pub fn csv_line<'a>(cells: impl IntoIterator<Item = &'a str>) -> String {
    cells.into_iter().map(quoted).collect::<Vec<_>>().join(",") + "\n"
}

/// A cell, in quotes where it has what could part or end a cell, or blanks at its ends.
fn quoted(cell: &str) -> String {
    match cell.contains([',', ';', '\t', '"', '\n', '\r']) || cell.trim() != cell {
        true => format!("\"{}\"", cell.replace('"', "\"\"")),
        false => cell.into(),
    }
}
