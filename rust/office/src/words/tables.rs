//! Rows of cells as lines of equal columns.

pub type Row = Vec<String>;

pub fn row<const CELLS: usize>(cells: [&str; CELLS]) -> Row {
    cells.map(String::from).to_vec()
}

/// The cell where it is shown, else nothing.
pub fn text_where(shown: bool, cell: impl ToString) -> String {
    if shown {
        cell.to_string()
    } else {
        String::new()
    }
}

pub fn name(names: &[String], number: usize) -> &str {
    names.get(number).map_or("", String::as_str)
}

/// Numbers of yards or farms, one after the other.
pub fn numbers(numbers: impl IntoIterator<Item = usize>) -> String {
    numbers.into_iter().map(|number| number.to_string()).collect::<Vec<_>>().join(", ")
}

/// Rows as lines of equal columns. Columns of names begin at the left, the others end at the right; a column with nothing
/// in it is left out.
pub fn aligned(rows: &[Row], names: &[usize]) -> String {
    let width = |column: usize| rows.iter().map(|row| row[column].chars().count()).max().unwrap_or(0);
    let widths: Vec<usize> = (0..rows[0].len()).map(width).collect();
    let mut text = String::new();
    for row in rows {
        let filled = row.iter().zip(&widths).enumerate().filter(|(_, (_, &width))| width > 0);
        let cells = filled.map(|(column, (cell, &width))| match names.contains(&column) {
            true => format!("{cell:<width$}"),
            false => format!("{cell:>width$}"),
        });
        text.push_str(cells.collect::<Vec<_>>().join("  ").trim_end());
        text.push('\n');
    }
    text
}
