//! The rows of a text and their cells.

const LINE_ENDS: [char; 2] = ['\r', '\n'];

/// The text of a cell, or what is wrong with the cell.
type Content = Result<String, &'static str>;

pub struct Row {
    pub number: usize,
    cells: Vec<Content>,
}

impl Row {
    /// The text of the cell in a column, counted from 1: empty where the row ends before it, none where the cell is
    /// faulty. Behind a faulty last cell it is not known what the row has.
    pub fn cell(&self, column: usize) -> Option<&str> {
        match self.cells.get(column - 1).or(self.cells.last().filter(|cell| cell.is_err())) {
            Some(content) => content.as_deref().ok(),
            None => Some(""),
        }
    }

    pub fn has_nothing_in(&self, column: usize) -> bool {
        self.cell(column) == Some("")
    }

    /// The columns of the cells that are not empty.
    pub fn filled(&self) -> impl DoubleEndedIterator<Item = usize> + '_ {
        (1..=self.cells.len()).filter(|&column| !self.has_nothing_in(column))
    }

    /// The column of the last cell, empty or not.
    pub fn last_column(&self) -> usize {
        self.cells.len()
    }

    /// The columns of faulty cells, and what is wrong with each.
    pub fn faulty(&self) -> impl Iterator<Item = (usize, &'static str)> + '_ {
        self.cells.iter().enumerate().filter_map(|(index, cell)| Some((index + 1, cell.as_ref().err().copied()?)))
    }
}

/// All rows of a text, empty ones too. Rows count from 1; a line break within quotes begins no row.
pub fn rows(mut text: &str, separator: char) -> Vec<Row> {
    let mut rows = Vec::new();
    while !text.is_empty() {
        let (cells, after) = cells(text, separator);
        rows.push(Row { number: rows.len() + 1, cells });
        text = after_line_end(after);
    }
    rows
}

/// A text without the line end that it begins with.
pub fn after_line_end(text: &str) -> &str {
    text.strip_prefix("\r\n").or(text.strip_prefix(LINE_ENDS)).unwrap_or(text)
}

/// A text's first line, and what follows from its line end on.
pub fn first_line(text: &str) -> (&str, &str) {
    text.split_at(text.find(LINE_ENDS).unwrap_or(text.len()))
}

/// The cells of the first row, and the text from the row's end on.
fn cells(mut text: &str, separator: char) -> (Vec<Content>, &str) {
    let mut cells = Vec::new();
    loop {
        let (content, after) = cell(text, separator);
        cells.push(content.and_then(|content| in_one_line(&content)));
        match after.strip_prefix(separator) {
            Some(more) => text = more,
            None => return (cells, after),
        }
    }
}

/// The first cell of a text, and the text from the cell's end on. After a faulty quote it is not known where the next
/// cell begins, so the row ends there.
fn cell(text: &str, separator: char) -> (Content, &str) {
    let is_end = |letter: char| letter == separator || LINE_ENDS.contains(&letter);
    let from_end = |text: &'_ str| text.find(is_end).unwrap_or(text.len());
    let begun = text.trim_start_matches(|letter: char| letter.is_whitespace() && !is_end(letter));
    let Some(quoted) = begun.strip_prefix('"') else {
        let (content, after) = text.split_at(from_end(text));
        return match content.contains('"') {
            true => (Err("a quote stands inside a cell that does not begin with one"), first_line(text).1),
            false => (Ok(content.into()), after),
        };
    };
    let Some((content, after)) = unquoted(quoted) else {
        return (Err("the closing quote of this cell is missing"), "");
    };
    let (behind, rest) = after.split_at(from_end(after));
    match (behind.trim().is_empty(), content.contains(LINE_ENDS)) {
        (true, _) => (Ok(content), rest),
        (false, false) => (Err(TEXT_BEHIND_QUOTE), first_line(after).1),
        // The closing quote may be another cell's opening one: where rows end is not known either.
        (false, true) => (Err(TEXT_BEHIND_QUOTE), ""),
    }
}

const TEXT_BEHIND_QUOTE: &str = "text follows the closing quote";

/// The content of a cell whose opening quote is taken off, two quotes read as one, and what follows the closing quote.
fn unquoted(mut text: &str) -> Option<(String, &str)> {
    let mut content = String::new();
    loop {
        let (part, after) = text.split_once('"')?;
        content.push_str(part);
        match after.strip_prefix('"') {
            Some(more) => {
                content.push('"');
                text = more;
            }
            None => return Some((content, after)),
        }
    }
}

/// The content without blanks around it. Line breaks and tabs, with the blanks around them, become one blank.
fn in_one_line(content: &str) -> Content {
    let breaks = |letter: char| letter.is_control() && letter.is_whitespace();
    let parts: Vec<&str> = content.split(breaks).map(str::trim).filter(|part| !part.is_empty()).collect();
    let line = parts.join(" ");
    match line.contains(char::is_control) {
        true => Err("the cell has a character that cannot be printed; asked: type the cell anew"),
        false => Ok(line),
    }
}
