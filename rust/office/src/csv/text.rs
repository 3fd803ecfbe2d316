//! The text of a file: the file's type and encoding, and what parts its cells.
use super::faults::Faults;
use super::rows::{after_line_end, first_line, rows, Row};
use planner::format::YARD;

const BYTE_ORDER_MARK: &[u8] = b"\xEF\xBB\xBF";
const SEPARATORS: [char; 3] = [',', ';', '\t'];
const HOW_TO_SAVE: &str =
    "save the table again with the type \"CSV UTF-8\", which stands in the list of the save dialogue";

const WINDOWS: &str = "the text is not UTF-8 but, it seems, Windows-1252, as the type \"CSV\" has it";
const UTF_16: &str = "the text is UTF-16, as the type \"Unicode text\" has it";
const WORKBOOK: &str = "the file is a workbook, as a spreadsheet keeps it for itself";

/// What other files begin with that a spreadsheet saves.
const OTHER_TYPES: [(&[u8], &str); 4] =
    [(b"\xFF\xFE", UTF_16), (b"\xFE\xFF", UTF_16), (b"PK\x03\x04", WORKBOOK), (b"\xD0\xCF\x11\xE0", WORKBOOK)];

/// The first bytes of a sheet: the record of yard 0.
const SHEET: &[u8] = &[YARD, 0, 0, 0];

/// The rows of a file; none, with a fault, where it is no text in UTF-8.
pub fn rows_of(bytes: &[u8], faults: &mut Faults) -> Option<Vec<Row>> {
    let bytes = bytes.strip_prefix(BYTE_ORDER_MARK).unwrap_or(bytes);
    let (line, column, words) = match (other_type(bytes), std::str::from_utf8(bytes)) {
        (Some(words), _) => (1, 1, words),
        (None, Ok(text)) => match parted(text) {
            Ok(rows) => return Some(rows),
            Err(words) => (1, 1, words),
        },
        (None, Err(error)) => {
            let (line, column) = last_cell(&bytes[..error.valid_up_to()]);
            (line, column, format!("{WINDOWS}; {HOW_TO_SAVE}"))
        }
    };
    faults.add(line, column, words);
    None
}

fn other_type(bytes: &[u8]) -> Option<String> {
    if bytes.starts_with(SHEET) {
        return Some("the file is a sheet; asked: the table that the sheet was made from".into());
    }
    // The first letters of a table in UTF-16 have one byte of 0 each, on the same side.
    let is_zero = |at: usize| bytes.get(at) == Some(&0);
    let is_utf_16 = is_zero(0) != is_zero(1) && is_zero(0) == is_zero(2) && is_zero(1) == is_zero(3);
    let begun = OTHER_TYPES.iter().find(|(begin, _)| bytes.starts_with(begin)).map(|&(_, words)| words);
    begun.or(is_utf_16.then_some(UTF_16)).map(|words| format!("{words}; {HOW_TO_SAVE}"))
}

/// The line and the column of the cell that a text stops in.
fn last_cell(text: &[u8]) -> (usize, usize) {
    let text = String::from_utf8_lossy(text) + "?";
    let rows = parted(&text).unwrap_or_default();
    rows.last().map_or((1, 1), |row| (row.number, row.last_column()))
}

/// The rows of a text, by the separator that its line `sep=` gives or else by the first one outside quotes: the first
/// cell of a table has none.
fn parted(text: &str) -> Result<Vec<Row>, String> {
    let (line, after) = first_line(text);
    let line = line.trim_matches(['"', ' ']);
    let Some((_, given)) = line.split_at_checked(4).filter(|(word, _)| word.eq_ignore_ascii_case("sep=")) else {
        return Ok(rows(text, first_separator(text)));
    };
    match SEPARATORS.into_iter().find(|separator| given == separator.encode_utf8(&mut [0; 4])) {
        Some(separator) => Ok(rows(after_line_end(after), separator)),
        None => Err(format!("{line:?} stands here; asked after sep=: a comma, a semicolon or a tab")),
    }
}

fn first_separator(text: &str) -> char {
    let mut is_quoted = false;
    let mut is_separator = |letter: &char| {
        is_quoted ^= *letter == '"';
        !is_quoted && SEPARATORS.contains(letter)
    };
    text.chars().find(|letter| is_separator(letter)).unwrap_or(SEPARATORS[0])
}
