//! What is wrong with a table and where.
use std::fmt;

/// What is wrong and where: lines and columns count from 1.
#[derive(Clone, Debug, PartialEq, Eq)]
pub struct Fault {
    pub table: String,
    pub line: usize,
    pub column: usize,
    pub words: String,
}

impl fmt::Display for Fault {
    fn fmt(&self, to: &mut fmt::Formatter) -> fmt::Result {
        write!(to, "{}: line {}, column {}: {}", self.table, self.line, self.column, self.words)
    }
}

/// The faults of one table, as they are found.
pub struct Faults {
    table: String,
    found: Vec<Fault>,
}

impl Faults {
    /// Those of a table of which nothing is read yet.
    pub fn of(table: &str) -> Faults {
        Faults { table: table.into(), found: Vec::new() }
    }

    pub fn add(&mut self, line: usize, column: usize, words: impl Into<String>) {
        self.found.push(Fault { table: self.table.clone(), line, column, words: words.into() });
    }

    pub fn in_order(mut self) -> Vec<Fault> {
        self.found.sort_by_key(|fault| (fault.line, fault.column));
        self.found
    }

    /// What was read, where nothing is wrong with it.
    pub fn result<T>(self, read: Option<T>) -> Result<T, Vec<Fault>> {
        match read {
            Some(read) if self.found.is_empty() => Ok(read),
            _ => Err(self.in_order()),
        }
    }
}
