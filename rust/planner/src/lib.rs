//! The yard planner for Rust, over the calls that are proved in Rattle:
//!
//! ```
//! use planner::Sheet;
//!
//! /// The yards to lease, by their numbers.
//! fn leases(bytes: &[u8]) -> Result<Vec<usize>, Box<dyn std::error::Error>> {
//!     let plan = Sheet::of_hauls(bytes).open_plan()?;
//!     Ok(plan.yards.iter().map(|open| open.yard).collect())
//! }
//!
//! assert_eq!(leases(&planner::table::Table::s().sheet()).unwrap(), [0, 1, 2]);
//! assert!(leases(b"no sheet").unwrap_err().to_string().starts_with("refused 1: Is the length"));
//! ```
//!
//! A `Sheet` has every call, and gives a `Plan` or a `Refusal`. The same calls on bytes and lent areas are in `library`, and as C has
//! them in `raw`; `format` has the records and the bounds, `table` a sheet as a table, `bands` a tariff as its bands.
pub mod bands;
pub mod format;
pub mod library;
mod plan;
pub mod raw;
mod refusal;
mod sheet;
pub mod table;

pub use plan::{OpenYard, Plan, PlannedFarm};
pub use refusal::Refusal;
pub use sheet::Sheet;

/// What the amounts of haul records are (paper 3 of document 02): hauls as written, or distances by the house tariff or by a tariff
/// of these bytes.
#[derive(Clone, Copy, Debug, Default, PartialEq, Eq)]
pub enum Tariff<'a> {
    #[default]
    None,
    House,
    Given(&'a [u8]),
}

/// What an accepted reading gives.
#[derive(Clone, Copy, Debug, PartialEq, Eq)]
pub struct Counts {
    pub yards: usize,
    pub farms: usize,
}

/// What an accepted call that writes a plan gives.
#[derive(Clone, Copy, Debug, PartialEq, Eq)]
pub struct Written {
    pub bytes: usize,
    pub moves: u32,
}

/// A farm's second cheapest open yard (paper 5 of document 02), and the haul of one load there.
#[derive(Clone, Copy, Debug, PartialEq, Eq)]
pub struct Second {
    pub yard: usize,
    pub haul: u32,
}

/// The whole result of a call, or the number of the first question that is answered no.
pub type Answer<T> = Result<T, u8>;
