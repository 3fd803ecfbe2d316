//! A list of a sheet: its plan, and what no such list can be below.
use crate::best::{limited_floors, open_floor, Floor};
use planner::{Plan, Refusal, Sheet};
use std::ops::RangeInclusive;

/// Which list of a sheet.
#[derive(Clone, Copy, Debug, PartialEq, Eq)]
pub enum Choice {
    /// By fees and hauls.
    Open,
    /// By hauls alone, for so many yards.
    Limited(usize),
    /// The price of a set, of which bit i marks yard i.
    Set(u32),
}

impl Choice {
    pub fn title(self) -> String {
        match self {
            Choice::Open => "Open plan".into(),
            Choice::Limited(k) => format!("Limited plan, k = {k}"),
            Choice::Set(_) => "Price of a set".into(),
        }
    }

    /// What the total has.
    pub fn counts(self) -> &'static str {
        match self {
            Choice::Limited(_) => "hauls alone",
            Choice::Open | Choice::Set(_) => "fees and hauls",
        }
    }
}

#[derive(Clone, Debug, PartialEq, Eq)]
pub struct List {
    pub choice: Choice,
    pub plan: Plan,
    /// Under the totals of all lists of any yards; of a limited list, of at most as many yards.
    pub floor: Floor,
}

impl List {
    /// A list of a sheet, or why it is refused.
    pub fn of(sheet: Sheet, choice: Choice) -> Result<List, Refusal> {
        let plan = match choice {
            Choice::Open => sheet.open_plan()?,
            Choice::Limited(k) => sheet.limited_plan(k)?,
            Choice::Set(set) => sheet.price(set)?,
        };
        let floor = match choice {
            Choice::Limited(k) => limited_floors(sheet.bytes, sheet.tariff, k..=k).map(|mut floors| floors.remove(0)),
            Choice::Open | Choice::Set(_) => open_floor(sheet.bytes, sheet.tariff),
        };
        Ok(List { choice, plan, floor: floor.map_err(Refusal)? })
    }

    /// The limited lists for each k of a range.
    pub fn limited(sheet: Sheet, ks: RangeInclusive<usize>) -> Result<Vec<List>, Refusal> {
        let floors = limited_floors(sheet.bytes, sheet.tariff, ks.clone()).map_err(Refusal)?;
        let list = |(k, floor)| Ok(List { choice: Choice::Limited(k), plan: sheet.limited_plan(k)?, floor });
        ks.zip(floors).map(list).collect()
    }

    /// Why the list cannot be what it says: its records do not come to its total, or its floor is above it.
    pub fn disagreement(&self) -> Option<String> {
        let Plan { total, .. } = self.plan;
        let (fees, hauls) = (self.plan.fees(), self.plan.hauls());
        let sum = if let Choice::Limited(_) = self.choice { hauls } else { fees + hauls };
        if sum != total.into() {
            return Some(format!("The records come to {sum} and the library's total is {total}"));
        }
        let floor = self.floor.cents;
        (floor > total.into()).then(|| format!("The library's floor {floor} is above the library's total {total}"))
    }
}
