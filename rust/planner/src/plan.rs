//! A plan as its parts, read off the records that a call writes.
use crate::format::{amount, FARM, MOVES, OPEN, RECORD, TOTAL};
use std::fmt;

/// A yard to lease and its fee.
#[derive(Clone, Copy, Debug, PartialEq, Eq)]
pub struct OpenYard {
    pub yard: usize,
    pub fee: u32,
}

/// Where a farm goes: its yard, its loads, at least one, and the haul of one load.
#[derive(Clone, Copy, Debug, PartialEq, Eq)]
pub struct PlannedFarm {
    pub farm: usize,
    pub yard: usize,
    pub loads: u64,
    pub haul: u32,
}

impl PlannedFarm {
    /// The haul of all its loads.
    pub fn cost(&self) -> u64 {
        self.loads * u64::from(self.haul)
    }
}

/// A priced set or a plan. Its lines, as the program `plan` prints them, are its `Display`.
#[derive(Clone, Debug, PartialEq, Eq)]
pub struct Plan {
    /// In the order of their numbers.
    pub yards: Vec<OpenYard>,
    /// In the order of their numbers.
    pub farms: Vec<PlannedFarm>,
    /// Fees and hauls; of a limited plan hauls alone.
    pub total: u32,
    /// The moves that the search made, 0 for pricing.
    pub moves: u32,
}

impl Plan {
    /// The plan of the records that a call wrote.
    pub fn of_records(records: &[u8]) -> Plan {
        let of_kind = |kind: u8| records.chunks_exact(RECORD).filter(move |record| record[0] == kind);
        let yard = |record: &[u8]| OpenYard { yard: record[1].into(), fee: amount(record) };
        let farm = |record: &[u8]| PlannedFarm {
            farm: record[2].into(),
            yard: record[1].into(),
            loads: record[3].max(1).into(),
            haul: amount(record),
        };
        Plan {
            yards: of_kind(OPEN).map(yard).collect(),
            farms: of_kind(FARM).map(farm).collect(),
            total: of_kind(TOTAL).map(amount).sum(),
            moves: of_kind(MOVES).map(amount).sum(),
        }
    }

    /// The set of the yards to lease: bit i marks yard i.
    pub fn set(&self) -> u32 {
        self.yards.iter().fold(0, |set, open| set | 1 << open.yard)
    }

    /// The fees of all yards to lease.
    pub fn fees(&self) -> u64 {
        self.yards.iter().map(|open| u64::from(open.fee)).sum()
    }

    /// The hauls of all loads.
    pub fn hauls(&self) -> u64 {
        self.farms.iter().map(PlannedFarm::cost).sum()
    }

    /// The farms that go to a yard.
    pub fn farms_of(&self, yard: usize) -> impl Iterator<Item = &PlannedFarm> {
        self.farms.iter().filter(move |farm| farm.yard == yard)
    }
}

impl fmt::Display for Plan {
    fn fmt(&self, to: &mut fmt::Formatter) -> fmt::Result {
        for OpenYard { yard, fee } in &self.yards {
            writeln!(to, "open {yard} {fee}")?;
        }
        for PlannedFarm { farm, yard, haul, .. } in &self.farms {
            writeln!(to, "farm {farm} {yard} {haul}")?;
        }
        writeln!(to, "total {}\nmoves {}", self.total, self.moves)
    }
}
