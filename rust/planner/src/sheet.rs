//! A haul sheet with what its haul amounts are, and every call on it.
use crate::format::{offers, MOST_AREA};
use crate::{library, Answer, Counts, Plan, Refusal, Second, Tariff, Written};

/// The bytes of a sheet, of hauls or of distances that a tariff prices. Nothing is asked of them before a call.
#[derive(Clone, Copy, Debug, PartialEq, Eq)]
pub struct Sheet<'a> {
    pub bytes: &'a [u8],
    pub tariff: Tariff<'a>,
}

impl<'a> Sheet<'a> {
    /// A sheet of hauls.
    pub fn of_hauls(bytes: &'a [u8]) -> Sheet<'a> {
        Sheet { bytes, tariff: Tariff::None }
    }

    /// A sheet of distances by a tariff (paper 3 of document 02).
    pub fn of_distances(bytes: &'a [u8], tariff: Tariff<'a>) -> Sheet<'a> {
        Sheet { bytes, tariff }
    }

    /// The counts of yards and farms.
    pub fn read(self) -> Result<Counts, Refusal> {
        library::read_by(self.bytes, self.tariff).map_err(Refusal)
    }

    /// What a set of yards costs; bit i marks yard i.
    pub fn price(self, set: u32) -> Result<Plan, Refusal> {
        plan(|area| library::price_by(self.bytes, self.tariff, set, area))
    }

    /// The open plan, by fees and hauls.
    pub fn open_plan(self) -> Result<Plan, Refusal> {
        plan(|area| library::open_plan_by(self.bytes, self.tariff, area))
    }

    /// The limited plan for k yards, by hauls alone.
    pub fn limited_plan(self, k: usize) -> Result<Plan, Refusal> {
        plan(|area| library::limited_plan_by(self.bytes, self.tariff, k, area))
    }

    /// A farm's second cheapest yard of a set (paper 5).
    pub fn second(self, set: u32, farm: usize) -> Result<Option<Second>, Refusal> {
        library::second_by(self.bytes, self.tariff, set, farm).map_err(Refusal)
    }

    /// The change in full cost on shutting a yard of a set, below zero where it saves money (paper 5).
    pub fn shut(self, set: u32, yard: usize) -> Result<i64, Refusal> {
        library::shut_by(self.bytes, self.tariff, set, yard).map_err(Refusal)
    }

    /// What no list costs less than: the sum of loads times one amount per farm, where no yard is overbid by them (paper 10).
    pub fn floor(self, amounts: &[u32]) -> Result<u64, Refusal> {
        library::floor_by(self.bytes, self.tariff, &offers(amounts)).map_err(Refusal)
    }
}

/// The plan that a call writes to an area for the plan of every sheet.
fn plan(call: impl FnOnce(&mut [u8]) -> Answer<Written>) -> Result<Plan, Refusal> {
    let mut area = [0; MOST_AREA];
    let written = call(&mut area).map_err(Refusal)?;
    Ok(Plan::of_records(&area[..written.bytes]))
}
