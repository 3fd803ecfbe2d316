//! The calls of document 01, with papers 1, 2, 3 and 10 of document 02, as fast as plain Rust makes them. The planner's times are
//! held against these.
//!
//! A sheet is read once into a table of fixed size. Question 6 takes two yards at a time, and a search keeps the costs of
//! all moves and counts again only the farms that a move touches. Nothing is allocated, all numbers are whole, and the
//! loops over yards or farms are laid out for the vector instructions that every x86-64 processor has.
mod area;
mod floor;
mod loads;
mod near;
mod prices;
mod rule;
mod search;
mod sheet;
mod sum;
mod tariff;
mod yards;

use floor::floor_of;
use planner::format::least_area;
use planner::{Answer, Counts, Tariff, Written};
use search::{limited_plan_of, open_plan_of};
use sheet::Hauls;
use sum::Sum;
use yards::{ranks, Yards};

/// The counts of yards and farms, or the number of the first question of 1 to 4, 10, 5 and 6 that is answered no.
pub fn read(sheet: &[u8]) -> Answer<Counts> {
    read_by::<u64>(sheet, Tariff::None)
}

/// The same by a tariff, which is asked 11 and 12 ahead of question 1; 13 comes just before 5.
pub fn read_by<S: Sum>(sheet: &[u8], tariff: Tariff) -> Answer<Counts> {
    let mut hauls = Hauls::none();
    hauls.read(sheet, tariff, S::PRICING)?;
    Ok(Counts { yards: hauls.yards, farms: hauls.farms })
}

/// Prices a set of yards, of which bit i marks yard i, and writes its plan to the front of the area.
pub fn price(sheet: &[u8], set: u32, area: &mut [u8]) -> Answer<Written> {
    price_by::<u64>(sheet, Tariff::None, set, area)
}

/// The same by a tariff.
pub fn price_by<S: Sum>(sheet: &[u8], tariff: Tariff, set: u32, area: &mut [u8]) -> Answer<Written> {
    let mut hauls = Hauls::none();
    hauls.read(sheet, tariff, S::PRICING)?;
    if set == 0 || u64::from(set) >> hauls.yards != 0 {
        return Err(8);
    }
    large_enough(area, &hauls)?;
    Ok(price_of(&hauls, set, area))
}

/// Writes the open plan to the front of the area, by sums of 64 or of 32 bits.
pub fn open_plan<S: Sum>(sheet: &[u8], area: &mut [u8]) -> Answer<Written> {
    open_plan_by::<S>(sheet, Tariff::None, area)
}

/// The same by a tariff.
pub fn open_plan_by<S: Sum>(sheet: &[u8], tariff: Tariff, area: &mut [u8]) -> Answer<Written> {
    let mut hauls = Hauls::none();
    hauls.read(sheet, tariff, S::PRICING)?;
    large_enough(area, &hauls)?;
    Ok(open_plan_of::<S>(&hauls, area))
}

/// Writes the limited plan for k yards to the front of the area.
pub fn limited_plan<S: Sum>(sheet: &[u8], k: usize, area: &mut [u8]) -> Answer<Written> {
    limited_plan_by::<S>(sheet, Tariff::None, k, area)
}

/// The same by a tariff.
pub fn limited_plan_by<S: Sum>(sheet: &[u8], tariff: Tariff, k: usize, area: &mut [u8]) -> Answer<Written> {
    let mut hauls = Hauls::none();
    hauls.read(sheet, tariff, S::PRICING)?;
    if k < 1 || k > hauls.yards {
        return Err(7);
    }
    large_enough(area, &hauls)?;
    Ok(limited_plan_of::<S>(&hauls, k, area))
}

/// The sum of the offers, by a tariff or by none.
pub fn floor_by<S: Sum>(sheet: &[u8], tariff: Tariff, offers: &[u8]) -> Answer<u64> {
    let mut hauls = Hauls::none();
    hauls.read(sheet, tariff, S::PRICING)?;
    floor_of(&hauls, offers)
}

/// Prices a set that question 8 accepts, in an area that question 9 accepts.
fn price_of(hauls: &Hauls, set: u32, area: &mut [u8]) -> Written {
    let yards = Yards::of(set, &ranks(&hauls.fees));
    let served = hauls.rows_by_four().iter().flat_map(|rows| near::nearest_of_four(rows, &yards));
    area::write(hauls, &yards, served, &hauls.fees, 0, area)
}

/// Question 9.
fn large_enough(area: &[u8], hauls: &Hauls) -> Answer<()> {
    if area.len() < least_area(hauls.yards, hauls.farms) {
        return Err(9);
    }
    Ok(())
}
