//! The planner's calls, proved in Rattle: a safe wrapper of `include/planner.h`.
//!
//! Every call takes any bytes, any set, any count and any area. A refused call gives document 01's number and leaves the area as
//! it was. A slice of Rust is what `planner.h` asks of a pointer and its length, and an area lent as `&mut` overlaps no sheet: so
//! every call below is sound.
#[cfg(test)]
mod tests;

use crate::{raw, Answer, Counts, Second, Tariff, Written};

/// The counts of yards and farms, or the number of the first question of 1 to 4, 10, 5 and 6 that is answered no.
pub fn read(sheet: &[u8]) -> Answer<Counts> {
    counted(unsafe { raw::planner_read(sheet.as_ptr(), sheet.len()) })
}

/// The length of a farm's stretch of the sheet: 8 bytes for each yard; 0 for a farm n or above, and for a sheet that questions 1
/// to 4 turn down; 10 is not asked here.
pub fn farm_len(sheet: &[u8], farm: usize) -> usize {
    unsafe { raw::planner_farm_len(sheet.as_ptr(), sheet.len(), farm) }
}

/// Where in the sheet a farm's stretch begins, 0 where it is empty.
pub fn farm_from(sheet: &[u8], farm: usize) -> usize {
    unsafe { raw::planner_farm_from(sheet.as_ptr(), sheet.len(), farm) }
}

/// A farm's stretch, the part of the sheet that holds its haul records.
pub fn farm_hauls(sheet: &[u8], farm: usize) -> &[u8] {
    &sheet[farm_from(sheet, farm)..][..farm_len(sheet, farm)]
}

/// Byte `at` of a farm's stretch, 0 past its end.
pub fn farm_byte(sheet: &[u8], farm: usize, at: usize) -> u8 {
    unsafe { raw::planner_farm_byte(sheet.as_ptr(), sheet.len(), farm, at) }
}

/// Prices a set of yards, of which bit i marks yard i, and writes its plan to the front of the area.
pub fn price(sheet: &[u8], set: u32, area: &mut [u8]) -> Answer<Written> {
    written(unsafe { raw::planner_price(sheet.as_ptr(), sheet.len(), set, area.as_mut_ptr(), area.len()) })
}

/// Writes the open plan to the front of the area.
pub fn open_plan(sheet: &[u8], area: &mut [u8]) -> Answer<Written> {
    written(unsafe { raw::planner_open_plan(sheet.as_ptr(), sheet.len(), area.as_mut_ptr(), area.len()) })
}

/// Writes the limited plan for k yards to the front of the area.
pub fn limited_plan(sheet: &[u8], k: usize, area: &mut [u8]) -> Answer<Written> {
    written(unsafe { raw::planner_limited_plan(sheet.as_ptr(), sheet.len(), k, area.as_mut_ptr(), area.len()) })
}

/// A farm's second cheapest yard of a set, ties as in a plan; none where the set has one yard, and for a farm n or above.
pub fn second(sheet: &[u8], set: u32, farm: usize) -> Answer<Option<Second>> {
    second_by(sheet, Tariff::None, set, farm)
}

/// The change in full cost on shutting a yard of the set, below zero where it saves money; 14 where the set does not mark the
/// yard or marks no other.
pub fn shut(sheet: &[u8], set: u32, yard: usize) -> Answer<i64> {
    shut_by(sheet, Tariff::None, set, yard)
}

/// The sum of loads times amounts of offers, one amount per farm: at most the full cost of any non-empty set of yards. 15 where the
/// records are broken or not one per farm in order, 16 where a yard is overbid.
pub fn floor(sheet: &[u8], offers: &[u8]) -> Answer<u64> {
    floor_by(sheet, Tariff::None, offers)
}

/// `read` on a sheet of distances by a tariff, which is asked 11 and 12 ahead of question 1; 13 comes just before 5.
pub fn read_by(sheet: &[u8], tariff: Tariff) -> Answer<Counts> {
    let (hauls, tariff) = told(tariff);
    counted(unsafe { raw::planner_read_by(sheet.as_ptr(), sheet.len(), hauls, tariff.as_ptr(), tariff.len()) })
}

/// `price` on a sheet of distances by a tariff: the records hold the priced hauls.
pub fn price_by(sheet: &[u8], tariff: Tariff, set: u32, area: &mut [u8]) -> Answer<Written> {
    let (hauls, tariff) = told(tariff);
    let (sheet_len, tariff_len, area_len) = (sheet.len(), tariff.len(), area.len());
    let (sheet, tariff, area) = (sheet.as_ptr(), tariff.as_ptr(), area.as_mut_ptr());
    written(unsafe { raw::planner_price_by(sheet, sheet_len, hauls, tariff, tariff_len, set, area, area_len) })
}

/// `open_plan` on a sheet of distances by a tariff.
pub fn open_plan_by(sheet: &[u8], tariff: Tariff, area: &mut [u8]) -> Answer<Written> {
    let (hauls, tariff) = told(tariff);
    let (sheet_len, tariff_len, area_len) = (sheet.len(), tariff.len(), area.len());
    let (sheet, tariff, area) = (sheet.as_ptr(), tariff.as_ptr(), area.as_mut_ptr());
    written(unsafe { raw::planner_open_plan_by(sheet, sheet_len, hauls, tariff, tariff_len, area, area_len) })
}

/// `limited_plan` on a sheet of distances by a tariff.
pub fn limited_plan_by(sheet: &[u8], tariff: Tariff, k: usize, area: &mut [u8]) -> Answer<Written> {
    let (hauls, tariff) = told(tariff);
    let (sheet_len, tariff_len, area_len) = (sheet.len(), tariff.len(), area.len());
    let (sheet, tariff, area) = (sheet.as_ptr(), tariff.as_ptr(), area.as_mut_ptr());
    written(unsafe { raw::planner_limited_plan_by(sheet, sheet_len, hauls, tariff, tariff_len, k, area, area_len) })
}

/// `second` on a sheet of distances by a tariff: the haul is the priced one.
pub fn second_by(sheet: &[u8], tariff: Tariff, set: u32, farm: usize) -> Answer<Option<Second>> {
    let (hauls, tariff) = told(tariff);
    let (from, length, bands, bands_length) = (sheet.as_ptr(), sheet.len(), tariff.as_ptr(), tariff.len());
    found(unsafe { raw::planner_second(from, length, hauls, bands, bands_length, set, farm) })
}

/// `shut` on a sheet of distances by a tariff.
pub fn shut_by(sheet: &[u8], tariff: Tariff, set: u32, yard: usize) -> Answer<i64> {
    let (hauls, tariff) = told(tariff);
    let (from, length, bands, bands_length) = (sheet.as_ptr(), sheet.len(), tariff.as_ptr(), tariff.len());
    change(unsafe { raw::planner_shut(from, length, hauls, bands, bands_length, set, yard) })
}

/// `floor` on a sheet of distances by a tariff: offers are held against the priced hauls.
pub fn floor_by(sheet: &[u8], tariff: Tariff, offers: &[u8]) -> Answer<u64> {
    let (hauls, tariff) = told(tariff);
    let (from, length, bands, bands_length) = (sheet.as_ptr(), sheet.len(), tariff.as_ptr(), tariff.len());
    sum(unsafe { raw::planner_floor(from, length, hauls, bands, bands_length, offers.as_ptr(), offers.len()) })
}

/// The number that tells a call what the amounts of haul records are, and the tariff's bytes, which count for a given one alone.
fn told(tariff: Tariff<'_>) -> (u8, &[u8]) {
    match tariff {
        Tariff::None => (0, &[]),
        Tariff::House => (1, &[]),
        Tariff::Given(bytes) => (2, bytes),
    }
}

/// Bits 0 to 7: the refusal number, 0 where the call is accepted.
fn accepted(result: u64) -> Answer<()> {
    match (result & 0xFF) as u8 {
        0 => Ok(()),
        number => Err(number),
    }
}

/// Bits 8 to 15: the yards; bits 16 to 23: the farms.
fn counted(result: u64) -> Answer<Counts> {
    accepted(result)?;
    Ok(Counts { yards: (result >> 8 & 0xFF) as usize, farms: (result >> 16 & 0xFF) as usize })
}

/// Bits 8 to 31: the bytes written; bits 32 to 63: the moves.
fn written(result: u64) -> Answer<Written> {
    accepted(result)?;
    Ok(Written { bytes: (result >> 8 & 0xFF_FFFF) as usize, moves: (result >> 32) as u32 })
}

/// Bit 8: whether there is a second yard; bits 16 to 23: that yard; bits 32 to 63: the haul there.
fn found(result: u64) -> Answer<Option<Second>> {
    accepted(result)?;
    let second = Second { yard: (result >> 16 & 0xFF) as usize, haul: (result >> 32) as u32 };
    Ok((result >> 8 & 1 == 1).then_some(second))
}

/// Bit 8: whether the change is below zero; bits 16 to 63: its size.
fn change(result: u64) -> Answer<i64> {
    accepted(result)?;
    let size = (result >> 16) as i64;
    Ok(if result >> 8 & 1 == 1 { -size } else { size })
}

/// Bits 8 to 63: the sum.
fn sum(result: u64) -> Answer<u64> {
    accepted(result)?;
    Ok(result >> 8)
}
