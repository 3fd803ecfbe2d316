//! Sheets of distances (paper 3 of document 02), for a tariff that is given.
use super::loads::with_any_loads;
use super::tables::{between, from_lists, manhattan, plane, repair, small_amounts};
use super::tariffs::TariffSample;
use super::{below, Sample};
use crate::random::Random;
use planner::format::{HIGHEST_FEE, RECORD};
use planner::table::Table;

/// Fees of the size of hauls by a tariff.
const FEE: u32 = 60_000;

/// Distances up to `farthest` that keep the four-point rule; so hauls keep it too, by any accepted tariff.
pub fn metric(random: &mut Random, yards: usize, farms: usize, farthest: u32) -> Table {
    let half = farthest / 2;
    let mut table = match random.between(0, 4) {
        0 => plane(random, yards, farms, half, FEE),
        1 => manhattan(random, yards, farms, half / 2, FEE),
        2 => manhattan(random, yards, farms, half, HIGHEST_FEE),
        3 => between(random, yards, farms, farthest.div_ceil(3), farthest, FEE),
        _ => small_amounts(random, yards, farms, farthest.min(3)),
    };
    table.hauls.iter_mut().flatten().for_each(|distance| *distance = (*distance).min(farthest));
    repair(&mut table);
    with_any_loads(random, table)
}

/// Distances up to `farthest` that are not looked after: the hauls keep the four-point rule or break it.
pub fn loose(random: &mut Random, yards: usize, farms: usize, farthest: u32) -> Table {
    let highest_fee = if random.one_in(2) { FEE } else { 300 };
    let table = between(random, yards, farms, 0, farthest, highest_fee);
    with_any_loads(random, table)
}

/// Distances at band ends, at 0 and next to them, none past the last end.
pub fn at_ends(random: &mut Random, yards: usize, farms: usize, tariff: &TariffSample) -> Table {
    let mut distances = vec![0, 1, tariff.last_end()];
    for &(end, _) in &tariff.bands {
        distances.extend([end - 1, end, end + 1]);
    }
    distances.retain(|&distance| distance <= tariff.last_end());
    let table = from_lists(random, yards, farms, &[0, 1, FEE], &distances);
    with_any_loads(random, table)
}

/// A distance past the last end: by one, with low bytes that would pass, or any.
pub fn past(random: &mut Random, last_end: u32) -> u32 {
    let within = random.between(0, last_end.into()) as u32;
    match random.between(0, 5) {
        0 => u32::MAX,
        1 => random.between(u64::from(last_end) + 1, u32::MAX.into()) as u32,
        2 => within | 1 << 16,
        3 => within | 1 << 31,
        _ => last_end + 1,
    }
}

/// The offset of any haul of a sheet of good form.
pub fn any_haul(random: &mut Random, yards: usize, farms: usize) -> usize {
    RECORD * (yards + below(random, yards * farms))
}

/// Writes an amount to the record at an offset.
pub fn put_amount(sheet: &mut [u8], at: usize, amount: u32) {
    sheet[at + 4..at + RECORD].copy_from_slice(&amount.to_le_bytes());
}

/// A sheet of distances whose answer by the tariff is left to the implementations compared.
pub fn sheet_of(name: &str, table: &Table) -> Sample {
    Sample { reading: None, ..Sample::of_table(name, table, None) }
}
