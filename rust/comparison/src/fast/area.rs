//! The plan area.
use super::near::HaulTo;
use super::sheet::{Amounts, Hauls};
use super::sum::Sum;
use super::yards::Yards;
use planner::format::{record, record_with_loads, FARM, MOVES, OPEN, RECORD, TOTAL};
use planner::Written;

/// Writes the plan that opens these yards and serves each farm so. Its total counts these fees, and hauls times loads; `sum` has
/// why it fits.
pub fn write<S: Sum>(
    hauls: &Hauls,
    yards: &Yards,
    served: impl Iterator<Item = HaulTo<S>>,
    fees: &Amounts,
    moves: u32,
    area: &mut [u8],
) -> Written {
    let records = area.as_chunks_mut().0;
    let (open, rest) = records.split_at_mut(yards.count());
    let (farms, last) = rest.split_at_mut(hauls.farms);
    let mut total = 0;
    for (place, yard) in open.iter_mut().zip(yards.numbers()) {
        *place = record(OPEN, yard, 0, hauls.fees[yard]);
        total += fees[yard];
    }
    for ((farm, place), to) in farms.iter_mut().enumerate().zip(served) {
        *place = record_with_loads(FARM, to.yard(), farm, hauls.loads_bytes[farm], to.haul());
        total += hauls.loads(farm) * to.haul();
    }
    last[0] = record(TOTAL, open.len(), farms.len(), total);
    last[1] = record(MOVES, 0, 0, moves);
    Written { bytes: RECORD * (open.len() + farms.len() + 2), moves }
}
