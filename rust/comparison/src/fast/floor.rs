//! The sum of offers, and whether they overbid a yard (paper 10 of document 02).
use super::sheet::Hauls;
use planner::format::{HIGHEST_FEE, HIGHEST_HAUL, MOST_YARDS, OFFER, RECORD};
use planner::Answer;

/// The excess of such an amount is above every fee at every yard, so that no higher one has to be told from it. Excesses are taken as
/// signed numbers, which every x86-64 processor compares by vector.
const OVERBIDS: u32 = HIGHEST_HAUL + HIGHEST_FEE + 1;
const _: () = assert!(OVERBIDS <= i32::MAX as u32);

/// Asks 15 and 16 after one pass over the farms, which sums the bids for each yard. A place past the last yard has the highest haul
/// and the highest fee, and is overbid only where every yard is.
pub fn floor_of(hauls: &Hauls, offers: &[u8]) -> Answer<u64> {
    let (records, rest) = offers.as_chunks::<RECORD>();
    if !rest.is_empty() || records.len() != hauls.farms {
        return Err(15);
    }
    let head = u32::from(OFFER);
    let mut differences = 0;
    let mut sum = 0;
    let mut bids = [0_u64; MOST_YARDS];
    for (farm, (row, &record)) in hauls.rows().iter().zip(records).enumerate() {
        let number = u64::from_le_bytes(record);
        differences |= number as u32 ^ head ^ (farm as u32) << 16;
        let (loads, amount) = (u64::from(hauls.loads(farm)), OVERBIDS.min((number >> 32) as u32));
        sum += loads * u64::from(amount);
        for (bids, &haul) in bids.iter_mut().zip(row) {
            let excess = (amount as i32 - haul as i32).max(0) as u32;
            *bids += loads * u64::from(excess);
        }
    }
    if differences != 0 {
        return Err(15);
    }
    if bids.iter().zip(&hauls.fees).any(|(&bids, &fee)| bids > fee.into()) {
        return Err(16);
    }
    Ok(sum)
}
