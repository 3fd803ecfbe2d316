//! Offers under limited lists, and the fee that every yard has in the copy of the sheet for which they are made.
use super::offers::Offers;
use super::prices::{common_divisor, Prices, Row};
use super::relaxed::{self, Relaxed, Under};
use super::{search, total};
use planner::format::{FARM, HIGHEST_FEE, MOST_YARDS, RECORD};

/// How often offers are adjusted at most, for one fee.
const TRIALS: usize = 1_000;
/// Under lists of one yard the best fee is the least of many that serve as well. A higher one leaves the offers more
/// room.
const MORE_FOR_ONE_YARD: f64 = 1.5;
/// How many units the numbers have at most whose multiples are tried as fees.
const MOST_UNITS: i32 = 6;

pub struct Found {
    pub offers: Offers,
    /// The fee that the offers are made for, the same for every yard.
    pub fee: i32,
}

impl Found {
    /// What the hauls of k yards are at least.
    fn floor(&self, k: usize) -> i64 {
        self.offers.sum - k as i64 * i64::from(self.fee)
    }
}

/// The best that is found under lists of k yards, of which one is given by its plan.
pub fn under_limited(prices: &Prices, k: usize, plan: &[u8]) -> Found {
    let hauls = total(plan);
    let bidding_nothing = Found { offers: Offers::least(prices), fee: 0 };
    let mut best = if k == 1 { farthest(prices).unwrap_or(bidding_nothing) } else { bidding_nothing };
    if best.floor(k) >= hauls {
        return best;
    }
    let relaxed = relaxed::solve(prices, Under::Limited(k));
    let most = search::most(&relaxed, k);
    let sought = relaxed.equal_fee * if k == 1 { MORE_FOR_ONE_YARD } else { 1.0 };
    let fees = fees_near(sought, prices.unit, filling(plan));
    // Where no offers can show the list to be best, a few cents are not worth more than the first two.
    let count = if most < hauls { 2 } else { fees.len() };
    for fee in fees.into_iter().take(count) {
        let goal = hauls.min(most) + k as i64 * i64::from(fee);
        let found = Found { offers: for_fee(prices, fee, &relaxed, goal), fee };
        if found.floor(k) > best.floor(k) {
            best = found;
        }
        if best.floor(k) >= hauls.min(most) {
            break;
        }
    }
    best
}

/// Offers for a fee: near the amounts that were found along with the best fee where it is that one in whole units, else
/// near amounts of its own.
fn for_fee(prices: &Prices, fee: i32, relaxed: &Relaxed, goal: i64) -> Offers {
    let prices = prices.with_fee(fee);
    if (f64::from(fee) - relaxed.equal_fee).abs() <= prices.unit.into() {
        return search::near(&prices, &relaxed.amounts, goal, TRIALS);
    }
    search::under_all(&prices, goal, TRIALS)
}

/// Each farm offers the haul to its farthest yard, for the fee that is the most bid for a yard: under lists of one yard
/// no offers are better. None where that fee is too high.
fn farthest(prices: &Prices) -> Option<Found> {
    let farthest = |hauls: &Row| hauls[..prices.yards].iter().copied().fold(0, i32::max);
    let amounts: Vec<i32> = prices.hauls.iter().map(farthest).collect();
    let bid = |(amount, hauls): (&i32, &Row), yard: usize| i64::from(amount - hauls[yard]);
    let bids = |yard: usize| amounts.iter().zip(&prices.hauls).map(|farm| bid(farm, yard)).sum::<i64>();
    let fee = (0..prices.yards).map(bids).fold(0, i64::max);
    let fee = i32::try_from(fee).ok().filter(|&fee| fee <= HIGHEST_FEE as i32)?;
    let amounts: Vec<f64> = amounts.into_iter().map(f64::from).collect();
    Some(Found { offers: Offers::rounded_down(&prices.with_fee(fee), &amounts), fee })
}

/// Fees near the one that is sought, all multiples of the unit: just below it, just above, and the nearest multiples of
/// several numbers.
fn fees_near(sought: f64, unit: i32, filling: i32) -> Vec<i32> {
    let sought = sought.min(HIGHEST_FEE.into()) as i32;
    let nearest = |unit: i32| (sought + unit / 2) / unit * unit;
    let below = sought - sought % unit;
    let multiples = (2..=MOST_UNITS).map(|units| nearest(units * unit));
    let all = [below, below + unit, nearest(filling)].into_iter().chain(multiples);
    let mut fees = Vec::new();
    for fee in all.filter(|&fee| fee <= HIGHEST_FEE as i32) {
        if !fees.contains(&fee) {
            fees.push(fee);
        }
    }
    fees
}

/// The least fee above 0 that bids can come to at every yard of a plan: those of the farms that go to a yard are
/// multiples of what their loads are multiples of.
fn filling(plan: &[u8]) -> i32 {
    let mut units = [0; MOST_YARDS];
    for record in plan.chunks(RECORD).filter(|record| record[0] == FARM) {
        let unit = &mut units[usize::from(record[1])];
        *unit = common_divisor(*unit, record[3].max(1).into());
    }
    units.into_iter().filter(|&unit| unit > 0).fold(1, |all, unit| all / common_divisor(all, unit) * unit)
}
