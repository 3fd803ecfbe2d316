//! How far from best a list may be: what no list costs less than, by offers that the proved call accepts (paper 10 of
//! document 02).
//!
//! Offers are sought in plain Rust: first the best ones where amounts need not be whole cents (`relaxed`), then whole
//! cents near them (`search`), for limited lists with a fee that is the same for every yard (`limited`). Nothing rests
//! on this search being right: offers count where the library accepts them, and a floor is the sum that it gives.
mod limited;
mod offers;
mod prices;
mod relaxed;
mod search;

use offers::Offers;
use planner::format::{self, amount, MOST_AREA, RECORD, TOTAL};
use planner::table::Table;
use planner::{library, Answer, Tariff};
use prices::Prices;
use std::ops::RangeInclusive;

/// How often the offers under all lists are adjusted at most.
const TRIALS: usize = 4_000;

/// What no list can be below, found by offers that the proved call accepted.
#[derive(Clone, Copy, Debug, PartialEq, Eq)]
pub struct Floor {
    pub cents: u64,
    /// Of a limited list, the fee that every yard has in the copy of the sheet on which the offers were accepted.
    pub equal_fee: Option<u32>,
}

/// Offers that are to be put to the proved call.
#[derive(Clone, Debug, PartialEq, Eq)]
pub struct Offered {
    /// For each farm, per load.
    pub amounts: Vec<u32>,
    /// The fee that every yard has in the copy of the sheet that the offers are for; none where they are for the sheet.
    pub equal_fee: Option<u32>,
}

/// Under the full cost of every list.
pub fn open_floor(sheet: &[u8], tariff: Tariff) -> Answer<Floor> {
    let offered = open_offers(sheet, tariff)?;
    let accepted = offered.iter().filter_map(|offered| offered.sum(sheet, tariff).ok());
    Ok(Floor { cents: accepted.max().unwrap_or(0), equal_fee: None })
}

/// For each k of a range, under the hauls of every list of at most k yards; 7 where the range is empty or leaves 1 to
/// the count of yards. Offers that were found for one k count for every other.
pub fn limited_floors(sheet: &[u8], tariff: Tariff, ks: RangeInclusive<usize>) -> Answer<Vec<Floor>> {
    let offered = limited_offers(sheet, tariff, ks.clone())?;
    let accepted = |offered: &Offered| Some((offered.sum(sheet, tariff).ok()?, offered.equal_fee?));
    let sums: Vec<(u64, u32)> = offered.iter().filter_map(accepted).collect();
    let floor = |k: usize| {
        let floors = sums.iter().map(|&(sum, fee)| (sum.saturating_sub(k as u64 * u64::from(fee)), fee));
        let (cents, fee) = floors.max_by_key(|&(cents, _)| cents).unwrap_or((0, 0));
        Floor { cents, equal_fee: Some(fee) }
    };
    Ok(ks.map(floor).collect())
}

/// For the sheet, the best offers that were found, and those that bid nothing, which are always accepted.
pub fn open_offers(sheet: &[u8], tariff: Tariff) -> Answer<Vec<Offered>> {
    let prices = Prices::of(sheet, tariff)?;
    let mut area = [0; MOST_AREA];
    let written = library::open_plan_by(sheet, tariff, &mut area)?;
    let found = search::under_all(&prices, total(&area[..written.bytes]), TRIALS);
    Ok(vec![Offered::new(&prices, &found, None), Offered::new(&prices, &Offers::least(&prices), None)])
}

/// For copies of the sheet with equal fees, those that bid nothing, for fees of nothing, and the best offers that were
/// found for each k of a range.
pub fn limited_offers(sheet: &[u8], tariff: Tariff, ks: RangeInclusive<usize>) -> Answer<Vec<Offered>> {
    let prices = Prices::of(sheet, tariff)?;
    if ks.is_empty() || *ks.start() < 1 || *ks.end() > prices.yards {
        return Err(7);
    }
    let mut offered = vec![Offered::new(&prices, &Offers::least(&prices), Some(0))];
    for k in ks {
        let mut area = [0; MOST_AREA];
        let written = library::limited_plan_by(sheet, tariff, k, &mut area)?;
        let found = limited::under_limited(&prices, k, &area[..written.bytes]);
        offered.push(Offered::new(&prices, &found.offers, Some(found.fee as u32)));
    }
    Ok(offered)
}

impl Offered {
    fn new(prices: &Prices, offers: &Offers, equal_fee: Option<u32>) -> Offered {
        let amounts = offers.amounts.iter().zip(&prices.loads).map(|(amount, loads)| (amount / loads) as u32);
        Offered { amounts: amounts.collect(), equal_fee }
    }

    /// What the proved call answers: the sum of loads times amounts, or 16 where a yard is overbid.
    pub fn sum(&self, sheet: &[u8], tariff: Tariff) -> Answer<u64> {
        let offers = format::offers(&self.amounts);
        let Some(fee) = self.equal_fee else {
            return library::floor_by(sheet, tariff, &offers);
        };
        let yards = library::read_by(sheet, tariff)?.yards;
        let copy = Table { fees: vec![fee; yards], ..Table::of_sheet(sheet, yards) };
        library::floor_by(&copy.sheet(), tariff, &offers)
    }
}

/// The total of a plan.
fn total(plan: &[u8]) -> i64 {
    plan.chunks(RECORD).filter(|record| record[0] == TOTAL).map(|record| i64::from(amount(record))).sum()
}
