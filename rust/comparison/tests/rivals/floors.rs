//! Paper 10 of document 02 against every rival: the sum of accepted offers is at most the full cost of each rival's set, and where every
//! fee is one amount L, at most k times L and the hauls of each set of at most k yards.
use super::prices::Prices;
use super::worst::{Seen, Worst};
use comparison::random::Random;
use comparison::samples::{accepted_offers, tight_offers, TariffSample};
use planner::format::{offers, HIGHEST_FEE};
use planner::table::Table;
use planner::{library, Answer, Tariff};

/// Offers at the sheet's fees, and tight ones where all fees are one amount, which is drawn up to what the hauls to yard 0 cost. Amounts
/// that are raised count where the library accepts them.
pub fn floors(sheet: &[u8], tariff: Option<&TariffSample>, prices: &Prices, name: &str, seen: &mut Seen) {
    let random = &mut Random::new(prices.total(1));
    let table = Table::of_sheet(sheet, prices.yards);
    let priced = tariff.map_or(table.clone(), |tariff| Table::of_sheet(&tariff.priced(sheet), prices.yards));
    let tight = tight_offers(random, &priced);
    let raised: Vec<u32> = tight.iter().map(|&amount| amount + random.between(0, amount.into()) as u32).collect();
    let sums = [tight, accepted_offers(random, &priced)].map(|amounts| accepted(&table, tariff, &amounts, name));
    for sum in sums.into_iter().chain(answer(&table, tariff, &raised)) {
        at_most(sum, prices, |rival| prices.total(rival), name, seen, |seen| &mut seen.floor);
    }
    let fee = random.between(0, prices.hauls[1].min(HIGHEST_FEE.into()));
    let with_fee = |table: Table| Table { fees: vec![fee as u32; prices.yards], ..table };
    let amounts = tight_offers(random, &with_fee(priced));
    let sum = accepted(&with_fee(table), tariff, &amounts, name);
    // With k its count of yards: for a higher k it would be more.
    let paid = |rival: usize| u64::from(rival.count_ones()) * fee + prices.hauls[rival];
    at_most(sum, prices, paid, name, seen, |seen| &mut seen.limited_floor);
}

/// The library's sum of offers that are made to be accepted.
fn accepted(table: &Table, tariff: Option<&TariffSample>, amounts: &[u32], name: &str) -> u64 {
    let answer = answer(table, tariff, amounts);
    answer.unwrap_or_else(|number| panic!("{name}: offers {amounts:?} refused with {number}"))
}

fn answer(table: &Table, tariff: Option<&TariffSample>, amounts: &[u32]) -> Answer<u64> {
    let given = tariff.map_or(Tariff::None, TariffSample::tariff);
    library::floor_by(&table.sheet(), given, &offers(amounts))
}

/// The sum is at most what each rival pays.
fn at_most(
    sum: u64,
    prices: &Prices,
    paid: impl Fn(usize) -> u64,
    name: &str,
    seen: &mut Seen,
    worst: fn(&mut Seen) -> &mut Worst,
) {
    let mut is_met = false;
    for rival in prices.rivals() {
        let paid = paid(rival);
        assert!(sum <= paid, "{name}: offers come to {sum}, rival {rival:b} pays {paid}");
        worst(seen).see(sum, paid);
        is_met |= sum == paid;
        seen.rivals_of_floors += 1;
    }
    seen.floors += 1;
    seen.floors_met += u64::from(is_met);
}
