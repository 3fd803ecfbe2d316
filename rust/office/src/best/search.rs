//! The search for offers of a high sum, in whole cents for each load.
use super::offers::Offers;
use super::prices::Prices;
use super::relaxed::{self, Relaxed, Under};

/// How many farms an adjustment lowers at most, and by how many cents for each load where not to the next lower haul.
const MOST_LOWERED: usize = 3;
const MOST_CENTS: usize = 3;
/// A prime above the number of farms: going through the numbers below it by any step meets each of them once.
const PRIME: usize = 131;
/// What rounding may make of a sum in floating point, in cents.
const ROUNDING: f64 = 0.05;

/// Offers for the fees of the prices, adjusted so many times at most. The search ends where they come to the total of a
/// list.
pub fn under_all(prices: &Prices, total: i64, trials: usize) -> Offers {
    let relaxed = relaxed::solve(prices, Under::All);
    near(prices, &relaxed.amounts, total.min(most(&relaxed, 0)), trials)
}

/// The same near amounts that need not be whole cents. The search ends where the offers come to a goal.
pub fn near(prices: &Prices, amounts: &[f64], goal: i64, trials: usize) -> Offers {
    let mut offers = whole_cents(prices, amounts);
    let mut numbers = Numbers(1);
    for _ in 0..trials {
        if offers.sum >= goal {
            break;
        }
        let adjusted = adjusted(prices, &offers, &mut numbers);
        if adjusted.sum >= offers.sum {
            offers = adjusted;
        }
    }
    offers
}

/// What the sum of offers less k equal fees is at most.
pub fn most(relaxed: &Relaxed, k: usize) -> i64 {
    let sum: f64 = relaxed.amounts.iter().sum();
    (sum - k as f64 * relaxed.equal_fee + relaxed.short + ROUNDING) as i64
}

/// Whole cents near these amounts: rounded down, then a cent more for each load where no yard is overbid, then as much
/// more as can be, both times first for the farms that rounding took most from.
fn whole_cents(prices: &Prices, amounts: &[f64]) -> Offers {
    let mut offers = Offers::rounded_down(prices, amounts);
    let lost: Vec<f64> = amounts.iter().zip(&offers.amounts).map(|(amount, &now)| amount - f64::from(now)).collect();
    let mut farms: Vec<usize> = (0..amounts.len()).collect();
    farms.sort_by(|&one, &other| lost[other].total_cmp(&lost[one]));
    for &farm in &farms {
        offers.raise(prices, farm, offers.amounts[farm] + prices.loads[farm]);
    }
    farms.iter().for_each(|&farm| offers.raise(prices, farm, i32::MAX));
    offers
}

/// Lowers a few farms and lets the others rise in any order (dual adjustment, Erlenkotter 1978).
fn adjusted(prices: &Prices, offers: &Offers, numbers: &mut Numbers) -> Offers {
    let farms = prices.hauls.len();
    let mut offers = offers.clone();
    let lowered: Vec<usize> = (0..1 + numbers.below(MOST_LOWERED)).map(|_| numbers.below(farms)).collect();
    lowered.iter().for_each(|&farm| offers.put(prices, farm, lower(prices, &offers, farm, numbers)));
    let (first, step) = (numbers.below(PRIME), 1 + numbers.below(PRIME - 1));
    let in_order = (0..PRIME).map(|at| (first + at * step) % PRIME);
    for farm in in_order.filter(|farm| *farm < farms && !lowered.contains(farm)) {
        offers.raise(prices, farm, i32::MAX);
    }
    lowered.iter().for_each(|&farm| offers.raise(prices, farm, i32::MAX));
    offers
}

/// The next lower haul, or a few cents less for each load.
fn lower(prices: &Prices, offers: &Offers, farm: usize, numbers: &mut Numbers) -> i32 {
    let (amount, nearest) = (offers.amounts[farm], prices.nearest(farm));
    let cents = 1 + numbers.below(MOST_CENTS) as i32;
    if numbers.below(3) > 0 {
        return (amount - cents * prices.loads[farm]).max(nearest);
    }
    prices.hauls[farm].into_iter().filter(|&haul| haul < amount).fold(nearest, i32::max)
}

/// Numbers that look like chance, the same in every run.
struct Numbers(u64);

impl Numbers {
    /// A number below `count`, from the high half of a linear congruence modulo 2^64 (Knuth's MMIX).
    fn below(&mut self, count: usize) -> usize {
        self.0 = self.0.wrapping_mul(6_364_136_223_846_793_005).wrapping_add(1_442_695_040_888_963_407);
        (((self.0 >> 32) * count as u64) >> 32) as usize
    }
}
