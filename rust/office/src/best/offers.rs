//! Offers by which no yard is overbid, with what is left of each fee.
use super::prices::{Prices, Row};

#[derive(Clone, Debug)]
pub struct Offers {
    /// For each farm, its amount for all its loads, a multiple of them.
    pub amounts: Vec<i32>,
    pub sum: i64,
    /// For each yard, its fee less what is bid for it.
    left: Row,
}

impl Offers {
    /// Each farm offers the haul to its nearest yard, so that nothing is bid.
    pub fn least(prices: &Prices) -> Offers {
        let amounts: Vec<i32> = (0..prices.hauls.len()).map(|farm| prices.nearest(farm)).collect();
        let sum = amounts.iter().map(|&amount| i64::from(amount)).sum();
        Offers { amounts, sum, left: prices.fees }
    }

    /// These amounts for all loads in whole cents for each, and lower where a yard would be overbid.
    pub fn rounded_down(prices: &Prices, amounts: &[f64]) -> Offers {
        let mut offers = Offers::least(prices);
        for (farm, &amount) in amounts.iter().enumerate() {
            let loads = prices.loads[farm];
            let whole = (amount / f64::from(loads)).floor() as i32;
            offers.raise(prices, farm, whole.saturating_mul(loads));
        }
        offers
    }

    /// The highest amount of a farm by which no yard is overbid while the other farms stay.
    fn highest(&self, prices: &Prices, farm: usize) -> i32 {
        let amount = self.amounts[farm];
        let most = |(&haul, &left): (&i32, &i32)| amount.max(haul) + left;
        let most = prices.hauls[farm].iter().zip(&self.left).map(most).fold(i32::MAX, i32::min);
        most - most % prices.loads[farm]
    }

    /// Another amount for a farm, not above the highest.
    pub fn put(&mut self, prices: &Prices, farm: usize, amount: i32) {
        let before = self.amounts[farm];
        for (left, &haul) in self.left.iter_mut().zip(&prices.hauls[farm]) {
            *left += before.max(haul) - amount.max(haul);
        }
        self.amounts[farm] = amount;
        self.sum += i64::from(amount) - i64::from(before);
    }

    /// Raises a farm's amount as far as no yard is overbid, but not above `limit`.
    pub fn raise(&mut self, prices: &Prices, farm: usize, limit: i32) {
        let amount = self.highest(prices, farm).min(limit);
        if amount > self.amounts[farm] {
            self.put(prices, farm, amount);
        }
    }
}
