//! The costs of all moves from a set, and the move that is taken.
use super::loads::{alone, FarmCosts};
use super::near::Near;
use super::sheet::{Amounts, Hauls};
use super::sum::Sum;
use super::yards::Yards;
use planner::format::MOST_YARDS;

/// The haul costs of all moves from a set, as sums over its farms.
pub struct Prices<S> {
    /// The haul cost with each yard added; adding an open yard changes nothing.
    added: [S; MOST_YARDS],
    /// For each open yard going out, by the yard coming in: what its farms pay more than with both.
    more: [[S; MOST_YARDS]; MOST_YARDS],
    /// For each open yard going out with none coming in: what its farms pay more.
    loss: [S; MOST_YARDS],
}

impl<S: Sum> Prices<S> {
    /// The sums before any farm is counted in: until then it pays its cost to the yard that is added.
    pub fn none(costs: &[Amounts]) -> Prices<S> {
        let none = S::default();
        Prices { added: alone(costs), more: [[none; MOST_YARDS]; MOST_YARDS], loss: [none; MOST_YARDS] }
    }

    /// Counts a farm in.
    pub fn put(&mut self, farm: FarmCosts, near: Near<S>) {
        self.count(farm, near, S::add, S::sub);
    }

    /// Counts a farm again whose nearest yards change. Where the first stays, no cost of adding a yard changes.
    pub fn change(&mut self, farm: FarmCosts, before: Near<S>, after: Near<S>) {
        if before.first != after.first {
            self.count(farm, before, S::sub, S::add);
            self.put(farm, after);
            return;
        }
        let out = after.first.yard();
        let (before, after) = (farm.loads * before.second.haul(), farm.loads * after.second.haul());
        self.loss[out] = self.loss[out] + S::from(after) - S::from(before);
        if before < after {
            self.shift(farm.row, out, before, after, S::add);
        } else {
            self.shift(farm.row, out, after, before, S::sub);
        }
    }

    /// What the farms of a yard going out pay more, raised or lowered by what costs are above the low one and not above the high one.
    #[inline(always)]
    fn shift(&mut self, costs: &Amounts, out: usize, low: u32, high: u32, change: impl Fn(S, S) -> S) {
        for (more, costs) in self.more[out].as_chunks_mut::<4>().0.iter_mut().zip(costs.as_chunks::<4>().0) {
            let by = costs.map(|cost| over(cost, low) - over(cost, high));
            for at in 0..4 {
                more[at] = change(more[at], S::from(by[at]));
            }
        }
    }

    /// Counts a farm in, or out with plus and minus exchanged.
    #[inline(always)]
    fn count(&mut self, farm: FarmCosts, near: Near<S>, plus: impl Fn(S, S) -> S, minus: impl Fn(S, S) -> S) {
        let (first, second) = (farm.loads * near.first.haul(), farm.loads * near.second.haul());
        let out = near.first.yard();
        self.loss[out] = plus(self.loss[out], S::from(second - first));
        let sums = self.added.as_chunks_mut::<4>().0.iter_mut().zip(self.more[out].as_chunks_mut::<4>().0);
        for ((added, more), costs) in sums.zip(farm.row.as_chunks::<4>().0) {
            let above = costs.map(|cost| over(cost, first));
            for at in 0..4 {
                added[at] = minus(added[at], S::from(above[at]));
                more[at] = plus(more[at], S::from(above[at] - over(costs[at], second)));
            }
        }
    }

    /// The set after an open plan's next move, where a move lowers the full cost.
    pub fn open_move(&self, hauls: &Hauls, set: u32, yards: &Yards) -> Option<u32> {
        let fees: S = yards.numbers().map(|yard| S::from(hauls.fees[yard])).sum();
        let now = fees + self.haul_cost(set);
        let mut adds = self.added;
        for (add, &fee) in adds.iter_mut().zip(&hauls.fees) {
            *add += fees + S::from(fee);
        }
        let mut choice = Choice { cost: now, set: None };
        choice.offer_row(&adds, S::default(), |yard| set | 1 << yard);
        if yards.count() > 1 {
            for out in yards.numbers() {
                choice.offer(now + self.loss[out] - S::from(hauls.fees[out]), set & !(1 << out));
            }
        }
        self.offer_swaps(&mut choice, &adds, &hauls.fees, set, yards);
        choice.set
    }

    /// The set after a limited plan's next move, where a move lowers the haul cost.
    pub fn limited_move(&self, set: u32, yards: &Yards) -> Option<u32> {
        let mut choice = Choice { cost: self.haul_cost(set), set: None };
        self.offer_swaps(&mut choice, &self.added, &[0; MOST_YARDS], set, yards);
        choice.set
    }

    fn haul_cost(&self, set: u32) -> S {
        self.added[set.trailing_zeros() as usize]
    }

    /// For an open yard coming in, a swap here is the drop with one fee more, or no move: it is never chosen.
    fn offer_swaps(&self, choice: &mut Choice<S>, adds: &[S; MOST_YARDS], fees: &Amounts, set: u32, yards: &Yards) {
        for out in yards.numbers() {
            let mut swaps = self.more[out];
            for (swap, &add) in swaps.iter_mut().zip(adds) {
                *swap += add;
            }
            choice.offer_row(&swaps, S::from(fees[out]), |into| set & !(1 << out) | 1 << into);
        }
    }
}

/// What a cost is above another one, or 0. Every x86-64 processor compares signed numbers by vector, unsigned ones not:
/// `saturating_sub` would take more instructions.
#[inline(always)]
fn over(cost: u32, other: u32) -> u32 {
    (cost as i32 - other as i32).max(0) as u32
}

/// The least cost so far, and the first set in order that has it where it is below the present cost.
struct Choice<S> {
    cost: S,
    set: Option<u32>,
}

impl<S: Sum> Choice<S> {
    fn offer(&mut self, cost: S, set: u32) {
        if cost < self.cost {
            *self = Choice { cost, set: Some(set) };
        }
    }

    /// A cost for each yard, all too high by `saved`. Most rows have none that is lower, which vector instructions
    /// show without a look at each.
    fn offer_row(&mut self, costs: &[S; MOST_YARDS], saved: S, set: impl Fn(usize) -> u32) {
        let bound = self.cost + saved;
        if costs.iter().fold(false, |lower, &cost| lower | (cost < bound)) {
            for (yard, &cost) in costs.iter().enumerate() {
                self.offer(cost - saved, set(yard));
            }
        }
    }
}
