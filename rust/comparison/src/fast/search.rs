//! The searches for both plans.
use super::area;
use super::loads::alone;
use super::near::Near;
use super::prices::Prices;
use super::sheet::{Amounts, Hauls};
use super::sum::Sum;
use super::yards::{ranks, Ranks, Yards};
use planner::format::{MOST_FARMS, MOST_YARDS};
use planner::Written;

/// The open plan of an accepted sheet, in an area that question 9 accepts.
pub fn open_plan_of<S: Sum>(hauls: &Hauls, area: &mut [u8]) -> Written {
    if hauls.one_load_each() {
        return open_plan_at::<S>(hauls, hauls.rows(), area);
    }
    open_plan_at::<S>(hauls, &hauls.times_loads()[..hauls.farms], area)
}

fn open_plan_at<S: Sum>(hauls: &Hauls, costs: &[Amounts], area: &mut [u8]) -> Written {
    let mut search = Search::<S>::new(hauls, costs, 1 << cheapest_yard::<S>(hauls, costs));
    while let Some(next) = search.prices.open_move(hauls, search.set, &search.yards) {
        search.go_to(next);
    }
    search.write(&hauls.fees, area)
}

/// The limited plan of an accepted sheet for a k that question 7 accepts, in an area that question 9 accepts.
pub fn limited_plan_of<S: Sum>(hauls: &Hauls, k: usize, area: &mut [u8]) -> Written {
    if hauls.one_load_each() {
        return limited_plan_at::<S>(hauls, hauls.rows(), k, area);
    }
    limited_plan_at::<S>(hauls, &hauls.times_loads()[..hauls.farms], k, area)
}

fn limited_plan_at<S: Sum>(hauls: &Hauls, costs: &[Amounts], k: usize, area: &mut [u8]) -> Written {
    let mut search = Search::<S>::new(hauls, costs, u32::MAX >> (MOST_YARDS - k));
    while let Some(next) = search.prices.limited_move(search.set, &search.yards) {
        search.go_to(next);
    }
    search.write(&[0; MOST_YARDS], area)
}

/// The single yard of least full cost, the lowest number among equals.
fn cheapest_yard<S: Sum>(hauls: &Hauls, costs: &[Amounts]) -> usize {
    let alone = alone::<S>(costs);
    (0..hauls.yards).min_by_key(|&yard| S::from(hauls.fees[yard]) + alone[yard]).unwrap_or(0)
}

/// A set on the way, with each farm's nearest yards and the costs of all moves.
struct Search<'a, S> {
    hauls: &'a Hauls,
    costs: &'a [Amounts],
    ranks: Ranks,
    set: u32,
    yards: Yards,
    moves: u32,
    near: [Near<S>; MOST_FARMS],
    prices: Prices<S>,
}

impl<'a, S: Sum> Search<'a, S> {
    fn new(hauls: &'a Hauls, costs: &'a [Amounts], set: u32) -> Search<'a, S> {
        let ranks = ranks(&hauls.fees);
        let yards = Yards::of(set, &ranks);
        let mut near = [Near::none(); MOST_FARMS];
        let mut prices = Prices::none(costs);
        for (rows, near) in hauls.rows_by_four().iter().zip(near.as_chunks_mut().0) {
            *near = Near::of_four(rows, &yards);
        }
        for (farm, &near) in near[..hauls.farms].iter().enumerate() {
            prices.put(hauls.costs_of(farm, costs), near);
        }
        Search { hauls, costs, ranks, set, yards, moves: 0, near, prices }
    }

    /// Makes the move to this set. Only the farms whose nearest yards change are priced again.
    fn go_to(&mut self, next: u32) {
        let came = next & !self.set;
        let went = self.set & !next;
        self.set = next;
        self.yards = Yards::of(next, &self.ranks);
        self.moves += 1;
        let yard = self.ranks[came.trailing_zeros() as usize % MOST_YARDS];
        match (came, went) {
            (_, 0) => self.price_again(came, went, |row, near| near.changes_with(row, yard)),
            (0, _) => self.price_again(came, went, |_, near| near.goes_to(went)),
            _ => self.price_again(came, went, |row, near| near.changes_with(row, yard) || near.goes_to(went)),
        }
    }

    /// The farms that pass the test: a loop of its own for each kind of move.
    #[inline(always)]
    fn price_again(&mut self, came: u32, went: u32, touched: impl Fn(&Amounts, Near<S>) -> bool) {
        let yard = self.ranks[came.trailing_zeros() as usize % MOST_YARDS];
        for (farm, (row, near)) in self.hauls.rows().iter().zip(&mut self.near).enumerate() {
            let before = *near;
            if !touched(row, before) {
                continue;
            }
            if came != 0 {
                *near = near.with(row, yard);
            }
            if near.goes_to(went) {
                *near = near.without(went, row, &self.yards);
            }
            self.prices.change(self.hauls.costs_of(farm, self.costs), before, *near);
        }
    }

    /// Writes the plan. Its total counts these fees.
    fn write(&self, fees: &Amounts, area: &mut [u8]) -> Written {
        let served = self.near.iter().map(|near| near.first);
        area::write(self.hauls, &self.yards, served, fees, self.moves, area)
    }
}
