//! Where the method stands, and a step of it.
use super::{Relaxed, Under};
use crate::best::prices::Prices;

/// A fee of nothing would leave the method no room.
const LEAST_FEE: f64 = 0.01;
/// Nor would one yard, which every part of every farm would go to.
const LEAST_LIMIT: f64 = 1.01;
/// How far a step goes on the way to where a number would be 0.
const OF_THE_WAY: f64 = 0.995;

/// A farm and a yard; in a step, what each number changes by. Part times margin and spare times bid are 0 at the best.
#[derive(Clone, Copy, Debug)]
pub struct Cell {
    /// The part of the farm's loads that goes to the yard.
    pub part: f64,
    /// What is leased of the yard beyond that part.
    pub spare: f64,
    /// What haul and bid are above the farm's amount.
    pub margin: f64,
    /// What the farm bids for the yard.
    pub bid: f64,
}

impl Cell {
    fn products(&self) -> f64 {
        self.part * self.margin + self.spare * self.bid
    }

    fn after(&self, by: &Cell, Lengths { of_parts, of_prices }: Lengths) -> Cell {
        Cell {
            part: self.part + of_parts * by.part,
            spare: self.spare + of_parts * by.spare,
            margin: self.margin + of_prices * by.margin,
            bid: self.bid + of_prices * by.bid,
        }
    }
}

/// How much of a step is gone, 1 for the whole of it: parts and spares, margins and bids.
#[derive(Clone, Copy, Debug)]
pub struct Lengths {
    pub of_parts: f64,
    pub of_prices: f64,
}

pub struct Point {
    pub yards: usize,
    /// Farm after farm, its yards.
    pub cells: Vec<Cell>,
    /// For each farm.
    pub amounts: Vec<f64>,
    /// For each yard, without the fee that is sought.
    pub fees: Vec<f64>,
    /// The fee that is sought, and whether it is.
    pub equal_fee: f64,
    pub is_limited: bool,
}

/// What everything changes by; fees stay.
pub struct Step {
    pub cells: Vec<Cell>,
    pub amounts: Vec<f64>,
    pub equal_fee: f64,
}

impl Point {
    /// Equal parts and equal bids. Bids need not come to the fees yet.
    pub fn start(prices: &Prices, under: Under) -> Point {
        let (yards, farms) = (prices.yards, prices.hauls.len());
        let hauls = |farm: usize| prices.hauls[farm][..yards].iter().map(|&haul| f64::from(haul));
        let (fees, leased, is_limited) = match under {
            Under::All => (prices.fees[..yards].iter().map(|&fee| f64::from(fee).max(LEAST_FEE)).collect(), 2.0, false),
            Under::Limited(k) => (vec![0.0; yards], LEAST_LIMIT.max(k as f64), true),
        };
        let amounts: Vec<f64> = (0..farms).map(|farm| prices.nearest(farm).into()).collect();
        let most = (0..farms).flat_map(hauls).chain(fees.iter().copied()).fold(1.0, f64::max);
        let (part, spare) = (1.0 / yards as f64, (leased - 1.0) / yards as f64);
        // So that all products are about the same.
        let bid = most * (part / spare).min(1.0);
        let cell = |haul: f64, amount: f64| Cell { part, spare, margin: haul + bid - amount, bid };
        let cells = (0..farms).flat_map(|farm| hauls(farm).map(move |haul| (haul, farm)));
        let cells = cells.map(|(haul, farm)| cell(haul, amounts[farm])).collect();
        let equal_fee = if is_limited { bid * farms as f64 } else { 0.0 };
        Point { yards, cells, amounts, fees, equal_fee, is_limited }
    }

    /// The cells of each farm.
    pub fn farms(&self) -> impl Iterator<Item = &[Cell]> {
        self.cells.chunks_exact(self.yards)
    }

    /// The offers here. What they are short of the cost of the leased parts is the sum of all products.
    pub fn relaxed(&self) -> Relaxed {
        Relaxed { amounts: self.amounts.clone(), equal_fee: self.equal_fee, short: self.products() }
    }

    /// The mean of all products.
    pub fn product(&self) -> f64 {
        self.products() / (2 * self.cells.len()) as f64
    }

    fn products(&self) -> f64 {
        self.cells.iter().map(Cell::products).sum()
    }

    /// The same after so much of a step.
    pub fn product_after(&self, step: &Step, lengths: Lengths) -> f64 {
        let pairs = self.cells.iter().zip(&step.cells);
        let sum: f64 = pairs.map(|(cell, by)| cell.after(by, lengths).products()).sum();
        sum / (2 * self.cells.len()) as f64
    }

    /// The whole step, or to where a number would be 0 if that comes first: parts and prices each for themselves.
    pub fn lengths(&self, step: &Step) -> Lengths {
        let room = |room: f64, number: f64, by: f64| if number + room * by < 0.0 { -number / by } else { room };
        let shorter = |most: Lengths, (cell, by): (&Cell, &Cell)| Lengths {
            of_parts: room(room(most.of_parts, cell.part, by.part), cell.spare, by.spare),
            of_prices: room(room(most.of_prices, cell.margin, by.margin), cell.bid, by.bid),
        };
        self.cells.iter().zip(&step.cells).fold(Lengths { of_parts: 1.0, of_prices: 1.0 }, shorter)
    }

    /// Goes a step, but not quite to where a number would be 0.
    pub fn go(&mut self, step: &Step) {
        let Lengths { of_parts, of_prices } = self.lengths(step);
        let lengths = Lengths { of_parts: OF_THE_WAY * of_parts, of_prices: OF_THE_WAY * of_prices };
        self.cells.iter_mut().zip(&step.cells).for_each(|(cell, by)| *cell = cell.after(by, lengths));
        self.amounts.iter_mut().zip(&step.amounts).for_each(|(amount, by)| *amount += lengths.of_prices * by);
        self.equal_fee += lengths.of_prices * step.equal_fee;
    }

    /// What the bids for all yards differ by from their fees.
    pub fn fault(&self) -> f64 {
        let mut faults: Vec<f64> = self.fees.iter().map(|fee| fee + self.equal_fee).collect();
        for cells in self.farms() {
            faults.iter_mut().zip(cells).for_each(|(fault, cell)| *fault -= cell.bid);
        }
        faults.into_iter().map(f64::abs).sum()
    }
}
