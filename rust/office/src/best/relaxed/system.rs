//! The linear equations of a step: the products of a cell change as they are to change, the parts of a farm sum to 1,
//! the bids for a yard to its fee.
//!
//! In each cell the changes of part and bid follow from those of the farm's amount and of what is leased of the yard:
//!
//! ```text
//! part = (spare aim1 - part aim2 + part spare amount + part bid leased) / size
//! bid  = (bid aim1 + margin aim2 + part bid amount - bid margin leased) / size
//! size = part bid + margin spare
//! ```
//!
//! where aim1 and aim2 are what part times margin and spare times bid are to change by. The sums over yards give the
//! amounts from the leased parts; with these in the sums over farms, one equation for each yard is left.
use super::factor::{dot, Factor};
use super::point::{Cell, Point, Step};

/// What the products of a cell are to change by: part times margin, and spare times bid.
pub struct Aim {
    pub of_part: f64,
    pub of_bid: f64,
}

pub struct System {
    /// For each cell, 1 / size.
    shares: Vec<f64>,
    /// For each cell, what its part changes by as the leased part of the yard does, and its bid as the amount does.
    cross: Vec<f64>,
    /// For each farm, what its parts together change by as its amount does.
    by_amount: Vec<f64>,
    /// The equations for the leased parts.
    yards: Factor,
    /// What the leased parts fall by as the equal fee rises.
    by_fee: Vec<f64>,
}

impl System {
    pub fn of(point: &Point) -> System {
        let size = |cell: &Cell| cell.part * cell.bid + cell.margin * cell.spare;
        let shares: Vec<f64> = point.cells.iter().map(|cell| 1.0 / size(cell)).collect();
        let cells = || point.cells.iter().zip(&shares);
        let of_cells = |number: fn(&Cell) -> f64| cells().map(move |(cell, share)| number(cell) * share);
        let cross: Vec<f64> = of_cells(|cell| cell.part * cell.bid).collect();
        let by_amount: Vec<f64> = of_cells(|cell| cell.part * cell.spare).collect();
        let by_amount: Vec<f64> = by_amount.chunks_exact(point.yards).map(|farm| farm.iter().sum()).collect();
        let by_leased: Vec<f64> = of_cells(|cell| cell.bid * cell.margin).collect();
        let mut rows: Vec<Vec<f64>> = (0..point.yards).map(|yard| vec![0.0; yard + 1]).collect();
        let farms = cross.chunks_exact(point.yards).zip(by_leased.chunks_exact(point.yards)).zip(&by_amount);
        farms.for_each(|((cross, by_leased), by_amount)| add_farm(&mut rows, cross, by_leased, *by_amount));
        let yards = Factor::of(rows);
        let by_fee = yards.solve(vec![1.0; point.yards]);
        System { shares, cross, by_amount, yards, by_fee }
    }

    /// The step by which the products of each cell change as aimed.
    pub fn step(&self, point: &Point, aims: impl Iterator<Item = Aim>) -> Step {
        let cells = point.cells.iter().zip(&self.shares);
        let fixed = cells.clone().zip(aims).map(|((cell, share), aim)| Fixed::of(cell, *share, &aim));
        let fixed: Vec<Fixed> = fixed.collect();
        // For each farm, what its amount changes by while the leased parts stay.
        let farms = point.farms().zip(fixed.chunks_exact(point.yards)).zip(&self.by_amount);
        let alone: Vec<f64> = farms.map(|((cells, fixed), by_amount)| missing(cells, fixed) / by_amount).collect();
        let (leased, equal_fee) = self.leased(point, self.sums_for_yards(point, &fixed, &alone));
        let crosses = self.cross.chunks_exact(point.yards);
        let amount = |(alone, (cross, by_amount)): (&f64, (&[f64], &f64))| alone - dot(cross, &leased) / by_amount;
        let amounts: Vec<f64> = alone.iter().zip(crosses.zip(&self.by_amount)).map(amount).collect();
        let of_yards = amounts.iter().flat_map(|&amount| leased.iter().map(move |&leased| (leased, amount)));
        let cells = cells.zip(&fixed).zip(of_yards);
        let cells = cells.map(|(((cell, share), fixed), changes)| fixed.step(cell, *share, changes)).collect();
        Step { cells, amounts, equal_fee }
    }

    /// For each yard, what its bids would be above its fee if the leased parts stayed.
    fn sums_for_yards(&self, point: &Point, fixed: &[Fixed], alone: &[f64]) -> Vec<f64> {
        let mut sums: Vec<f64> = point.fees.iter().map(|fee| -fee - point.equal_fee).collect();
        let farms = point.farms().zip(fixed.chunks_exact(point.yards));
        let crosses = self.cross.chunks_exact(point.yards);
        for ((cells, fixed), (cross, alone)) in farms.zip(crosses.zip(alone)) {
            let bid = |((cell, fixed), cross): ((&Cell, &Fixed), &f64)| cell.bid + fixed.bid + cross * alone;
            let bids = cells.iter().zip(fixed).zip(cross).map(bid);
            sums.iter_mut().zip(bids).for_each(|(sum, bid)| *sum += bid);
        }
        sums
    }

    /// What the leased parts and the equal fee change by. Under limited lists the leased parts keep their sum.
    fn leased(&self, point: &Point, sums: Vec<f64>) -> (Vec<f64>, f64) {
        let mut leased = self.yards.solve(sums);
        if !point.is_limited {
            return (leased, 0.0);
        }
        let equal_fee = leased.iter().sum::<f64>() / self.by_fee.iter().sum::<f64>();
        leased.iter_mut().zip(&self.by_fee).for_each(|(leased, by_fee)| *leased -= equal_fee * by_fee);
        (leased, equal_fee)
    }
}

/// The changes of part and bid in a cell while amount and leased part stay.
struct Fixed {
    part: f64,
    bid: f64,
}

impl Fixed {
    fn of(cell: &Cell, share: f64, aim: &Aim) -> Fixed {
        let part = cell.spare * aim.of_part - cell.part * aim.of_bid;
        let bid = cell.bid * aim.of_part + cell.margin * aim.of_bid;
        Fixed { part: part * share, bid: bid * share }
    }

    /// All changes in the cell, from those of what is leased of the yard and of the farm's amount.
    fn step(&self, cell: &Cell, share: f64, (leased, amount): (f64, f64)) -> Cell {
        let part = self.part + cell.part * (cell.spare * amount + cell.bid * leased) * share;
        let bid = self.bid + cell.bid * (cell.part * amount - cell.margin * leased) * share;
        Cell { part, spare: leased - part, margin: bid - amount, bid }
    }
}

/// What the parts of a farm lack to 1, less what they change by anyway.
fn missing(cells: &[Cell], fixed: &[Fixed]) -> f64 {
    1.0 - cells.iter().zip(fixed).map(|(cell, fixed)| cell.part + fixed.part).sum::<f64>()
}

/// Adds what a farm's bids change by as the leased parts of yards do, at the yard itself and through the farm's amount.
fn add_farm(rows: &mut [Vec<f64>], cross: &[f64], by_leased: &[f64], by_amount: f64) {
    for (yard, row) in rows.iter_mut().enumerate() {
        let through = cross[yard] / by_amount;
        row.iter_mut().zip(cross).for_each(|(entry, other)| *entry += through * other);
        row[yard] += by_leased[yard];
    }
}
