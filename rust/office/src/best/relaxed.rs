//! The best offers where amounts need not be whole cents, by an interior point method (Mehrotra 1992) in floating
//! point. Nothing rests on its being right: its amounts are where the search for offers begins.
//!
//! Offers solve the dual of a linear program in which yards may be leased in part: of a farm's loads a part goes to
//! each yard, which is at most what is leased of the yard, and the parts sum to 1.
mod factor;
mod point;
mod system;

use super::prices::Prices;
use point::{Cell, Point, Step};
use system::{Aim, System};

const MOST_STEPS: usize = 60;
/// The method ends where the products of `Cell` are less on average, in cents.
const CLOSE: f64 = 1e-6;
/// And where the bids for all yards differ from their fees by no more cents.
const LEAST_FAULT: f64 = 0.01;

/// Which lists the offers are to be under.
#[derive(Clone, Copy, Debug)]
pub enum Under {
    /// All lists, with the fees of the prices.
    All,
    /// Lists of so many yards, with one fee that is sought along with the offers.
    Limited(usize),
}

pub struct Relaxed {
    /// For each farm, for all its loads.
    pub amounts: Vec<f64>,
    /// The fee that was sought, 0 under all lists.
    pub equal_fee: f64,
    /// What better offers would come to more at most.
    pub short: f64,
}

/// The last offers before the numbers, which come close to 0, are too inexact to go on.
pub fn solve(prices: &Prices, under: Under) -> Relaxed {
    let mut point = Point::start(prices, under);
    let mut relaxed = point.relaxed();
    for _ in 0..MOST_STEPS {
        let before = point.fault();
        point.go(&next_step(&point, &System::of(&point)));
        let after = point.fault();
        if after.is_nan() || after > before.max(LEAST_FAULT) {
            break;
        }
        relaxed = point.relaxed();
        if after <= LEAST_FAULT && point.product() < CLOSE {
            break;
        }
    }
    relaxed
}

/// First a step straight to where all products are 0; how far that could go tells what products the step proper aims
/// at.
fn next_step(point: &Point, system: &System) -> Step {
    let products = |cell: &Cell| Aim { of_part: -cell.part * cell.margin, of_bid: -cell.spare * cell.bid };
    let straight = system.step(point, point.cells.iter().map(products));
    let (product, lengths) = (point.product(), point.lengths(&straight));
    let reached = point.product_after(&straight, lengths) / product;
    let rest = product * reached.max(1.0 - lengths.of_parts.min(lengths.of_prices)).powi(3);
    let corrected = |(cell, by): (&Cell, &Cell)| {
        let Aim { of_part, of_bid } = products(cell);
        Aim { of_part: of_part + rest - by.part * by.margin, of_bid: of_bid + rest - by.spare * by.bid }
    };
    system.step(point, point.cells.iter().zip(&straight.cells).map(corrected))
}
