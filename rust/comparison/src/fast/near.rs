//! Which yards of a set are nearest to a farm.
use super::sheet::Amounts;
use super::sum::Sum;
use super::yards::{Ranked, Yards, YARD_BITS};
use planner::format::{HIGHEST_HAUL, MOST_YARDS};
use std::array::from_fn;

/// A haul of one load and its yard in one number, the haul in the high bits, then the yard's rank, then its number: of two
/// the lesser has the smaller haul, or the lower rank where the hauls are equal.
#[derive(Clone, Copy, PartialEq, Eq, PartialOrd, Ord)]
pub struct HaulTo<S>(S);

/// Of rank and number.
const RANKED_BITS: u32 = 2 * YARD_BITS;
const HIGHEST_RANKED: u32 = (1 << RANKED_BITS) - 1;
/// `Sum` takes the lesser of numbers below half of what the bits hold.
const _: () = assert!(HIGHEST_HAUL <= i32::MAX as u32 >> RANKED_BITS);

impl<S: Sum> HaulTo<S> {
    /// No other is above this.
    fn highest() -> HaulTo<S> {
        HaulTo(S::from(HIGHEST_HAUL) << RANKED_BITS | S::from(HIGHEST_RANKED))
    }

    fn new(row: &Amounts, yard: Ranked) -> HaulTo<S> {
        HaulTo(S::from(row[yard.number()]) << RANKED_BITS | S::from(yard.bits()))
    }

    pub fn haul(self) -> u32 {
        (self.0 >> RANKED_BITS).low_32()
    }

    pub fn yard(self) -> usize {
        self.0.low_32() as usize % MOST_YARDS
    }
}

/// For each of four farms the smallest haul to one of the yards, the lowest rank among equals. Four at a time are for
/// vector instructions.
pub fn nearest_of_four(rows: &[Amounts; 4], yards: &Yards) -> [HaulTo<u32>; 4] {
    let mut least = [HaulTo::<u32>::highest().0; 4];
    for yard in yards.ranked() {
        for (least, row) in least.iter_mut().zip(rows) {
            *least = least.lesser(HaulTo::<u32>::new(row, yard).0);
        }
    }
    least.map(HaulTo)
}

/// A farm's two smallest hauls to the yards of a set. To a set of one yard the second is the highest.
#[derive(Clone, Copy, PartialEq, Eq)]
pub struct Near<S> {
    pub first: HaulTo<S>,
    pub second: HaulTo<S>,
}

impl<S: Sum> Near<S> {
    /// To no yard.
    pub fn none() -> Near<S> {
        Near { first: HaulTo::highest(), second: HaulTo::highest() }
    }

    /// For each of four farms.
    pub fn of_four(rows: &[Amounts; 4], yards: &Yards) -> [Near<S>; 4] {
        let mut first = [HaulTo::<S>::highest().0; 4];
        let mut second = first;
        for yard in yards.ranked() {
            for (farm, row) in rows.iter().enumerate() {
                let haul = HaulTo::<S>::new(row, yard).0;
                second[farm] = second[farm].lesser(first[farm].greater(haul));
                first[farm] = first[farm].lesser(haul);
            }
        }
        from_fn(|farm| Near { first: HaulTo(first[farm]), second: HaulTo(second[farm]) })
    }

    /// With one more yard in the set.
    pub fn with(self, row: &Amounts, yard: Ranked) -> Near<S> {
        let haul = HaulTo::new(row, yard);
        Near { first: self.first.min(haul), second: self.second.min(self.first.max(haul)) }
    }

    /// Whether one more yard in the set is one of the two.
    pub fn changes_with(self, row: &Amounts, yard: Ranked) -> bool {
        HaulTo::<S>::new(row, yard) < self.second
    }

    /// Without the one yard of the set `went`, which one of the two goes to; `yards` are those left.
    pub fn without(self, went: u32, row: &Amounts, yards: &Yards) -> Near<S> {
        let first = if went >> self.first.yard() & 1 == 1 { self.second } else { self.first };
        let to_another = |to: HaulTo<S>| if to == first { HaulTo::highest() } else { to };
        let second = yards.ranked().map(|yard| to_another(HaulTo::new(row, yard))).fold(HaulTo::highest(), HaulTo::min);
        Near { first, second }
    }

    /// Whether one of the two goes to a yard of this set. To a set of one yard the second names the last yard though it is not
    /// open: then the farm is only looked at once more.
    pub fn goes_to(self, set: u32) -> bool {
        (set >> self.first.yard() | set >> self.second.yard()) & 1 == 1
    }
}
