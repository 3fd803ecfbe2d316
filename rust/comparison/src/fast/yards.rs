//! Yards with their ranks, and the yards of a set.
use super::sheet::Amounts;
use planner::format::{HIGHEST_FEE, MOST_YARDS};
use std::array::from_fn;

pub const YARD_BITS: u32 = MOST_YARDS.ilog2();

/// A yard's number in the low bits, and above it its rank among all yards: by fee, and where fees are equal by number. Of
/// yards with equal hauls a farm is given the one of lowest rank (paper 1 of document 02).
#[derive(Clone, Copy)]
pub struct Ranked(u32);

/// Every yard by number.
pub type Ranks = [Ranked; MOST_YARDS];

const _: () = assert!(HIGHEST_FEE <= i32::MAX as u32 >> YARD_BITS);

/// The rank of a yard is the count of those before it. Every x86-64 processor compares signed numbers by vector, unsigned
/// ones not.
pub fn ranks(fees: &Amounts) -> Ranks {
    let fee_then_number: [i32; MOST_YARDS] = from_fn(|yard| (fees[yard] << YARD_BITS | yard as u32) as i32);
    from_fn(|yard| {
        let rank: u32 = fee_then_number.iter().map(|&other| u32::from(other < fee_then_number[yard])).sum();
        Ranked(rank << YARD_BITS | yard as u32)
    })
}

impl Ranked {
    /// The remainder changes nothing; it tells the compiler that a yard is an index of a row.
    #[inline(always)]
    pub fn number(self) -> usize {
        self.0 as usize % MOST_YARDS
    }

    /// Rank and number.
    pub fn bits(self) -> u32 {
        self.0
    }
}

/// The yards of a set, by number.
pub struct Yards {
    list: Ranks,
    count: usize,
}

impl Yards {
    pub fn of(set: u32, ranks: &Ranks) -> Yards {
        let mut yards = Yards { list: *ranks, count: 0 };
        let mut left = set;
        while left != 0 {
            yards.list[yards.count] = ranks[left.trailing_zeros() as usize];
            yards.count += 1;
            left &= left - 1;
        }
        yards
    }

    pub fn count(&self) -> usize {
        self.count
    }

    #[inline(always)]
    pub fn ranked(&self) -> impl Iterator<Item = Ranked> + '_ {
        self.list[..self.count].iter().copied()
    }

    #[inline(always)]
    pub fn numbers(&self) -> impl Iterator<Item = usize> + '_ {
        self.ranked().map(Ranked::number)
    }
}
