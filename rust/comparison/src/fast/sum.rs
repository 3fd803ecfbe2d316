//! What costs are summed in, and what a haul and its yard stand in together.
use super::tariff::Pricing;
use planner::format::{HIGHEST_FEE, HIGHEST_HAUL, MOST_FARMS, MOST_LOADS, MOST_YARDS};
use std::iter;
use std::ops::{Add, AddAssign, BitOr, Shl, Shr, Sub};

/// 32 bits are enough for the sheets of document 01 with the loads of paper 2. The library counts in 64, for the later
/// requests of document 02.
pub trait Sum:
    Copy
    + Ord
    + Default
    + From<u32>
    + Add<Output = Self>
    + AddAssign
    + Sub<Output = Self>
    + iter::Sum
    + Shl<u32, Output = Self>
    + Shr<u32, Output = Self>
    + BitOr<Output = Self>
{
    /// Narrow sums go with narrow prices.
    const PRICING: Pricing;
    fn low_32(self) -> u32;
    /// The lesser and the greater of two numbers below half of what the bits hold.
    fn lesser(self, other: Self) -> Self;
    fn greater(self, other: Self) -> Self;
}

/// The highest number that a search comes to: every haul and every fee at its highest, and one fee more, that of a yard
/// coming in before that of the yard going out is taken off, or the other way round. It is above what signed numbers of 32
/// bits hold, so costs are compared as unsigned ones.
const HIGHEST_COST: u64 =
    MOST_FARMS as u64 * MOST_LOADS as u64 * HIGHEST_HAUL as u64 + (MOST_YARDS as u64 + 1) * HIGHEST_FEE as u64;
const _: () = assert!(HIGHEST_COST <= u32::MAX as u64);

/// Every x86-64 processor compares signed numbers of 32 bits by vector, unsigned ones not.
impl Sum for u32 {
    const PRICING: Pricing = Pricing::Falls;

    #[inline(always)]
    fn low_32(self) -> u32 {
        self
    }

    #[inline(always)]
    fn lesser(self, other: u32) -> u32 {
        (self as i32).min(other as i32) as u32
    }

    #[inline(always)]
    fn greater(self, other: u32) -> u32 {
        (self as i32).max(other as i32) as u32
    }
}

impl Sum for u64 {
    const PRICING: Pricing = Pricing::Lines;

    #[inline(always)]
    fn low_32(self) -> u32 {
        self as u32
    }

    #[inline(always)]
    fn lesser(self, other: u64) -> u64 {
        self.min(other)
    }

    #[inline(always)]
    fn greater(self, other: u64) -> u64 {
        self.max(other)
    }
}
