//! Question 6, the four-point rule.
use super::sheet::Hauls;
use planner::format::{HIGHEST_HAUL, MOST_FARMS, MOST_YARDS};
use std::ops::{Add, Neg, Sub};

/// The vector instructions that every x86-64 processor has take the lesser or the greater of numbers of 16 bits, not of
/// 32. In units of so many cents, rounded down, a sum of two hauls has 16 bits.
const UNIT: u32 = 64;
const _: () = assert!(2 * (HIGHEST_HAUL / UNIT) <= i16::MAX as u32);

/// For all yards a, b and farms p, q: haul(a, q) at most haul(a, p) + haul(b, p) + haul(b, q). That is, for any two yards
/// the greatest difference of their hauls from one farm is at most the least sum of their hauls from one farm.
///
/// A sum is at least the rounded sum, and a difference is less than a unit above the rounded difference. So where the
/// rounded difference is below the rounded sum the rule holds; only other yards are compared by the cent.
pub fn four_points(hauls: &Hauls) -> bool {
    let mut exact = [[0; MOST_FARMS]; MOST_YARDS];
    let mut rounded = [[0; MOST_FARMS]; MOST_YARDS];
    for (farm, row) in hauls.rows().iter().enumerate() {
        for (yard, &haul) in row.iter().enumerate() {
            exact[yard][farm] = haul as i32;
        }
    }
    for (exact, rounded) in exact.iter().zip(&mut rounded).take(hauls.yards) {
        for (&exact, rounded) in exact.iter().zip(rounded) {
            *rounded = (exact as u32 / UNIT) as i16;
        }
    }
    let holds = |a: usize, b: usize| {
        let (difference, sum) = extremes(&rounded[a][..hauls.farms], &rounded[b][..hauls.farms]);
        difference < sum || {
            let (difference, sum) = extremes(&exact[a][..hauls.farms], &exact[b][..hauls.farms]);
            difference <= sum
        }
    };
    (1..hauls.yards).all(|a| (0..a).all(|b| holds(a, b)))
}

/// The greatest difference of two yards' hauls from one farm, and their least sum.
fn extremes<T>(a: &[T], b: &[T]) -> (T, T)
where
    T: Copy + Ord + Add<Output = T> + Sub<Output = T> + Neg<Output = T>,
{
    let mut sum = a[0] + b[0];
    let mut highest = a[0] - b[0];
    let mut lowest = highest;
    for (&a, &b) in a.iter().zip(b) {
        sum = sum.min(a + b);
        highest = highest.max(a - b);
        lowest = lowest.min(a - b);
    }
    (highest.max(-lowest), sum)
}
