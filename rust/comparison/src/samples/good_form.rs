//! Sheets of good form: accepted ones, and ones whose amounts or hauls may be refused.
use super::loads::with_any_loads;
use super::tables::{between, from_lists, manhattan, plane, repair, small_amounts, within_threefold};
use super::{below, Sample};
use crate::random::Random;
use planner::format::{HIGHEST_FEE, HIGHEST_HAUL};
use planner::table::Table;

/// The lowest haul of which three make at least the highest.
const THIRD: u32 = HIGHEST_HAUL / 3 + 1;
/// Amounts at and next to their bounds; those above it stand last.
const EDGE_FEES: [u32; 6] = [0, 1, HIGHEST_FEE - 1, HIGHEST_FEE, HIGHEST_FEE + 1, u32::MAX];
const EDGE_HAULS: [u32; 6] = [0, 1, HIGHEST_HAUL - 1, HIGHEST_HAUL, HIGHEST_HAUL + 1, u32::MAX];
const ALLOWED: usize = 4;
/// A square and fees such as a season has them, in cents.
const LIFELIKE_SPAN: u32 = 60_000;
const LIFELIKE_FEE: u32 = 400_000;

/// A sheet that reading accepts, of a kind drawn at random.
pub fn accepted(random: &mut Random, yards: usize, farms: usize) -> Sample {
    let (name, table) = match random.between(0, 9) {
        0 => ("plane", plane(random, yards, farms, 60, 40)),
        1 => ("lifelike plane", plane(random, yards, farms, LIFELIKE_SPAN, LIFELIKE_FEE)),
        2 => ("highest plane", plane(random, yards, farms, HIGHEST_HAUL, HIGHEST_FEE)),
        3 => ("grid", manhattan(random, yards, farms, 8, 6)),
        4 => ("wide grid", manhattan(random, yards, farms, 5_000, 9_000)),
        5 => ("small amounts, repaired", repaired(small_amounts(random, yards, farms, 3))),
        6 => ("hauls 1 to 3", within_threefold(random, yards, farms, 1, 3)),
        7 => ("highest third", within_threefold(random, yards, farms, THIRD, HIGHEST_FEE)),
        8 => ("highest edge", from_lists(random, yards, farms, &EDGE_FEES[..ALLOWED], &[THIRD, HIGHEST_HAUL])),
        _ => {
            let table = from_lists(random, yards, farms, &EDGE_FEES[..ALLOWED], &EDGE_HAULS[..ALLOWED]);
            ("edges, repaired", repaired(table))
        }
    };
    Sample::of_table(name, &with_any_loads(random, table), None)
}

/// An accepted sheet of many equal hauls and many equal fees: each is one of at most three amounts. Hauls within a
/// threefold range keep question 6.
pub fn tied(random: &mut Random, yards: usize, farms: usize) -> Sample {
    let low = [1, 20, THIRD][below(random, 3)];
    let highest_fee = [3, low / 4, low, HIGHEST_FEE][below(random, 4)];
    let hauls = few_amounts(random, low, (3 * low).min(HIGHEST_HAUL));
    let fees = few_amounts(random, 0, highest_fee);
    let table = from_lists(random, yards, farms, &fees, &hauls);
    Sample::of_table("tied", &with_any_loads(random, table), None)
}

/// One to three amounts.
fn few_amounts(random: &mut Random, low: u32, high: u32) -> Vec<u32> {
    (0..random.between(1, 3)).map(|_| random.between(low.into(), high.into()) as u32).collect()
}

/// A sheet of good form whose amounts are not looked after: accepted, or refused for question 5 or 6.
pub fn unrepaired(random: &mut Random, yards: usize, farms: usize) -> Sample {
    let (name, table) = match random.between(0, 3) {
        0 => ("small amounts", small_amounts(random, yards, farms, 3)),
        1 => ("larger amounts", small_amounts(random, yards, farms, HIGHEST_HAUL)),
        2 => ("allowed edges", from_lists(random, yards, farms, &EDGE_FEES[..ALLOWED], &EDGE_HAULS[..ALLOWED])),
        _ => ("edges", from_lists(random, yards, farms, &EDGE_FEES, &EDGE_HAULS)),
    };
    Sample { reading: None, ..Sample::of_table(name, &with_any_loads(random, table), None) }
}

/// At least two yards and two farms of which just one choice of yards a, b and farms p, q breaks question 6, by one cent.
pub fn broken_by_one_cent(random: &mut Random, yards: usize, farms: usize, a_below_b: bool) -> Sample {
    let name = if a_below_b { "broken by one cent, a below b" } else { "broken by one cent, a above b" };
    Sample::of_table(name, &one_tight_choice(random, yards, farms, a_below_b, 1), Some(6))
}

/// The same with one cent less: haul(a, q) is just the sum of the three others.
pub fn kept_to_the_cent(random: &mut Random, yards: usize, farms: usize, a_below_b: bool) -> Sample {
    let name = if a_below_b { "kept to the cent, a below b" } else { "kept to the cent, a above b" };
    Sample::of_table(name, &one_tight_choice(random, yards, farms, a_below_b, 0), None)
}

/// Three hauls are `low`, haul(a, q) is their sum and `over` more. Every other haul is above `low`, so any other sum for
/// haul(a, q) is at least one cent more, and at most twice `low`, so it keeps the rule itself. Loads do not count in the rule.
fn one_tight_choice(random: &mut Random, yards: usize, farms: usize, a_below_b: bool, over: u32) -> Table {
    let (lower, upper) = two_of(random, yards);
    let (a, b) = if a_below_b { (lower, upper) } else { (upper, lower) };
    let (first, second) = two_of(random, farms);
    let (p, q) = if random.one_in(2) { (first, second) } else { (second, first) };
    let highest_low = (HIGHEST_HAUL - 1) / 3;
    let low = match random.between(0, 2) {
        0 => 1,
        1 => highest_low,
        _ => random.between(2, highest_low.into()) as u32,
    };
    let mut table = between(random, yards, farms, low + 1, 2 * low, HIGHEST_FEE);
    (table.hauls[p][a], table.hauls[p][b], table.hauls[q][b]) = (low, low, low);
    table.hauls[q][a] = 3 * low + over;
    with_any_loads(random, table)
}

/// Two different numbers below `count`, in order.
fn two_of(random: &mut Random, count: usize) -> (usize, usize) {
    let first = random.between(0, count as u64 - 2) as usize;
    (first, random.between(first as u64 + 1, count as u64 - 1) as usize)
}

fn repaired(mut table: Table) -> Table {
    repair(&mut table);
    table
}
