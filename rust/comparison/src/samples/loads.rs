//! The bytes that hold the loads of farms.
use super::below;
use crate::random::Random;
use planner::format::{MOST_LOADS, RECORD};
use planner::table::Table;

/// Of a few large farms among others of one load.
const LARGE: [u8; 4] = [2, 7, MOST_LOADS - 1, MOST_LOADS];

/// The table with loads that question 10 accepts. A third of all tables stay as they are made, without loads.
pub fn with_any_loads(random: &mut Random, mut table: Table) -> Table {
    table.loads = any_loads(random, table.hauls.len());
    table
}

pub fn any_loads(random: &mut Random, farms: usize) -> Vec<u8> {
    match random.between(0, 5) {
        0 | 1 => vec![0; farms],
        2 => vec![1; farms],
        3 => vec![MOST_LOADS; farms],
        4 => few_large(random, farms),
        _ => (0..farms).map(|_| allowed_byte(random)).collect(),
    }
}

/// The sheet, of good form, with these loads.
pub fn put_loads(sheet: &mut [u8], yards: usize, loads: &[u8]) {
    for (farm, loads) in sheet.chunks_mut(RECORD * yards).skip(1).zip(loads) {
        farm.iter_mut().skip(3).step_by(RECORD).for_each(|byte| *byte = *loads);
    }
}

/// A byte that question 10 accepts.
pub fn allowed_byte(random: &mut Random) -> u8 {
    random.between(0, MOST_LOADS.into()) as u8
}

/// A byte that question 10 refuses.
pub fn byte_above(random: &mut Random) -> u8 {
    match random.between(0, 3) {
        0 => MOST_LOADS + 1,
        1 => u8::MAX,
        2 => 1 << 7 | allowed_byte(random),
        _ => random.between(u64::from(MOST_LOADS) + 1, u8::MAX.into()) as u8,
    }
}

fn few_large(random: &mut Random, farms: usize) -> Vec<u8> {
    let mut loads = vec![1; farms];
    for _ in 0..random.between(1, 3) {
        loads[below(random, farms)] = LARGE[below(random, LARGE.len())];
    }
    loads
}
