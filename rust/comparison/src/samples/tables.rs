//! Tables of fees and hauls, by the way their amounts are drawn.
use crate::random::Random;
use planner::format::{HIGHEST_FEE, HIGHEST_HAUL};
use planner::table::Table;

/// Noise is at most this part of the side of the square.
const NOISE_PART: u32 = 100;

/// Yards and farms at points in a square of side `span`. A haul is the distance in cents to the nearest cent, with a little
/// noise, repaired for question 6; a fee is any amount up to `highest_fee`.
pub fn plane(random: &mut Random, yards: usize, farms: usize, span: u32, highest_fee: u32) -> Table {
    let yard_points = points(random, yards, span);
    let farm_points = points(random, farms, span);
    let hauls = table_of(farms, yards, |farm, yard| {
        let noise = random.between(0, (span / NOISE_PART).into());
        (distance(farm_points[farm], yard_points[yard]) + noise).min(HIGHEST_HAUL.into()) as u32
    });
    let mut table = Table::new(fees(random, yards, highest_fee.min(HIGHEST_FEE)), hauls);
    repair(&mut table);
    table
}

/// Yards and farms at points of a grid; a haul is the sum of the differences in both directions, which keeps question 6.
pub fn manhattan(random: &mut Random, yards: usize, farms: usize, side: u32, highest_fee: u32) -> Table {
    let yard_points = points(random, yards, side);
    let farm_points = points(random, farms, side);
    let hauls = table_of(farms, yards, |farm, yard| {
        let ((x, y), (u, v)) = (farm_points[farm], yard_points[yard]);
        x.abs_diff(u) + y.abs_diff(v)
    });
    Table::new(fees(random, yards, highest_fee), hauls)
}

/// Every amount from 0 to `highest`: many equal costs, and question 6 often broken.
pub fn small_amounts(random: &mut Random, yards: usize, farms: usize, highest: u32) -> Table {
    between(random, yards, farms, 0, highest, highest)
}

/// Hauls from `low` to three times `low`, which keeps question 6 whatever the places are.
pub fn within_threefold(random: &mut Random, yards: usize, farms: usize, low: u32, highest_fee: u32) -> Table {
    between(random, yards, farms, low, (3 * low).min(HIGHEST_HAUL), highest_fee)
}

/// Hauls from `low` to `high`, fees up to `highest_fee`.
pub fn between(random: &mut Random, yards: usize, farms: usize, low: u32, high: u32, highest_fee: u32) -> Table {
    let hauls = table_of(farms, yards, |_, _| random.between(low.into(), high.into()) as u32);
    Table::new(fees(random, yards, highest_fee), hauls)
}

/// Each fee one of `fees`, each haul one of `hauls`.
pub fn from_lists(random: &mut Random, yards: usize, farms: usize, fees: &[u32], hauls: &[u32]) -> Table {
    let fees = (0..yards).map(|_| one_of(random, fees)).collect();
    let hauls = table_of(farms, yards, |_, _| one_of(random, hauls));
    Table::new(fees, hauls)
}

/// Lowers hauls until question 6 holds: a haul becomes the shortest way from its farm to its yard over other farms and yards.
pub fn repair(table: &mut Table) {
    let ways = ways_between_yards(&table.hauls, table.fees.len());
    for hauls in &mut table.hauls {
        let direct = hauls.clone();
        for (yard, haul) in hauls.iter_mut().enumerate() {
            let by_another = (0..direct.len()).map(|last| ways[yard][last] + u64::from(direct[last]));
            *haul = by_another.fold((*haul).into(), u64::min) as u32;
        }
    }
}

/// The shortest way from each yard to each other over any farms and yards.
fn ways_between_yards(hauls: &[Vec<u32>], yards: usize) -> Vec<Vec<u64>> {
    let by_one_farm = |a: usize, b: usize| hauls.iter().map(|farm| u64::from(farm[a]) + u64::from(farm[b])).min();
    let mut ways: Vec<Vec<u64>> =
        (0..yards).map(|a| (0..yards).map(|b| by_one_farm(a, b).unwrap_or(u64::MAX / 2)).collect()).collect();
    for middle in 0..yards {
        for a in 0..yards {
            for b in 0..yards {
                ways[a][b] = ways[a][b].min(ways[a][middle] + ways[middle][b]);
            }
        }
    }
    ways
}

fn points(random: &mut Random, count: usize, side: u32) -> Vec<(u32, u32)> {
    (0..count).map(|_| (random.between(0, side.into()) as u32, random.between(0, side.into()) as u32)).collect()
}

fn distance((x, y): (u32, u32), (u, v): (u32, u32)) -> u64 {
    let (across, up) = (f64::from(x.abs_diff(u)), f64::from(y.abs_diff(v)));
    (across * across + up * up).sqrt().round() as u64
}

fn fees(random: &mut Random, yards: usize, highest: u32) -> Vec<u32> {
    (0..yards).map(|_| random.between(0, highest.into()) as u32).collect()
}

fn one_of(random: &mut Random, list: &[u32]) -> u32 {
    list[random.between(0, list.len() as u64 - 1) as usize]
}

fn table_of(farms: usize, yards: usize, mut haul: impl FnMut(usize, usize) -> u32) -> Vec<Vec<u32>> {
    (0..farms).map(|farm| (0..yards).map(|yard| haul(farm, yard)).collect()).collect()
}
