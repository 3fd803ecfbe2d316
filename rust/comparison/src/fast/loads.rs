//! What the hauls of farms cost with all their loads (paper 2 of document 02).
use super::sheet::{Amounts, Hauls};
use super::sum::Sum;
use planner::format::{HIGHEST_HAUL, MOST_FARMS, MOST_LOADS, MOST_YARDS};

/// What all loads of a farm cost to each yard, which a search sums. Its nearest yards are still chosen by hauls of one
/// load, since loads do not change the choice and a haul of one load stands with its yard in 32 bits.
#[derive(Clone, Copy)]
pub struct FarmCosts<'a> {
    pub row: &'a Amounts,
    pub loads: u32,
}

/// For each farm, its hauls times its loads.
pub type Costs = [Amounts; MOST_FARMS];

/// The costs of one farm are compared, and taken from each other, as signed numbers.
const _: () = assert!(MOST_LOADS as u32 * HIGHEST_HAUL <= i32::MAX as u32);

impl Hauls {
    /// 0 is read as 1.
    #[inline(always)]
    pub fn loads(&self, farm: usize) -> u32 {
        u32::from(self.loads_bytes[farm].max(1))
    }

    /// Then hauls are costs, and no table of costs is made.
    pub fn one_load_each(&self) -> bool {
        self.loads_bytes[..self.farms].iter().all(|&byte| byte <= 1)
    }

    pub fn times_loads(&self) -> Costs {
        let mut costs = [[0; MOST_YARDS]; MOST_FARMS];
        for (farm, (costs, hauls)) in costs.iter_mut().zip(self.rows()).enumerate() {
            let loads = self.loads(farm);
            *costs = hauls.map(|haul| loads * haul);
        }
        costs
    }

    #[inline(always)]
    pub fn costs_of<'a>(&self, farm: usize, costs: &'a [Amounts]) -> FarmCosts<'a> {
        FarmCosts { row: &costs[farm], loads: self.loads(farm) }
    }
}

/// The haul cost of each yard by itself.
pub fn alone<S: Sum>(costs: &[Amounts]) -> [S; MOST_YARDS] {
    let mut sums = [S::default(); MOST_YARDS];
    for row in costs {
        for (sum, &cost) in sums.iter_mut().zip(row) {
            *sum += S::from(cost);
        }
    }
    sums
}
