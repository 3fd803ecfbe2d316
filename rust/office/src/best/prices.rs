//! The amounts of an accepted sheet, laid out for the search: what all the loads of a farm cost to each yard.
use planner::format::MOST_YARDS;
use planner::table::Table;
use planner::{bands, library, Answer, Tariff};

/// The haul and the fee in the places past the last yard: no offer comes near this haul.
const BEYOND: i32 = 1_000_000_000;

/// One amount for each yard, and `BEYOND` past the last.
pub type Row = [i32; MOST_YARDS];

#[derive(Clone, Debug)]
pub struct Prices {
    pub yards: usize,
    /// What the loads of all farms are multiples of, and so every bid.
    pub unit: i32,
    /// Multiples of the unit: what is above cannot be bid.
    pub fees: Row,
    /// For each farm, the haul of all its loads to each yard.
    pub hauls: Vec<Row>,
    pub loads: Vec<i32>,
}

impl Prices {
    /// The prices of a sheet that reading accepts, or the number of the question that it is refused by.
    pub fn of(sheet: &[u8], tariff: Tariff) -> Answer<Prices> {
        let yards = library::read_by(sheet, tariff)?.yards;
        let table = Table::of_sheet(sheet, yards);
        let bands = bands::of(tariff);
        let haul = |amount: u32| bands.as_ref().map_or(amount.into(), |bands| bands::haul(bands, amount));
        let loads: Vec<i32> = (0..table.hauls.len()).map(|farm| table.loads_of(farm) as i32).collect();
        let hauls = |(hauls, &loads): (&Vec<u32>, &i32)| row(hauls.iter().map(|&amount| loads * haul(amount) as i32));
        let hauls = table.hauls.iter().zip(&loads).map(hauls).collect();
        let unit = loads.iter().copied().fold(0, common_divisor);
        let fees = row(table.fees.iter().map(|&fee| fee as i32 - fee as i32 % unit));
        Ok(Prices { yards, unit, fees, hauls, loads })
    }

    /// The same with one fee for every yard.
    pub fn with_fee(&self, fee: i32) -> Prices {
        Prices { fees: row((0..self.yards).map(|_| fee)), ..self.clone() }
    }

    /// What all the loads of a farm cost to its nearest yard.
    pub fn nearest(&self, farm: usize) -> i32 {
        self.hauls[farm].into_iter().fold(BEYOND, i32::min)
    }
}

pub fn common_divisor(one: i32, other: i32) -> i32 {
    if one == 0 {
        return other;
    }
    common_divisor(other % one, one)
}

fn row(amounts: impl Iterator<Item = i32>) -> Row {
    let mut row = [BEYOND; MOST_YARDS];
    row.iter_mut().zip(amounts).for_each(|(place, amount)| *place = amount);
    row
}
