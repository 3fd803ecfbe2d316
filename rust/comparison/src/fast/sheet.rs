//! Questions 1 to 5 with 10 after 4 and 13 before 5, and a sheet as a table.
use super::rule;
use super::tariff::{Bands, Pricing};
use planner::format::{
    amount, HAUL, HIGHEST_FEE, HIGHEST_HAUL, LONGEST_SHEET, MOST_FARMS, MOST_LOADS, MOST_YARDS, RECORD, SHORTEST_SHEET,
    YARD,
};
use planner::{Answer, Tariff};

type Record = [u8; RECORD];
/// An amount for each yard.
pub type Amounts = [u32; MOST_YARDS];

/// The fees, hauls and loads of a sheet. A place past the last yard has the highest fee and the highest hauls, so that no
/// move to it lowers a cost.
pub struct Hauls {
    pub yards: usize,
    pub farms: usize,
    pub fees: Amounts,
    /// For each farm, the byte that holds its loads.
    pub loads_bytes: [u8; MOST_FARMS],
    rows: [Amounts; MOST_FARMS],
}

impl Hauls {
    pub fn none() -> Hauls {
        let (fees, rows) = ([HIGHEST_FEE; MOST_YARDS], [[0; MOST_YARDS]; MOST_FARMS]);
        Hauls { yards: 0, farms: 0, fees, loads_bytes: [0; MOST_FARMS], rows }
    }

    /// The hauls of each farm, of one load.
    pub fn rows(&self) -> &[Amounts] {
        &self.rows[..self.farms]
    }

    /// The same, four farms at a time. Rows of zeros fill up the last four.
    pub fn rows_by_four(&self) -> &[[Amounts; 4]] {
        &self.rows.as_chunks().0[..self.farms.div_ceil(4)]
    }

    /// Asks questions 11, 12, 1 to 4, 10, 13, 5 and 6, and fills a table that has nothing yet. Distances are priced once all
    /// stand in it. Hauls do not fall as distances rise, so the farthest distance that the tariff allows has the highest haul.
    pub fn read(&mut self, sheet: &[u8], tariff: Tariff, pricing: Pricing) -> Answer<()> {
        let bands = Bands::of(tariff)?;
        if !sheet.len().is_multiple_of(RECORD) || !(SHORTEST_SHEET..=LONGEST_SHEET).contains(&sheet.len()) {
            return Err(1);
        }
        let records = sheet.as_chunks().0;
        let highest = bands.as_ref().map_or(HIGHEST_HAUL, |bands| bands.farthest);
        if !self.fill(records, highest) {
            return Err(first_no(records, bands.map(|bands| bands.last_end)));
        }
        if let Some(bands) = bands {
            bands.price(&mut self.rows[..self.farms], pricing);
            self.rows[..self.farms].iter_mut().for_each(|row| row[self.yards..].fill(HIGHEST_HAUL));
        }
        if !rule::four_points(self) {
            return Err(6);
        }
        Ok(())
    }

    /// Fills the table in one pass over the records, and says whether questions 2 to 5, 10 and 13 are all answered yes where
    /// 13 and 5 ask for an amount of hauls up to the highest.
    fn fill(&mut self, records: &[Record], highest: u32) -> bool {
        let yards = yards_first(records);
        if !(1..=MOST_YARDS).contains(&yards) || !records.len().is_multiple_of(yards) {
            return false;
        }
        let farms = records.len() / yards - 1;
        if !(1..=MOST_FARMS).contains(&farms) {
            return false;
        }
        self.yards = yards;
        self.farms = farms;
        let (fees, hauls) = records.split_at(yards);
        let mut faults = amounts(fees, [YARD, 0, 0, 0], HIGHEST_FEE, |yard, fee| self.fees[yard] = fee);
        let mut most_loads = 0;
        for (farm, (row, records)) in self.rows.iter_mut().zip(hauls.chunks_exact(yards)).enumerate() {
            let loads = records[0][3];
            self.loads_bytes[farm] = loads;
            most_loads = most_loads.max(loads);
            faults |= fill_row(row, records, [HAUL, 0, farm as u8, loads], highest);
        }
        faults == 0 && most_loads <= MOST_LOADS
    }
}

/// Writes a farm's hauls to its row; gives 0 where its records are right. Of a full row the compiler knows the length.
fn fill_row(row: &mut Amounts, records: &[Record], head: [u8; 4], highest: u32) -> u32 {
    if let Some(full) = records.as_array::<MOST_YARDS>() {
        return amounts(full, head, highest, |yard, haul| row[yard] = haul);
    }
    *row = [HIGHEST_HAUL; MOST_YARDS];
    amounts(records, head, highest, |yard, haul| row[yard] = haul)
}

/// Hands on the amount of each record. Gives 0 where every record has the kind, the farm number and the byte 3 of this
/// head, the yard number of its place and an amount up to the highest.
#[inline(always)]
fn amounts(records: &[Record], head: [u8; 4], highest: u32, mut put: impl FnMut(usize, u32)) -> u32 {
    let head = u64::from(u32::from_le_bytes(head));
    let last = u64::from(highest) << 32 | u64::from(u32::MAX);
    let mut differences = 0;
    let mut rests = 0;
    for (yard, &record) in records.iter().enumerate() {
        let number = u64::from_le_bytes(record);
        differences |= number ^ head ^ (yard as u64) << 8;
        rests |= last.wrapping_sub(number);
        put(yard, (number >> 32) as u32);
    }
    // An amount above the highest sets the top bit of the one or the other.
    differences as u32 | ((differences | rests) >> 63) as u32
}

/// The count of yard records at the front.
fn yards_first(records: &[Record]) -> usize {
    records.iter().take_while(|record| record[0] == YARD).count()
}

/// The number of the first question of 2, 3, 4, 10, 13 and 5 that is answered no, where one is. Without a tariff there is no
/// last end, and 13 is not asked.
fn first_no(records: &[Record], last_end: Option<u32>) -> u8 {
    let formed = |&[kind, _, farm, byte_3, ..]: &Record| kind == HAUL || kind == YARD && farm == 0 && byte_3 == 0;
    if !records.iter().all(formed) {
        return 2;
    }
    let yards = yards_first(records);
    let (first, hauls) = records.split_at(yards);
    let numbered = first.iter().enumerate().all(|(yard, record)| usize::from(record[1]) == yard);
    if !(1..=MOST_YARDS).contains(&yards) || !numbered || hauls.iter().any(|record| record[0] == YARD) {
        return 3;
    }
    let full_farms = hauls.len().is_multiple_of(yards) && (1..=MOST_FARMS).contains(&(hauls.len() / yards));
    let in_place = |(farm, records): (usize, &[Record])| {
        let numbered =
            |(yard, record): (usize, &Record)| usize::from(record[1]) == yard && usize::from(record[2]) == farm;
        records.iter().enumerate().all(numbered)
    };
    if !full_farms || !hauls.chunks_exact(yards).enumerate().all(in_place) {
        return 4;
    }
    let loaded = |records: &[Record]| {
        let loads = records[0][3];
        loads <= MOST_LOADS && records.iter().all(|record| record[3] == loads)
    };
    if !hauls.chunks_exact(yards).all(loaded) {
        return 10;
    }
    match last_end {
        Some(end) if hauls.iter().any(|record| amount(record) > end) => 13,
        _ => 5,
    }
}
