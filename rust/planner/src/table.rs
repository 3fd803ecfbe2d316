//! A haul sheet as a table of fees, hauls and loads, before it is written as bytes.
use crate::format::{amount, record, record_with_loads, HAUL, RECORD, YARD};

#[derive(Clone, Debug, PartialEq, Eq)]
pub struct Table {
    /// The fee of each yard.
    pub fees: Vec<u32>,
    /// For each farm, its haul to each yard.
    pub hauls: Vec<Vec<u32>>,
    /// For each farm, the byte that holds its loads: 0 is read as 1.
    pub loads: Vec<u8>,
}

impl Table {
    /// A table of one load for each farm, given as the byte 0.
    pub fn new(fees: Vec<u32>, hauls: Vec<Vec<u32>>) -> Table {
        let loads = vec![0; hauls.len()];
        Table { fees, hauls, loads }
    }

    /// Document 01's sheet S.
    pub fn s() -> Table {
        Table::new(vec![1, 4, 2], vec![vec![1, 3, 9], vec![5, 1, 5], vec![9, 5, 1]])
    }

    /// Equal fees and equal hauls.
    pub fn even(yards: usize, farms: usize, fee: u32, haul: u32) -> Table {
        Table::new(vec![fee; yards], vec![vec![haul; yards]; farms])
    }

    /// The table of a sheet of good form with so many yards.
    pub fn of_sheet(sheet: &[u8], yards: usize) -> Table {
        let amounts = |records: &[u8]| records.chunks(RECORD).map(amount).collect();
        let (fees, farms) = sheet.split_at(RECORD * yards);
        let farms = || farms.chunks(RECORD * yards);
        Table {
            fees: amounts(fees),
            hauls: farms().map(amounts).collect(),
            loads: farms().map(|hauls| hauls[3]).collect(),
        }
    }

    /// A farm's loads, of which 0 is read as 1.
    pub fn loads_of(&self, farm: usize) -> u64 {
        self.loads[farm].max(1).into()
    }

    /// The records of the sheet, yards first, then each farm's hauls.
    pub fn sheet(&self) -> Vec<u8> {
        let mut bytes = Vec::new();
        for (yard, &fee) in self.fees.iter().enumerate() {
            bytes.extend(record(YARD, yard, 0, fee));
        }
        for (farm, hauls) in self.hauls.iter().enumerate() {
            for (yard, &haul) in hauls.iter().enumerate() {
                bytes.extend(record_with_loads(HAUL, yard, farm, self.loads[farm], haul));
            }
        }
        bytes
    }
}
