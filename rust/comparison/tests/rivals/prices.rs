//! What each set of a sheet's yards costs, for either buyer with the same loads and by the same tariff, and the sets next to a set.
use comparison::samples::TariffSample;
use planner::format::{amount, RECORD};

/// A set is a place in the lists: its bit i marks yard i. Place 0, the empty set, is not used.
pub struct Prices {
    pub yards: usize,
    pub fees: Vec<u64>,
    pub hauls: Vec<u64>,
}

impl Prices {
    /// The prices of an accepted sheet, read off its amounts and off byte 3 of its hauls, where 0 is read as 1. By a tariff
    /// the amounts of hauls are distances, and each costs the sum over bands of what lies inside times the rate.
    pub fn of(sheet: &[u8], yards: usize, tariff: Option<&TariffSample>) -> Prices {
        let amounts: Vec<u32> = sheet.chunks(RECORD).map(amount).collect();
        let (fees, hauls) = amounts.split_at(yards);
        let fees: Vec<u64> = fees.iter().map(|&fee| fee.into()).collect();
        let price = |&amount: &u32| tariff.map_or(amount.into(), |tariff| tariff.haul(amount));
        let hauls: Vec<u64> = hauls.iter().map(price).collect();
        let marked = |set: usize, list: &[u64]| -> Vec<u64> {
            (0..yards).filter(|yard| set >> yard & 1 == 1).map(|yard| list[yard]).collect()
        };
        let fees_of = |set| marked(set, &fees).iter().sum();
        let loads = loads(sheet, yards);
        let hauls_of = |set| {
            let nearest = hauls.chunks(yards).filter_map(|farm| marked(set, farm).into_iter().min());
            nearest.zip(&loads).map(|(haul, loads)| haul * loads).sum()
        };
        let sets = 0..1usize << yards;
        Prices { yards, fees: sets.clone().map(fees_of).collect(), hauls: sets.map(hauls_of).collect() }
    }

    pub fn total(&self, set: usize) -> u64 {
        self.fees[set] + self.hauls[set]
    }

    /// Every non-empty set of the sheet's yards.
    pub fn rivals(&self) -> std::ops::Range<usize> {
        1..self.hauls.len()
    }
}

/// The loads of each farm, from its record for yard 0.
pub fn loads(sheet: &[u8], yards: usize) -> Vec<u64> {
    sheet.chunks(RECORD).step_by(yards).skip(1).map(|record| u64::from(record[3]).max(1)).collect()
}

/// The sets that differ from `set` in one yard, none of them empty.
pub fn adds_and_drops(yards: usize, set: usize) -> Vec<usize> {
    (0..yards).map(|yard| set ^ 1 << yard).filter(|&other| other != 0).collect()
}

/// The sets with one yard of `set` exchanged for one outside it.
pub fn swaps(yards: usize, set: usize) -> Vec<usize> {
    let (open, closed): (Vec<usize>, Vec<usize>) = (0..yards).partition(|yard| set >> yard & 1 == 1);
    open.iter().flat_map(|out| closed.iter().map(move |into| set ^ 1 << out ^ 1 << into)).collect()
}
