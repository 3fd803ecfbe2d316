//! The sheets that the calls are timed on.
use comparison::random::Random;
use comparison::samples::{self, Sample};
use planner::format::{band, HIGHEST_HAUL, HOUSE, MOST_BANDS, MOST_FARMS, MOST_LOADS, MOST_YARDS, RECORD};

/// So many that the processor does not learn by heart which way each branch goes on each.
pub const SHEETS: u64 = 120;
/// The side of the square that yards and farms lie in, in cents of haul.
pub const SPAN: u32 = 700_000;
/// With high fees open plans have few yards, with low ones many, by many moves.
pub const FEES: [u32; 2] = [3_000_000, 300_000];
/// The side of the square of distances, in hundreds of metres, and its fees.
pub const SIDE: u32 = 2_700;
const DISTANCE_FEES: [u32; 2] = [300_000, 30_000];
const LAST_END: u16 = HOUSE[HOUSE.len() - 1].0;
/// Hauls of so few cents are 0 in the units in which question 6 is asked first.
const LOW_HAUL: u32 = 20;

/// Accepted sheets of full size, in which high and low fees take turns. With loads each farm has one to the most.
pub fn full_sheets(with_loads: bool) -> Vec<Sample> {
    (0..SHEETS).map(|seed| full_sheet(seed, FEES[(seed % 2) as usize], with_loads)).collect()
}

fn full_sheet(seed: u64, highest_fee: u32, with_loads: bool) -> Sample {
    let mut random = Random::new(seed);
    let mut table = samples::plane(&mut random, MOST_YARDS, MOST_FARMS, SPAN, highest_fee);
    let mut name = format!("seed {seed}, fees up to {highest_fee}");
    if with_loads {
        table.loads.fill_with(|| random.between(1, MOST_LOADS.into()) as u8);
        name += ", with loads";
    }
    Sample { name, sheet: table.sheet(), reading: None }
}

/// Accepted sheets of full size on which question 6 has to be asked of every two yards by the cent.
pub fn low_hauls() -> Vec<Sample> {
    let sheet = |seed| {
        let table = samples::within_threefold(&mut Random::new(seed), MOST_YARDS, MOST_FARMS, LOW_HAUL, LOW_HAUL);
        Sample { name: format!("low hauls, seed {seed}"), sheet: table.sheet(), reading: None }
    };
    (0..SHEETS).map(sheet).collect()
}

/// Accepted sheets of full size whose amounts are distances, in a square whose corners are nearly as far apart as the house tariff
/// goes. Fees are of the size of hauls, high and low in turn.
pub fn distances() -> Vec<Sample> {
    let sheet = |seed: u64| {
        let mut random = Random::new(seed);
        let highest_fee = DISTANCE_FEES[(seed % 2) as usize];
        let mut table = samples::plane(&mut random, MOST_YARDS, MOST_FARMS, SIDE, highest_fee);
        table.loads.fill_with(|| random.between(1, MOST_LOADS.into()) as u8);
        Sample { name: format!("distances, seed {seed}"), sheet: table.sheet(), reading: None }
    };
    (0..SHEETS).map(sheet).collect()
}

/// A tariff of sixteen bands over the same distances as the house tariff, rates falling from 48 to 18 cents.
pub fn sixteen_bands() -> Vec<u8> {
    let width = LAST_END / MOST_BANDS as u16;
    let record = |number: usize| {
        let start = width * number as u16;
        band(number, start, start + width, 48 - 2 * number as u16)
    };
    (0..MOST_BANDS).flat_map(record).collect()
}

/// Each sheet with a fault in its last record: the question that it fails, and what is wrong.
pub fn refused(inputs: &[Sample]) -> [(u8, &'static str, Vec<Sample>); 4] {
    let last = |change: fn(&mut [u8])| {
        let changed = |input: &Sample| {
            let mut sheet = input.sheet.clone();
            let start = sheet.len() - RECORD;
            change(&mut sheet[start..]);
            Sample { name: format!("{}, last record changed", input.name), sheet, reading: None }
        };
        inputs.iter().map(changed).collect()
    };
    [
        (2, "the last kind is wrong", last(|record| record[0] = 0)),
        (10, "the last loads differ", last(|record| record[3] ^= 1)),
        (5, "the last haul is too high", last(|record| record[4..].copy_from_slice(&(HIGHEST_HAUL + 1).to_le_bytes()))),
        (6, "the last haul breaks the rule", last(|record| record[4..].copy_from_slice(&HIGHEST_HAUL.to_le_bytes()))),
    ]
}
