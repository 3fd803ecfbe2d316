//! Document 01, "The plan area", with the loads of paper 2 of document 02.
use super::haul_sheet::{HaulSheet, Record, RECORD_BYTES};
use super::search::Settled;
use planner::Written;

/// An open yard.
const OPEN: u8 = 0x4F;
/// A farm with its yard and haul.
const FARM: u8 = 0x41;
/// The total.
const TOTAL: u8 = 0x54;
/// The moves made.
const MOVES: u8 = 0x4D;

/// Writes the plan's records to the front of the area, which question 9 found large enough. The area past the last record is
/// unchanged. The call returns the bytes written and the moves.
pub fn write(sheet: &HaulSheet, settled: &Settled, total: u64, area: &mut [u8]) -> Written {
    let records = plan_records(sheet, settled, total);
    for (record, place) in records.iter().zip(area.chunks_exact_mut(RECORD_BYTES)) {
        place.copy_from_slice(&record.to_bytes());
    }
    Written { bytes: RECORD_BYTES * records.len(), moves: settled.moves.len() as u32 }
}

/// One record for each open yard by number, one for each farm by number, one of the total, one of the moves made.
fn plan_records(sheet: &HaulSheet, settled: &Settled, total: u64) -> Vec<Record> {
    let open: Vec<usize> = sheet.open_yards(settled.set).collect();
    let mut records = Vec::new();
    for &yard in &open {
        records.push(record(OPEN, yard, 0, sheet.fees[yard]));
    }
    for farm in 0..sheet.n() {
        let yard = sheet.given_yard(settled.set, farm);
        let of_one_load = record(FARM, yard, farm, sheet.haul(yard, farm));
        // Paper 2: the farm record repeats the byte, and still shows the haul of one load.
        records.push(Record { byte_3: sheet.loads_byte(farm), ..of_one_load });
    }
    records.push(record(TOTAL, open.len(), sheet.n(), total));
    records.push(record(MOVES, 0, 0, settled.moves.len() as u64));
    records
}

/// A record of the plan. Its numbers are at most 128, and its amount at most the full cost of 32 yards and 128 farms of 20 loads,
/// which is 4,160,000,000 and below the end of 32 bits, so nothing is lost. Bytes not named are zero.
fn record(kind: u8, byte_1: usize, byte_2: usize, amount: u64) -> Record {
    Record { kind, yard: byte_1 as u8, farm: byte_2 as u8, byte_3: 0, amount: amount as u32 }
}
