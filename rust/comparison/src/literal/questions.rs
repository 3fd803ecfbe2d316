//! Document 01, "Questions put to a call, first to last", with question 10 of paper 2 of document 02 and questions
//! 11, 12 and 13 of paper 3.
use super::haul_sheet::{records, HaulSheet, Record, HAUL, RECORD_BYTES, YARD};
use super::tariff::{ask_11_and_12, priced, question_13};
use planner::{Answer, Tariff};

const LEAST_SHEET_BYTES: usize = 16;
const MOST_SHEET_BYTES: usize = 33_024;
const MOST_YARDS: usize = 32;
const MOST_FARMS: usize = 128;
const MOST_LOADS: u8 = 20;
const HIGHEST_FEE: u64 = 50_000_000;
const HIGHEST_HAUL: u64 = 1_000_000;
const SET_BITS: usize = u32::BITS as usize;

/// A "no" gives the number.
pub fn ask(number: u8, yes: bool) -> Answer<()> {
    if yes {
        Ok(())
    } else {
        Err(number)
    }
}

/// The questions about the form of the sheet.
pub fn ask_1_to_4(sheet: &[u8]) -> Answer<HaulSheet> {
    ask(1, question_1(sheet))?;
    let records = records(sheet);
    ask(2, question_2(&records))?;
    ask(3, question_3(&records))?;
    ask(4, question_4(&records))?;
    Ok(HaulSheet::new(&records))
}

/// The questions that every call but a farm's stretch asks. Paper 2: 10 after question 4. Paper 3: 11 and then 12 ahead of
/// question 1, 13 just before question 5, and 5 and 6 hold the priced hauls.
pub fn ask_1_to_6(sheet: &[u8], tariff: Tariff) -> Answer<HaulSheet> {
    let bands = ask_11_and_12(tariff)?;
    let mut sheet = ask_1_to_4(sheet)?;
    ask(10, question_10(&sheet))?;
    if let Some(bands) = bands {
        ask(13, question_13(&sheet, &bands))?;
        sheet = priced(sheet, &bands);
    }
    ask(5, question_5(&sheet))?;
    ask(6, question_6(&sheet))?;
    Ok(sheet)
}

/// Is the length a multiple of 8, from 16 to 33,024 bytes?
fn question_1(sheet: &[u8]) -> bool {
    sheet.len().is_multiple_of(RECORD_BYTES) && (LEAST_SHEET_BYTES..=MOST_SHEET_BYTES).contains(&sheet.len())
}

/// Is every kind 59 or 48 hex, and are byte 2 and byte 3 zero in every yard record? Paper 2: byte 3 of hauls is no longer
/// tested.
fn question_2(records: &[Record]) -> bool {
    records.iter().all(|record| {
        let kind_is_known = record.kind == YARD || record.kind == HAUL;
        let byte_2_is_right = record.kind != YARD || record.farm == 0;
        let byte_3_is_right = record.kind != YARD || record.byte_3 == 0;
        kind_is_known && byte_2_is_right && byte_3_is_right
    })
}

/// Do 1 to 32 yard records stand first, numbered from 0 in order, with none after them?
fn question_3(records: &[Record]) -> bool {
    let (yards, after) = records.split_at(yards_standing_first(records));
    let count_is_right = (1..=MOST_YARDS).contains(&yards.len());
    let numbers_are_right = yards.iter().enumerate().all(|(number, record)| usize::from(record.yard) == number);
    count_is_right && numbers_are_right && after.iter().all(|record| record.kind != YARD)
}

/// Is the count of haul records m times n with n from 1 to 128, each with the yard and farm number of its place?
fn question_4(records: &[Record]) -> bool {
    let m = yards_standing_first(records);
    let hauls = &records[m..];
    let Some(n) = (1..=MOST_FARMS).find(|n| hauls.len() == m * n) else {
        return false;
    };
    (0..n).all(|farm| {
        (0..m).all(|yard| {
            let record = &hauls[farm * m + yard];
            usize::from(record.yard) == yard && usize::from(record.farm) == farm
        })
    })
}

fn yards_standing_first(records: &[Record]) -> usize {
    records.iter().take_while(|record| record.kind == YARD).count()
}

/// Paper 2: is byte 3 of every haul at most 20, and the same byte in all of a farm's records?
fn question_10(sheet: &HaulSheet) -> bool {
    let none_is_above = sheet.loads_bytes.iter().flatten().all(|&byte| byte <= MOST_LOADS);
    let none_differs = (0..sheet.n()).all(|farm| {
        let bytes = &sheet.loads_bytes[farm];
        bytes.iter().all(|&byte| byte == sheet.loads_byte(farm))
    });
    none_is_above && none_differs
}

/// Is every fee at most 50,000,000 and every haul at most 1,000,000?
fn question_5(sheet: &HaulSheet) -> bool {
    let fees_are_right = sheet.fees.iter().all(|&fee| fee <= HIGHEST_FEE);
    fees_are_right && sheet.hauls.iter().flatten().all(|&haul| haul <= HIGHEST_HAUL)
}

/// Four-point rule, about one load: for all yards a, b and all farms p, q, is haul(a, q) at most haul(a, p) + haul(b, p) +
/// haul(b, q)?
fn question_6(sheet: &HaulSheet) -> bool {
    for a in 0..sheet.m() {
        for b in 0..sheet.m() {
            for p in 0..sheet.n() {
                for q in 0..sheet.n() {
                    if sheet.haul(a, q) > sheet.haul(a, p) + sheet.haul(b, p) + sheet.haul(b, q) {
                        return false;
                    }
                }
            }
        }
    }
    true
}

/// Limited plan only: is k from 1 to m?
pub fn question_7(sheet: &HaulSheet, k: usize) -> bool {
    (1..=sheet.m()).contains(&k)
}

/// Pricing only: does the set mark at least one yard and none numbered m or above?
pub fn question_8(sheet: &HaulSheet, set: u32) -> bool {
    let marks_one = (0..sheet.m()).any(|yard| marks(set, yard));
    let marks_above = (sheet.m()..SET_BITS).any(|yard| marks(set, yard));
    marks_one && !marks_above
}

/// The set is a 32-bit number whose bit i marks yard i (bit 0 lowest).
pub fn marks(set: u32, yard: usize) -> bool {
    (set >> yard) & 1 == 1
}

/// Is the lent plan area at least 8 × (m + n + 2) bytes?
pub fn question_9(sheet: &HaulSheet, area: &[u8]) -> bool {
    area.len() >= RECORD_BYTES * (sheet.m() + sheet.n() + 2)
}
