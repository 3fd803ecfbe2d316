//! Paper 10 of document 02: a floor under all lists.
use super::haul_sheet::{records, HaulSheet, Record, RECORD_BYTES};
use super::questions::{ask, ask_1_to_6};
use planner::{Answer, Tariff};

/// Somebody offers one amount per farm: byte 2 the farm, bytes 1 and 3 zero, the amount per load.
const OFFER: u8 = 0x56;

/// The call gives back the sum of loads times amounts. It is lent no plan area and handed no set: it asks 1 to 6, 15 and 16.
pub fn floor_by(sheet: &[u8], tariff: Tariff, offers: &[u8]) -> Answer<u64> {
    let sheet = ask_1_to_6(sheet, tariff)?;
    ask(15, question_15(&sheet, offers))?;
    let amounts: Vec<u64> = records(offers).iter().map(|record| record.amount.into()).collect();
    ask(16, question_16(&sheet, &amounts))?;
    Ok((0..sheet.n()).map(|farm| sheet.loads(farm) * amounts[farm]).sum())
}

/// 15 for records broken or not one per farm in order.
fn question_15(sheet: &HaulSheet, offers: &[u8]) -> bool {
    let is_one_per_farm = offers.len() == RECORD_BYTES * sheet.n();
    let is_whole = |(farm, record): (usize, &Record)| {
        record.kind == OFFER && record.yard == 0 && usize::from(record.farm) == farm && record.byte_3 == 0
    };
    is_one_per_farm && records(offers).iter().enumerate().all(is_whole)
}

/// 16 for a yard overbid: at every yard the loads times the excess of amount over haul, where positive, sum to at most the fee.
/// By a tariff the haul is the priced one.
fn question_16(sheet: &HaulSheet, amounts: &[u64]) -> bool {
    (0..sheet.m()).all(|yard| {
        let is_positive = |farm: &usize| amounts[*farm] > sheet.haul(yard, *farm);
        let bid = |farm: usize| sheet.loads(farm) * (amounts[farm] - sheet.haul(yard, farm));
        let bids: u64 = (0..sheet.n()).filter(is_positive).map(bid).sum();
        bids <= sheet.fees[yard]
    })
}
