//! Paper 5 of document 02: what if this yard shuts?
use super::haul_sheet::HaulSheet;
use super::questions::{ask, ask_1_to_6, marks, question_8};
use planner::{Answer, Second, Tariff};

/// The pricing part now gives each farm's second cheapest open yard too with the haul there, or none where one is open. Paper 2:
/// a call asks 8 where it is handed a set, and 9 only where it is lent a plan area. A farm n or above has none.
pub fn second_by(sheet: &[u8], tariff: Tariff, set: u32, farm: usize) -> Answer<Option<Second>> {
    let sheet = ask_1_to_6(sheet, tariff)?;
    ask(8, question_8(&sheet, set))?;
    Ok(if farm < sheet.n() { sheet.second_yard(set, farm) } else { None })
}

/// The change in full cost on closing one open yard is signed, below zero when closing saves money. It equals the full price of the
/// set without the yard less that of the set. Paper 5 has the library work it out without pricing a second set; here two are
/// priced, so that the two ways can be compared.
pub fn shut_by(sheet: &[u8], tariff: Tariff, set: u32, yard: usize) -> Answer<i64> {
    let sheet = ask_1_to_6(sheet, tariff)?;
    ask(8, question_8(&sheet, set))?;
    ask(14, question_14(&sheet, set, yard))?;
    let without = set & !(1 << yard);
    Ok(sheet.full_cost(without) as i64 - sheet.full_cost(set) as i64)
}

/// 14 when the named yard is not in the set or is its only yard, after question 8.
fn question_14(sheet: &HaulSheet, set: u32, yard: usize) -> bool {
    let is_in_the_set = yard < sheet.m() && marks(set, yard);
    let is_its_only_yard = sheet.open_yards(set).count() == 1;
    is_in_the_set && !is_its_only_yard
}

impl HaulSheet {
    /// Ties as in paper 1: of the open yards in the order of haul, fee and number, the second.
    fn second_yard(&self, set: u32, farm: usize) -> Option<Second> {
        let mut yards: Vec<usize> = self.open_yards(set).collect();
        yards.sort_by_key(|&yard| (self.haul(yard, farm), self.fees[yard], yard));
        let &yard = yards.get(1)?;
        // Question 5 has every haul at most 1,000,000.
        Some(Second { yard, haul: self.haul(yard, farm) as u32 })
    }
}
