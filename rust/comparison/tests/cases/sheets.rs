//! Sheets for the cases: document 01's S, sheets with one fee and one haul throughout, and what goes into them.
use crate::tariffs::{d, tariff_of};
use planner::format::{record, HAUL, HIGHEST_FEE, RECORD, YARD};
use planner::table::Table;
use planner::Tariff::{self, Given};

pub type Record = [u8; RECORD];

const S_YARDS: usize = 3;
const S_FARMS: usize = 3;
pub const S_LENGTH: usize = RECORD * (S_YARDS + S_YARDS * S_FARMS);

/// A kind that is neither a yard's nor a haul's.
pub const KIND_5A: u8 = 0x5a;

pub fn yard(number: usize, fee: u32) -> Record {
    record(YARD, number, 0, fee)
}

pub fn haul(farm: usize, yard: usize, amount: u32) -> Record {
    record(HAUL, yard, farm, amount)
}

/// Document 01's sheet S.
pub fn s() -> Vec<u8> {
    Table::s().sheet()
}

/// S with these loads of its farms.
pub fn s_with_loads(loads: [u8; S_FARMS]) -> Vec<u8> {
    Table { loads: loads.to_vec(), ..Table::s() }.sheet()
}

/// Byte 3 of a haul or of a farm in a plan, where it is not zero.
pub fn loads_shown(record: &[u8]) -> String {
    match record[3] {
        0 => String::new(),
        loads => format!(" loads {loads}"),
    }
}

/// The offset of a yard's record in S.
pub fn yard_place(yard: usize) -> usize {
    RECORD * yard
}

/// The offset of a haul's record in S.
pub fn haul_place(farm: usize, yard: usize) -> usize {
    RECORD * (S_YARDS + S_YARDS * farm + yard)
}

/// A sheet cut to so many bytes, or made longer with zeros.
pub fn of_length(mut sheet: Vec<u8>, length: usize) -> Vec<u8> {
    sheet.resize(length, 0);
    sheet
}

/// S of so many bytes, with records replaced, each at its offset.
pub fn changed_s(changes: &[(usize, Record)], length: usize) -> Vec<u8> {
    let mut sheet = of_length(s(), length);
    for (at, record) in changes {
        sheet[*at..*at + RECORD].copy_from_slice(record);
    }
    sheet
}

/// A sheet with one fee and one haul throughout.
pub fn even(yards: usize, farms: usize, fee: u32, haul: u32) -> Vec<u8> {
    Table::even(yards, farms, fee, haul).sheet()
}

/// Four yards and four farms. The open search starts at yard 3, adds 0 and then 1, swaps 3 for 2, and drops 0.
pub fn dropping() -> Vec<u8> {
    let hauls = vec![vec![3, 14, 4, 8], vec![9, 10, 2, 4], vec![9, 4, 8, 2], vec![12, 1, 11, 5]];
    Table::new(vec![2, 3, 3, 5], hauls).sheet()
}

/// Four yards and four farms. The lowest move adds yard 0 to 3, which ends the search; by the first lowering moves it
/// would end in yards 1, 2 and 3.
pub fn lowest() -> Vec<u8> {
    let hauls = vec![vec![2, 5, 2, 4], vec![3, 2, 3, 1], vec![2, 5, 2, 4], vec![2, 1, 4, 4]];
    Table::new(vec![3, 1, 2, 0], hauls).sheet()
}

/// The two yards and one farm of paper 1 of document 02.
pub fn paper_1() -> Vec<u8> {
    paper_1_table().sheet()
}

pub fn paper_1_table() -> Table {
    Table::new(vec![4, 2], vec![vec![3, 3]])
}

/// Three yards and five farms. Farm 0 has equal hauls to all, farm 4 to yards 0 and 1, and each other farm to the two yards
/// farther off; yards 1 and 2 have equal fees.
pub fn equal_hauls() -> Vec<u8> {
    let hauls = vec![vec![3, 3, 3], vec![1, 7, 7], vec![7, 1, 7], vec![7, 7, 1], vec![3, 3, 5]];
    Table::new(vec![4, 2, 2], hauls).sheet()
}

/// The lines of a sheet for each number that reading gives, by a tariff where it takes one.
pub fn unread_sheets(lines: impl Fn(&str, &[u8], Tariff) -> Vec<String>) -> Vec<String> {
    let fault = |at, record| changed_s(&[(at, record)], S_LENGTH);
    let (rising, short) = (tariff_of(&[(100, 3), (1000, 4)]), tariff_of(&[(100, 3), (899, 0)]));
    let cases = [
        ("half a record of a tariff", d().sheet(), Given(&rising[..4])),
        ("rising rates", d().sheet(), Given(&rising)),
        ("S cut short", of_length(s(), S_LENGTH - 1), Tariff::None),
        ("kind 5a", fault(yard_place(1), record(KIND_5A, 1, 0, 4)), Tariff::None),
        ("a yard among the hauls", fault(haul_place(1, 0), yard(3, 5)), Tariff::None),
        ("another farm's number", fault(haul_place(1, 0), haul(2, 0, 5)), Tariff::None),
        ("21 loads", s_with_loads([0, 21, 0]), Tariff::None),
        ("a distance too far", d().sheet(), Given(&short)),
        ("a fee too high", fault(yard_place(0), yard(0, HIGHEST_FEE + 1)), Tariff::None),
        ("the rule broken", fault(haul_place(0, 2), haul(0, 2, 10)), Tariff::None),
    ];
    cases.iter().flat_map(|(name, sheet, tariff)| lines(name, sheet, *tariff)).collect()
}
