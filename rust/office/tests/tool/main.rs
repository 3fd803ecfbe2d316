//! What the tool says: here the fault of every kind of refused call without a tariff, in `tariffs` those of tariffs and
//! distances, in `shutting` what shutting a yard would change, in `agreement` that the tool and the library agree on damaged
//! ones, and in `disagreement` what is said where they do not. The others run the tool as a program (`program`): `commands` has
//! its statuses, `usage` the command line, `files` where it reads and writes, and the rest what each command makes and prints.
mod agreement;
mod cards;
mod commands;
mod compare;
mod disagreement;
mod files;
mod lists;
mod make;
mod names;
mod page;
mod program;
mod records;
mod refusals;
mod shutting;
mod side_by_side;
mod tariffs;
mod usage;

use office::list::Choice;
use office::words::refusal::{explained, first_fault, Given};
use office::words::{listed, outcome, Names};
use planner::format::record;
use planner::table::Table;
use planner::{library, Answer, Refusal, Sheet};

/// Document 01's sheet S: records 0 to 2 are yards, farm p's haul to yard y is record 3 + 3 p + y.
fn s() -> Table {
    Table::s()
}

/// S with bytes changed: pairs of a place and its new value.
fn damaged(changes: &[(usize, u8)]) -> Vec<u8> {
    let mut sheet = s().sheet();
    for &(at, value) in changes {
        sheet[at] = value;
    }
    sheet
}

/// A table of equal hauls.
fn even(yards: usize, farms: usize) -> Table {
    Table::even(yards, farms, 0, 1)
}

/// Equal hauls but for one: yards 0 and 2 show equally well that it breaks the four-point rule.
fn one_far() -> Table {
    let mut table = even(3, 2);
    table.hauls[1][1] = 4;
    table
}

fn with_fee(fee: u32) -> Vec<u8> {
    let mut table = s();
    table.fees[1] = fee;
    table.sheet()
}

/// S with the byte of each farm's loads.
fn with_loads(loads: [u8; 3]) -> Vec<u8> {
    Table { loads: loads.to_vec(), ..s() }.sheet()
}

fn with_hauls(rows: [[u32; 2]; 2]) -> Vec<u8> {
    Table::new(vec![0, 0], rows.map(|row| row.to_vec()).to_vec()).sheet()
}

/// S with one record more at the end.
fn longer(kind: u8, yard: usize, farm: usize) -> Vec<u8> {
    [s().sheet(), record(kind, yard, farm, 0).to_vec()].concat()
}

/// S without its last records.
fn shorter(records: usize) -> Vec<u8> {
    s().sheet()[..8 * (12 - records)].to_vec()
}

/// The number that the library gives to the call described, if it refuses.
fn number(sheet: Sheet, given: &Given) -> Option<u8> {
    let mut area = vec![0; given.area.unwrap_or(0)];
    let Sheet { bytes, tariff } = sheet;
    let answer: Answer<()> = match (given.area, given.k, given.set) {
        (None, _, Some(set)) => library::shut_by(bytes, tariff, set, given.shut.unwrap_or(0)).map(|_| ()),
        (None, ..) => library::read_by(bytes, tariff).map(|_| ()),
        (_, Some(k), _) => library::limited_plan_by(bytes, tariff, k, &mut area).map(|_| ()),
        (_, _, Some(set)) => library::price_by(bytes, tariff, set, &mut area).map(|_| ()),
        _ => library::open_plan_by(bytes, tariff, &mut area).map(|_| ()),
    };
    answer.err()
}

/// The library's number, the tool's question and its records are as told, and the words have this part.
fn assert_fault_by(sheet: Sheet, given: Given, question: u8, records: &[usize], part: &str) {
    assert_eq!(number(sheet, &given), Some(question), "the library, at: {part}");
    let fault = first_fault(sheet, &given, &Names::default()).expect(part);
    assert_eq!((fault.question, &fault.records[..]), (question, records), "the tool, at: {part}");
    let text = explained(Refusal(question), sheet, &given, &Names::default()).expect(part);
    assert!(text.contains(part) && text.starts_with(&format!("refused {question}\n")), "{part}, in: {text}");
}

/// The same of a sheet of hauls.
fn assert_fault(sheet: &[u8], given: Given, question: u8, records: &[usize], part: &str) {
    assert_fault_by(Sheet::of_hauls(sheet), given, question, records, part);
}

#[test]
fn every_fault_of_a_sheet_is_found_in_its_record() {
    let cases: [(Vec<u8>, u8, &[usize], &str); 28] = [
        (vec![], 1, &[], "The length is 0 bytes"),
        (vec![0; 8], 1, &[], "The length is 8 bytes"),
        (vec![0; 33_032], 1, &[], "The length is 33032 bytes"),
        (damaged(&[])[..95].to_vec(), 1, &[], "whole records 11, bytes left over 7"),
        (damaged(&[(40, 0x5A)]), 2, &[5], "at byte 40: 5A 02 00 00 09 00 00 00 hex: neither a yard nor a haul"),
        (damaged(&[(11, 7)]), 2, &[1], "It is a yard and its byte 3 is 07 hex. Asked: zero."),
        (damaged(&[(10, 255)]), 2, &[1], "It is a yard and its byte 2 is FF hex"),
        (damaged(&[(19, 7), (72, 0), (1, 9), (36, 1)]), 2, &[2], "its byte 3 is 07"),
        (damaged(&[(0, 0x48)]), 3, &[0], "No yard stands first"),
        (damaged(&[(17, 1)]), 3, &[2], "Its number is 1. Asked here: 2."),
        (damaged(&[(40, 0x59), (17, 7)]), 3, &[2], "Its number is 7. Asked here: 2."),
        (longer(0x59, 3, 0), 3, &[12], "It stands after the haul in record 3"),
        (even(33, 1).sheet(), 3, &[32], "one yard more than the 32"),
        ([record(0x48, 0, 0, 1), record(0x48, 0, 1, 1)].concat(), 3, &[0], "a haul, yard 0, farm 0, amount 1"),
        (damaged(&[(41, 1)]), 4, &[5], "Asked here: yard 2, farm 0."),
        (damaged(&[(58, 9), (74, 9)]), 4, &[7], "Asked here: yard 1, farm 1."),
        (shorter(1), 4, &[], "yards 3, hauls 8, which is farms 2, hauls left over 2"),
        (shorter(9), 4, &[], "yards 3, hauls 0, which is farms 0"),
        (longer(0x48, 1, 3), 4, &[12], "hauls 10, which is farms 3, hauls left over 1"),
        (even(1, 129).sheet(), 4, &[], "which is farms 129, hauls left over 0"),
        (even(1, 300).sheet(), 4, &[257], "Asked here: yard 0, farm 256."),
        (with_fee(50_000_001), 5, &[1], "Its fee is 50000001. Asked: at most 50000000."),
        (with_hauls([[0, 0], [1_000_001, 0]]), 5, &[4], "Its haul is 1000001. Asked: at most 1000000."),
        (damaged(&[(95, 1), (39, 1)]), 5, &[4], "Its haul is 16777219"),
        (with_hauls([[1, 1], [1, 4]]), 6, &[5, 3, 2, 4], "The last three come to 3; the first is more by 1."),
        (with_hauls([[4, 1], [1, 1]]), 6, &[2, 4, 5, 3], "a is yard 0, b is yard 1, p is farm 1, q is farm 0."),
        (one_far().sheet(), 6, &[7, 4, 3, 6], "a is yard 1, b is yard 0, p is farm 0, q is farm 1."),
        (damaged(&[(37, 1)]), 6, &[4, 7, 6, 3], "haul(a, q) is 259, record 4 at byte 32."),
    ];
    for (sheet, question, records, part) in cases {
        assert_fault(&sheet, Given::default(), question, records, part);
    }
}

#[test]
fn every_fault_of_loads_is_found_in_its_record() {
    let far = |loads: u8| Table { loads: vec![3, loads], ..one_far() }.sheet();
    let cases: [(Vec<u8>, u8, &[usize], &str); 12] = [
        (with_loads([0, 21, 0]), 10, &[6], "Its byte 3, the loads of farm 1, is 21. Asked: 0 to 20."),
        (with_loads([20, 1, 255]), 10, &[9], "a haul, yard 0, farm 2, loads 255, amount 9."),
        (damaged(&[(43, 1)]), 10, &[5], "is 1; that of the farm's first record, record 3, is 0. Asked: the same byte"),
        (damaged(&[(51, 1)]), 10, &[7], "is 0; that of the farm's first record, record 6, is 1. Asked: the same byte"),
        (damaged(&[(43, 21), (27, 5)]), 10, &[4], "is 0; that of the farm's first record, record 3, is 5."),
        (damaged(&[(91, 21), (83, 255)]), 10, &[10], "the loads of farm 2, is 255. Asked: 0 to 20."),
        (damaged(&[(43, 1), (39, 1), (7, 9)]), 10, &[5], "is 1; that of the farm's first record"),
        (far(21), 10, &[6], "the loads of farm 1, is 21."),
        (far(20), 6, &[7, 4, 3, 6], "The last three come to 3; the first is more by 1."),
        (damaged(&[(43, 1), (41, 1)]), 4, &[5], "a haul, yard 1, farm 0, loads 1, amount 9."),
        (damaged(&[(43, 1)])[..88].to_vec(), 4, &[], "yards 3, hauls 8, which is farms 2, hauls left over 2"),
        (damaged(&[(43, 21), (3, 1)]), 2, &[0], "It is a yard and its byte 3 is 01 hex"),
    ];
    for (sheet, question, records, part) in cases {
        assert_fault(&sheet, Given::default(), question, records, part);
    }
    let beside = Given { k: Some(0), area: Some(0), ..Given::default() };
    assert_fault(&with_loads([0, 21, 0]), beside, 10, &[6], "the loads of farm 1, is 21.");
    assert_fault(&with_loads([0, 20, 0]), beside, 7, &[], "k is 0.");
}

#[test]
fn every_fault_of_what_is_given_beside_a_sheet_is_found() {
    let lent = Given { area: Some(64), ..Given::default() };
    let cases = [
        (Given { k: Some(0), ..lent }, 7, "k is 0. Asked: from 1 to 3"),
        (Given { k: Some(4), area: Some(0), ..lent }, 7, "k is 4. Asked: from 1 to 3"),
        (Given { set: Some(0), ..lent }, 8, "marks no yard"),
        (Given { set: Some(0x8000_0008), area: Some(0), ..lent }, 8, "80000008 hex and marks these yards: 3, 31"),
        (Given { area: Some(63), ..lent }, 9, "The area has 63 bytes. Asked: at least 8 × (3 + 3 + 2) = 64."),
    ];
    for (given, question, part) in cases {
        assert_fault(&s().sheet(), given, question, &[], part);
    }
    assert_fault(&shorter(1), Given { k: Some(0), area: Some(0), ..lent }, 4, &[], "left over 2");
}

#[test]
fn a_number_without_its_fault_is_called_a_defect() {
    let cases = [
        (6, s().sheet(), "no fault at all"),
        (2, shorter(1), "a fault of question 4"),
        (2, with_loads([0, 21, 0]), "a fault of question 10"),
        (10, with_loads([0, 20, 0]), "no fault at all"),
        (99, shorter(1), "a defect"),
    ];
    for (number, sheet, part) in cases {
        let refused = Err(Refusal(number));
        let said = outcome(refused, Sheet::of_hauls(&sheet), &Given::default(), &Names::default());
        assert_eq!(said.status, 3);
        assert!(said.text.contains(part), "{}", said.text);
    }
}

#[test]
fn a_refusal_names_yards_and_farms() {
    let names = Names {
        yards: vec!["North".into(), "South".into()],
        farms: vec!["Hill".into(), "Mill".into()],
        ..Names::default()
    };
    let sheet = with_hauls([[1, 1], [1, 4]]);
    let said = listed(Choice::Open, Sheet::of_hauls(&sheet), &names, |_| "a list".into());
    assert_eq!(said.status, 1);
    assert!(said.text.contains("a is yard 1 (South), b is yard 0 (North), p is farm 0 (Hill), q is farm 1 (Mill)."));
}

#[test]
fn a_refusal_of_loads_is_told_in_these_words() {
    let names = Names { yards: vec![], farms: vec!["Hill".into(), "Mill".into()], ..Names::default() };
    let sheet = with_loads([20, 21, 0]);
    let said = outcome(Err(Refusal(10)), Sheet::of_hauls(&sheet), &Given::default(), &names);
    let text = "\
refused 10
Question 10: Loads (paper 2): is byte 3 of every haul record at most 20, and the same in all of a farm's records? No.
Record 6 (counted from 0), at byte 48: 48 00 01 15 05 00 00 00 hex: a haul, yard 0, farm 1, loads 21, amount 5.
Its byte 3, the loads of farm 1 (Mill), is 21. Asked: 0 to 20.
";
    assert_eq!((said.status, &said.text[..]), (1, text));
}
