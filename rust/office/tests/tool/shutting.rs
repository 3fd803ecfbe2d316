//! What shutting a yard would change, in words, and the faults of a yard that cannot be shut.
use super::{assert_fault, assert_fault_by, even, s, with_fee, with_hauls, with_loads};
use office::words::refusal::Given;
use office::words::{shutting, Names};
use planner::bands::{bytes, following};
use planner::{Sheet, Tariff};

fn names() -> Names {
    let list = |names: [&str; 3]| names.map(String::from).to_vec();
    Names { yards: list(["North", "Middle", "South"]), farms: list(["Hill", "Mill", "Lake"]), ..Names::default() }
}

fn assert_said(set: Option<u32>, bytes: &[u8], tariff: Tariff, names: &Names, status: u8, text: &str) {
    let said = shutting::said(set, Sheet { bytes, tariff }, names);
    assert_eq!((said.status, &said.text[..]), (status, text));
}

#[test]
fn each_yard_of_the_open_plan_has_a_line() {
    let text = "\
Shutting one yard of the open plan
sheet: records 12, yards 3, farms 3

yard          fee, cents  farms  shutting it, cents  its farms then go to yard
   0  North            1      1  costs 1 more        1
   1  Middle           4      1  changes nothing     0
   2  South            2      1  costs 2 more        1

total with all of them open, fees and hauls: 10
";
    assert_said(None, &s().sheet(), Tariff::None, &names(), 0, text);
}

/// {0, 1} hauls 2 × 1 + 1 × 1 + 3 × 5 for fees of 1 and 40; {0} hauls 2 × 1 + 1 × 5 + 3 × 9, {1} 2 × 3 + 1 × 1 + 3 × 5.
#[test]
fn each_yard_of_a_set_has_a_line_with_its_loads() {
    let mut sheet = with_loads([2, 0, 3]);
    sheet[8 + 4] = 40;
    let text = "\
Shutting one yard of a set
sheet: records 12, yards 3, farms 3

yard  fee, cents  farms  loads  shutting it, cents  its farms then go to yard
   0           1      1      2  costs 3 more        1
   1          40      2      4  saves 24            0

total with all of them open, fees and hauls: 59
";
    assert_said(Some(0b011), &sheet, Tariff::None, &Names::default(), 0, text);
}

/// Nothing is charged: every farm goes to the cheapest yard of fee 1, and each other yard saves its fee.
#[test]
fn a_list_by_a_tariff_says_so() {
    let free = bytes(&following(&[(9, 0)]));
    let by = Names { tariff: "free.tariff".into(), ..names() };
    let text = "\
Shutting one yard of a set, by the tariff free.tariff
sheet: records 12, yards 3, farms 3

yard          fee, cents  farms  shutting it, cents  its farms then go to yard
   0  North            1      3  saves 1             2
   1  Middle           4      0  saves 4
   2  South            2      0  saves 2

total with all of them open, fees and hauls: 7
";
    assert_said(Some(0b111), &s().sheet(), Tariff::Given(&free), &by, 0, text);
}

#[test]
fn the_only_yard_cannot_be_shut() {
    let text = "\
refused 14
Question 14: Shutting a yard (paper 5): is the named yard in the set, and not its only yard? No.
The set has one yard, yard 1 (Middle): the only yard cannot be shut.
";
    assert_said(Some(0b010), &s().sheet(), Tariff::None, &names(), 1, text);
    // The open plan of equal hauls has one yard.
    let text = text.replace("yard 1 (Middle)", "yard 0");
    assert_said(None, &even(3, 2).sheet(), Tariff::None, &Names::default(), 1, &text);
}

#[test]
fn a_sheet_or_a_set_that_is_refused_is_told_as_for_a_plan() {
    let refused = |set, bytes: &[u8], tariff, part: &str| {
        let said = shutting::said(set, Sheet { bytes, tariff }, &Names::default());
        assert!(said.status == 1 && said.text.starts_with("refused ") && said.text.contains(part), "{}", said.text);
    };
    let sheet = s().sheet();
    for set in [None, Some(0), Some(0b11)] {
        refused(set, &sheet[..95], Tariff::None, "The length is 95 bytes");
        refused(set, &with_fee(50_000_001), Tariff::None, "Its fee is 50000001.");
        refused(set, &with_hauls([[1, 1], [1, 4]]), Tariff::House, "refused 6");
        refused(set, &with_hauls([[1, 1], [1, 4001]]), Tariff::House, "Its distance is 4001.");
        refused(set, &sheet, Tariff::Given(&[0; 7]), "refused 11");
    }
    refused(Some(0), &sheet, Tariff::None, "The set is 00000000 hex and marks no yard.");
    refused(Some(0b1001), &sheet, Tariff::House, "The set is 00000009 hex and marks these yards: 0, 3.");
}

#[test]
fn every_fault_of_a_yard_that_is_to_shut_is_found() {
    let given = |set, shut| Given { set: Some(set), shut: Some(shut), ..Given::default() };
    let cases = [
        (given(0b101, 1), 14, "The set marks these yards: 0, 2, and not yard 1."),
        (given(0b101, 34), 14, "The set marks these yards: 0, 2, and not yard 34."),
        (given(0b101, usize::MAX), 14, "and not yard 18446744073709551615."),
        (given(0b100, 2), 14, "The set has one yard, yard 2: the only yard cannot be shut."),
        (given(0b100, 0), 14, "The set marks these yards: 2, and not yard 0."),
        (given(0, 0), 8, "marks no yard"),
        (given(0b1001, 3), 8, "marks these yards: 0, 3"),
    ];
    for (given, question, part) in cases {
        assert_fault(&s().sheet(), given, question, &[], part);
        assert_fault_by(Sheet::of_distances(&s().sheet(), Tariff::House), given, question, &[], part);
    }
    assert_fault(&with_loads([0, 21, 0]), given(0, 0), 10, &[6], "the loads of farm 1, is 21.");
}
