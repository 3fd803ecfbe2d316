//! Paper 5 of document 02: what if this yard shuts?
use super::*;
use planner::Second;

fn second(sheet: &[u8], set: u32, farm: usize) -> Answer<Option<(usize, u32)>> {
    second_by(sheet, Tariff::None, set, farm).map(|second| second.map(|Second { yard, haul }| (yard, haul)))
}

fn shut(sheet: &[u8], set: u32, yard: usize) -> Answer<i64> {
    shut_by(sheet, Tariff::None, set, yard)
}

#[test]
fn second_yards_of_s() {
    let of = |set: u32| [0, 1, 2].map(|farm| second(&sheet_s(), set, farm).unwrap());
    // Farm 1 is at 5 from yards 0 and 2: the fee 1 is below 2.
    assert_eq!(of(0b111), [Some((1, 3)), Some((0, 5)), Some((1, 5))]);
    assert_eq!(of(0b101), [Some((2, 9)), Some((2, 5)), Some((0, 9))]);
    assert_eq!(of(0b110), [Some((2, 9)), Some((2, 5)), Some((1, 5))]);
    assert_eq!([of(0b001), of(0b010), of(0b100)], [[None; 3]; 3]);
    assert_eq!([3, 128, usize::MAX].map(|farm| second(&sheet_s(), 0b111, farm)), [Ok(None); 3]);
    // Whatever the farm, question 8 is asked of the set.
    assert_eq!([second(&sheet_s(), 0, 0), second(&sheet_s(), 8, 0), second(&sheet_s(), 0, 3)], [Err(8); 3]);
}

#[test]
fn a_second_yard_is_chosen_by_haul_then_fee_then_number() {
    // Equal hauls in the order of fees: yard 3, then 1 and 2, then 0.
    let even = sheet([5, 2, 2, 1], &[[3; 4]]);
    let yard = |set| second(&even, set, 0).unwrap().unwrap().0;
    assert_eq!([0b1111, 0b0111, 0b0110, 0b1101, 0b0101, 0b1001].map(yard), [1, 2, 2, 2, 0, 0]);
    // A lower fee does not win over a lower haul.
    assert_eq!(second(&sheet([9, 9, 0], &[[1, 2, 3]]), 0b111, 0), Ok(Some((1, 2))));
}

#[test]
fn shutting_a_yard_of_s() {
    // The costs of `costs_of_s`: all 10, {1, 2} 11, {0, 2} 10, {0, 1} 12, {0} 16, {1} 13, {2} 17.
    let changes = |set: u32, yards: [usize; 2]| yards.map(|yard| shut(&sheet_s(), set, yard));
    assert_eq!([changes(0b111, [0, 1]), changes(0b110, [1, 2])], [[Ok(1), Ok(0)], [Ok(6), Ok(2)]]);
    assert_eq!([changes(0b101, [0, 2]), changes(0b011, [0, 1])], [[Ok(7), Ok(6)], [Ok(1), Ok(4)]]);
    assert_eq!(shut(&sheet_s(), 0b111, 2), Ok(2));
}

#[test]
fn shutting_a_yard_that_is_dearer_than_its_farms_saves() {
    // With loads 1, 20 and 1: {0, 1} hauls 1 + 20 + 5, and {1} 3 + 20 + 5; {0} hauls 1 + 100 + 9.
    let heavy = with_loads(sheet([3, 85, 9], &[[1, 3, 9], [5, 1, 5], [9, 5, 1]]), &[1, 20, 1]);
    assert_eq!([0, 1].map(|yard| shut(&heavy, 0b011, yard)), [Ok(-1), Ok(-1)]);
    // A yard to which no farm goes saves its fee.
    assert_eq!(shut(&sheet([1, 250], &[[3, 3], [1, 2]]), 0b11, 1), Ok(-250));
}

#[test]
fn question_14_asks_for_a_yard_of_the_set_that_is_not_its_only_one() {
    for yard in [0, 3, 31, 32, 33, 34, 64, 65, 255, 256, 257, 1 << 32, (1 << 32) + 1, usize::MAX] {
        assert_eq!(shut(&sheet_s(), 0b110, yard), Err(14), "yard {yard}");
    }
    assert_eq!([0, 1, 2].map(|yard| shut(&sheet_s(), 1 << yard, yard)), [Err(14); 3]);
    // 8 comes before it, and what reading asks before both.
    assert_eq!(
        [(0, 0), (0b1111, 3), (1 << 31, 31), (0b1010, 0)].map(|(set, yard)| shut(&sheet_s(), set, yard)),
        [Err(8); 4]
    );
    assert_eq!([shut(&sheet_s()[..95], 0, 0), shut(&sheet([0, 0], &[[1, 1], [1, 4]]), 0, 9)], [Err(1), Err(6)]);
}

#[test]
fn second_yards_and_changes_by_a_tariff() {
    let mut sheet = sheet([9, 9], &[[120, 250]]);
    assert_eq!(second_by(&sheet, Tariff::House, 0b11, 0), Ok(Some(Second { yard: 1, haul: 9_100 })));
    assert_eq!(shut_by(&sheet, Tariff::House, 0b11, 0), Ok(9_100 - 4_680 - 9));
    // Both hauls are 70: the fees decide, and the farm goes to yard 1 for its fee of 8.
    let flat = [[0x42, 0, 0, 0, 10, 0, 7, 0], [0x42, 1, 10, 0, 250, 0, 0, 0]].concat();
    sheet[12] = 8;
    assert_eq!(second_by(&sheet, Tariff::Given(&flat), 0b11, 0), Ok(Some(Second { yard: 0, haul: 70 })));
    assert_eq!([0, 1].map(|yard| shut_by(&sheet, Tariff::Given(&flat), 0b11, yard)), [Ok(-9), Ok(-8)]);
    assert_eq!(shut_by(&sheet, Tariff::Given(&flat[..4]), 0, 9), Err(11));
}
