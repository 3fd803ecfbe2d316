//! What only this program tells: the moves one by one, the costs of sets, what a yard is chosen by, a farm's stretch; and each of
//! these with loads. `floor` has offers and their sums, `shut` second yards and what shutting one changes, `tariffs` hauls from a
//! tariff.
mod floor;
mod shut;
mod tariffs;

use super::*;

fn sheet<const M: usize>(fees: [u8; M], farms: &[[u8; M]]) -> Vec<u8> {
    let mut bytes = Vec::new();
    for (yard, fee) in (0..).zip(fees) {
        bytes.extend([0x59, yard, 0, 0, fee, 0, 0, 0]);
    }
    for (farm, hauls) in (0..).zip(farms) {
        for (yard, &haul) in (0..).zip(hauls) {
            bytes.extend([0x48, yard, farm, 0, haul, 0, 0, 0]);
        }
    }
    bytes
}

fn sheet_s() -> Vec<u8> {
    sheet([1, 4, 2], &[[1, 3, 9], [5, 1, 5], [9, 5, 1]])
}

/// The sheet of three yards with this byte 3 in all hauls of each farm.
fn with_loads(mut sheet: Vec<u8>, loads: &[u8]) -> Vec<u8> {
    for (hauls, byte) in sheet[24..].chunks_mut(24).zip(loads) {
        hauls.iter_mut().skip(3).step_by(8).for_each(|byte_3| *byte_3 = *byte);
    }
    sheet
}

/// The amounts of a sheet of hauls that questions 1 to 6 accept.
fn accepted(sheet: &[u8]) -> haul_sheet::HaulSheet {
    ask_1_to_6(sheet, Tariff::None).unwrap()
}

#[test]
fn moves_of_s() {
    // Taking the first lowering move instead of the lowest would add yard 0 first.
    assert_eq!(open_moves(&sheet_s()), [Move::Add { yard: 2 }, Move::Add { yard: 0 }]);
    let limited_moves = |k| search::limited_plan(&accepted(&sheet_s()), k).moves;
    assert_eq!(limited_moves(1), [Move::Swap { out: 0, into: 1 }]);
    assert_eq!(limited_moves(2), [Move::Swap { out: 0, into: 2 }]);
    assert_eq!(limited_moves(3), []);
}

#[test]
fn moves_of_every_kind() {
    let farms = [[7, 4, 4, 14, 11], [6, 5, 11, 21, 18], [14, 13, 7, 7, 4], [16, 15, 9, 13, 10]];
    let moves = open_moves(&sheet([1, 3, 4, 0, 1], &farms));
    let swap = Move::Swap { out: 2, into: 1 };
    assert_eq!(moves, [Move::Add { yard: 0 }, Move::Add { yard: 4 }, swap, Move::Drop { yard: 0 }]);
}

#[test]
fn the_list_of_moves_in_order() {
    let four_yards = accepted(&sheet([0; 4], &[[1; 4]]));
    let adds = [Move::Add { yard: 0 }, Move::Add { yard: 2 }];
    let drops = [Move::Drop { yard: 1 }, Move::Drop { yard: 3 }];
    let swaps = [(1, 0), (1, 2), (3, 0), (3, 2)].map(|(out, into)| Move::Swap { out, into });
    let all = [&adds[..], &drops[..], &swaps[..]].concat();
    assert_eq!(search::open_plan_moves(&four_yards, 0b1010), all);
    assert_eq!(search::swaps(&four_yards, 0b1010), swaps);
    // The last yard is not dropped.
    let drops_last = search::open_plan_moves(&four_yards, 0b1000).contains(&Move::Drop { yard: 3 });
    assert!(!drops_last);
}

#[test]
fn costs_of_s() {
    let sheet = accepted(&sheet_s());
    let costs = |set| (sheet.haul_cost(set), sheet.fees_of(set));
    assert_eq!(costs(0b001), (15, 1));
    assert_eq!(costs(0b010), (9, 4));
    assert_eq!(costs(0b110), (5, 6));
    assert_eq!(costs(0b011), (7, 5));
    assert_eq!(costs(0b101), (7, 3));
    assert_eq!(costs(0b111), (3, 7));
}

#[test]
fn costs_of_s_with_loads() {
    // The hauls times 2, 1 and 3 loads: 2, 6, 18; 5, 1, 5; 27, 15, 3.
    let sheet = accepted(&with_loads(sheet_s(), &[2, 1, 3]));
    let costs = |set| (sheet.haul_cost(set), sheet.full_cost(set));
    assert_eq!(costs(0b001), (2 + 5 + 27, 34 + 1));
    assert_eq!(costs(0b010), (6 + 1 + 15, 22 + 4));
    assert_eq!(costs(0b100), (18 + 5 + 3, 26 + 2));
    assert_eq!(costs(0b011), (2 + 1 + 15, 18 + 5));
    assert_eq!(costs(0b101), (2 + 5 + 3, 10 + 3));
    assert_eq!(costs(0b110), (6 + 1 + 3, 10 + 6));
    assert_eq!(costs(0b111), (2 + 1 + 3, 6 + 7));
    // 0 is read as 1.
    let (zeros, ones) = (accepted(&sheet_s()), accepted(&with_loads(sheet_s(), &[1; 3])));
    assert!((1..8).all(|set| zeros.full_cost(set) == ones.full_cost(set)));
}

#[test]
fn moves_of_s_with_loads() {
    // Farm 0 with 20 loads: {0} costs 35, {0, 1} 31 and {0, 2} 29, as all three; {0} hauls 34, {0, 1} 26 as {0, 2} does.
    let heavy = with_loads(sheet_s(), &[20, 1, 0]);
    assert_eq!(open_moves(&heavy), [Move::Add { yard: 2 }]);
    let limited_moves = |k| search::limited_plan(&accepted(&heavy), k).moves;
    assert_eq!([limited_moves(1), limited_moves(2), limited_moves(3)], [[]; 3]);
}

/// What reading answers where byte 3 of the three hauls of farm 1 of S is this.
fn read_with_bytes_3(bytes: [u8; 3]) -> Answer<Counts> {
    let mut sheet = sheet_s();
    for (record, byte) in sheet[48..72].chunks_mut(8).zip(bytes) {
        record[3] = byte;
    }
    read(&sheet)
}

#[test]
fn question_10_asks_bytes_up_to_20_and_the_same_within_a_farm() {
    for byte in 0..=255 {
        assert_eq!(read_with_bytes_3([byte; 3]).err(), (byte > 20).then_some(10), "byte {byte}");
    }
    for bytes in [[1, 0, 0], [0, 1, 0], [0, 0, 1], [0, 1, 1], [20, 20, 19], [5, 21, 5]] {
        assert_eq!(read_with_bytes_3(bytes), Err(10), "bytes {bytes:?}");
    }
}

#[test]
fn question_10_stands_after_4_and_before_5() {
    let differing = |mut sheet: Vec<u8>| {
        sheet[27] = 1;
        sheet
    };
    let mut out_of_place = differing(sheet_s());
    out_of_place[90] = 1;
    let mut too_high = differing(sheet_s());
    too_high[7] = 255;
    let rule_broken = differing(sheet([1, 4, 2], &[[1, 3, 10], [5, 1, 5], [9, 5, 1]]));
    assert_eq!([out_of_place, too_high, rule_broken].map(|sheet| read(&sheet).err()), [Some(4), Some(10), Some(10)]);
}

#[test]
fn question_2_tests_byte_3_of_yards_alone() {
    let with_byte_3 = |at: usize| {
        let mut sheet = sheet_s();
        sheet[at] = 1;
        read(&sheet).err()
    };
    assert_eq!([3, 11, 19, 27, 91].map(with_byte_3), [Some(2), Some(2), Some(2), Some(10), Some(10)]);
}

#[test]
fn a_farm_record_repeats_the_byte_and_shows_the_haul_of_one_load() {
    let mut area = [0; 64];
    let written = price(&with_loads(sheet_s(), &[2, 0, 3]), 0b010, &mut area);
    assert_eq!(written, Ok(Written { bytes: 48, moves: 0 }));
    let farms = [[0x41, 1, 0, 2, 3, 0, 0, 0], [0x41, 1, 1, 0, 1, 0, 0, 0], [0x41, 1, 2, 3, 5, 0, 0, 0]];
    assert_eq!(area[8..32], farms.concat());
    // The total 4 + 2 × 3 + 1 + 3 × 5.
    assert_eq!(area[32..40], [0x54, 1, 3, 0, 26, 0, 0, 0]);
}

/// The yard of each farm, from the records of kind 41 hex.
fn yards_given(call: impl Fn(&mut [u8]) -> Answer<Written>) -> Vec<u8> {
    let mut area = [0; 64];
    let written = call(&mut area).unwrap();
    area[..written.bytes].chunks(8).filter(|record| record[0] == 0x41).map(|record| record[1]).collect()
}

/// Pricing this set gives each farm this yard, chosen by this.
fn check_choice<const M: usize>(fees: [u8; M], farms: &[[u8; M]], set: u32, yards: &[u8], by: &[ChosenBy]) {
    let sheet = sheet(fees, farms);
    assert_eq!(yards_given(|area| price(&sheet, set, area)), yards);
    assert_eq!(chosen_by(&sheet, Tariff::None, set), by);
}

#[test]
fn a_yard_is_chosen_by_haul_then_fee_then_number() {
    use ChosenBy::{Fee, Haul, Number};
    // The example of paper 1: of equal hauls the dearer lower number loses. The cheaper one wins wherever it stands.
    check_choice([4, 2], &[[3, 3]], 0b11, &[1], &[Fee]);
    check_choice([2, 4], &[[3, 3]], 0b11, &[0], &[Fee]);
    // Equal fees go to the lower number, though a dearer one stands before them.
    check_choice([2, 2], &[[3, 3]], 0b11, &[0], &[Number]);
    check_choice([4, 2, 2], &[[3, 3, 3]], 0b111, &[1], &[Number]);
    // A lower fee does not win over a lower haul.
    check_choice([4, 2], &[[2, 3], [3, 2]], 0b11, &[0, 1], &[Haul, Haul]);
    // Only yards of the set count.
    check_choice([4, 2, 1], &[[3, 3, 3]], 0b011, &[1], &[Fee]);
    check_choice([4, 2, 1], &[[3, 3, 3]], 0b001, &[0], &[Haul]);
    let of_none = |sheet: &[u8], set| chosen_by(sheet, Tariff::None, set);
    assert_eq!([of_none(&sheet_s(), 0), of_none(&sheet_s(), 8), of_none(&sheet_s()[1..], 1)], [[]; 3]);
}

#[test]
fn both_plans_choose_as_pricing_does() {
    // Both yards are opened for farms 1 and 2; farm 0 has equal hauls.
    let open = sheet([4, 2], &[[3, 3], [1, 7], [7, 1]]);
    assert_eq!(yards_given(|area| open_plan(&open, area)), [1, 0, 1]);
    // The fees count here too, though the cost leaves them out.
    assert_eq!(yards_given(|area| limited_plan(&open, 2, area)), [1, 0, 1]);
    let three = sheet([4, 2, 1], &[[3, 3, 3]]);
    assert_eq!(yards_given(|area| limited_plan(&three, 2, area)), [1]);
    assert_eq!(yards_given(|area| limited_plan(&three, 3, area)), [2]);
}

#[test]
fn stretches() {
    let s = sheet_s();
    assert_eq!(farm_hauls(&s, 0), &s[24..48]);
    assert_eq!(farm_hauls(&s, 2), &s[72..96]);
    assert_eq!([farm_hauls(&s, 3), farm_hauls(&s, usize::MAX), farm_hauls(&s[..88], 0)], [&[]; 3]);
    // Questions 5 and 6 are not asked: a haul of 4 breaks the four-point rule, its highest byte the limit of a haul.
    let mut refused = sheet([0, 0], &[[1, 1], [1, 4]]);
    assert_eq!(farm_hauls(&refused, 1), &refused[32..48]);
    refused[47] = 255;
    assert_eq!(read(&refused), Err(5));
    assert_eq!(farm_hauls(&refused, 1), &refused[32..48]);
    // Nor is question 10: the bytes come as they stand.
    refused[35] = 77;
    assert_eq!(read(&refused), Err(10));
    assert_eq!(farm_hauls(&refused, 1), &refused[32..48]);
}
