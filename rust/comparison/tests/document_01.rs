//! The examples of document 01, section "Marked sheets and others", and its questions one by one, put to every implementation;
//! the example of paper 1 of document 02, on equal hauls, the numbers of its paper 2, on loads, and papers 5 and 10 on the same sheets.
mod checks;

use checks::{
    check_floor, check_plan, check_read, check_refused, check_seconds, check_sheet_refused, check_shut, even_sheet,
    offers, plan, record, sheet, sheet_s, with_farm_byte, with_loads, AMPLE, HAUL, HIGHEST_FEE, HIGHEST_HAUL,
    MOST_LOADS, YARD,
};
use comparison::calls::PlanCall as Call;

#[test]
fn open_plan_of_s_byte_for_byte() {
    #[rustfmt::skip]
    let bytes = [
        0x4F, 0, 0, 0, 1, 0, 0, 0,
        0x4F, 1, 0, 0, 4, 0, 0, 0,
        0x4F, 2, 0, 0, 2, 0, 0, 0,
        0x41, 0, 0, 0, 1, 0, 0, 0,
        0x41, 1, 1, 0, 1, 0, 0, 0,
        0x41, 2, 2, 0, 1, 0, 0, 0,
        0x54, 3, 3, 0, 10, 0, 0, 0,
        0x4D, 0, 0, 0, 2, 0, 0, 0,
    ];
    check_read(&sheet_s(), 3, 3);
    check_plan(&sheet_s(), Call::OpenPlan, &bytes, 2);
}

#[test]
fn pricing_of_s() {
    let (s, farms) = (sheet_s(), [(0, 1), (0, 5), (2, 1)]);
    check_plan(&s, Call::Price { set: 0b101 }, &plan(&[(0, 1), (2, 2)], &farms, 10, 0), 0);
    check_plan(&s, Call::Price { set: 0b010 }, &plan(&[(1, 4)], &[(1, 3), (1, 1), (1, 5)], 13, 0), 0);
    for set in [0, 0b1000, 0b1001, 1 << 31, 1 << 31 | 1, u32::MAX] {
        check_refused(&s, Call::Price { set }, AMPLE, 8);
        check_refused(&s, Call::Price { set }, 0, 8);
    }
}

/// Fees 4 and 2, one farm at 3 and 3.
#[test]
fn pricing_of_paper_1_byte_for_byte() {
    #[rustfmt::skip]
    let bytes = [
        0x4F, 0, 0, 0, 4, 0, 0, 0,
        0x4F, 1, 0, 0, 2, 0, 0, 0,
        0x41, 1, 0, 0, 3, 0, 0, 0,
        0x54, 2, 1, 0, 9, 0, 0, 0,
        0x4D, 0, 0, 0, 0, 0, 0, 0,
    ];
    check_plan(&sheet(&[4, 2], &[[3, 3]]), Call::Price { set: 0b11 }, &bytes, 0);
}

#[test]
fn limited_plans_of_s() {
    let s = sheet_s();
    check_plan(&s, Call::LimitedPlan { k: 1 }, &plan(&[(1, 4)], &[(1, 3), (1, 1), (1, 5)], 9, 1), 1);
    check_plan(&s, Call::LimitedPlan { k: 2 }, &plan(&[(1, 4), (2, 2)], &[(1, 3), (1, 1), (2, 1)], 5, 1), 1);
    check_plan(&s, Call::LimitedPlan { k: 3 }, &plan(&[(0, 1), (1, 4), (2, 2)], &[(0, 1), (1, 1), (2, 1)], 3, 0), 0);
    for k in [0, 4, 32, 33, usize::MAX] {
        check_refused(&s, Call::LimitedPlan { k }, AMPLE, 7);
        check_refused(&s, Call::LimitedPlan { k }, 0, 7);
    }
}

#[test]
fn an_area_too_short_by_one_byte() {
    // `check_plan` lends the 64 bytes that are enough.
    for call in [Call::Price { set: 0b010 }, Call::OpenPlan, Call::LimitedPlan { k: 1 }] {
        check_refused(&sheet_s(), call, 63, 9);
        check_refused(&sheet_s(), call, 0, 9);
    }
}

#[test]
fn the_four_point_rule_for_every_order_of_yards_and_farms() {
    for (farm, yard) in [(0, 0), (0, 1), (1, 0), (1, 1)] {
        let mut farms = [[1, 1], [1, 1]];
        farms[farm][yard] = 3;
        check_read(&sheet(&[0, 0], &farms), 2, 2);
        farms[farm][yard] = 4;
        check_sheet_refused(&sheet(&[0, 0], &farms), 6);
    }
}

#[test]
fn the_highest_amounts() {
    check_read(&sheet(&[HIGHEST_FEE], &[[0]]), 1, 1);
    check_sheet_refused(&sheet(&[HIGHEST_FEE + 1], &[[0]]), 5);
    check_sheet_refused(&sheet(&[0, u32::MAX], &[[0, 0]]), 5);
    check_read(&sheet(&[0], &[[HIGHEST_HAUL]]), 1, 1);
    check_sheet_refused(&sheet(&[0], &[[HIGHEST_HAUL + 1]]), 5);
    // The four-point rule would refuse it too, but question 5 stands first.
    check_sheet_refused(&sheet(&[0, 0], &[[1, 1], [1, HIGHEST_HAUL + 1]]), 5);

    let dearest = even_sheet(32, 128, HIGHEST_FEE, HIGHEST_HAUL);
    let open: Vec<(usize, u32)> = (0..32).map(|yard| (yard, HIGHEST_FEE)).collect();
    let farms = [(0, HIGHEST_HAUL); 128];
    check_plan(&dearest, Call::Price { set: u32::MAX }, &plan(&open, &farms, 1_728_000_000, 0), 0);
    check_plan(&dearest, Call::OpenPlan, &plan(&open[..1], &farms, 178_000_000, 0), 0);
    check_plan(&dearest, Call::LimitedPlan { k: 32 }, &plan(&open, &farms, 128_000_000, 0), 0);
    check_refused(&dearest, Call::LimitedPlan { k: 33 }, AMPLE, 7);
    check_refused(&dearest, Call::OpenPlan, 1295, 9);
}

/// S with 2, 1 and 3 loads: {0, 2} hauls 2 × 1 + 1 × 5 + 3 × 1 at fees of 1 + 2. Farm 1 has 0 here, which is read as 1.
#[test]
fn pricing_with_loads_byte_for_byte() {
    #[rustfmt::skip]
    let bytes = [
        0x4F, 0, 0, 0, 1, 0, 0, 0,
        0x4F, 2, 0, 0, 2, 0, 0, 0,
        0x41, 0, 0, 2, 1, 0, 0, 0,
        0x41, 0, 1, 0, 5, 0, 0, 0,
        0x41, 2, 2, 3, 1, 0, 0, 0,
        0x54, 2, 3, 0, 13, 0, 0, 0,
        0x4D, 0, 0, 0, 0, 0, 0, 0,
    ];
    let s = with_loads(sheet_s(), &[2, 0, 3]);
    check_read(&s, 3, 3);
    check_plan(&s, Call::Price { set: 0b101 }, &bytes, 0);
}

/// 1 to 20 loads, with 0 read as 1: one farm at 7 cents and a fee of 5.
#[test]
fn every_byte_of_loads() {
    for byte in 0..=255 {
        let one_farm = with_loads(sheet(&[5], &[[7]]), &[byte]);
        if byte > MOST_LOADS {
            check_sheet_refused(&one_farm, 10);
            continue;
        }
        let loads = u32::from(byte.max(1));
        let records = |total| with_farm_byte(plan(&[(0, 5)], &[(0, 7)], total, 0), byte);
        check_plan(&one_farm, Call::OpenPlan, &records(5 + 7 * loads), 0);
        check_plan(&one_farm, Call::Price { set: 1 }, &records(5 + 7 * loads), 0);
        check_plan(&one_farm, Call::LimitedPlan { k: 1 }, &records(7 * loads), 0);
    }
}

/// One byte that differs within a farm, at the first, middle and last haul of each farm, beside others that are the same.
#[test]
fn loads_that_differ_within_a_farm() {
    for record in 3..12 {
        for (byte, others) in [(1, 0), (0, 1), (20, 19), (21, 20), (255, 0)] {
            let mut differing = with_loads(sheet_s(), &[others; 3]);
            differing[8 * record + 3] = byte;
            check_sheet_refused(&differing, 10);
        }
    }
}

/// The most that any plan costs: 32 × 50,000,000 and 128 × 20 × 1,000,000 cents.
#[test]
fn the_highest_amounts_with_the_most_loads() {
    let dearest = with_loads(even_sheet(32, 128, HIGHEST_FEE, HIGHEST_HAUL), &[MOST_LOADS; 128]);
    let open: Vec<(usize, u32)> = (0..32).map(|yard| (yard, HIGHEST_FEE)).collect();
    let records = |open, total| with_farm_byte(plan(open, &[(0, HIGHEST_HAUL); 128], total, 0), MOST_LOADS);
    check_plan(&dearest, Call::Price { set: u32::MAX }, &records(&open, 4_160_000_000), 0);
    check_plan(&dearest, Call::OpenPlan, &records(&open[..1], 2_610_000_000), 0);
    check_plan(&dearest, Call::LimitedPlan { k: 32 }, &records(&open, 2_560_000_000), 0);
}

/// The four-point rule is about one load: whatever the loads, 1, 1 and 1, 3 keep it and 1, 1 and 1, 4 break it.
#[test]
fn the_four_point_rule_with_loads() {
    for loads in [[0, 0], [1, 20], [20, 1], [20, 20], [2, 3]] {
        check_read(&with_loads(sheet(&[0, 0], &[[1, 1], [1, 3]]), &loads), 2, 2);
        check_sheet_refused(&with_loads(sheet(&[0, 0], &[[1, 1], [1, 4]]), &loads), 6);
    }
}

/// All yards cost 10, {1, 2} 11, {0, 2} 10, {0, 1} 12, and one alone 16, 13 and 17. Farm 1 is as far from yard 0 as from yard 2.
#[test]
fn second_yards_and_shut_yards_of_s() {
    let s = sheet_s();
    check_seconds(&s, 0b111, &[(1, 3), (0, 5), (1, 5)]);
    check_seconds(&s, 0b101, &[(2, 9), (2, 5), (0, 9)]);
    check_seconds(&s, 0b010, &[]);
    for (set, changes) in [(0b111, [1, 0, 2].map(Ok)), (0b110, [Err(14), Ok(6), Ok(2)]), (0b010, [Err(14); 3])] {
        changes.into_iter().enumerate().for_each(|(yard, answer)| check_shut(&s, set, yard, answer));
    }
    for yard in [3, 32, 33, 255, 256, 1 << 32, usize::MAX] {
        check_shut(&s, 0b111, yard, Err(14));
        check_shut(&s, 0b1111, yard, Err(8));
    }
    check_shut(&s, 0, 0, Err(8));
}

/// The offers 2, 5 and 3 have an excess of 1, 4 and 2 at the yards, their fees: 10 is what all yards cost, and no set costs less.
#[test]
fn floors_of_s() {
    let s = sheet_s();
    for (amounts, answer) in [([2, 5, 3], Ok(10)), ([2, 4, 3], Ok(9)), ([0, 0, 0], Ok(0))] {
        check_floor(&s, &offers(&amounts), answer);
    }
    for amounts in [[3, 5, 3], [2, 6, 3], [2, 5, 4], [u32::MAX; 3]] {
        check_floor(&s, &offers(&amounts), Err(16));
        for at in [0, 1, 2, 3, 8, 9, 10, 11, 16, 17, 18, 19] {
            let mut broken = offers(&amounts);
            broken[at] ^= 1;
            check_floor(&s, &broken, Err(15));
        }
    }
    let four = offers(&[2, 5, 3, 0]);
    for length in (0..=32).filter(|&length| length != 24) {
        check_floor(&s, &four[..length], Err(15));
    }
}

/// The yards of paper 1: both cost 6 + 3, either alone its fee and 3. With a farm of 20 loads at yard 0 its haul counts twenty times.
#[test]
fn shutting_saves_where_the_fee_is_more_than_the_way() {
    let equal = sheet(&[4, 2], &[[3, 3]]);
    check_seconds(&equal, 0b11, &[(0, 3)]);
    check_shut(&equal, 0b11, 0, Ok(-4));
    check_shut(&equal, 0b11, 1, Ok(-2));
    for (loads, change) in [(0, -4 + 1), (4, -4 + 4), (20, -4 + 20)] {
        check_shut(&with_loads(sheet(&[4, 2], &[[3, 4]]), &[loads]), 0b11, 0, Ok(change));
    }
}

#[test]
fn the_counts_of_records() {
    check_read(&even_sheet(32, 128, 1, 1), 32, 128);
    check_read(&even_sheet(1, 1, 0, 0), 1, 1);
    let thirty_three = even_sheet(33, 1, 1, 1);
    assert_eq!(thirty_three.len(), 528);
    check_sheet_refused(&thirty_three, 3);
    for bytes in [0, 8, 15, 17, 95] {
        check_sheet_refused(&sheet_s()[..bytes], 1);
    }
    check_sheet_refused(&even_sheet(32, 129, 1, 1), 1);
    let two_hauls = [record(HAUL, 0, 0, 1), record(HAUL, 0, 1, 1)].concat();
    check_sheet_refused(&two_hauls, 3);
    // Yards alone, a haul too few, 129 farms.
    check_sheet_refused(&even_sheet(2, 0, 1, 1), 4);
    check_sheet_refused(&sheet_s()[..88], 4);
    check_sheet_refused(&even_sheet(1, 129, 1, 1), 4);
    check_sheet_refused(&even_sheet(31, 129, 1, 1), 4);
}

/// Every other value of the first four bytes of every record of sheet S.
#[test]
fn one_wrong_byte() {
    for at in (0..96).filter(|at| at % 8 < 4) {
        for value in 0..=255 {
            let mut wrong = sheet_s();
            if wrong[at] != value {
                wrong[at] = value;
                check_sheet_refused(&wrong, number_for_wrong_byte(at / 8, at % 8, value));
            }
        }
    }
}

/// Of sheet S records 0 to 2 are the yards, 3 to 5 the hauls of farm 0.
fn number_for_wrong_byte(record: usize, byte: usize, value: u8) -> u8 {
    match (byte, record) {
        (0, _) if value != YARD && value != HAUL => 2,
        // A yard that has become a haul: yards follow it, or it is the last, and a haul to yard 2 stands at the first place.
        (0, 0 | 1) => 3,
        (0, 2) => 4,
        // A haul that has become a yard: it does not follow the yards in order, or its byte 2 is the farm.
        (0, 3..=5) => 3,
        (0, _) => 2,
        (1, 0..=2) => 3,
        (2 | 3, 0..=2) => 2,
        // The other hauls of the farm have 0.
        (3, _) => 10,
        _ => 4,
    }
}

/// Worked by hand: {2} 35; {0, 2} 31; {0, 2, 4} 29, as swapping 2 for 4 but earlier; {0, 1, 4} 28; {1, 4} 27, as swapping 0 for
/// 3 but earlier; no move gives less.
#[test]
fn a_search_with_every_kind_of_move() {
    let farms = [[7, 4, 4, 14, 11], [6, 5, 11, 21, 18], [14, 13, 7, 7, 4], [16, 15, 9, 13, 10]];
    let sheet = sheet(&[1, 3, 4, 0, 1], &farms);
    let settled = plan(&[(1, 3), (4, 1)], &[(1, 4), (1, 5), (4, 4), (4, 10)], 27, 4);
    check_plan(&sheet, Call::OpenPlan, &settled, 4);
}
