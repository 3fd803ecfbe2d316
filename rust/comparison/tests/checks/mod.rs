//! Sheets and plans written out for the tests of document 01's examples, with the bounds once more, and what every
//! implementation is asked of them.
use comparison::calls::{Calls, PlanCall as Call, ShutCalls, ALL, SHUT_LIBRARY, SHUT_LITERAL};
use planner::{Answer, Counts, Second, Tariff, Written};

/// The calls of paper 5 of document 02.
const SHUT: [ShutCalls; 2] = [SHUT_LIBRARY, SHUT_LITERAL];

/// What an area holds before a call.
const BEFORE: u8 = 0xA7;

/// Enough for the plan of any accepted sheet, and more.
pub const AMPLE: usize = 1400;

pub const YARD: u8 = 0x59;
pub const HAUL: u8 = 0x48;
pub const HIGHEST_FEE: u32 = 50_000_000;
pub const HIGHEST_HAUL: u32 = 1_000_000;
pub const MOST_LOADS: u8 = 20;

pub fn record(kind: u8, byte_1: usize, byte_2: usize, amount: u32) -> [u8; 8] {
    let [a, b, c, d] = amount.to_le_bytes();
    [kind, byte_1 as u8, byte_2 as u8, 0, a, b, c, d]
}

/// The sheet of these fees, and of these hauls of each farm.
pub fn sheet<F: AsRef<[u32]>>(fees: &[u32], farms: &[F]) -> Vec<u8> {
    let mut bytes = Vec::new();
    for (yard, &fee) in fees.iter().enumerate() {
        bytes.extend(record(YARD, yard, 0, fee));
    }
    for (farm, hauls) in farms.iter().enumerate() {
        for (yard, &haul) in hauls.as_ref().iter().enumerate() {
            bytes.extend(record(HAUL, yard, farm, haul));
        }
    }
    bytes
}

pub fn sheet_s() -> Vec<u8> {
    sheet(&[1, 4, 2], &[[1, 3, 9], [5, 1, 5], [9, 5, 1]])
}

/// The well-formed sheet with byte 3 of every haul of each farm so.
pub fn with_loads(mut sheet: Vec<u8>, loads: &[u8]) -> Vec<u8> {
    for record in sheet.chunks_mut(8).filter(|record| record[0] == HAUL) {
        record[3] = loads[usize::from(record[2])];
    }
    sheet
}

/// A sheet of equal fees and equal hauls, which the four-point rule allows.
pub fn even_sheet(yards: usize, farms: usize, fee: u32, haul: u32) -> Vec<u8> {
    sheet(&vec![fee; yards], &vec![vec![haul; yards]; farms])
}

/// The records of a plan: each open yard with its fee, the yard and haul of each farm, the total, the moves.
pub fn plan(open: &[(usize, u32)], farms: &[(usize, u32)], total: u32, moves: u32) -> Vec<u8> {
    let mut bytes = Vec::new();
    for &(yard, fee) in open {
        bytes.extend(record(0x4F, yard, 0, fee));
    }
    for (farm, &(yard, haul)) in farms.iter().enumerate() {
        bytes.extend(record(0x41, yard, farm, haul));
    }
    bytes.extend(record(0x54, open.len(), farms.len(), total));
    bytes.extend(record(0x4D, 0, 0, moves));
    bytes
}

/// The plan with this byte in the records of its farms.
pub fn with_farm_byte(mut plan: Vec<u8>, byte: u8) -> Vec<u8> {
    plan.chunks_mut(8).filter(|record| record[0] == 0x41).for_each(|record| record[3] = byte);
    plan
}

/// The answer to a call, and the lent area after it.
fn result(calls: &Calls, sheet: &[u8], call: Call, area_bytes: usize) -> (Answer<Written>, Vec<u8>) {
    let mut area = vec![BEFORE; area_bytes];
    let answer = call.put_to(calls, sheet, &mut area);
    (answer, area)
}

/// The call gives this plan and these moves, and the area past the plan is unchanged.
pub fn check_plan(sheet: &[u8], call: Call, plan: &[u8], moves: u32) {
    for calls in &ALL {
        for area_bytes in [least_area(sheet), AMPLE] {
            let (answer, area) = result(calls, sheet, call, area_bytes);
            assert_eq!(answer, Ok(Written { bytes: plan.len(), moves }), "{} {call:?}", calls.name);
            assert_eq!(&area[..plan.len()], plan, "{} {call:?}", calls.name);
            assert!(area[plan.len()..].iter().all(|&byte| byte == BEFORE), "{} {call:?}", calls.name);
        }
    }
}

/// 8 × (m + n + 2) bytes, from the records of a well-formed sheet.
fn least_area(sheet: &[u8]) -> usize {
    let yards = sheet.chunks(8).filter(|record| record[0] == YARD).count();
    let farms = sheet.len() / 8 / yards - 1;
    8 * (yards + farms + 2)
}

/// The call is refused with this number and the area holds what it held before.
pub fn check_refused(sheet: &[u8], call: Call, area_bytes: usize, number: u8) {
    for calls in &ALL {
        let (answer, area) = result(calls, sheet, call, area_bytes);
        assert_eq!(answer, Err(number), "{} {call:?}", calls.name);
        assert!(area.iter().all(|&byte| byte == BEFORE), "{} {call:?}", calls.name);
    }
}

/// Reading returns these counts.
pub fn check_read(sheet: &[u8], yards: usize, farms: usize) {
    for calls in &ALL {
        assert_eq!((calls.read)(sheet), Ok(Counts { yards, farms }), "{}", calls.name);
    }
}

/// Farms from 0 on have these second yards in the set, each with its haul, and any farm after them none.
pub fn check_seconds(sheet: &[u8], set: u32, seconds: &[(usize, u32)]) {
    for calls in &SHUT {
        let second = |farm| (calls.second_by)(sheet, Tariff::None, set, farm);
        for (farm, &(yard, haul)) in seconds.iter().enumerate() {
            assert_eq!(second(farm), Ok(Some(Second { yard, haul })), "{} farm {farm} in {set:b}", calls.name);
        }
        for farm in [seconds.len(), usize::MAX] {
            assert_eq!(second(farm), Ok(None), "{} farm {farm} in {set:b}", calls.name);
        }
    }
}

/// Shutting this yard of the set is answered so.
pub fn check_shut(sheet: &[u8], set: u32, yard: usize, answer: Answer<i64>) {
    for calls in &SHUT {
        assert_eq!((calls.shut_by)(sheet, Tariff::None, set, yard), answer, "{} {yard} of {set:b}", calls.name);
    }
}

/// One record of kind 56 hex for each farm.
pub fn offers(amounts: &[u32]) -> Vec<u8> {
    amounts.iter().enumerate().flat_map(|(farm, &amount)| record(0x56, 0, farm, amount)).collect()
}

/// These offers are answered so.
pub fn check_floor(sheet: &[u8], offers: &[u8], answer: Answer<u64>) {
    for calls in &ALL {
        assert_eq!((calls.floor_by)(sheet, Tariff::None, offers), answer, "{} {offers:?}", calls.name);
    }
}

/// Every call is refused with this number, even where a later question would be answered no too.
pub fn check_sheet_refused(sheet: &[u8], number: u8) {
    for calls in &ALL {
        assert_eq!((calls.read)(sheet), Err(number), "{}", calls.name);
    }
    for call in [
        Call::Price { set: 1 },
        Call::Price { set: 0 },
        Call::OpenPlan,
        Call::LimitedPlan { k: 1 },
        Call::LimitedPlan { k: 0 },
    ] {
        check_refused(sheet, call, AMPLE, number);
        check_refused(sheet, call, 0, number);
    }
    for set in [0, 1] {
        for calls in &SHUT {
            assert_eq!((calls.second_by)(sheet, Tariff::None, set, 0), Err(number), "{}", calls.name);
        }
        check_shut(sheet, set, 0, Err(number));
    }
    check_floor(sheet, &[], Err(number));
    check_floor(sheet, &offers(&[u32::MAX]), Err(number));
}
