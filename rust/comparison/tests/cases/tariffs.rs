//! Cases of paper 3 of document 02: hauls from a tariff, and questions 11, 12 and 13.
//!
//! By the house tariff the distances 0, 100, 250, 500, 1000, 2000 and 4000 cost 0, 4000, 9100, 16100, 27100, 45100 and 75100.
//! Sheet D has fees 1000, 4000 and 2000 and, as distances, the hauls of S times 100. By the house tariff 300 costs 9100 and 50 times
//! 28, that is 10500, and 900 costs 16100 and 400 times 22, that is 24900; so the hauls of its farms are 4000, 10500, 24900; 16100,
//! 4000, 16100; 24900, 16100, 4000. What its sets cost, hauls and fees:
//!
//! | {0}          | {1}          | {2}          | {0, 1}       | {0, 2}       | {1, 2}       | {0, 1, 2}    |
//! |--------------|--------------|--------------|--------------|--------------|--------------|--------------|
//! | 45000 + 1000 | 30600 + 4000 | 45000 + 2000 | 24100 + 5000 | 24100 + 3000 | 18500 + 6000 | 12000 + 7000 |
//!
//! So the open search goes from {1} with 34600 to {1, 2} with 24500 and to all with 19000; the limited one for k = 1 from {0} to {1},
//! for k = 2 from {0, 1} to {1, 2}.
//! The tariff T charges 3 cents up to 100, nothing up to 1000: hauls 300 for every distance of D, and fees decide.
use crate::planning::{answer_line, PATTERN};
use crate::reading::counts_line;
use crate::sheets::{of_length, s, S_LENGTH};
use comparison::calls::{Calls, PlanCall};
use planner::format::{band, HIGHEST_FEE, RECORD};
use planner::table::Table;
use planner::Tariff::{self, Given, House};

const ROOM: usize = 80;

pub fn all(calls: &Calls) -> Vec<String> {
    [
        house(calls),
        read_tariffs(calls),
        order(calls),
        amounts(calls),
        rule(calls),
        plans(calls),
        refused_plans(calls),
        no_tariff(calls),
    ]
    .concat()
}

/// A tariff of bands from 0 on, each an end and a rate.
pub fn tariff_of(bands: &[(u16, u16)]) -> Vec<u8> {
    let starts = [0].into_iter().chain(bands.iter().map(|&(end, _)| end));
    let list = starts.zip(bands).enumerate();
    list.flat_map(|(number, (start, &(end, rate)))| band(number, start, end, rate)).collect()
}

/// One yard without a fee, and one farm at this distance.
fn one(distance: u32) -> Vec<u8> {
    Table::even(1, 1, 0, distance).sheet()
}

pub fn d() -> Table {
    Table::new(vec![1000, 4000, 2000], vec![vec![100, 300, 900], vec![500, 100, 500], vec![900, 500, 100]])
}

pub fn t() -> Vec<u8> {
    tariff_of(&[(100, 3), (1000, 0)])
}

fn read_case(calls: &Calls, name: &str, sheet: &[u8], tariff: Tariff) -> String {
    counts_line(name, (calls.read_by)(sheet, tariff))
}

fn plan_case(calls: &Calls, name: &str, sheet: &[u8], tariff: Tariff, call: PlanCall) -> String {
    let mut area = vec![PATTERN; ROOM];
    let answer = call.put_by(calls, sheet, tariff, &mut area);
    answer_line(name, answer, &area)
}

/// The haul of one distance, in the farm's record and in the total.
fn house(calls: &Calls) -> Vec<String> {
    let case = |distance: u32| {
        plan_case(calls, &format!("{distance} by the house tariff"), &one(distance), House, PlanCall::OpenPlan)
    };
    [0, 1, 100, 101, 120, 250, 500, 1000, 2000, 3999, 4000, 4001, u32::MAX].map(case).to_vec()
}

/// T, which is accepted, and each thing in it that may be wrong.
fn read_tariffs(calls: &Calls) -> Vec<String> {
    let good = t();
    let case = |name: &str, tariff: &[u8]| read_case(calls, name, &one(1), Given(tariff));
    let with = |name: &str, at: usize, byte: u8| {
        let mut tariff = good.clone();
        tariff[at] = byte;
        case(name, &tariff)
    };
    let even = |count: u16| tariff_of(&(1..=count).map(|end| (end, 7)).collect::<Vec<_>>());
    vec![
        case("tariff of two bands", &good),
        case("tariff of no record", &[]),
        case("tariff of 15 bytes", &good[..15]),
        case("tariff of 17 bytes", &of_length(good.clone(), 2 * RECORD + 1)),
        case("tariff of 16 bands, equal rates", &even(16)),
        case("tariff of 17 bands", &even(17)),
        with("kind 41 in a tariff", 8, 0x41),
        with("band 1 numbered 2", 9, 2),
        with("band 0 numbered 1", 1, 1),
        with("band 0 starts at 1", 2, 1),
        with("a gap", 10, 101),
        with("an overlap", 10, 99),
        case("an empty last band", &[band(0, 0, 100, 3), band(1, 100, 100, 0)].concat()),
        case("an empty first band", &[band(0, 0, 0, 3), band(1, 0, 100, 0)].concat()),
        case("an end below the start", &[band(0, 0, 100, 3), band(1, 100, 99, 0)].concat()),
        with("an equal rate", 14, 3),
        with("a rate one above", 14, 4),
        with("a rate 256 above", 15, 1),
        with("rates of 0", 6, 0),
        case("a rate above, and then a gap", &[band(0, 0, 5, 3), band(1, 5, 6, 4), band(2, 7, 9, 0)].concat()),
        case("the highest end and rate", &tariff_of(&[(1, 65_535), (65_535, 0)])),
    ]
}

/// 11 and 12 come ahead of question 1, 13 after 10 and before 5.
fn order(calls: &Calls) -> Vec<String> {
    let (broken, rising) = (tariff_of(&[(0, 3)]), tariff_of(&[(100, 3), (200, 4)]));
    let far = |fee: u32, loads: u8| {
        let table = Table::new(vec![fee, 0], vec![vec![1001, 1001], vec![0, 0], vec![0, 900]]);
        Table { loads: vec![loads, 1, 1], ..table }.sheet()
    };
    vec![
        read_case(calls, "broken tariff, empty sheet", &[], Given(&broken)),
        read_case(calls, "rising tariff, empty sheet", &[], Given(&rising)),
        read_case(calls, "tariff T, empty sheet", &[], Given(&t())),
        read_case(calls, "house tariff, S cut short", &of_length(s(), S_LENGTH - 1), House),
        read_case(calls, "too far, and 21 loads", &far(0, 21), Given(&t())),
        read_case(calls, "too far, and fee and rule", &far(HIGHEST_FEE + 1, 1), Given(&t())),
        read_case(calls, "too far, and rule", &far(0, 1), Given(&t())),
        read_case(calls, "a distance at the last end", &one(1000), Given(&t())),
        read_case(calls, "a distance one past the last end", &one(1001), Given(&t())),
        read_case(calls, "a distance of 65536, last end 65535", &one(65_536), Given(&tariff_of(&[(65_535, 1)]))),
    ]
}

/// Question 5 is about fees as they are given, and about the priced hauls.
fn amounts(calls: &Calls) -> Vec<String> {
    let rate = |rate| tariff_of(&[(65_535, rate)]);
    let fee = |fee| Table::even(1, 1, fee, 1).sheet();
    vec![
        read_case(calls, "10000 at 100 cents", &one(10_000), Given(&rate(100))),
        read_case(calls, "10001 at 100 cents", &one(10_001), Given(&rate(100))),
        read_case(calls, "1 at 65535 cents", &one(1), Given(&rate(65_535))),
        read_case(calls, "65535 at 65535 cents", &one(65_535), Given(&rate(65_535))),
        read_case(calls, "fee 50000000 by the house tariff", &fee(HIGHEST_FEE), House),
        read_case(calls, "fee 50000001 by the house tariff", &fee(HIGHEST_FEE + 1), House),
    ]
}

/// Question 6 is about the priced hauls: 1, 1 and 1, 4 break the rule, and so do 3, 3 and 3, 12; 9, 9 and 9, 9 do not.
fn rule(calls: &Calls) -> Vec<String> {
    let sheet = Table::new(vec![0, 0], vec![vec![1, 1], vec![1, 4]]).sheet();
    vec![
        read_case(calls, "1, 1 and 1, 4 at 3 cents", &sheet, Given(&tariff_of(&[(9, 3)]))),
        read_case(calls, "1, 1 and 1, 4 at 9 cents, then 0", &sheet, Given(&tariff_of(&[(1, 9), (9, 0)]))),
        read_case(calls, "1, 1 and 1, 4 at 9 cents, then 6", &sheet, Given(&tariff_of(&[(1, 9), (9, 6)]))),
        read_case(calls, "1, 1 and 1, 4 at 9 cents, then 7", &sheet, Given(&tariff_of(&[(1, 9), (9, 7)]))),
    ]
}

fn plans(calls: &Calls) -> Vec<String> {
    let sheet = d().sheet();
    let case = |name, tariff, call| plan_case(calls, name, &sheet, tariff, call);
    let with_loads = Table { loads: vec![2, 0, 1], ..d() }.sheet();
    vec![
        case("D by the house tariff, open plan", House, PlanCall::OpenPlan),
        case("D by the house tariff, k = 1", House, PlanCall::LimitedPlan { k: 1 }),
        case("D by the house tariff, k = 2", House, PlanCall::LimitedPlan { k: 2 }),
        case("D by the house tariff, pricing {0, 2}", House, PlanCall::Price { set: 0b101 }),
        case("D by T, pricing {0, 1, 2}", Given(&t()), PlanCall::Price { set: 0b111 }),
        case("D by T, open plan", Given(&t()), PlanCall::OpenPlan),
        case("D by T, k = 2", Given(&t()), PlanCall::LimitedPlan { k: 2 }),
        plan_case(
            calls,
            "D with loads 2, 0, 1 by the house tariff, pricing {1}",
            &with_loads,
            House,
            PlanCall::Price { set: 2 },
        ),
    ]
}

/// Plans are refused by the same numbers, ahead of 7, 8 and 9.
fn refused_plans(calls: &Calls) -> Vec<String> {
    let sheet = d().sheet();
    let (rising, short) = (tariff_of(&[(100, 3), (1000, 4)]), tariff_of(&[(100, 3), (899, 0)]));
    let tariffs = [("half a record", &t()[..4]), ("rising rates", &rising[..]), ("too short", &short[..])];
    let lines = |(name, tariff): (&str, &[u8])| {
        let case = |text, call| plan_case(calls, &format!("{name}, {text}"), &sheet, Given(tariff), call);
        vec![
            case("open plan", PlanCall::OpenPlan),
            case("k = 0", PlanCall::LimitedPlan { k: 0 }),
            case("no yard", PlanCall::Price { set: 0 }),
        ]
    };
    let mut lines: Vec<String> = tariffs.into_iter().flat_map(lines).collect();
    lines.push(plan_case(calls, "D by the house tariff, k = 4", &sheet, House, PlanCall::LimitedPlan { k: 4 }));
    lines.push(plan_case(calls, "D by the house tariff, yard 3", &sheet, House, PlanCall::Price { set: 8 }));
    lines
}

/// By no tariff the amounts are hauls as written.
fn no_tariff(calls: &Calls) -> Vec<String> {
    vec![
        plan_case(calls, "S by no tariff, open plan", &s(), Tariff::None, PlanCall::OpenPlan),
        plan_case(calls, "S by no tariff, k = 1", &s(), Tariff::None, PlanCall::LimitedPlan { k: 1 }),
        plan_case(calls, "S by no tariff, pricing {1}", &s(), Tariff::None, PlanCall::Price { set: 2 }),
        read_case(calls, "a haul of 4001 by no tariff", &one(4001), Tariff::None),
    ]
}
