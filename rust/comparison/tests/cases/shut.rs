//! Cases of paper 5 of document 02: second yards, what shutting a yard changes, and question 14.
//!
//! What the sets of S cost is in `loads`, what those of D by the house tariff cost in `tariffs`: a change is the cost of the set
//! without the yard less that of the set. On the sheet `equal_hauls` all three yards cost 8 + 9, {1, 2} 4 + 15, {0, 2} 6 + 15 and {0, 1}
//! 6 + 15.
use crate::sheets::{equal_hauls, even, paper_1, paper_1_table, s, s_with_loads, unread_sheets};
use crate::tariffs::{d, t};
use comparison::calls::ShutCalls;
use planner::format::{HIGHEST_FEE, HIGHEST_HAUL, MOST_FARMS, MOST_LOADS, MOST_YARDS};
use planner::table::Table;
use planner::Tariff::{self, Given, House};

const ALL: u32 = 0b111;

pub fn all(calls: &ShutCalls) -> Vec<String> {
    [
        seconds(calls),
        changes(calls),
        question_14(calls),
        question_8(calls),
        largest(calls),
        by_tariffs(calls),
        unread(calls),
    ]
    .concat()
}

/// The yards of a set by their numbers, or that they are all 32.
fn set_shown(set: u32) -> String {
    let yards: Vec<String> = (0..u32::BITS).filter(|yard| set >> yard & 1 == 1).map(|yard| yard.to_string()).collect();
    if yards.len() == MOST_YARDS {
        return "all".into();
    }
    format!("{{{}}}", yards.join(", "))
}

fn second(calls: &ShutCalls, name: &str, sheet: &[u8], tariff: Tariff, set: u32, farm: usize) -> String {
    let answer = match (calls.second_by)(sheet, tariff, set, farm) {
        Ok(Some(second)) => format!("yard {}, haul {}", second.yard, second.haul),
        Ok(None) => "none".into(),
        Err(number) => format!("refused {number}"),
    };
    format!("second of farm {farm}, {}, {name}: {answer}", set_shown(set))
}

fn shut(calls: &ShutCalls, name: &str, sheet: &[u8], tariff: Tariff, set: u32, yard: usize) -> String {
    let answer = match (calls.shut_by)(sheet, tariff, set, yard) {
        Ok(change) => format!("change {change}"),
        Err(number) => format!("refused {number}"),
    };
    format!("shut {yard} of {}, {name}: {answer}", set_shown(set))
}

/// Of a sheet of hauls, the farms' second yards in this set.
fn farms(calls: &ShutCalls, name: &str, sheet: &[u8], set: u32, farms: &[usize]) -> Vec<String> {
    farms.iter().map(|&farm| second(calls, name, sheet, Tariff::None, set, farm)).collect()
}

/// Of a sheet of hauls, what shutting each of these yards of this set changes.
fn yards(calls: &ShutCalls, name: &str, sheet: &[u8], set: u32, yards: &[usize]) -> Vec<String> {
    yards.iter().map(|&yard| shut(calls, name, sheet, Tariff::None, set, yard)).collect()
}

/// Ties as in a plan, the haul of one load, and none where one yard is open or for a farm 3 and above.
fn seconds(calls: &ShutCalls) -> Vec<String> {
    [
        farms(calls, "S", &s(), ALL, &[0, 1, 2, 3, usize::MAX]),
        farms(calls, "S", &s(), 0b101, &[0, 1, 2]),
        farms(calls, "S", &s(), 0b010, &[0, 1, 2, 3]),
        farms(calls, "S, loads 20, 1, 1", &s_with_loads([20, 1, 1]), ALL, &[0]),
        farms(calls, "paper 1", &paper_1(), 0b11, &[0]),
        farms(calls, "equal hauls", &equal_hauls(), ALL, &[0, 1, 2, 3, 4]),
    ]
    .concat()
}

fn changes(calls: &ShutCalls) -> Vec<String> {
    let with_7 = Table { loads: vec![7], ..paper_1_table() }.sheet();
    [
        yards(calls, "S", &s(), ALL, &[0, 1, 2]),
        yards(calls, "S", &s(), 0b101, &[0, 2]),
        yards(calls, "S, loads 2, 1, 3", &s_with_loads([2, 1, 3]), ALL, &[0, 1, 2]),
        yards(calls, "S, loads 20, 1, 1", &s_with_loads([20, 1, 1]), 0b011, &[0, 1]),
        yards(calls, "paper 1", &paper_1(), 0b11, &[0, 1]),
        yards(calls, "paper 1, 7 loads", &with_7, 0b11, &[0, 1]),
        yards(calls, "equal hauls", &equal_hauls(), ALL, &[0, 1, 2]),
    ]
    .concat()
}

/// A yard of the sheet that is not in the set, numbers that are no yard of it, though the low part of some is, and the only yard.
fn question_14(calls: &ShutCalls) -> Vec<String> {
    let no_yards = [3, 31, 32, 33, 34, 64, 66, 255, 256, 258, 1 << 32, (1 << 32) + 2, usize::MAX];
    [
        yards(calls, "S", &s(), 0b101, &[1]),
        yards(calls, "S", &s(), 0b101, &no_yards),
        yards(calls, "S", &s(), 0b010, &[1, 0, 33]),
        yards(calls, "1 yard, 1 farm", &even(1, 1, 0, 0), 0b1, &[0]),
    ]
    .concat()
}

/// It comes before 14, and whatever the farm is.
fn question_8(calls: &ShutCalls) -> Vec<String> {
    [
        yards(calls, "S", &s(), 0, &[0, 3]),
        yards(calls, "S", &s(), 0b1000, &[3, 0]),
        yards(calls, "S", &s(), 0b1001, &[0, 1]),
        farms(calls, "S", &s(), 0, &[0, 3]),
        farms(calls, "S", &s(), 1 << 31 | 0b11, &[0, usize::MAX]),
    ]
    .concat()
}

/// The most yards and farms at the highest amounts, where the others take each yard's farms at the same haul; and two yards of
/// which one is at every farm, which has the most loads: shutting it costs 128 times 20 times 1,000,000.
fn largest(calls: &ShutCalls) -> Vec<String> {
    let (name, dearest) = ("32 yards, 128 farms", even(MOST_YARDS, MOST_FARMS, HIGHEST_FEE, HIGHEST_HAUL));
    let far = Table::new(vec![0, HIGHEST_FEE], vec![vec![0, HIGHEST_HAUL]; MOST_FARMS]);
    let far = Table { loads: vec![MOST_LOADS; MOST_FARMS], ..far }.sheet();
    [
        farms(calls, name, &dearest, u32::MAX, &[127, 128]),
        yards(calls, name, &dearest, u32::MAX, &[0, 31, 32]),
        yards(calls, "the most loads at yard 0", &far, 0b11, &[0, 1]),
    ]
    .concat()
}

/// D by the house tariff, by T, by which all its hauls are 300, and as hauls.
fn by_tariffs(calls: &ShutCalls) -> Vec<String> {
    let (sheet, t) = (d().sheet(), t());
    let with_loads = Table { loads: vec![2, 0, 1], ..d() }.sheet();
    let mut lines = Vec::new();
    for (name, tariff) in [("D by the house tariff", House), ("D by T", Given(&t)), ("D by no tariff", Tariff::None)] {
        lines.extend([0, 1, 2].map(|farm| second(calls, name, &sheet, tariff, ALL, farm)));
        lines.extend([0, 1, 2, 3].map(|yard| shut(calls, name, &sheet, tariff, ALL, yard)));
    }
    lines.push(shut(calls, "D with loads 2, 0, 1 by the house tariff", &with_loads, House, ALL, 0));
    lines.push(shut(calls, "D by the house tariff", &sheet, House, 0b1001, 1));
    lines
}

/// What reading asks comes before 8 and 14.
fn unread(calls: &ShutCalls) -> Vec<String> {
    unread_sheets(|name, sheet, tariff| {
        vec![second(calls, name, sheet, tariff, 0, 0), shut(calls, name, sheet, tariff, 0, usize::MAX)]
    })
}
