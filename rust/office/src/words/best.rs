//! How far from best a list may be. What no list can be below is told by the proved call of paper 10 alone: it accepted offers that
//! come to it, however these were found.
use crate::list::{Choice, List};

/// The floor, the difference to it, and what the sentence rests on.
pub fn told(list: &List) -> String {
    let cents = |cents| if cents == 1 { "1 cent".into() } else { format!("{cents} cents") };
    format!("{}: {}\n{}\n", below(list, cents), above(list, cents), rests_on(list))
}

/// What no list is below, with its amount in the form that is given.
pub fn below(list: &List, amount: fn(u64) -> String) -> String {
    let floor = amount(list.floor.cents);
    match list.choice {
        Choice::Limited(1) => format!("no single yard has hauls below {floor}"),
        Choice::Limited(k) => format!("no list of at most {k} yards has hauls below {floor}"),
        Choice::Open | Choice::Set(_) => format!("no list is below {floor}"),
    }
}

/// How far the list is above its floor, with its amount in the form that is given. Of a limited list that is said of its hauls alone.
pub fn above(list: &List, amount: fn(u64) -> String) -> String {
    let (total, floor) = (u64::from(list.plan.total), list.floor.cents);
    let in_hauls = if let Choice::Limited(_) = list.choice { " in hauls" } else { "" };
    let above = match (total.saturating_sub(floor), floor) {
        (0, _) => return format!("this one is the cheapest there is{in_hauls}"),
        (above, 0) => amount(above),
        (above, _) => format!("{}, {} %,", amount(above), percent(above, floor)),
    };
    format!("this one is at most {above} above the cheapest{in_hauls}")
}

/// So many of a hundred, rounded up to two decimals: what is told as a bound is never too low.
pub fn percent(part: u64, whole: u64) -> String {
    let hundredths = (part * 10_000).div_ceil(whole);
    format!("{}.{:02}", hundredths / 100, hundredths % 100)
}

pub const RESTS_ON: &str = "rests on offers that the proved call planner_floor accepted, and on nothing else";

pub fn rests_on(list: &List) -> String {
    match (list.choice, list.floor.equal_fee) {
        (Choice::Limited(k), Some(fee)) => {
            let copy = format!("on a copy of the sheet with every fee {fee}; {k} times that is taken off their sum");
            format!("(this {RESTS_ON}: {copy})")
        }
        _ => format!("(this {RESTS_ON})"),
    }
}
