//! The open list and the limited lists for a range of k, side by side.
use super::best::{percent, RESTS_ON};
use super::list::unused_numbers;
use super::tables::{aligned, numbers, row, Row};
use super::Names;
use crate::csv::csv_line;
use crate::list::{Choice, List};
use planner::Sheet;

const HEADS: [&str; 8] =
    ["list", "fees", "hauls", "fees and hauls", "no list is below", "above it by at most", "yards", "no farm goes to"];

pub fn words(lists: &[List], sheet: Sheet, names: &Names) -> String {
    let title = names.titled("Lists, in cents", sheet, super::counts(sheet, &lists[0].plan));
    let rows: Vec<Row> = std::iter::once(with_percent(HEADS.map(String::from), String::new()))
        .chain(lists.iter().map(in_words))
        .collect();
    let floors =
        "No list is below: of the open list in fees and hauls, of a limited one in hauls, for as many yards or fewer.";
    format!("{title}\n{}\n{floors}\nThis {RESTS_ON}.\n", aligned(&rows, &[0, 7, 8]))
}

/// A line for each list, in numbers alone: one that is shown to be the cheapest is above its floor by 0.
pub fn csv(lists: &[List], _: Sheet, _: &Names) -> String {
    let line = |list: &List| csv_line(cells(list).iter().map(String::as_str));
    csv_line(HEADS) + &lists.iter().map(line).collect::<String>()
}

fn in_words(list: &List) -> Row {
    let mut cells = cells(list);
    let (above, floor) = (above(list), list.floor.cents);
    if above == 0 {
        cells[5] = "the cheapest".into();
    }
    let percent = match (above, floor) {
        (0, _) | (_, 0) => String::new(),
        _ => format!("{} %", percent(above, floor)),
    };
    with_percent(cells, percent)
}

/// A row with a cell more, before those of the yards.
fn with_percent([list, fees, hauls, together, floor, above, yards, unused]: [String; 8], percent: String) -> Row {
    row([&list, &fees, &hauls, &together, &floor, &above, &percent, &yards, &unused])
}

fn above(list: &List) -> u64 {
    u64::from(list.plan.total).saturating_sub(list.floor.cents)
}

/// What stands under the heads.
fn cells(list: &List) -> [String; 8] {
    let plan = &list.plan;
    [
        match list.choice {
            Choice::Limited(k) => format!("k = {k}"),
            Choice::Open | Choice::Set(_) => "open".into(),
        },
        plan.fees().to_string(),
        plan.hauls().to_string(),
        (plan.fees() + plan.hauls()).to_string(),
        list.floor.cents.to_string(),
        above(list).to_string(),
        numbers(plan.yards.iter().map(|open| open.yard)),
        numbers(unused_numbers(plan)),
    ]
}
