//! Two lists compared, of one sheet or of two: the yards that come and go, the farms that move, and what changes in cents.
use super::tables::{aligned, row, Row};
use super::{counts, Names};
use crate::list::List;
use planner::{OpenYard, PlannedFarm, Sheet};
use std::collections::BTreeSet;

/// One of the two lists, with its sheet and its names.
pub struct Side<'a> {
    pub list: &'a List,
    pub sheet: Sheet<'a>,
    pub names: &'a Names,
}

impl Side<'_> {
    fn title(&self) -> String {
        let title = self.names.title(&self.list.choice.title(), self.sheet.tariff);
        format!("{title}, {}", self.names.counted(self.sheet, counts(self.sheet, &self.list.plan)))
    }

    fn yard(&self, yard: usize) -> String {
        key("yard", yard, &self.names.yards)
    }

    fn farm(&self, farm: usize) -> String {
        key("farm", farm, &self.names.farms)
    }

    fn open_yard(&self, key: &str) -> Option<&OpenYard> {
        self.list.plan.yards.iter().find(|open| self.yard(open.yard) == key)
    }

    fn planned_farm(&self, key: &str) -> Option<&PlannedFarm> {
        self.list.plan.farms.iter().find(|farm| self.farm(farm.farm) == key)
    }

    fn yards(&self) -> impl Iterator<Item = String> + '_ {
        self.list.plan.yards.iter().map(|open| self.yard(open.yard))
    }

    fn farms(&self) -> impl Iterator<Item = String> + '_ {
        self.list.plan.farms.iter().map(|farm| self.farm(farm.farm))
    }
}

/// What a yard or a farm is known by in both lists: its name, or its number where names are not known.
fn key(word: &str, number: usize, names: &[String]) -> String {
    names.get(number).cloned().unwrap_or(format!("{word} {number}"))
}

/// Whether yards and farms of the two are known by the same: both have names, or both have none and the same counts.
pub fn comparable(first: &Side, second: &Side) -> Result<(), String> {
    let named = [first, second].map(|side| !side.names.yards.is_empty());
    let counts = [first, second].map(|side| counts(side.sheet, &side.list.plan));
    match named {
        [true, true] => Ok(()),
        [false, false] if counts[0] == counts[1] => Ok(()),
        _ => Err("the sheets have other yards or farms, or names for one of them alone: give the tables of both, \
                  --names TABLE.csv and --other-names TABLE.csv\n"
            .into()),
    }
}

pub fn words(first: &Side, second: &Side) -> String {
    let titles = format!("Two lists compared\nfirst:  {}\nsecond: {}\n", first.title(), second.title());
    format!("{titles}\n{}\n{}\n{}", yards(first, second), farms(first, second), sums(first, second))
}

/// The yards of either list.
fn yards(first: &Side, second: &Side) -> String {
    let mut rows = vec![row(["yard to lease", "fee in the first, cents", "fee in the second, cents", ""])];
    for key in either(first.yards(), second.yards()) {
        let fees = [first, second].map(|side| side.open_yard(&key).map(|open| open.fee.to_string()));
        let alone = alone(&fees);
        let [first_fee, second_fee] = fees.map(Option::unwrap_or_default);
        rows.push(row([&key, &first_fee, &second_fee, alone]));
    }
    aligned(&rows, &[0, 3])
}

/// Which list has something that the other has not.
fn alone<T>(sides: &[Option<T>; 2]) -> &'static str {
    match sides {
        [Some(_), None] => "in the first alone",
        [None, Some(_)] => "in the second alone",
        _ => "",
    }
}

/// The farms that go to another yard, that are in one list alone, or whose hauls change.
fn farms(first: &Side, second: &Side) -> String {
    let heads = ["farm", "in the first to yard", "hauls, cents", "in the second to yard", "hauls, cents", ""];
    let mut rows = vec![row(heads)];
    let mut moved = 0;
    for key in either(first.farms(), second.farms()) {
        let sides = [first, second].map(|side| {
            let farm = side.planned_farm(&key)?;
            Some((side.yard(farm.yard), farm.cost()))
        });
        if sides[0] == sides[1] {
            continue;
        }
        let alone = alone(&sides);
        let [(to, cost), (then_to, then_cost)] =
            sides.map(|side| side.map_or_else(Default::default, |(yard, cost)| (yard, cost.to_string())));
        moved += usize::from(alone.is_empty() && to != then_to);
        rows.push(row([&key, &to, &cost, &then_to, &then_cost, alone]));
    }
    match rows.len() {
        1 => "no farm goes to another yard, and no haul changes\n".into(),
        _ => format!("farms that go to another yard: {moved}\n\n{}", aligned(&rows, &[0, 1, 3, 5])),
    }
}

/// All of the first in their order, then those of the second that are not among them.
fn either(first: impl Iterator<Item = String>, second: impl Iterator<Item = String>) -> Vec<String> {
    let mut seen = BTreeSet::new();
    first.chain(second).filter(|key| seen.insert(key.clone())).collect()
}

fn sums(first: &Side, second: &Side) -> String {
    let plans = [first, second].map(|side| &side.list.plan);
    let (fees, hauls) = (plans.map(|plan| plan.fees()), plans.map(|plan| plan.hauls()));
    let together = [fees[0] + hauls[0], fees[1] + hauls[1]];
    let sum = |name: &str, [first, second]: [u64; 2]| -> Row {
        let change = second as i64 - first as i64;
        row([name, &first.to_string(), &second.to_string(), &format!("{change:+}")])
    };
    let rows = [
        row(["sum, cents", "first", "second", "change"]),
        sum("fees", fees),
        sum("hauls", hauls),
        sum("fees and hauls", together),
    ];
    aligned(&rows, &[0])
}
