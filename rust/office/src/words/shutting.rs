//! What shutting one yard of a list would change, yard by yard (paper 5 of document 02).
use super::list::several_loads;
use super::refusal::Given;
use super::tables::{aligned, name, numbers, row, text_where};
use super::{counts, outcome, Names, Said};
use planner::{Plan, Refusal, Sheet};
use std::collections::BTreeSet;

/// One line for each yard of a set, or of the open plan where none is given; or why a call is refused.
pub fn said(set: Option<u32>, sheet: Sheet, names: &Names) -> Said {
    let (list, plan) = match set {
        Some(set) => ("a set", sheet.price(set)),
        None => ("the open plan", sheet.open_plan()),
    };
    let set = plan.as_ref().map_or(set, |plan| Some(plan.set()));
    // Where the set has one yard, that is the one that cannot be shut.
    let given = Given { set, shut: set.map(|set| set.trailing_zeros() as usize), ..Given::default() };
    let text = plan.and_then(|plan| {
        let (yards, total) = (yards(&plan, sheet, names)?, plan.total);
        let title = names.titled(&format!("Shutting one yard of {list}"), sheet, counts(sheet, &plan));
        Ok(format!("{title}\n{yards}\ntotal with all of them open, fees and hauls: {total}\n"))
    });
    outcome(text, sheet, &given, names)
}

/// Each open yard of a plan with its fee, the farms that go to it, what shutting it changes, and the yards that its farms then go to.
fn yards(plan: &Plan, sheet: Sheet, names: &Names) -> Result<String, Refusal> {
    let (set, several) = (plan.set(), several_loads(plan));
    let loads_head = text_where(several, "loads");
    let then_head = "its farms then go to yard";
    let mut rows = vec![row(["yard", "", "fee, cents", "farms", &loads_head, "shutting it, cents", then_head])];
    for open in &plan.yards {
        let change = sheet.shut(set, open.yard)?;
        let mut seconds = BTreeSet::new();
        for farm in plan.farms_of(open.yard) {
            seconds.extend(sheet.second(set, farm.farm)?.map(|second| second.yard));
        }
        rows.push(row([
            &open.yard.to_string(),
            name(&names.yards, open.yard),
            &open.fee.to_string(),
            &plan.farms_of(open.yard).count().to_string(),
            &text_where(several, plan.farms_of(open.yard).map(|farm| farm.loads).sum::<u64>()),
            &in_words(change),
            &numbers(seconds),
        ]));
    }
    Ok(aligned(&rows, &[1, 5, 6]))
}

pub fn in_words(change: i64) -> String {
    match change {
        0 => "changes nothing".into(),
        1.. => format!("costs {change} more"),
        _ => format!("saves {}", -change),
    }
}
