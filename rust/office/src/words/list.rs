//! A list in words: the yards to lease with the farms and loads that go to each, each farm's yard, the sums, and how far from best
//! the list may be.
use super::best;
use super::tables::{aligned, name, numbers, row, text_where, Row};
use super::Names;
use crate::list::{Choice, List};
use planner::table::Table;
use planner::{Plan, Sheet, Tariff};

pub fn words(list: &List, sheet: Sheet, names: &Names) -> String {
    let plan = &list.plan;
    let title = names.titled(&list.choice.title(), sheet, super::counts(sheet, plan));
    let (yards, farms) = (yards_to_lease(plan, names), yards_of_farms(plan, sheet, names));
    let (sums, best) = (sums(list), best::told(list));
    format!("{title}\n{yards}\n{farms}\n{sums}\n{best}moves made: {}\n", plan.moves)
}

/// Each yard with what goes to it. A limited list may have yards that no farm goes to: these stand out.
fn yards_to_lease(plan: &Plan, names: &Names) -> String {
    let several = several_loads(plan);
    let loads_head = text_where(several, "loads");
    let mut rows = vec![row([
        "yard to lease",
        "",
        "fee, cents",
        "farms",
        &loads_head,
        "hauls, cents",
        "fee and hauls, cents",
        "",
    ])];
    for open in &plan.yards {
        let hauls: u64 = plan.farms_of(open.yard).map(|farm| farm.cost()).sum();
        let farms = plan.farms_of(open.yard).count();
        rows.push(row([
            &open.yard.to_string(),
            name(&names.yards, open.yard),
            &open.fee.to_string(),
            &farms.to_string(),
            &text_where(several, plan.farms_of(open.yard).map(|farm| farm.loads).sum::<u64>()),
            &hauls.to_string(),
            &(hauls + u64::from(open.fee)).to_string(),
            &text_where(farms == 0, "no farm goes there"),
        ]));
    }
    let unused = unused(plan);
    let fees: u64 = unused.iter().map(|open| u64::from(open.fee)).sum();
    let without = format!(
        "without these yards hauls are the same and fees lower by {fees} cents: {}\n",
        numbers(unused_numbers(plan))
    );
    aligned(&rows, &[1, 7]) + &text_where(!unused.is_empty(), without)
}

fn unused(plan: &Plan) -> Vec<planner::OpenYard> {
    plan.yards.iter().filter(|open| plan.farms_of(open.yard).next().is_none()).copied().collect()
}

/// The yards of a list that no farm goes to.
pub fn unused_numbers(plan: &Plan) -> Vec<usize> {
    unused(plan).iter().map(|open| open.yard).collect()
}

fn yards_of_farms(plan: &Plan, sheet: Sheet, names: &Names) -> String {
    let several = several_loads(plan);
    let distances = distances(plan, sheet);
    let (one, all) = match several {
        true => ("haul of one load, cents", "haul of all loads, cents"),
        false => ("haul, cents", ""),
    };
    let loads_head = text_where(several, "loads");
    let distance_head = text_where(distances.is_some(), "distance, hundreds of metres");
    let mut rows = vec![row(["farm", "", &loads_head, "goes to yard", "", &distance_head, one, all])];
    for farm in &plan.farms {
        let distance = distances.as_ref().map(|distances| distances[farm.farm][farm.yard].to_string());
        rows.push(row([
            &farm.farm.to_string(),
            name(&names.farms, farm.farm),
            &text_where(several, farm.loads),
            &farm.yard.to_string(),
            name(&names.yards, farm.yard),
            &distance.unwrap_or_default(),
            &farm.haul.to_string(),
            &text_where(several, farm.cost()),
        ]));
    }
    aligned(&rows, &[1, 4])
}

/// For each farm its distance to each yard, where the sheet is one of distances.
fn distances(plan: &Plan, sheet: Sheet) -> Option<Vec<Vec<u32>>> {
    let distances = || Table::of_sheet(sheet.bytes, super::counts(sheet, plan).yards).hauls;
    (sheet.tariff != Tariff::None).then(distances)
}

pub fn several_loads(plan: &Plan) -> bool {
    plan.farms.iter().any(|farm| farm.loads > 1)
}

/// Fees, hauls and the total, and for a limited list fees and hauls together too, which its total does not have.
fn sums(list: &List) -> String {
    let (fees, hauls) = (list.plan.fees(), list.plan.hauls());
    let mut sums: Vec<Row> =
        vec![row(["sum", "cents"]), row(["fees", &fees.to_string()]), row(["hauls", &hauls.to_string()])];
    if let Choice::Limited(_) = list.choice {
        sums.push(row(["fees and hauls", &(fees + hauls).to_string()]));
    }
    sums.push(row([&format!("total, {}", list.choice.counts()), &list.plan.total.to_string()]));
    aligned(&sums, &[0])
}
