//! Cards, one a grower, and the farms of each yard, for its keeper. Both as text and as CSV for a mail merge.
use super::list::several_loads;
use super::tables::{aligned, name, row, text_where};
use super::{counts, Names};
use crate::csv::csv_line;
use crate::list::List;
use planner::{Plan, PlannedFarm, Sheet};

const CARD_END: &str = "- - - - - - - - - - - - - - - - - - - -";

/// One block a grower, parted by lines to cut along.
pub fn cards(list: &List, _: Sheet, names: &Names) -> String {
    let several = several_loads(&list.plan);
    let card = |farm: &PlannedFarm| {
        let (grower, yard) = (called("farm", farm.farm, &names.farms), called("yard", farm.yard, &names.yards));
        let loads = text_where(several, format!("your loads: {}\n", farm.loads));
        format!("{grower}\nyour yard: {yard}\n{loads}{CARD_END}\n")
    };
    list.plan.farms.iter().map(card).collect()
}

/// The name first, as a grower knows it.
fn called(word: &str, number: usize, names: &[String]) -> String {
    names.get(number).map_or(format!("{word} {number}"), |name| format!("{name} ({word} {number})"))
}

/// One line a grower, below a line of heads.
pub fn csv(list: &List, _: Sheet, names: &Names) -> String {
    merged(list.plan.farms.iter(), names)
}

fn merged<'a>(farms: impl Iterator<Item = &'a PlannedFarm>, names: &Names) -> String {
    let heads =
        ["farm", "farm name", "yard", "yard name", "loads", "haul of one load in cents", "haul of all loads in cents"];
    let line = |farm: &PlannedFarm| {
        csv_line([
            &farm.farm.to_string(),
            name(&names.farms, farm.farm),
            &farm.yard.to_string(),
            name(&names.yards, farm.yard),
            &farm.loads.to_string(),
            &farm.haul.to_string(),
            &farm.cost().to_string(),
        ])
    };
    csv_line(heads) + &farms.map(line).collect::<String>()
}

/// The farms of each yard, with their loads, and what they come to.
pub fn by_yard(list: &List, sheet: Sheet, names: &Names) -> String {
    let title = names.titled(&format!("{}, farms by yard", list.choice.title()), sheet, counts(sheet, &list.plan));
    let yards = list.plan.yards.iter().map(|open| of_yard(&list.plan, open.yard, names));
    format!("{title}\n{}", yards.collect::<Vec<_>>().join("\n"))
}

fn of_yard(plan: &Plan, yard: usize, names: &Names) -> String {
    let (farms, loads): (usize, u64) =
        plan.farms_of(yard).fold((0, 0), |(farms, loads), farm| (farms + 1, loads + farm.loads));
    let head = format!("{}: farms {farms}, loads {loads}\n", names.yard(yard));
    if farms == 0 {
        return head;
    }
    let line =
        |farm: &PlannedFarm| row([&farm.farm.to_string(), name(&names.farms, farm.farm), &farm.loads.to_string()]);
    let rows: Vec<_> = std::iter::once(row(["farm", "", "loads"])).chain(plan.farms_of(yard).map(line)).collect();
    head + &aligned(&rows, &[1])
}

/// One line a grower, yard after yard.
pub fn by_yard_csv(list: &List, _: Sheet, names: &Names) -> String {
    let plan = &list.plan;
    merged(plan.yards.iter().flat_map(|open| plan.farms_of(open.yard)), names)
}
