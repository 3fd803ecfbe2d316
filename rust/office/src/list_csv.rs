//! A list as CSV: a line for each yard to lease, each farm, the total, the floor and the moves.
use crate::csv::csv_line;
use crate::list::List;
use crate::words::tables::name;
use crate::words::Names;

pub fn csv(list: &List, names: &Names) -> String {
    let plan = &list.plan;
    let heads = ["line", "yard", "yard name", "farm", "farm name", "loads", "one load in cents", "cents"];
    let mut text = csv_line(heads);
    for open in &plan.yards {
        let (yard, fee) = (open.yard.to_string(), open.fee.to_string());
        text += &csv_line(["open", &yard, name(&names.yards, open.yard), "", "", "", "", &fee]);
    }
    for farm in &plan.farms {
        text += &csv_line([
            "farm",
            &farm.yard.to_string(),
            name(&names.yards, farm.yard),
            &farm.farm.to_string(),
            name(&names.farms, farm.farm),
            &farm.loads.to_string(),
            &farm.haul.to_string(),
            &farm.cost().to_string(),
        ]);
    }
    for (line, number) in [("total", plan.total.into()), ("floor", list.floor.cents), ("moves", plan.moves.into())] {
        text += &csv_line([line, "", "", "", "", "", "", &number.to_string()]);
    }
    text
}
