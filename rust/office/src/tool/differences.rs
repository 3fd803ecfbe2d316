//! Where a table differs from a sheet that it does not make.
use super::loaded::first_of;
use crate::csv::{Amounts, Typed};
use crate::words::of_good_form;
use planner::table::Table;
use planner::Counts;
use std::iter::once;

/// The amounts and the loads in which a table differs from a sheet of as many yards and farms, else the counts of both.
pub fn differences(sheet: &[u8], typed: &Typed) -> String {
    let counts = Counts { yards: typed.table.fees.len(), farms: typed.table.hauls.len() };
    match of_good_form(sheet) {
        None => format!("the table has {}, and the sheet is not of good form\n", words(counts)),
        Some(found) if found != counts => format!("the table has {}, the sheet {}\n", words(counts), words(found)),
        Some(found) => match of_amounts(typed, &Table::of_sheet(sheet, found.yards)) {
            same if same.is_empty() => "in the sheet the records of a farm do not have the same loads\n".into(),
            differences => first_of(differences),
        },
    }
}

fn words(counts: Counts) -> String {
    format!("yards {}, farms {}", counts.yards, counts.farms)
}

fn of_amounts(typed: &Typed, sheet: &Table) -> Vec<String> {
    let (table, names, cells) = (&typed.table, &typed.names, &typed.names.cells);
    let unit = match typed.amounts {
        Amounts::Hauls => "cents",
        Amounts::Distances => "hundreds of metres",
    };
    let yards = || 0..table.fees.len();
    let fee = |yard| line(cells.fee(yard)?, table.fees[yard], sheet.fees[yard], "cents");
    let haul =
        |yard, farm: usize| line(cells.haul(yard, farm)?, table.hauls[farm][yard], sheet.hauls[farm][yard], unit);
    let loads = |farm: usize| {
        // Without a column of loads there is no cell to name.
        let place = cells.loads(farm).map_or(names.farm(farm), |cell| cell.to_string());
        line(place, table.loads[farm].into(), sheet.loads[farm].into(), "loads")
    };
    let of_farm = |farm| once(loads(farm)).chain(yards().map(move |yard| haul(yard, farm)));
    yards().map(fee).chain((0..table.hauls.len()).flat_map(of_farm)).flatten().collect()
}

/// What stands at a place of the table and what in the sheet, where that is not the same.
fn line(place: impl ToString, typed: u32, written: u32, unit: &str) -> Option<String> {
    let found = || format!("{}: the table has {typed} and the sheet {written} {unit}", place.to_string());
    (typed != written).then(found)
}
