//! A sheet and a tariff as tables, one line for each yard, each farm and each band. Amounts are cents, but for distances, which are
//! hundreds of metres and are headed so. Loads are shown where a farm has more than one.
use super::tables::{aligned, name, row, text_where};
use super::Names;
use planner::bands::{haul, of, Band};
use planner::table::Table;
use planner::{Counts, Sheet};

/// The fee of each yard, then each farm's hauls under the numbers of the yards; of a sheet of distances, the bands and the
/// distances. Asked of the sheet is good form, and nothing of its amounts.
pub fn sheet(sheet: Sheet, counts: Counts, names: &Names) -> String {
    let table = Table::of_sheet(sheet.bytes, counts.yards);
    let mut rows = vec![row(["yard", "", "fee, cents"])];
    for (yard, fee) in table.fees.iter().enumerate() {
        rows.push(row([&yard.to_string(), name(&names.yards, yard), &fee.to_string()]));
    }
    let (fees, hauls) = (aligned(&rows, &[1]), hauls_of_farms(&table, of(sheet.tariff).is_some(), names));
    let (title, bands) = match of(sheet.tariff) {
        Some(tariff) => ("Fees and distances", format!("{}\n", bands(&tariff))),
        None => ("Fees and hauls", String::new()),
    };
    format!("{}\n{bands}{fees}\n{hauls}", names.titled(title, sheet, counts))
}

/// Each band and the haul of a load over the distance at its end.
pub fn bands(bands: &[Band]) -> String {
    let mut rows = vec![row([
        "band",
        "from, hundreds of metres",
        "to, hundreds of metres",
        "rate, cents per hundred metres",
        "haul to the end, cents",
    ])];
    for (number, band) in bands.iter().enumerate() {
        let cells = [number as u64, band.start.into(), band.end.into(), band.rate.into(), haul(bands, band.end.into())];
        rows.push(cells.map(|cell| cell.to_string()).to_vec());
    }
    aligned(&rows, &[])
}

fn hauls_of_farms(table: &Table, distances: bool, names: &Names) -> String {
    let several = table.loads.iter().any(|&loads| loads > 1);
    let mut rows = vec![row(match (several, distances) {
        (true, true) => ["farm", "", "loads", "distance to yard, hundreds of metres:"],
        (true, false) => ["farm", "", "loads", "one load to yard, cents:"],
        (false, true) => ["farm", "distance to yard, hundreds of metres:", "", ""],
        (false, false) => ["farm", "haul to yard, cents:", "", ""],
    })];
    rows[0].extend((0..table.fees.len()).map(|yard| yard.to_string()));
    for (farm, hauls) in table.hauls.iter().enumerate() {
        let loads = text_where(several, table.loads_of(farm));
        let mut cells = row([&farm.to_string(), name(&names.farms, farm), &loads, ""]);
        cells.extend(hauls.iter().map(u32::to_string));
        rows.push(cells);
    }
    aligned(&rows, &[1])
}
