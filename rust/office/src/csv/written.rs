//! The way back: a sheet's table in CSV.
use super::line::csv_line;
use super::units::{CENTS, DISTANCES};
use super::Amounts;
use crate::words::Names;
use planner::table::Table;

/// The table in CSV, in whole cents and parted by commas, which reads to the same again with names as reading gives
/// them. A yard or a farm without a name is called by its number.
pub fn written(table: &Table, amounts: Amounts, names: &Names) -> String {
    let corner = match amounts {
        Amounts::Hauls => &CENTS,
        Amounts::Distances => &DISTANCES,
    };
    let has_loads = table.loads.iter().any(|&loads| loads > 0);
    let line = |first: &str, loads: String, others: Vec<String>| {
        let loads = has_loads.then_some(loads);
        csv_line([first].into_iter().chain(loads.as_deref()).chain(others.iter().map(String::as_str)))
    };
    let yards = (0..table.fees.len()).map(|yard| name(&names.yards, "yard", yard)).collect();
    let farm = |(farm, hauls): (usize, &Vec<u32>)| {
        line(&name(&names.farms, "farm", farm), loads(table.loads[farm]), digits(hauls))
    };
    let head = line(corner.words, "loads".into(), yards);
    let fees = line(corner.fees[0].0, String::new(), digits(&table.fees));
    head + &fees + &table.hauls.iter().enumerate().map(farm).collect::<String>()
}

fn digits(amounts: &[u32]) -> Vec<String> {
    amounts.iter().map(u32::to_string).collect()
}

/// The byte 0 is an empty cell.
fn loads(byte: u8) -> String {
    match byte {
        0 => String::new(),
        loads => loads.to_string(),
    }
}

fn name(names: &[String], word: &str, number: usize) -> String {
    match names.get(number) {
        Some(name) if !name.is_empty() => name.clone(),
        _ => format!("{word} {number}"),
    }
}
