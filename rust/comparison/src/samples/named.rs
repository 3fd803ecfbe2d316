//! The sheets that document 01 and paper 2 of document 02 name in words, with what reading answers, and their neighbours.
use super::Sample;
use planner::format::{
    record, HAUL, HIGHEST_FEE, HIGHEST_HAUL, LONGEST_SHEET, MOST_FARMS, MOST_LOADS, MOST_YARDS, RECORD, YARD,
};
use planner::table::Table;

pub fn named() -> Vec<Sample> {
    let mut list = lengths();
    list.extend(shapes());
    list.extend(amounts());
    list.extend(loads());
    list
}

fn lengths() -> Vec<Sample> {
    let full = even(MOST_YARDS, MOST_FARMS).sheet();
    let mut over_long = full.clone();
    over_long.extend(record(HAUL, 0, MOST_FARMS, 1));
    let two_hauls = [record(HAUL, 0, 0, 1), record(HAUL, 0, 1, 1)].concat();
    let two_yards = [record(YARD, 0, 0, 1), record(YARD, 1, 0, 1)].concat();
    vec![
        refused("empty", Vec::new(), 1),
        refused("one yard record alone", record(YARD, 0, 0, 1).to_vec(), 1),
        refused("15 bytes", two_yards[..2 * RECORD - 1].to_vec(), 1),
        refused("17 bytes", full[..2 * RECORD + 1].to_vec(), 1),
        refused("full, one byte less", full[..LONGEST_SHEET - 1].to_vec(), 1),
        refused("full and one record", over_long, 1),
        refused("two haul records alone", two_hauls, 3),
        refused("two yard records alone", two_yards, 4),
    ]
}

fn shapes() -> Vec<Sample> {
    vec![
        Sample::of_table("least", &even(1, 1), None),
        Sample::of_table("full", &even(MOST_YARDS, MOST_FARMS), None),
        Sample::of_table("one farm too many", &even(1, MOST_FARMS + 1), Some(4)),
        Sample::of_table("one farm too many", &even(MOST_YARDS - 1, MOST_FARMS + 1), Some(4)),
        Sample::of_table("farm numbers run over", &even(1, 300), Some(4)),
        Sample::of_table("one farm too many", &even(MOST_YARDS, MOST_FARMS + 1), Some(1)),
        Sample::of_table("one yard too many", &even(MOST_YARDS + 1, 1), Some(3)),
        Sample::of_table("yard numbers run over", &even(257, 2), Some(3)),
    ]
}

fn amounts() -> Vec<Sample> {
    let two_yards = |hauls: [[u32; 2]; 2]| Table::new(vec![0, 0], hauls.map(Vec::from).to_vec());
    let one_yard = |fee, haul| Table::even(1, 1, fee, haul);
    let dearest = |farms| Table::even(MOST_YARDS, farms, HIGHEST_FEE, HIGHEST_HAUL);
    vec![
        Sample::of_table("S", &Table::s(), None),
        Sample::of_table("1, 1 and 1, 3", &two_yards([[1, 1], [1, 3]]), None),
        Sample::of_table("1, 1 and 1, 4", &two_yards([[1, 1], [1, 4]]), Some(6)),
        Sample::of_table("1, 1 and 4, 1", &two_yards([[1, 1], [4, 1]]), Some(6)),
        Sample::of_table("1, 4 and 1, 1", &two_yards([[1, 4], [1, 1]]), Some(6)),
        Sample::of_table("4, 1 and 1, 1", &two_yards([[4, 1], [1, 1]]), Some(6)),
        Sample::of_table("dearest", &dearest(2), None),
        Sample::of_table("dearest", &dearest(MOST_FARMS), None),
        Sample::of_table("highest fee", &one_yard(HIGHEST_FEE, 0), None),
        Sample::of_table("one cent above the highest fee", &one_yard(HIGHEST_FEE + 1, 0), Some(5)),
        Sample::of_table("highest haul", &one_yard(0, HIGHEST_HAUL), None),
        Sample::of_table("one cent above the highest haul", &one_yard(0, HIGHEST_HAUL + 1), Some(5)),
    ]
}

/// Of the dearest sheet all yards together cost 4,160,000,000.
fn loads() -> Vec<Sample> {
    let with_loads = |table: Table, loads: &[u8]| Table { loads: loads.to_vec(), ..table };
    let dearest = |farms| Table::even(MOST_YARDS, farms, HIGHEST_FEE, HIGHEST_HAUL);
    let one_farm = |loads| with_loads(even(2, 1), &[loads]);
    let mut zero_beside_one = even(2, 1).sheet();
    zero_beside_one[2 * RECORD + 3] = 1;
    vec![
        Sample::of_table("S", &with_loads(Table::s(), &[2, 1, 3]), None),
        Sample::of_table("S", &with_loads(Table::s(), &[MOST_LOADS, 1, 0]), None),
        Sample::of_table("dearest", &with_loads(dearest(2), &[MOST_LOADS; 2]), None),
        Sample::of_table("dearest", &with_loads(dearest(MOST_FARMS), &[MOST_LOADS; MOST_FARMS]), None),
        Sample::of_table("most loads", &one_farm(MOST_LOADS), None),
        Sample::of_table("one load too many", &one_farm(MOST_LOADS + 1), Some(10)),
        Sample::of_table("highest byte", &one_farm(u8::MAX), Some(10)),
        refused("0 beside 1", zero_beside_one, 10),
    ]
}

/// Every fee and every haul is one cent.
fn even(yards: usize, farms: usize) -> Table {
    Table::even(yards, farms, 1, 1)
}

fn refused(name: &str, sheet: Vec<u8>, number: u8) -> Sample {
    Sample { name: name.to_string(), sheet, reading: Some(Err(number)) }
}
