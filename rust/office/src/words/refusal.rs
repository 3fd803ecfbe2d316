//! Why a call is refused: the first question that is answered no, and where. The order is 11, 12, 1, 2, 3, 4, 10, 13, 5, 6, 7, 8,
//! 14, 9; `tariff` has 11 and 12, and `amounts` 13, 5 and 6.
//!
//! The number of a refusal is the library's. The fault is searched here, from the documents alone, and must be of that number.
mod amounts;
mod tariff;

use super::Names;
use crate::csv::Cell;
use amounts::WellFormed;
use planner::format::{
    amount, least_area, HAUL, LONGEST_SHEET, MOST_FARMS, MOST_LOADS, MOST_YARDS, RECORD, SHORTEST_SHEET, YARD,
};
use planner::{bands, Refusal, Sheet};

/// What a call was given beside the sheet.
#[derive(Clone, Copy, Debug, Default)]
pub struct Given {
    pub k: Option<usize>,
    pub set: Option<u32>,
    /// The yard of the set that is to shut.
    pub shut: Option<usize>,
    /// The length of the lent plan area.
    pub area: Option<usize>,
}

/// A question that is answered no, the records that show it (none where a count or something given does; those of the tariff
/// for 11 and 12), and why in words.
#[derive(Debug)]
pub struct Fault {
    pub question: u8,
    pub records: Vec<usize>,
    pub words: String,
}

/// The refusal in words; an error where the search here does not come to the library's number.
pub fn explained(refusal: Refusal, sheet: Sheet, given: &Given, names: &Names) -> Result<String, String> {
    let number = refusal.0;
    match (first_fault(sheet, given, names), refusal.question()) {
        (Some(fault), Some(question)) if fault.question == number => {
            Ok(format!("refused {number}\nQuestion {number}: {question} No.\n{}\n", fault.words))
        }
        (other, _) => {
            let found =
                other.map_or("no fault at all".into(), |fault| format!("a fault of question {}", fault.question));
            Err(format!("refused {number}\nThis tool finds {found}: the library or the tool has a defect.\n"))
        }
    }
}

/// The first question that is answered no, by a search of its own.
pub fn first_fault(sheet: Sheet, given: &Given, names: &Names) -> Option<Fault> {
    let records: Vec<&[u8]> = sheet.bytes.chunks_exact(RECORD).collect();
    tariff::fault(sheet.tariff)
        .or_else(|| length(sheet.bytes))
        .or_else(|| kinds(&records))
        .or_else(|| yards(&records))
        .or_else(|| after_yards(&records, sheet, given, names))
}

/// The questions that need the count of yards.
fn after_yards(records: &[&[u8]], sheet: Sheet, given: &Given, names: &Names) -> Option<Fault> {
    let m = records.iter().take_while(|record| record[0] == YARD).count();
    let n = (records.len() - m) / m;
    let sheet = WellFormed { records, m, n, bands: bands::of(sheet.tariff), names };
    places(records, m)
        .or_else(|| loads(records, m, names))
        .or_else(|| sheet.distances())
        .or_else(|| sheet.bounds())
        .or_else(|| sheet.four_points())
        .or_else(|| beside(given, m, n, names))
}

fn without_record(question: u8, words: String) -> Option<Fault> {
    Some(Fault { question, records: Vec::new(), words })
}

fn at_record(question: u8, records: &[&[u8]], at: usize, words: String) -> Option<Fault> {
    let words = format!("{}\n{words}", described(records[at], at));
    Some(Fault { question, records: vec![at], words })
}

/// A record's place, its bytes in hex and what they mean.
fn described(record: &[u8], at: usize) -> String {
    let (yard, farm, amount) = (record[1], record[2], amount(record));
    let loads = if record[3] == 0 { String::new() } else { format!("loads {}, ", record[3]) };
    let meaning = match record[0] {
        YARD => format!("a yard, number {yard}, fee {amount}"),
        HAUL => format!("a haul, yard {yard}, farm {farm}, {loads}amount {amount}"),
        _ => "neither a yard nor a haul".into(),
    };
    format!("Record {at} (counted from 0), at byte {}: {} hex: {meaning}.", at * RECORD, hex(record))
}

fn hex(record: &[u8]) -> String {
    record.iter().map(|byte| format!("{byte:02X}")).collect::<Vec<_>>().join(" ")
}

/// Question 1.
fn length(sheet: &[u8]) -> Option<Fault> {
    let bytes = sheet.len();
    if bytes.is_multiple_of(RECORD) && (SHORTEST_SHEET..=LONGEST_SHEET).contains(&bytes) {
        return None;
    }
    let (whole, over) = (bytes / RECORD, bytes % RECORD);
    without_record(1, format!("The length is {bytes} bytes: whole records {whole}, bytes left over {over}."))
}

/// Question 2.
fn kinds(records: &[&[u8]]) -> Option<Fault> {
    let wrong = |record: &[u8]| match record {
        [kind, ..] if ![YARD, HAUL].contains(kind) => {
            Some(format!("Its kind is {kind:02X} hex. Asked: {YARD:02X} for a yard or {HAUL:02X} for a haul."))
        }
        [YARD, _, _, third, ..] if *third != 0 => {
            Some(format!("It is a yard and its byte 3 is {third:02X} hex. Asked: zero."))
        }
        [YARD, _, second, ..] if *second != 0 => {
            Some(format!("It is a yard and its byte 2 is {second:02X} hex. Asked: zero."))
        }
        _ => None,
    };
    let (at, words) = records.iter().enumerate().find_map(|(at, record)| Some((at, wrong(record)?)))?;
    at_record(2, records, at, words)
}

/// Question 3.
fn yards(records: &[&[u8]]) -> Option<Fault> {
    let first_haul = records.iter().position(|record| record[0] == HAUL).unwrap_or(records.len());
    let wrong = |at: usize| match (records[at][0] == YARD, at) {
        (false, 0) => Some("No yard stands first. Asked: yard 0.".into()),
        (false, _) => None,
        (true, _) if at > first_haul => {
            Some(format!("It stands after the haul in record {first_haul}. Asked: no yard."))
        }
        (true, MOST_YARDS) => Some(format!("It is one yard more than the {MOST_YARDS} that a sheet may have.")),
        (true, _) if records[at][1] as usize != at => {
            Some(format!("Its number is {}. Asked here: {at}.", records[at][1]))
        }
        (true, _) => None,
    };
    let (at, words) = (0..records.len()).find_map(|at| Some((at, wrong(at)?)))?;
    at_record(3, records, at, words)
}

/// Question 4: the first record out of its place, else the count.
fn places(records: &[&[u8]], m: usize) -> Option<Fault> {
    let hauls = records.len() - m;
    let (farms, over) = (hauls / m, hauls % m);
    let found = format!("Counted: yards {m}, hauls {hauls}, which is farms {farms}, hauls left over {over}.");
    let count = format!("{found} Asked: 1 to {MOST_FARMS} farms, no haul left over.");
    let count_right = over == 0 && (1..=MOST_FARMS).contains(&farms);
    let moved = (m..records.len()).find(|&at| (records[at][1] as usize, records[at][2] as usize) != place(at, m));
    match moved {
        Some(at) => {
            let (yard, farm) = place(at, m);
            let count = if count_right { String::new() } else { format!("\n{count}") };
            at_record(4, records, at, format!("Asked here: yard {yard}, farm {farm}.{count}"))
        }
        None if count_right => None,
        None => without_record(4, count),
    }
}

/// The yard and the farm whose haul stands in a record after the m yards.
fn place(at: usize, m: usize) -> (usize, usize) {
    ((at - m) % m, (at - m) / m)
}

/// Question 10.
fn loads(records: &[&[u8]], m: usize, names: &Names) -> Option<Fault> {
    let first = |at: usize| at - (at - m) % m;
    let wrong = |at: usize| match (records[at][3], records[first(at)][3]) {
        (byte, _) if byte > MOST_LOADS => Some(format!("is {byte}. Asked: 0 to {MOST_LOADS}.")),
        (byte, other) if byte != other => {
            let found = format!("is {byte}; that of the farm's first record, record {}, is {other}.", first(at));
            Some(format!("{found} Asked: the same byte in all of a farm's records."))
        }
        _ => None,
    };
    let (at, words) = (m..records.len()).find_map(|at| Some((at, wrong(at)?)))?;
    let farm = names.farm(place(at, m).1);
    let cell = in_table(names.cells.loads(place(at, m).1));
    at_record(10, records, at, format!("Its byte 3, the loads of {farm}, {words}{cell}"))
}

/// A line on where an amount or loads were typed, where that is known.
fn in_table(cell: Option<Cell>) -> String {
    cell.map_or(String::new(), |cell| format!("\nIt was typed in {cell}."))
}

/// Questions 7, 8, 14 and 9, where they are put.
fn beside(given: &Given, m: usize, n: usize, names: &Names) -> Option<Fault> {
    if let Some(k) = given.k.filter(|k| !(1..=m).contains(k)) {
        return without_record(7, format!("k is {k}. Asked: from 1 to {m}, the count of yards."));
    }
    if let Some(set) = given.set.filter(|&set| set == 0 || set as u64 >> m != 0) {
        let marks = if set == 0 { "no yard".into() } else { marked(set) };
        let asked = format!("Asked: at least one of the sheet's {m} yards, 0 to {}, and no other.", m - 1);
        return without_record(8, format!("The set is {set:08X} hex and marks {marks}. {asked}"));
    }
    if let Some(words) = given.set.zip(given.shut).and_then(|(set, yard)| cannot_shut(set, yard, names)) {
        return without_record(14, words);
    }
    let asked = least_area(m, n);
    let area = given.area.filter(|&area| area < asked)?;
    without_record(9, format!("The area has {area} bytes. Asked: at least {RECORD} × ({m} + {n} + 2) = {asked}."))
}

fn marked(set: u32) -> String {
    let yards: Vec<String> = (0..u32::BITS).filter(|yard| set >> yard & 1 == 1).map(|yard| yard.to_string()).collect();
    format!("these yards: {}", yards.join(", "))
}

/// Why a yard cannot be shut, if it cannot.
fn cannot_shut(set: u32, yard: usize, names: &Names) -> Option<String> {
    let is_marked = yard < u32::BITS as usize && set >> yard & 1 == 1;
    if !is_marked {
        return Some(format!("The set marks {}, and not {}.", marked(set), names.yard(yard)));
    }
    let only = set.count_ones() == 1;
    only.then(|| format!("The set has one yard, {}: the only yard cannot be shut.", names.yard(yard)))
}
