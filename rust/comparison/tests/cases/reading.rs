//! Cases of reading, and of a farm's stretch.
use crate::sheets::{
    changed_s, even, haul, haul_place, loads_shown, of_length, s, yard, yard_place, Record, KIND_5A, S_LENGTH,
};
use crate::FarmHauls;
use comparison::calls::Calls;
use planner::format::{
    amount, record, HIGHEST_FEE, HIGHEST_HAUL, LONGEST_SHEET, MOST_FARMS, MOST_YARDS, RECORD, SHORTEST_SHEET, YARD,
};
use planner::{Answer, Counts};

pub fn all(calls: &Calls) -> Vec<String> {
    [lengths(calls), counts(calls), amounts(calls), single_faults(calls), several_faults(calls)].concat()
}

pub fn read_case(calls: &Calls, name: &str, sheet: &[u8]) -> String {
    counts_line(name, (calls.read)(sheet))
}

pub fn counts_line(name: &str, answer: Answer<Counts>) -> String {
    match answer {
        Ok(counts) => format!("{name}: accepted, yards {}, farms {}", counts.yards, counts.farms),
        Err(number) => format!("{name}: refused {number}"),
    }
}

fn lengths(calls: &Calls) -> Vec<String> {
    let case = |name, sheet: Vec<u8>| read_case(calls, name, &sheet);
    vec![
        case("empty", even(0, 0, 0, 0)),
        case("8 bytes", even(1, 0, 0, 0)),
        case("17 bytes", of_length(even(1, 1, 0, 0), SHORTEST_SHEET + 1)),
        case("1 yard, 1 farm", even(1, 1, 0, 0)),
        case("32 yards, 128 farms", even(MOST_YARDS, MOST_FARMS, HIGHEST_FEE, HIGHEST_HAUL)),
        case("33032 bytes", of_length(even(MOST_YARDS, MOST_FARMS, 0, 0), LONGEST_SHEET + RECORD)),
    ]
}

fn counts(calls: &Calls) -> Vec<String> {
    let case = |name, sheet: Vec<u8>| read_case(calls, name, &sheet);
    let two_hauls = [haul(0, 0, 0), haul(0, 1, 0)].concat();
    vec![
        case("two haul records alone", two_hauls),
        case("33 yards, 1 farm", even(MOST_YARDS + 1, 1, 0, 0)),
        case("2 yards alone", even(2, 0, 0, 0)),
        case("32 yards alone", even(MOST_YARDS, 0, 0, 0)),
        case("1 yard, 128 farms", even(1, MOST_FARMS, 0, 0)),
        case("1 yard, 129 farms", even(1, MOST_FARMS + 1, 0, 0)),
        case("S without its last haul", of_length(s(), S_LENGTH - RECORD)),
    ]
}

fn amounts(calls: &Calls) -> Vec<String> {
    let case = |name, fee, haul| read_case(calls, name, &even(2, 2, fee, haul));
    vec![
        case("fee 50000000", HIGHEST_FEE, 1),
        case("fee 50000001", HIGHEST_FEE + 1, 1),
        case("haul 1000000", 0, HIGHEST_HAUL),
        case("haul 1000001", 0, HIGHEST_HAUL + 1),
    ]
}

/// A record whose byte 3 is not zero.
fn with_byte_3(mut record: Record) -> Record {
    record[3] = 1;
    record
}

fn single_faults(calls: &Calls) -> Vec<String> {
    let case = |name, at, record| read_case(calls, name, &changed_s(&[(at, record)], S_LENGTH));
    vec![
        read_case(calls, "S", &s()),
        case("kind 5a", yard_place(1), record(KIND_5A, 1, 0, 4)),
        case("byte 2 in a yard", yard_place(1), record(YARD, 1, 1, 4)),
        case("byte 3 in a yard", yard_place(1), with_byte_3(yard(1, 4))),
        case("byte 3 in a haul", haul_place(0, 0), with_byte_3(haul(0, 0, 1))),
        case("yard 1 numbered 2", yard_place(1), yard(2, 4)),
        case("a yard among the hauls", haul_place(1, 0), yard(3, 5)),
        case("another yard's number in a haul", haul_place(1, 0), haul(1, 1, 5)),
        case("another farm's number in a haul", haul_place(1, 0), haul(2, 0, 5)),
        case("a haul of 256000000", haul_place(1, 0), haul(1, 0, 256_000_000)),
        case("rule broken", haul_place(0, 2), haul(0, 2, 10)),
        case("rule just kept", haul_place(0, 2), haul(0, 2, 9)),
    ]
}

/// The earlier question answers.
fn several_faults(calls: &Calls) -> Vec<String> {
    let kind = (haul_place(0, 0), record(0, 0, 0, 1));
    let yard_number = (yard_place(1), yard(2, 4));
    let place = (haul_place(1, 0), haul(1, 1, 5));
    let fee = (yard_place(0), yard(0, HIGHEST_FEE + 1));
    let rule = (haul_place(0, 2), haul(0, 2, 10));
    let yard_last = (S_LENGTH, yard(3, 0));
    let case = |name, changes: &[(usize, Record)], length| read_case(calls, name, &changed_s(changes, length));
    vec![
        case("length and kind", &[kind], S_LENGTH + 1),
        case("kind and yard number", &[kind, yard_number], S_LENGTH),
        case("yard number and place", &[yard_number, place], S_LENGTH),
        case("place and fee", &[place, fee], S_LENGTH),
        case("fee and rule", &[fee, rule], S_LENGTH),
        case("yard last, and rule", &[yard_last, rule], S_LENGTH + RECORD),
    ]
}

/// The length of a farm's stretch, and the amounts of its records with their loads.
pub fn farm_case(farm_hauls: FarmHauls, name: &str, sheet: &[u8], farm: usize) -> String {
    let hauls = farm_hauls(sheet, farm);
    let shown = |record: &[u8]| format!(" {}{}", amount(record), loads_shown(record));
    let amounts: String = hauls.chunks_exact(RECORD).map(shown).collect();
    format!("{name}: bytes {}{amounts}", hauls.len())
}

pub fn farms(farm_hauls: FarmHauls) -> Vec<String> {
    let case = |name, farm| farm_case(farm_hauls, name, &s(), farm);
    let refused = |name, at, record, farm| farm_case(farm_hauls, name, &changed_s(&[(at, record)], S_LENGTH), farm);
    vec![
        case("farm 1 of S", 1),
        case("farm 2 of S", 2),
        case("farm 3 of S", 3),
        case("farm 18446744073709551615 of S", usize::MAX),
        refused("farm 0, refused by 4", haul_place(1, 0), haul(1, 1, 5), 0),
        refused("farm 1, refused by 5", yard_place(0), yard(0, HIGHEST_FEE + 1), 1),
        refused("farm 0, refused by 6", haul_place(0, 2), haul(0, 2, 10), 0),
    ]
}
