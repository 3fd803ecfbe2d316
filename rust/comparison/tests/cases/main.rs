//! Document 01's cases beside the marked ones, ties, loads, tariffs, yards that shut, offers, and sheets and calls with several faults at
//! once: each sheet is built here, and what the calls answer and leave in the area makes a line. The file `lines` has the lines that
//! must come, `shut_lines` those of yards that shut and `floor_lines` those of offers, checked by hand.
mod floor;
mod loads;
mod planning;
mod reading;
mod sheets;
mod shut;
mod tariffs;

use comparison::calls::{Calls, ShutCalls, FAST, LIBRARY, LITERAL, SHUT_LIBRARY, SHUT_LITERAL};
use comparison::literal;
use planner::library;

const MUST_COME: &str = include_str!("lines");
const LINE_COUNT: usize = 217;

const SHUT_MUST_COME: &str = include_str!("shut_lines");
const SHUT_LINE_COUNT: usize = 114;

const FLOOR_MUST_COME: &str = include_str!("floor_lines");
const FLOOR_LINE_COUNT: usize = 51;

/// How an implementation gives a farm's stretch.
type FarmHauls = fn(&[u8], usize) -> Vec<u8>;

/// The library gives a farm's stretch as a part of the sheet, and byte by byte.
fn library_farm_hauls(sheet: &[u8], farm: usize) -> Vec<u8> {
    let bytes: Vec<u8> = (0..library::farm_len(sheet, farm)).map(|at| library::farm_byte(sheet, farm, at)).collect();
    assert_eq!(library::farm_hauls(sheet, farm), bytes, "farm {farm}: its part of the sheet, and byte by byte");
    bytes
}

fn compare(calls: &Calls, farm_hauls: Option<FarmHauls>) {
    let farms = farm_hauls.map_or(Vec::new(), |hauls| [reading::farms(hauls), loads::farms(hauls)].concat());
    let came = [reading::all(calls), farms, planning::all(calls), loads::all(calls), tariffs::all(calls)].concat();
    assert_eq!(MUST_COME.lines().count(), LINE_COUNT, "lines in the file");
    let must_come: Vec<&str> =
        MUST_COME.lines().filter(|line| farm_hauls.is_some() || !line.starts_with("farm ")).collect();
    compare_lines(calls.name, &came, &must_come);
}

fn compare_shut(calls: &ShutCalls) {
    assert_eq!(SHUT_MUST_COME.lines().count(), SHUT_LINE_COUNT, "lines in the file");
    compare_lines(calls.name, &shut::all(calls), &SHUT_MUST_COME.lines().collect::<Vec<_>>());
}

fn compare_floor(calls: &Calls) {
    assert_eq!(FLOOR_MUST_COME.lines().count(), FLOOR_LINE_COUNT, "lines in the file");
    compare_lines(calls.name, &floor::all(calls), &FLOOR_MUST_COME.lines().collect::<Vec<_>>());
}

/// Compares line by line, and shows every difference before it fails.
fn compare_lines(name: &str, came: &[String], must_come: &[&str]) {
    assert_eq!(came.len(), must_come.len(), "{name}: lines that came");
    let mut differences = 0;
    for (at, (came, must_come)) in came.iter().zip(must_come).enumerate() {
        if came != must_come {
            println!("{name}, line {}:\n  came:      {came}\n  must come: {must_come}", at + 1);
            differences += 1;
        }
    }
    assert_eq!(differences, 0, "{name}: lines that differ");
}

#[test]
fn the_library_gives_the_lines() {
    compare(&LIBRARY, Some(library_farm_hauls));
    compare_shut(&SHUT_LIBRARY);
    compare_floor(&LIBRARY);
}

#[test]
fn the_literal_program_gives_the_lines() {
    compare(&LITERAL, Some(|sheet, farm| literal::farm_hauls(sheet, farm).to_vec()));
    compare_shut(&SHUT_LITERAL);
    compare_floor(&LITERAL);
}

/// It has no call for a farm's stretch and none for a yard that shuts.
#[test]
fn the_fast_program_gives_the_lines() {
    compare(&FAST, None);
    compare_floor(&FAST);
}
