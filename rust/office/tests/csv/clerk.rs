//! The tables of `tests/tables`, as a clerk's spreadsheet saves them: what each is read as, or its faults.
use super::{assert_told, file};
use office::csv::{self, Typed};
use planner::table::Table;
use std::fs;
use std::path::Path;

/// What must come of a table.
enum Read {
    /// The sheet of the plain table, with its names.
    Plain,
    /// The same sheet with other names, those of yards first.
    Named(String),
    Other(Table),
    Faults(&'static [(usize, usize, &'static str)]),
}
use Read::*;

const NAMES: &str = "Haldensleben|Schönebeck|Staßfurt|Barleben|Möser|Güsten";

fn plain() -> Table {
    let hauls = [[204_187, 253_045, 455_977], [300_000, 251_792, 400_000], [500_000, 250_000, 79_699]];
    Table::new(vec![400_000, 300_000, 300_000], hauls.map(Vec::from).to_vec())
}

/// The plain table with other names.
fn renamed(names: &[(&str, &str)]) -> Read {
    Named(names.iter().fold(NAMES.into(), |names, (name, other)| names.replace(name, other)))
}

/// The plain table with another fee of yard 0, and other hauls of farms 0 and 2.
fn other(fee: u32, first: [u32; 3], last: [u32; 3]) -> Read {
    let mut table = plain();
    table.fees[0] = fee;
    (table.hauls[0], table.hauls[2]) = (first.to_vec(), last.to_vec());
    Other(table)
}

const WHOLE: &str = "is no whole number of cents; asked: digits alone";
const CORNER: &str = "stands here; asked here: the word cents (amounts are whole cents), the word euros";
const FEE: &str = "stands here; asked here: the word fee, then the fee of each yard";
const SAVE: &str = "save the table again with the type \"CSV UTF-8\", which stands in the list of the save dialogue";

fn cases() -> Vec<(&'static str, Read)> {
    let (first, last) = ([204_187, 253_045, 455_977], [500_000, 250_000, 79_699]);
    [encodings_and_edges(), names_and_bounds(), amounts()]
        .into_iter()
        .flatten()
        .chain([
            ("35-fee-too-high", other(50_000_001, first, last)),
            ("36-haul-too-high", other(400_000, [1_000_001, first[1], first[2]], last)),
            ("37-rule", other(400_000, [1_000; 3], [900_000, 1_000, 1_000])),
            ("46-one-yard", Other(Table::new(vec![5], vec![vec![1]]))),
            ("51-decimal-comma-for-a-missing-cell", Other(Table::new(vec![1, 2], vec![vec![12, 50]]))),
        ])
        .collect()
}

fn encodings_and_edges() -> Vec<(&'static str, Read)> {
    vec![
        ("01-plain", Plain),
        ("02-german-excel", Plain),
        ("03-german-excel-ansi", Faults(&[(1, 3, SAVE)])),
        ("04-utf16-tab", Faults(&[(1, 1, SAVE)])),
        ("05-tab", Plain),
        ("14-trailing-empty-columns", Plain),
        ("15-trailing-empty-rows", Plain),
        ("16-sep-line", Plain),
        ("23-title-row", Faults(&[(1, 1, "'Silo 2026' stands here; asked here: the word cents")])),
        ("30-cr-only", Plain),
        ("31-empty", Faults(&[(1, 1, "the table is empty")])),
        ("32-bom-only", Faults(&[(1, 1, "the table is empty")])),
        ("41-nul", Faults(&[(6, 1, "a character that cannot be printed")])),
        ("42-blank-middle-row", Faults(&[(4, 1, "the line is empty")])),
        ("45-all-quoted", Plain),
    ]
}

fn names_and_bounds() -> Vec<(&'static str, Read)> {
    vec![
        ("12-missing-yard-name", Faults(&[(1, 3, "the name of the yard is missing")])),
        ("13-missing-yard-column-head", Faults(&[(1, 4, "the name of the yard is missing")])),
        ("17-newline-in-name", renamed(&[("Haldensleben", "Haldensleben (Hafen)")])),
        ("18-quoted-name", renamed(&[("Haldensleben", "Haldensleben; \"Hafen\"")])),
        ("19-corner-Cent", Faults(&[(1, 1, CORNER)])),
        ("20-corner-empty", Faults(&[(1, 1, "the cell is empty; asked here: the word cents")])),
        ("21-fee-german", Faults(&[(2, 1, FEE)])),
        ("22-fees", Faults(&[(2, 1, FEE)])),
        ("28-dup-farm", Faults(&[(4, 1, "another farm is called Barleben too, in line 3")])),
        ("29-dup-yard-case", renamed(&[("Schönebeck", "haldensleben")])),
        ("33-33yards", Faults(&[(1, 34, "at most 32 yards (question 3)")])),
        ("34-129farms", Faults(&[(131, 1, "at most 128 farms (question 4)")])),
        ("38-escape", Faults(&[(3, 1, "a character that cannot be printed")])),
        ("39-longname", renamed(&[("Barleben", &"x".repeat(400))])),
        ("40-wide", renamed(&[("Barleben", "東京農場"), ("Möser", "Mo\u{308}ser")])),
        ("44-transposed", Faults(&[(2, 1, FEE)])),
        ("47-comma-in-unquoted", renamed(&[("Haldensleben", "Haldensleben, Hafen")])),
        ("48-formula", renamed(&[("Barleben", "=cmd|' /C calc'!A0")])),
    ]
}

fn amounts() -> Vec<(&'static str, Read)> {
    vec![
        ("06-thousands-decimal-de", Faults(&[(2, 2, WHOLE)])),
        ("07-thousands-point", Faults(&[(2, 2, WHOLE)])),
        ("08-thousands-comma-quoted", Faults(&[(2, 2, WHOLE)])),
        ("09-thousands-nbsp", Faults(&[(2, 2, WHOLE)])),
        ("10-decimal-point", Faults(&[(2, 2, WHOLE)])),
        ("11-empty-cell", Faults(&[(3, 3, "under yard Schönebeck: the amount is missing")])),
        ("24-scientific", Faults(&[(3, 2, WHOLE)])),
        ("25-negative", Faults(&[(3, 2, WHOLE)])),
        ("26-ref", Faults(&[(3, 2, WHOLE)])),
        ("27-euro", Faults(&[(3, 2, WHOLE)])),
        (
            "43-many-faults",
            Faults(&[
                (3, 2, "under yard Haldensleben: the amount is missing"),
                (4, 3, "under yard Schönebeck: '1.5' is no whole number of cents"),
                (5, 4, "under yard Staßfurt: the amount is missing"),
            ]),
        ),
        ("49-leading-zero", Plain),
        ("50-fullwidth", Faults(&[(2, 2, WHOLE)])),
    ]
}

fn folder() -> std::path::PathBuf {
    Path::new(env!("CARGO_MANIFEST_DIR")).join("tests/tables")
}

fn assert_read(name: &str, table: &Table, names: &str) {
    let Typed { table: read, names: found, .. } = csv::read(&[file(&bytes(name))]).unwrap();
    assert_eq!(read, *table, "{name}");
    assert_eq!([found.yards, found.farms].concat().join("|"), names, "{name}");
}

fn bytes(name: &str) -> Vec<u8> {
    fs::read(folder().join(format!("{name}.csv"))).unwrap()
}

#[test]
fn every_table_of_the_clerk_is_read_or_its_faults_are_told() {
    for (name, read) in cases() {
        match read {
            Plain => assert_read(name, &plain(), NAMES),
            Named(names) => assert_read(name, &plain(), &names),
            Other(table) => assert_eq!(csv::read(&[file(&bytes(name))]).unwrap().table, table, "{name}"),
            Faults(faults) => assert_told(&csv::read(&[file(&bytes(name))]).unwrap_err(), faults),
        }
    }
    let mut names: Vec<String> = cases().iter().map(|(name, _)| format!("{name}.csv")).collect();
    names.sort();
    let mut files: Vec<String> =
        fs::read_dir(folder()).unwrap().map(|entry| entry.unwrap().file_name().into_string().unwrap()).collect();
    files.sort();
    assert_eq!(names, files);
}
