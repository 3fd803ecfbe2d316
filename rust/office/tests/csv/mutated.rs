//! Damaged tables: whatever the bytes, a table is read or its faults are told, each within the file and in order.
use super::file;
use comparison::random::Random;
use office::csv::{self, written, Fault, File};
use std::{env, fs, path::Path};

/// Pieces that mean something in a table.
const PIECES: [&[u8]; 20] = [
    b",",
    b";",
    b"\t",
    b"\"",
    b"\n",
    b"\r",
    b"\r\n",
    b"\"\"",
    b" ",
    b"0",
    b"cents",
    b"euros",
    b"loads",
    b"fee",
    b"sep=;\n",
    b".50",
    b"\xEF\xBB\xBF",
    b"\xFC",
    b"\0",
    b"kind,name,latitude,longitude\n",
];

fn mutated(table: &[u8], random: &mut Random) -> Vec<u8> {
    let mut bytes = table.to_vec();
    for _ in 0..random.between(1, 2) {
        let at = random.between(0, bytes.len() as u64) as usize;
        let end = bytes.len().min(at + random.between(0, 3) as usize);
        let piece = PIECES[random.between(0, PIECES.len() as u64 - 1) as usize];
        bytes.splice(at..end, piece.iter().copied());
    }
    bytes
}

fn assert_in_order(faults: &[Fault], bytes: &[u8]) {
    assert!(!faults.is_empty());
    let places: Vec<(usize, usize)> = faults.iter().map(|fault| (fault.line, fault.column)).collect();
    assert!(places.is_sorted() && places.iter().all(|&(line, column)| line > 0 && column > 0), "{faults:#?}");
    assert!(places.iter().all(|&(line, column)| line <= bytes.len() + 2 && column <= bytes.len() + 2), "{faults:#?}");
}

/// Reads one table and says whether it was accepted; what is accepted is written and read again.
fn is_read(bytes: &[u8]) -> bool {
    let typed = match csv::read(&[file(bytes)]) {
        Ok(typed) => typed,
        Err(faults) => {
            assert_in_order(&faults, bytes);
            return false;
        }
    };
    let text = written(&typed.table, typed.amounts, &typed.names);
    let again = csv::read(&[file(&text)]).unwrap_or_else(|faults| panic!("{faults:#?} in {text}"));
    assert_eq!((again.table, again.amounts), (typed.table, typed.amounts), "{text}");
    assert_eq!((again.names.yards, again.names.farms), (typed.names.yards, typed.names.farms), "{text}");
    true
}

#[test]
fn damaged_tables_are_read_or_told() {
    let folder = Path::new(env!("CARGO_MANIFEST_DIR")).join("tests/tables");
    let mut tables: Vec<_> = fs::read_dir(folder).unwrap().map(|entry| entry.unwrap().path()).collect();
    tables.sort();
    let tables: Vec<Vec<u8>> = tables.iter().map(|path| fs::read(path).unwrap()).collect();
    let mut random = Random::new(17);
    let rounds: u64 = env::var("PLANNER_ROUNDS").map_or(1, |rounds| rounds.parse().unwrap());
    let mut accepted = 0;
    for _ in 0..100 * rounds {
        for table in &tables {
            let bytes = mutated(table, &mut random);
            accepted += u64::from(is_read(&bytes));
            let other = File { name: "other.csv", bytes: &tables[random.between(0, tables.len() as u64 - 1) as usize] };
            let _ = csv::read(&[file(&bytes), other]);
            let _ = (csv::read_tariff(file(&bytes)), csv::read_places(file(&bytes)));
        }
    }
    assert!(accepted > 100 * rounds, "{accepted} of {} accepted", 100 * rounds * tables.len() as u64);
}
