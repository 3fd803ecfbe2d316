//! Sheets whose open plan drops a yard on its way, kept in `sheets/drops` and compared in every call.
//!
//! `cargo test --release --test drops -- --ignored --nocapture` searches for more, and says how rare they are.
mod compare;

use compare::{every_call, every_call_by, Name, Tally};
use comparison::literal::{open_moves, Move};
use comparison::random::Random;
use comparison::samples::{any_loads, kept, kept_moves, manhattan, one_rate, plane, put_loads, Beside, Sample};
use planner::format::{amount, HAUL, HIGHEST_FEE, HIGHEST_HAUL, MOST_LOADS, RECORD, YARD};
use planner::table::Table;

const KEPT: usize = 13;
/// Of each kept sheet with fees a little changed or with loads, which question 6 does not look at.
const CHANGED: u64 = 12;
/// At least so many of them drop a yard too.
const LEAST_DROPS: u64 = 100;
const LEAST_DROPS_WITH_LOADS: u64 = 60;
/// Sheets that one run of the search looks at.
const TRIES: u64 = 300_000;

#[test]
fn kept_sheets_drop_a_yard_and_agree() {
    let sheets = kept().expect("sheets/drops");
    assert_eq!(sheets.len(), KEPT, "kept sheets");
    let mut tally = Tally::default();
    for (seed, sample) in sheets.iter().enumerate() {
        let moves = open_moves(&sample.sheet);
        assert_eq!(in_lines(&moves), kept_moves(&sample.name).expect("a file of moves"), "{}", sample.name);
        assert!(drops(&moves) > 0, "{} makes no drop", sample.name);
        every_call(sample, seed as u64, &mut tally);
    }
    tally.print();
    assert_eq!(tally.count(Name::Read, 0), sheets.len() as u64, "kept sheets that are accepted");
}

#[test]
fn kept_sheets_with_other_fees_agree() {
    changed_sheets_agree(with_other_fees, LEAST_DROPS);
}

#[test]
fn kept_sheets_with_loads_agree() {
    changed_sheets_agree(with_loads, LEAST_DROPS_WITH_LOADS);
}

fn changed_sheets_agree(change: fn(&mut Random, &Sample) -> Sample, least_drops: u64) {
    let mut tally = Tally::default();
    let mut dropping = 0;
    for (number, sample) in (0..).zip(kept().expect("sheets/drops")) {
        for seed in number * CHANGED..(number + 1) * CHANGED {
            let changed = change(&mut Random::new(seed), &sample);
            every_call(&changed, seed, &mut tally);
            dropping += u64::from(drops(&open_moves(&changed.sheet)) > 0);
        }
    }
    tally.print();
    println!("{dropping} open plans that drop a yard");
    assert_eq!(tally.count(Name::Read, 0), KEPT as u64 * CHANGED, "sheets that are accepted");
    assert!(dropping >= least_drops, "{dropping} open plans that drop a yard");
}

/// Fees and hauls times the same number, the hauls from a tariff of one rate: the search makes the same moves.
#[test]
fn kept_sheets_by_a_tariff_agree() {
    let mut tally = Tally::default();
    for (seed, Sample { name, mut sheet, .. }) in (0..).zip(kept().expect("sheets/drops")) {
        let mut random = Random::new(seed);
        let hauls = sheet.chunks(RECORD).filter(|record| record[0] == HAUL);
        let farthest = hauls.map(amount).max().expect("a haul");
        let tariff = one_rate(&mut random, (HIGHEST_HAUL / farthest).min(1 + seed as u32));
        let yards = sheet.chunks(RECORD).take_while(|record| record[0] == YARD).count();
        raise_fees(&mut sheet[..RECORD * yards], tariff.haul(1) as u32);
        assert_eq!(
            in_lines(&open_moves(&tariff.priced(&sheet))),
            kept_moves(&name).expect("a file of moves"),
            "{name}"
        );
        let sample = Sample { name: format!("{name} by a tariff"), sheet, reading: None };
        every_call_by(&Beside { tariff, sample }, seed, &mut tally);
    }
    tally.print();
    assert_eq!(tally.count(Name::Read, 0), KEPT as u64, "kept sheets that are accepted by a tariff");
}

/// One to three fees up or down by a twentieth or less.
fn with_other_fees(random: &mut Random, kept: &Sample) -> Sample {
    let mut sheet = kept.sheet.clone();
    let yards = sheet.chunks(RECORD).take_while(|record| record[0] == YARD).count() as u64;
    for _ in 0..random.between(1, 3) {
        let at = RECORD * random.between(0, yards - 1) as usize;
        let fee = amount(&sheet[at..at + RECORD]);
        let (low, high) = (fee - fee / 20, (fee + fee / 20 + 1).min(HIGHEST_FEE));
        let changed = random.between(low.into(), high.into()) as u32;
        sheet[at + 4..at + RECORD].copy_from_slice(&changed.to_le_bytes());
    }
    Sample { name: format!("{} with other fees", kept.name), sheet, reading: None }
}

/// Fees times some number and as many loads for each farm, so that the search makes the same moves; or any loads with these fees.
fn with_loads(random: &mut Random, kept: &Sample) -> Sample {
    let mut sheet = kept.sheet.clone();
    let yards = sheet.chunks(RECORD).take_while(|record| record[0] == YARD).count();
    let farms = sheet.len() / RECORD / yards - 1;
    let times = random.between(2, MOST_LOADS.into()) as u8;
    let loads = if random.one_in(2) { vec![times; farms] } else { any_loads(random, farms) };
    raise_fees(&mut sheet[..RECORD * yards], times.into());
    put_loads(&mut sheet, yards, &loads);
    Sample { name: format!("{} with loads", kept.name), sheet, reading: None }
}

/// Every fee so many times as high, up to the highest.
fn raise_fees(fees: &mut [u8], times: u32) {
    for fee in fees.chunks_mut(RECORD) {
        let raised = (times * amount(fee)).min(HIGHEST_FEE);
        fee[4..].copy_from_slice(&raised.to_le_bytes());
    }
}

/// The moves as the file beside a kept sheet has them.
fn in_lines(moves: &[Move]) -> String {
    let line = |made: &Move| match made {
        Move::Add { yard } => format!("add {yard}\n"),
        Move::Drop { yard } => format!("drop {yard}\n"),
        Move::Swap { out, into } => format!("swap {out} for {into}\n"),
    };
    moves.iter().map(line).collect()
}

#[test]
#[ignore = "a search for more sheets to keep"]
fn find_drops() {
    // For small and for larger sheets: how many were looked at, and how many of them drop a yard.
    let mut looked_at = [0, 0];
    let mut found = [0, 0];
    for seed in 0..TRIES {
        let mut random = Random::new(seed);
        let larger = random.one_in(4);
        let (kind, table) = candidate(&mut random, larger);
        let sheet = table.sheet();
        let moves = open_moves(&sheet);
        looked_at[usize::from(larger)] += 1;
        if drops(&moves) > 0 {
            found[usize::from(larger)] += 1;
            println!("seed {seed}, {kind}: {} yards, {} farms, {moves:?}", table.fees.len(), table.hauls.len());
            println!("xxd -r -p: {}", sheet.iter().map(|byte| format!("{byte:02x}")).collect::<String>());
        }
    }
    println!("small and larger sheets: {found:?} of {looked_at:?} drop a yard");
    assert!(found.iter().all(|&count| count > 0), "no drop among {looked_at:?}");
}

/// Shapes small and larger, and fees near the hauls, where adding and dropping both pay.
fn candidate(random: &mut Random, larger: bool) -> (&'static str, Table) {
    let (yards, farms) = if larger { ((9, 20), (9, 30)) } else { ((3, 8), (2, 8)) };
    let (yards, farms) = (random.between(yards.0, yards.1) as usize, random.between(farms.0, farms.1) as usize);
    let fee_factor = if larger { random.between(1, 5) as u32 } else { 1 };
    match random.between(0, 2) {
        0 => ("grid", manhattan(random, yards, farms, 8, 6 * fee_factor)),
        1 => ("plane", plane(random, yards, farms, 40, 30 * fee_factor)),
        _ => ("wide plane", plane(random, yards, farms, 60_000, 45_000 * fee_factor)),
    }
}

fn drops(moves: &[Move]) -> usize {
    moves.iter().filter(|made| matches!(made, Move::Drop { .. })).count()
}
