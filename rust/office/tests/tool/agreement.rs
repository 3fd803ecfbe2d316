//! Several faults at once, anywhere: the tool finds the library's question, and nothing where the library accepts.
use super::number;
use comparison::random::Random;
use office::words::refusal::{first_fault, Given};
use office::words::Names;
use planner::bands::{bytes, following};
use planner::table::Table;
use planner::{Sheet, Tariff};
use std::collections::BTreeMap;

/// How often each question was the first "no", and none was.
type Seen = BTreeMap<Option<u8>, u32>;

/// A sheet with hauls or distances between these, mostly damaged.
fn any_sheet(random: &mut Random, (low, high): (u64, u64)) -> Vec<u8> {
    let (yards, farms) = (random.between(1, 4), random.between(1, 5));
    let amounts = |random: &mut Random| (0..yards).map(|_| random.between(low, high) as u32).collect::<Vec<_>>();
    let mut table = Table::new(amounts(random), (0..farms).map(|_| amounts(random)).collect());
    table.loads.fill_with(|| random.between(0, 20) as u8);
    let mut sheet = table.sheet();
    damage(random, &mut sheet);
    sheet.truncate(sheet.len() - if random.one_in(9) { random.between(1, 16) as usize } else { 0 });
    sheet
}

/// Up to three bytes changed.
fn damage(random: &mut Random, bytes: &mut [u8]) {
    for _ in 0..random.between(0, 3) {
        let at = random.between(0, bytes.len() as u64 - 1) as usize;
        bytes[at] = [0, 1, 2, 3, 16, 0x48, 0x59, 255][random.between(0, 7) as usize];
    }
}

/// A tariff whose rates are this high at most, now and then damaged, too long or with a rate that rises.
fn any_tariff(random: &mut Random, highest_rate: u64) -> Vec<u8> {
    let (mut end, mut rate) = (0, highest_rate);
    let mut ends_and_rates = Vec::new();
    for _ in 0..if random.one_in(20) { random.between(15, 18) } else { random.between(1, 5) } {
        end += if random.one_in(40) { 0 } else { random.between(1, 60) };
        rate = if random.one_in(20) { rate + 1 } else { random.between(rate / 2, rate) };
        ends_and_rates.push((end as u16, rate as u16));
    }
    let mut tariff = bytes(&following(&ends_and_rates));
    if random.one_in(6) {
        damage(random, &mut tariff);
    }
    tariff.truncate(tariff.len() - if random.one_in(30) { random.between(1, 8) as usize } else { 0 });
    tariff
}

/// What is given beside the sheet and the tariff: k or a set and an area, or a set and the yard that is to shut.
fn any_given(random: &mut Random) -> Given {
    let (k, set) = (random.between(0, 5) as usize, random.between(0, 20) as u32);
    let lent = Given { area: Some(random.between(50, 100) as usize), ..Given::default() };
    match random.between(0, 2) {
        0 => Given { k: Some(k), ..lent },
        1 => Given { set: Some(set), ..lent },
        _ => {
            let number = [0, 1, 2, 3, 4, 31, 32, 33, 64, 255, 256, 1 << 32, usize::MAX][random.between(0, 12) as usize];
            Given { set: Some(set), shut: Some(number), ..Given::default() }
        }
    }
}

fn compare(sheet: Sheet, given: &Given, seen: &mut Seen) {
    let found = first_fault(sheet, given, &Names::default()).map(|fault| fault.question);
    assert_eq!(found, number(sheet, given), "{sheet:?} {given:?}");
    *seen.entry(found).or_insert(0) += 1;
}

fn assert_often(seen: &Seen) {
    for question in std::iter::once(None).chain((1..=14).map(Some)) {
        assert!(seen.get(&question).is_some_and(|&times| times >= 50), "{question:?} in {seen:?}");
    }
}

#[test]
fn on_damaged_sheets() {
    let mut random = Random::new(1);
    let mut seen = Seen::new();
    for _ in 0..20_000 {
        let sheet = any_sheet(&mut random, (4, 8));
        compare(Sheet::of_hauls(&sheet), &any_given(&mut random), &mut seen);
    }
    // Without a tariff nothing is asked of one.
    seen.extend([(Some(11), 50), (Some(12), 50), (Some(13), 50)]);
    assert_often(&seen);
}

#[test]
fn on_damaged_sheets_of_distances_and_damaged_tariffs() {
    let mut random = Random::new(2);
    let (mut house, mut given) = (Seen::new(), Seen::new());
    for round in 0..40_000 {
        let distances = [(4, 8), (20, 60), (0, 90), (0, 4_100)][random.between(0, 3) as usize];
        let sheet = any_sheet(&mut random, distances);
        let beside = any_given(&mut random);
        if round % 2 == 0 {
            compare(Sheet::of_distances(&sheet, Tariff::House), &beside, &mut house);
        } else {
            let highest_rate = [40, 60_000][random.between(0, 1) as usize];
            let tariff = any_tariff(&mut random, highest_rate);
            compare(Sheet::of_distances(&sheet, Tariff::Given(&tariff)), &beside, &mut given);
        }
    }
    // The house tariff is not asked 11 and 12.
    house.extend([(Some(11), 50), (Some(12), 50)]);
    assert_often(&house);
    assert_often(&given);
}
