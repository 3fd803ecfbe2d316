//! Demand 3 on small sheets, against every rival: our list is the yards in the plan's records of kind 4F, and both buyers are
//! priced by the sheet's own prices, with the same loads and by the same tariff or none, never by the printed total. Also that no
//! move is left that lowers the cost of our list. `floors` has the sums of offers.
mod floors;
mod prices;
mod worst;

use comparison::calls::{PlanCall, LIBRARY};
use comparison::random::Random;
use comparison::samples::{
    accepted, accepted_by, any_loads, house_tariff, kept, loose_by, put_loads, repair, small_amounts, tariff, Beside,
    Sample, TariffSample,
};
use planner::format::{MOST_AREA, MOST_LOADS, OPEN, RECORD};
use planner::table::Table;
use planner::{library, Answer, Counts, Written};
use prices::{adds_and_drops, loads, swaps, Prices};
use worst::{Seen, Worst};

/// Random sheets of every kind.
const SHEETS: u64 = 1_500;
const UP_TO_YARDS: u64 = 10;
const UP_TO_FARMS: u64 = 12;
/// Kept sheets with more yards are left out; so many remain.
const MOST_YARDS_KEPT: usize = 12;
const SMALL_KEPT: u64 = 11;
/// Each of them also with loads, drawn so often.
const DRAWN_LOADS: u64 = 8;
/// Sheets that are changed step by step towards a worse ratio, and the steps.
const WORSENED: u64 = 10;
const STEPS: u64 = 10_000;
/// Of the changed sheets some are refused; at least so many are compared.
const LEAST_WORSENED: u64 = 50_000;
/// The amounts that a step draws from.
const HIGHEST_AMOUNT: u64 = 12;
/// By tariffs: of random sheets of distances at least so many are accepted, and of the changed ones.
const LEAST_BY_TARIFFS: u64 = 1_500;
const LEAST_WORSENED_BY_TARIFFS: u64 = 20_000;
const WORSENED_BY_TARIFFS: u64 = 6;

#[test]
fn no_rival_is_far_below_our_lists_on_random_sheets() {
    let mut seen = Seen::default();
    for seed in 0..SHEETS {
        let mut random = Random::new(seed);
        let (yards, farms) = (random.between(1, UP_TO_YARDS) as usize, random.between(1, UP_TO_FARMS) as usize);
        let Sample { name, sheet, .. } = accepted(&mut random, yards, farms);
        seen.take_in(compared(&sheet, yards, None, &format!("seed {seed}, {name}")));
    }
    seen.print();
    seen.enough(SHEETS);
}

/// The same where a search without drops would stop too early.
#[test]
fn no_rival_is_far_below_our_lists_on_kept_sheets() {
    let mut seen = Seen::default();
    for Sample { name, sheet, .. } in kept().expect("sheets/drops") {
        let Counts { yards, farms } = library::read(&sheet).expect("an accepted sheet");
        if yards <= MOST_YARDS_KEPT {
            seen.take_in(compared(&sheet, yards, None, &name));
            seen.take_in(compared_with_loads(sheet, yards, farms, &name));
        }
    }
    seen.print();
    seen.enough(SMALL_KEPT * (1 + DRAWN_LOADS));
}

fn compared_with_loads(mut sheet: Vec<u8>, yards: usize, farms: usize, name: &str) -> Seen {
    let mut seen = Seen::default();
    for seed in 0..DRAWN_LOADS {
        let loads = any_loads(&mut Random::new(seed), farms);
        put_loads(&mut sheet, yards, &loads);
        seen.take_in(compared(&sheet, yards, None, &format!("{name}, loads {loads:?}")));
    }
    seen
}

/// The same on sheets of distances by tariffs, some of which break the four-point rule as distances.
#[test]
fn no_rival_is_far_below_our_lists_by_tariffs() {
    let mut seen = Seen::default();
    for seed in 0..SHEETS {
        let mut random = Random::new(seed);
        let (yards, farms) = (random.between(1, UP_TO_YARDS) as usize, random.between(1, UP_TO_FARMS) as usize);
        for make in [accepted_by, loose_by] {
            let Beside { tariff, sample: Sample { name, sheet, .. } } = make(&mut random, yards, farms);
            if read(&sheet, Some(&tariff)).is_ok() {
                let name = format!("seed {seed}, {name}, {} {:?}", tariff.name, tariff.bands);
                seen.take_in(compared(&sheet, yards, Some(&tariff), &name));
            }
        }
    }
    seen.print();
    seen.enough(LEAST_BY_TARIFFS);
}

/// The same on sheets changed towards a high open total or high limited hauls, since random sheets stay far below the bounds.
#[test]
fn no_rival_is_far_below_our_lists_on_worsened_sheets() {
    let mut seen = Seen::default();
    for seed in 0..WORSENED {
        worsen(seed, None, &mut seen, |seen| &seen.open_total);
        worsen(seed, None, &mut seen, |seen| &seen.limited_hauls);
    }
    seen.print();
    seen.enough(LEAST_WORSENED);
}

/// The same by tariffs whose bands are as short as the distances, and by the house one.
#[test]
fn no_rival_is_far_below_our_lists_on_sheets_worsened_by_tariffs() {
    let mut seen = Seen::default();
    for seed in 0..WORSENED_BY_TARIFFS {
        let tariff = if seed == 0 { house_tariff() } else { short_tariff(&mut Random::new(seed)) };
        worsen(seed, Some(&tariff), &mut seen, |seen| &seen.open_total);
        worsen(seed, Some(&tariff), &mut seen, |seen| &seen.limited_hauls);
    }
    seen.print();
    seen.enough(LEAST_WORSENED_BY_TARIFFS);
}

/// A tariff that prices every amount that a step draws, and some of them by other rates than others.
fn short_tariff(random: &mut Random) -> TariffSample {
    let highest = HIGHEST_AMOUNT as u32;
    loop {
        let drawn = tariff(random);
        let bent = drawn.haul(highest) < drawn.haul(1) * u64::from(highest);
        if drawn.farthest() >= highest && drawn.haul(1) > 0 && bent {
            return drawn;
        }
    }
}

/// Changes one amount at a time, by every second seed one farm's loads too, and keeps the change where the ratio is not lower. Every sheet on the way is compared.
fn worsen(seed: u64, tariff: Option<&TariffSample>, seen: &mut Seen, ratio: fn(&Seen) -> &Worst) {
    let mut random = Random::new(seed);
    let (yards, farms) = (random.between(4, 7) as usize, random.between(3, 8) as usize);
    let mut table = small_amounts(&mut random, yards, farms, 6);
    repair(&mut table);
    // Fees of the size of hauls.
    let unit = tariff.map_or(1, |tariff| tariff.haul(1) as u32);
    table.fees.iter_mut().for_each(|fee| *fee *= unit);
    let name = |table: &Table| {
        format!("seed {seed}, {table:?}{}", tariff.map_or(String::new(), |tariff| format!(", {}", tariff.name)))
    };
    let mut present = compared(&table.sheet(), yards, tariff, &name(&table));
    for _ in 0..STEPS {
        let changed = changed(&mut random, &table, seed % 2 == 1, unit);
        if read(&changed.sheet(), tariff).is_err() {
            continue;
        }
        let next = compared(&changed.sheet(), yards, tariff, &name(&changed));
        if !ratio(&present).is_above(ratio(&next)) {
            (table, present) = (changed, next.clone());
        }
        seen.take_in(next);
    }
}

fn read(sheet: &[u8], tariff: Option<&TariffSample>) -> Answer<Counts> {
    tariff.map_or_else(|| library::read(sheet), |tariff| library::read_by(sheet, tariff.tariff()))
}

fn changed(random: &mut Random, table: &Table, loads_too: bool, unit: u32) -> Table {
    let mut table = table.clone();
    let yard = random.between(0, table.fees.len() as u64 - 1) as usize;
    let farm = random.between(0, table.hauls.len() as u64 - 1) as usize;
    let amount = random.between(0, HIGHEST_AMOUNT) as u32;
    match random.between(0, 7) {
        0 | 1 => table.fees[yard] = amount * unit,
        2 if loads_too => table.loads[farm] = random.between(0, MOST_LOADS.into()) as u8,
        _ => table.hauls[farm][yard] = amount,
    }
    table
}

/// Both lists, for every k, and floors against every rival.
fn compared(sheet: &[u8], yards: usize, tariff: Option<&TariffSample>, name: &str) -> Seen {
    let prices = Prices::of(sheet, yards, tariff);
    let with_loads = loads(sheet, yards).iter().any(|&loads| loads > 1);
    let mut seen = Seen { sheets: 1, with_loads: with_loads.into(), ..Seen::default() };
    let plan = |call: PlanCall| list(|area| put(call, sheet, tariff, area));
    open_list(&prices, plan(PlanCall::OpenPlan), name, &mut seen);
    assert_eq!(seen.rivals_of_open, (1 << yards) - 1, "{name}: every set but the empty one is a rival");
    for k in 1..=yards {
        limited_list(&prices, k, plan(PlanCall::LimitedPlan { k }), name, &mut seen);
    }
    floors::floors(sheet, tariff, &prices, name, &mut seen);
    seen.name(name);
    seen
}

/// The call without a tariff, or by one.
fn put(call: PlanCall, sheet: &[u8], tariff: Option<&TariffSample>, area: &mut [u8]) -> Answer<Written> {
    match tariff {
        None => call.put_to(&LIBRARY, sheet, area),
        Some(tariff) => call.put_by(&LIBRARY, sheet, tariff.tariff(), area),
    }
}

/// The set of yards in the records of kind 4F among the bytes written.
fn list(call: impl Fn(&mut [u8]) -> Answer<Written>) -> usize {
    let mut area = [0; MOST_AREA];
    let written = call(&mut area).expect("an accepted sheet");
    let opened = area[..written.bytes].chunks(RECORD).filter(|record| record[0] == OPEN);
    opened.fold(0, |set, record| set | 1 << record[1])
}

fn open_list(prices: &Prices, ours: usize, name: &str, seen: &mut Seen) {
    let (fees, hauls, total) = (prices.fees[ours], prices.hauls[ours], prices.total(ours));
    for rival in prices.rivals() {
        let rival_total = prices.total(rival);
        let allowed_fees = prices.fees[rival] + 2 * prices.hauls[rival];
        assert!(hauls <= rival_total, "{name}: hauls {hauls} of {ours:b}, rival {rival:b} allows {rival_total}");
        assert!(fees <= allowed_fees, "{name}: fees {fees} of {ours:b}, rival {rival:b} allows {allowed_fees}");
        assert!(total <= 3 * rival_total, "{name}: total {total} of {ours:b}, rival {rival:b} pays {rival_total}");
        seen.open_hauls.see(hauls, rival_total);
        seen.open_fees.see(fees, allowed_fees);
        seen.open_total.see(total, rival_total);
        seen.rivals_of_open += 1;
    }
    for other in adds_and_drops(prices.yards, ours).into_iter().chain(swaps(prices.yards, ours)) {
        assert!(prices.total(other) >= total, "{name}: open list {ours:b} has the cheaper neighbour {other:b}");
    }
}

fn limited_list(prices: &Prices, k: usize, ours: usize, name: &str, seen: &mut Seen) {
    let hauls = prices.hauls[ours];
    assert!(ours.count_ones() as usize == k, "{name}: limited list for {k} is {ours:b}");
    for rival in prices.rivals().filter(|rival| rival.count_ones() as usize <= k) {
        let rival_hauls = prices.hauls[rival];
        assert!(hauls <= 5 * rival_hauls, "{name}: hauls {hauls} of {ours:b}, rival {rival:b} pays {rival_hauls}");
        seen.limited_hauls.see(hauls, rival_hauls);
        seen.rivals_of_limited += 1;
    }
    for other in swaps(prices.yards, ours) {
        assert!(prices.hauls[other] >= hauls, "{name}: limited list {ours:b} has the cheaper neighbour {other:b}");
    }
}
