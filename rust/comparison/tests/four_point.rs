//! Question 6 by itself: reading against its four loops, on sheets of many shapes that keep the rule narrowly or break it.
//! The rule is about one load (paper 2 of document 02): loads change no answer. By a tariff it is about the priced hauls, and
//! distances that keep it give hauls that keep it (paper 3).
use comparison::calls::ALL;
use comparison::random::Random;
use comparison::samples::TariffSample;
use comparison::{four_loops, samples};
use planner::format::{HIGHEST_HAUL, MOST_FARMS, MOST_LOADS, MOST_YARDS};
use planner::table::Table;
use planner::{library, Answer, Counts};

const SHEETS: u64 = 3_000;
const FULL: u64 = 12;
/// At least so many of each.
const LEAST: u64 = 4_000;
/// Sheets that keep the rule to the cent, and as many that break it by one.
const TO_THE_CENT: u64 = 600;
/// For at least so many of each with loads, the rule on hauls times loads would answer otherwise.
const LEAST_OTHERWISE: u64 = 600;

/// Sheets of distances, each by so many tariffs and by the house one.
const DISTANCES: u64 = 1_000;
const TARIFFS: u64 = 4;
/// At least so many readings are accepted where the distances keep the rule, and of them so many by a tariff of more than one rate.
const LEAST_KEPT: u64 = 5_000;
const LEAST_BENT: u64 = 3_000;
/// At least so many are accepted where the distances break the rule, and as many refused by 6.
const LEAST_OF_BROKEN: u64 = 600;

#[derive(Default)]
struct Seen {
    kept: u64,
    broken: u64,
}

#[test]
fn reading_agrees_with_four_loops() {
    let mut seen = Seen::default();
    for seed in 0..SHEETS {
        let mut random = Random::new(seed);
        let (yards, farms) = shape(&mut random, seed < FULL);
        let mut table = narrow(&mut random, yards, farms);
        compare(&mut random, &mut table, seed, &mut seen);
        for _ in 0..3 {
            shift_one(&mut random, &mut table);
            compare(&mut random, &mut table, seed, &mut seen);
        }
    }
    println!("{} sheets keep the rule, {} break it", seen.kept, seen.broken);
    assert!(seen.kept >= LEAST && seen.broken >= LEAST);
}

fn shape(random: &mut Random, full: bool) -> (usize, usize) {
    match full {
        true => (MOST_YARDS, MOST_FARMS - random.between(0, 9) as usize),
        false => (random.between(1, 9) as usize, random.between(1, 40) as usize),
    }
}

/// Many sums of three hauls equal the fourth: distances on a grid, and hauls lowered until the rule holds.
fn narrow(random: &mut Random, yards: usize, farms: usize) -> Table {
    let span = [3, 50, 200, 20_000, HIGHEST_HAUL / 2][random.between(0, 4) as usize];
    match random.between(0, 2) {
        0 => samples::manhattan(random, yards, farms, span, 9),
        1 => samples::plane(random, yards, farms, span, 9),
        _ => {
            let mut table = samples::small_amounts(random, yards, farms, span);
            samples::repair(&mut table);
            table
        }
    }
}

/// One haul a little up or down, by as little as a cent and by as much as some units of 64 cents.
fn shift_one(random: &mut Random, table: &mut Table) {
    let farm = random.between(0, table.hauls.len() as u64 - 1) as usize;
    let yard = random.between(0, table.fees.len() as u64 - 1) as usize;
    let by = [1, 2, 63, 64, 65, 128, 200][random.between(0, 6) as usize];
    let haul = &mut table.hauls[farm][yard];
    *haul = if random.one_in(2) { (*haul + by).min(HIGHEST_HAUL) } else { haul.saturating_sub(by) };
}

/// Reads the sheet without loads and with any.
fn compare(random: &mut Random, table: &mut Table, seed: u64, seen: &mut Seen) {
    let counts = Counts { yards: table.fees.len(), farms: table.hauls.len() };
    let keeps = four_loops::holds(&table.hauls, counts.yards);
    let expected = if keeps { Ok(counts) } else { Err(6) };
    table.loads.fill(0);
    assert_eq!(library::read(&table.sheet()), expected, "seed {seed}, {counts:?}");
    table.loads.fill_with(|| random.between(0, MOST_LOADS.into()) as u8);
    assert_eq!(library::read(&table.sheet()), expected, "seed {seed}, {counts:?}, loads {:?}", table.loads);
    *(if keeps { &mut seen.kept } else { &mut seen.broken }) += 1;
}

#[test]
fn loads_change_no_answer() {
    // Sheets with loads that keep the rule, then ones that break it, of which hauls times loads would answer otherwise.
    let mut otherwise = [0, 0];
    for seed in 0..TO_THE_CENT {
        let mut random = Random::new(seed);
        let (yards, farms) = (random.between(2, 7) as usize, random.between(2, 9) as usize);
        let a_below_b = random.one_in(2);
        let kept = samples::kept_to_the_cent(&mut random, yards, farms, a_below_b);
        let broken = samples::broken_by_one_cent(&mut random, yards, farms, a_below_b);
        otherwise[0] += read_with_loads(kept.sheet, yards, farms, Ok(Counts { yards, farms }));
        otherwise[1] += read_with_loads(broken.sheet, yards, farms, Err(6));
    }
    println!(
        "hauls times loads would break the rule in {} sheets that keep it, and keep it in {}",
        otherwise[0], otherwise[1]
    );
    assert!(otherwise.iter().all(|&count| count >= LEAST_OTHERWISE), "{otherwise:?}");
}

/// Gives each farm in turn one load beside two for all others, and two beside one; counts how often the rule on hauls times
/// loads would answer otherwise.
fn read_with_loads(mut sheet: Vec<u8>, yards: usize, farms: usize, expected: Answer<Counts>) -> u64 {
    let mut otherwise = 0;
    for (farm, (its, others)) in (0..farms).flat_map(|farm| [(farm, (1, 2)), (farm, (2, 1))]) {
        let mut loads = vec![others; farms];
        loads[farm] = its;
        samples::put_loads(&mut sheet, yards, &loads);
        assert_eq!(library::read(&sheet), expected, "loads {loads:?}, {sheet:?}");
        let hauls = times_loads(four_loops::hauls_of(&sheet, yards), &loads);
        otherwise += u64::from(four_loops::holds(&hauls, yards) != expected.is_ok());
    }
    otherwise
}

fn times_loads(mut hauls: four_loops::Hauls, loads: &[u8]) -> four_loops::Hauls {
    for (hauls, &loads) in hauls.iter_mut().zip(loads) {
        hauls.iter_mut().for_each(|haul| *haul *= u32::from(loads));
    }
    hauls
}

/// What readings of distances by tariffs answered.
#[derive(Default, Debug)]
struct ByTariffs {
    kept: u64,
    only_hauls_keep: u64,
    broken: u64,
    too_high: u64,
    bent: u64,
}

#[test]
fn distances_that_keep_the_rule_give_hauls_that_keep_it() {
    let mut seen = ByTariffs::default();
    for seed in 0..DISTANCES {
        let mut random = Random::new(seed);
        let mut tariffs: Vec<TariffSample> = (0..TARIFFS).map(|_| samples::tariff(&mut random)).collect();
        tariffs.push(samples::house_tariff());
        let (yards, farms) = shape(&mut random, false);
        for tariff in tariffs {
            let span = random.between(1, u64::from(tariff.farthest() / 2).max(1)) as u32;
            let mut table = narrow_distances(&mut random, yards, farms, span);
            read_distances(&tariff, &table, seed, &mut seen);
            shift_one(&mut random, &mut table);
            read_distances(&tariff, &table, seed, &mut seen);
        }
    }
    println!("{seen:?}");
    assert!(seen.kept >= LEAST_KEPT && seen.bent >= LEAST_BENT);
    assert!(seen.only_hauls_keep >= LEAST_OF_BROKEN && seen.broken >= LEAST_OF_BROKEN);
}

/// Distances of which three often sum up to the fourth: on a grid, or lowered until the rule holds.
fn narrow_distances(random: &mut Random, yards: usize, farms: usize, span: u32) -> Table {
    match random.between(0, 1) {
        0 => samples::manhattan(random, yards, farms, span, 9),
        _ => {
            let mut table = samples::small_amounts(random, yards, farms, 2 * span);
            samples::repair(&mut table);
            table
        }
    }
}

/// Reads by a tariff, against the four loops on the priced hauls; distances that keep the rule are never refused by 6.
fn read_distances(tariff: &TariffSample, table: &Table, seed: u64, seen: &mut ByTariffs) {
    let counts = Counts { yards: table.fees.len(), farms: table.hauls.len() };
    let sheet = table.sheet();
    let hauls = four_loops::hauls_of(&tariff.priced(&sheet), counts.yards);
    let farthest = table.hauls.iter().flatten().copied().max().unwrap_or(0);
    let distances_keep = four_loops::holds(&table.hauls, counts.yards);
    let expected = match four_loops::holds(&hauls, counts.yards) {
        _ if farthest > tariff.last_end() => Err(13),
        _ if farthest > tariff.farthest() => Err(5),
        true => Ok(counts),
        false => Err(6),
    };
    for calls in ALL {
        let answer = (calls.read_by)(&sheet, tariff.tariff());
        assert_eq!(answer, expected, "{}: seed {seed}, {counts:?}, {}", calls.name, tariff.name);
    }
    assert!(
        expected != Err(6) || !distances_keep,
        "seed {seed}, {counts:?}, {}: hauls alone break the rule",
        tariff.name
    );
    match expected {
        Ok(_) if distances_keep => {
            seen.kept += 1;
            seen.bent += u64::from(tariff.haul(farthest) < tariff.haul(1) * u64::from(farthest));
        }
        Ok(_) => seen.only_hauls_keep += 1,
        Err(6) => seen.broken += 1,
        Err(_) => seen.too_high += 1,
    }
}
