//! The proved library against the other implementations on seeded sheets of every kind.
//!
//! `PLANNER_ROUNDS=20 cargo test --release --test random -- --nocapture` makes twenty rounds, the first as without it and
//! each other with its own seeds. The counts printed are those of all rounds; the least counts grow with the rounds.
mod compare;

use compare::{every_call, every_call_by, Name, Tally};
use comparison::random::Random;
use comparison::samples::{self, Beside, Sample};
use planner::format::{MOST_FARMS, MOST_YARDS};

/// Sheets of each kind in a round.
const SMALL_ACCEPTED: usize = 700;
const SMALL_TIED: usize = 300;
const UNREPAIRED: usize = 200;
const TIGHT: usize = 60;
const BROKEN: usize = 100;
/// Of each of questions 1 to 5 and 10.
const FAULTY: usize = 80;
/// Of question 10 beside each of questions 1 to 6.
const BESIDE_10: usize = 60;
const SEVERAL_FAULTS: usize = 250;
const DAMAGED: usize = 400;
const RANDOM_BYTES: usize = 60;
const LOOSE: usize = 200;
const MEDIUM: usize = 40;
const FULL: usize = 4;
const FULL_TIED: usize = 4;

/// Sheets beside a tariff of each kind in a round.
const ACCEPTED_BY: usize = 360;
const LOOSE_BY: usize = 560;
const TO_THE_CENT_BY: usize = 60;
const TOO_FAR_BY: usize = 50;
/// Beside a fault of each of 10, 5 and 6.
const TOO_FAR_BESIDE: usize = 30;
const FEE_TOO_HIGH_BY: usize = 20;
const FAULTY_BY: usize = 120;
/// For each tariff that is broken in some way, rises, or both.
const REFUSED_BY: u64 = 8;
const DAMAGED_BY: usize = 200;
const MEDIUM_BY: usize = 12;
const FULL_BY: usize = 4;

/// Rounds compare at least this many calls each on average, and each answer that a call can give occurs so often for it.
const LEAST_CALLS: u64 = 100_000;
const LEAST_OF_READING: u64 = 50;
const LEAST_OF_PLANS: u64 = 300;
const LEAST_STRETCHES: u64 = 1_000;
/// Farms in the plans of each call whose yard was chosen among equal hauls by the fee, and as many by the number.
const LEAST_CHOSEN: u64 = 500;

/// Plans of each call with loads above 1, and farms in its plans by byte 0, 1 and above.
const LEAST_WITH_LOADS: u64 = 500;
/// Plans of both searches with other yards than without loads.
const LEAST_OTHER_YARDS: u64 = 150;
/// Refusals with 10 of each call where it is the only fault, beside question 5, and beside question 6.
const LEAST_WITH_10: u64 = 40;

/// Second yards, yards that shut and offers, of each kind.
const LEAST_FACTS: u64 = 500;

/// By tariffs: each answer of each call, each refusal beside another, and sheets or distances of each kind.
const LEAST_BY: u64 = 20;
/// Accepted sheets for each count of bands.
const LEAST_OF_BANDS: u64 = 15;

/// The answers that each call can give, 0 for accepted; by a tariff 11, 12 and 13 too.
const ANSWERS: [(Name, &[u8]); 7] = [
    (Name::Read, &[0, 1, 2, 3, 4, 10, 5, 6]),
    (Name::Price, &[0, 1, 2, 3, 4, 10, 5, 6, 8, 9]),
    (Name::OpenPlan, &[0, 1, 2, 3, 4, 10, 5, 6, 9]),
    (Name::LimitedPlan, &[0, 1, 2, 3, 4, 10, 5, 6, 7, 9]),
    (Name::Second, &[0, 1, 2, 3, 4, 10, 5, 6, 8]),
    (Name::Shut, &[0, 1, 2, 3, 4, 10, 5, 6, 8, 14]),
    (Name::Floor, &[0, 1, 2, 3, 4, 10, 5, 6, 15, 16]),
];

fn rounds() -> u64 {
    let rounds = std::env::var("PLANNER_ROUNDS").map_or(1, |text| text.parse().expect("PLANNER_ROUNDS is a number"));
    assert!(rounds > 0, "PLANNER_ROUNDS is at least 1");
    rounds
}

#[test]
fn the_library_agrees_with_the_other_implementations() {
    let mut tally = Tally::default();
    for round in 0..rounds() {
        for (seed, sample) in sheets(round) {
            every_call(&sample, seed, &mut tally);
        }
    }
    tally.print();
    enough(&tally, rounds());
}

#[test]
fn the_library_agrees_with_the_other_implementations_by_tariffs() {
    let mut tally = Tally::default();
    for round in 0..rounds() {
        for (seed, beside) in sheets_by_tariffs(round) {
            every_call_by(&beside, seed, &mut tally);
        }
    }
    tally.print();
    enough_by_tariffs(&tally, rounds());
}

type Maker<T> = fn(&mut Random) -> T;

/// What so many runs of each maker give in a round, each with its seed.
fn drawn<T>(round: u64, makers: Vec<(usize, Maker<T>)>) -> Vec<(u64, T)> {
    let made = makers.into_iter().flat_map(|(count, make)| std::iter::repeat_n(make, count));
    let seeded = made.enumerate().map(|(number, make)| {
        let seed = round << 32 | number as u64;
        (seed, make(&mut Random::new(seed)))
    });
    seeded.collect()
}

/// The sheets of a round, each with the seed that draws it and its calls.
fn sheets(round: u64) -> Vec<(u64, Sample)> {
    let mut makers: Vec<(usize, Maker<Sample>)> = vec![
        (SMALL_ACCEPTED, |random| shaped(random, samples::accepted)),
        (UNREPAIRED, |random| shaped(random, samples::unrepaired)),
        (DAMAGED, |random| shaped(random, samples::damaged)),
        (SEVERAL_FAULTS, |random| shaped(random, samples::several_faults)),
        (RANDOM_BYTES, samples::random_bytes),
        (LOOSE, samples::loose_records),
        (MEDIUM, medium),
        (FULL, |random| samples::accepted(random, MOST_YARDS, MOST_FARMS)),
    ];
    makers.extend([(TIGHT, tight as Maker<Sample>), (BROKEN, broken)]);
    let faults: [Maker<Sample>; 6] = [fault::<1>, fault::<2>, fault::<3>, fault::<4>, fault::<10>, fault::<5>];
    makers.extend(faults.map(|make| (FAULTY, make)));
    let beside: [Maker<Sample>; 6] = [beside::<1>, beside::<2>, beside::<3>, beside::<4>, beside::<5>, beside::<6>];
    makers.extend(beside.map(|make| (BESIDE_10, make)));
    makers.extend([
        (SMALL_TIED, tied as Maker<Sample>),
        (FULL_TIED, |random| samples::tied(random, MOST_YARDS, MOST_FARMS)),
    ]);
    let mut list = drawn(round, makers);
    list.extend(samples::named().into_iter().map(|sample| (round << 32, sample)));
    list
}

/// The sheets beside a tariff of a round, each with its seed.
fn sheets_by_tariffs(round: u64) -> Vec<(u64, Beside)> {
    let makers: Vec<(usize, Maker<Beside>)> = vec![
        (ACCEPTED_BY, |random| shaped(random, samples::accepted_by)),
        (LOOSE_BY, |random| shaped(random, samples::loose_by)),
        (TO_THE_CENT_BY, |random| shaped(random, samples::to_the_cent_by)),
        (TOO_FAR_BY, |random| shaped(random, samples::too_far_by)),
        (TOO_FAR_BESIDE, too_far_beside::<10>),
        (TOO_FAR_BESIDE, too_far_beside::<5>),
        (TOO_FAR_BESIDE, too_far_beside::<6>),
        (FEE_TOO_HIGH_BY, |random| shaped(random, samples::fee_too_high_by)),
        (FAULTY_BY, |random| shaped(random, samples::faulty_by)),
        (DAMAGED_BY, |random| shaped(random, samples::damaged_by)),
        (MEDIUM_BY, |random| samples::accepted_by(random, 17, 24)),
        (FULL_BY, |random| samples::accepted_by(random, MOST_YARDS, MOST_FARMS)),
    ];
    let mut list = drawn(round, makers);
    list.extend((0..REFUSED_BY).flat_map(|number| refused_by(round << 32 | number)));
    list
}

/// Every refused tariff beside a sheet.
fn refused_by(seed: u64) -> Vec<(u64, Beside)> {
    let mut random = Random::new(seed);
    let tariffs = samples::refused_tariffs(&mut random);
    let beside = |tariff| {
        let (yards, farms) = small(&mut random);
        (seed, samples::refused_by(&mut random, tariff, yards, farms))
    };
    tariffs.into_iter().map(beside).collect()
}

fn too_far_beside<const QUESTION: u8>(random: &mut Random) -> Beside {
    let (yards, farms) = (random.between(2, 7) as usize, random.between(3, 9) as usize);
    samples::too_far_beside(random, QUESTION, yards, farms)
}

/// Gives the maker a small shape.
fn shaped<T>(random: &mut Random, make: fn(&mut Random, usize, usize) -> T) -> T {
    let (yards, farms) = small(random);
    make(random, yards, farms)
}

/// One yard or one farm often among them.
fn small(random: &mut Random) -> (usize, usize) {
    (random.between(1, 7) as usize, random.between(1, 9) as usize)
}

fn medium(random: &mut Random) -> Sample {
    let (yards, farms) = (random.between(8, MOST_YARDS as u64) as usize, random.between(1, 24) as usize);
    let make = if random.one_in(4) { samples::damaged } else { samples::accepted };
    make(random, yards, farms)
}

/// More farms than in other small sheets, so that open plans open several yards.
fn tied(random: &mut Random) -> Sample {
    let (yards, farms) = (random.between(2, 10) as usize, random.between(1, 24) as usize);
    samples::tied(random, yards, farms)
}

fn tight(random: &mut Random) -> Sample {
    let (yards, farms) = two_or_more(random);
    let a_below_b = random.one_in(2);
    samples::kept_to_the_cent(random, yards, farms, a_below_b)
}

fn broken(random: &mut Random) -> Sample {
    let (yards, farms) = two_or_more(random);
    let a_below_b = random.one_in(2);
    samples::broken_by_one_cent(random, yards, farms, a_below_b)
}

fn two_or_more(random: &mut Random) -> (usize, usize) {
    (random.between(2, 7) as usize, random.between(2, 9) as usize)
}

/// A fault of one question, now and then in a sheet near the greatest size.
fn fault<const QUESTION: u8>(random: &mut Random) -> Sample {
    if random.one_in(16) {
        let (yards, farms) = (MOST_YARDS - random.between(0, 2) as usize, MOST_FARMS - random.between(0, 2) as usize);
        return samples::faulty(random, &[QUESTION], yards, farms);
    }
    shaped(random, |random, yards, farms| samples::faulty(random, &[QUESTION], yards, farms))
}

/// A fault of question 10 beside one of another question.
fn beside<const QUESTION: u8>(random: &mut Random) -> Sample {
    let (yards, farms) = two_or_more(random);
    samples::faulty(random, &[QUESTION, 10], yards, farms)
}

/// Every call that writes plans had to do with loads often enough.
fn enough_loads(tally: &Tally, rounds: u64) {
    for name in [Name::Price, Name::OpenPlan, Name::LimitedPlan] {
        let seen = tally.loads.of(name);
        let least = rounds * LEAST_WITH_LOADS;
        assert!(seen.plans >= least, "{name:?}: {} plans with loads", seen.plans);
        assert!(seen.farms.iter().all(|&count| count >= least), "{name:?}: farms by byte {:?}", seen.farms);
        let searches = !matches!(name, Name::Price);
        let other_yards = seen.other_yards >= rounds * LEAST_OTHER_YARDS;
        assert!(!searches || other_yards, "{name:?}: {} plans with other yards by loads", seen.other_yards);
    }
}

/// Every answer occurred often enough, and choices among equal hauls and the farms' stretches too.
fn enough(tally: &Tally, rounds: u64) {
    assert!(tally.calls() >= rounds * LEAST_CALLS, "{} calls", tally.calls());
    for (name, answers) in ANSWERS {
        let least = if matches!(name, Name::Read) { LEAST_OF_READING } else { LEAST_OF_PLANS };
        for &answer in answers {
            let count = tally.count(name, answer);
            assert!(count >= rounds * least, "{name:?} gave answer {answer} {count} times only");
        }
        let refused = tally.loads.of(name).refused;
        assert!(
            refused.iter().all(|&count| count >= rounds * LEAST_WITH_10),
            "{name:?}: refused with 10 alone, beside 5, beside 6: {refused:?}"
        );
    }
    for (name, [_, by_fee, by_number]) in tally.choices() {
        let least = rounds * LEAST_CHOSEN;
        assert!(
            by_fee >= least && by_number >= least,
            "{name:?}: {by_fee} yards by the fee, {by_number} by the number"
        );
    }
    enough_loads(tally, rounds);
    for (text, count) in tally.facts() {
        assert!(count >= rounds * LEAST_FACTS, "{text}: {count} only");
    }
    assert!(tally.whole_stretches >= rounds * LEAST_STRETCHES, "{} whole stretches", tally.whole_stretches);
    assert!(tally.empty_stretches >= rounds * LEAST_STRETCHES, "{} empty stretches", tally.empty_stretches);
}

/// Every answer of every call by a tariff occurred often enough, beside what stands behind it too.
fn enough_by_tariffs(tally: &Tally, rounds: u64) {
    for (name, answers) in ANSWERS {
        for &answer in answers.iter().chain(&[11, 12, 13]) {
            let count = tally.count(name, answer);
            assert!(count >= rounds * LEAST_BY, "{name:?} by a tariff gave answer {answer} {count} times only");
        }
    }
    for (text, counts) in tally.tariffs.refusals() {
        assert!(counts.iter().all(|&count| count >= rounds * LEAST_BY), "refused with {text}: {counts:?}");
    }
    let bands = tally.tariffs.bands();
    assert!(bands.iter().all(|&count| count >= rounds * LEAST_OF_BANDS), "accepted by count of bands: {bands:?}");
    for (text, count) in tally.tariffs.facts().into_iter().chain(tally.facts()) {
        assert!(count >= rounds * LEAST_BY, "{text}: {count} only");
    }
    assert_eq!(tally.tariffs.only_hauls_break_rule, 0, "refused by 6 where the distances keep the rule");
}
