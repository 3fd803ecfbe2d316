//! A tariff beside a sheet of distances (paper 3 of document 02), with what reading by it answers: `accepted_by` and others by
//! accepted tariffs; `refused_by` and others where 11, 12 or 13 is the first "no" or stands behind another one.
use super::breaks::damaged_tariff;
use super::distances::{any_haul, at_ends, loose, metric, past, put_amount, sheet_of};
use super::loads::byte_above;
use super::tariffs::{house_tariff, tariff, tariff_to_the_cent, TariffSample};
use super::{below, chance, faults, Sample};
use crate::random::Random;
use planner::format::{HIGHEST_FEE, RECORD};
use planner::table::Table;

/// The questions about the form of a sheet and its loads.
const FORM_AND_LOADS: [u8; 5] = [1, 2, 3, 4, 10];

#[derive(Clone, Debug)]
pub struct Beside {
    pub tariff: TariffSample,
    /// Its `reading` is by the tariff.
    pub sample: Sample,
}

impl Beside {
    /// The sheet beside the tariff is accepted, or refused by this number.
    fn made(tariff: TariffSample, name: &str, table: &Table, refused: Option<u8>) -> Beside {
        Beside { tariff, sample: Sample::of_table(name, table, refused) }
    }

    fn refused(self, name: &str, number: u8) -> Beside {
        let Beside { tariff, sample: Sample { name: of, sheet, .. } } = self;
        Beside { tariff, sample: Sample { name: format!("{name} in: {of}"), sheet, reading: Some(Err(number)) } }
    }
}

/// An accepted tariff, one in four times the house one.
fn any_tariff(random: &mut Random) -> TariffSample {
    if random.one_in(4) {
        return house_tariff();
    }
    tariff(random)
}

/// Distances that keep the rule, with hauls that question 5 accepts: the call is accepted.
pub fn accepted_by(random: &mut Random, yards: usize, farms: usize) -> Beside {
    let tariff = any_tariff(random);
    let table = metric(random, yards, farms, tariff.farthest());
    Beside::made(tariff, "distances", &table, None)
}

/// Distances up to the last end, in order or loose, or at band ends: accepted, or refused by 5 or 6.
pub fn loose_by(random: &mut Random, yards: usize, farms: usize) -> Beside {
    let tariff = any_tariff(random);
    let sample = match random.between(0, 5) {
        0 => sheet_of("distances up to the last end", &metric(random, yards, farms, tariff.last_end())),
        1 => sheet_of("loose distances up to the last end", &loose(random, yards, farms, tariff.last_end())),
        2 | 3 => sheet_of("loose distances", &loose(random, yards, farms, tariff.farthest())),
        _ => sheet_of("distances at band ends", &at_ends(random, yards, farms, &tariff)),
    };
    Beside { tariff, sample }
}

/// The farthest haul is just 1,000,000: accepted; or one hundred metres farther: refused by 5.
pub fn to_the_cent_by(random: &mut Random, yards: usize, farms: usize) -> Beside {
    let (tariff, distance) = tariff_to_the_cent(random);
    let mut table = metric(random, yards, farms, distance);
    table.hauls[0].fill(distance);
    let above = random.one_in(2);
    if above {
        let (farm, yard) = (below(random, farms), below(random, yards));
        table.hauls[farm][yard] = distance + 1;
        return Beside::made(tariff, "a haul just too high", &table, Some(5));
    }
    // With farm 0 at the same distance from every yard the others keep the rule.
    Beside::made(tariff, "a haul just high enough", &table, None)
}

/// A distance past the last end, with nothing else wrong.
pub fn too_far_by(random: &mut Random, yards: usize, farms: usize) -> Beside {
    let mut beside = accepted_by(random, yards, farms);
    let at = any_haul(random, yards, farms);
    put_amount(&mut beside.sample.sheet, at, past(random, beside.tariff.last_end()));
    beside.refused("one distance too far", 13)
}

/// A distance past the last end, beside a fault of question 10, 5 or 6: 10 comes before 13, and 5 and 6 after it. There are at
/// least two yards and three farms.
pub fn too_far_beside(random: &mut Random, question: u8, yards: usize, farms: usize) -> Beside {
    let mut beside = accepted_by(random, yards, farms);
    while beside.tariff.haul(1) == 0 {
        beside = accepted_by(random, yards, farms);
    }
    let last_end = beside.tariff.last_end();
    let farthest = beside.tariff.farthest();
    let sheet = &mut beside.sample.sheet;
    let haul = |farm: usize, yard: usize| RECORD * (yards + farm * yards + yard);
    put_amount(sheet, haul(farms - 1, below(random, yards)), past(random, last_end));
    match question {
        10 => sheet[any_haul(random, yards, farms) + 3] = byte_above(random),
        5 => put_amount(sheet, RECORD * below(random, yards), HIGHEST_FEE + 1),
        // Farm 0 at no distance from yards 0 and 1, and farm 1 from yard 1: its haul to yard 0 is above the sum of these.
        _ => {
            [(0, 0), (0, 1), (1, 1)].into_iter().for_each(|(farm, yard)| put_amount(sheet, haul(farm, yard), 0));
            put_amount(sheet, haul(1, 0), random.between(1, farthest.into()) as u32);
        }
    }
    beside.refused(&format!("one distance too far, and a fault of {question}"), if question == 10 { 10 } else { 13 })
}

/// A fee that question 5 refuses, by a tariff.
pub fn fee_too_high_by(random: &mut Random, yards: usize, farms: usize) -> Beside {
    let mut beside = accepted_by(random, yards, farms);
    put_amount(&mut beside.sample.sheet, RECORD * below(random, yards), HIGHEST_FEE + 1);
    beside.refused("a fee too high", 5)
}

/// A sheet that a question of form or 10 refuses, by an accepted tariff.
pub fn faulty_by(random: &mut Random, yards: usize, farms: usize) -> Beside {
    let question = FORM_AND_LOADS[below(random, FORM_AND_LOADS.len())];
    Beside { tariff: any_tariff(random), sample: faults::faulty(random, &[question], yards, farms) }
}

/// A tariff that 11 or 12 refuses, beside a sheet that is good or has faults too.
pub fn refused_by(random: &mut Random, tariff: TariffSample, yards: usize, farms: usize) -> Beside {
    let question = FORM_AND_LOADS[below(random, FORM_AND_LOADS.len())];
    let sample = match random.between(0, 2) {
        0 => faults::several_faults(random, yards, farms),
        1 => faults::faulty(random, &[question], yards, farms),
        _ => Sample::of_table("distances", &metric(random, yards, farms, tariff.last_end().min(900)), None),
    };
    let reading = tariff.asked.and_then(|asked| asked.err()).map(Err);
    Beside { tariff, sample: Sample { reading, ..sample } }
}

/// Damage by chance to the tariff, to the sheet or to both.
pub fn damaged_by(random: &mut Random, yards: usize, farms: usize) -> Beside {
    let tariff = if random.one_in(3) { any_tariff(random) } else { damaged_tariff(random) };
    let sample = match random.between(0, 2) {
        0 => chance::damaged(random, yards, farms),
        _ => sheet_of("distances", &metric(random, yards, farms, tariff.farthest())),
    };
    Beside { tariff, sample }
}
