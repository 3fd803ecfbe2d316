//! How many calls by a tariff were refused for it and beside what, and what the accepted ones had in tariff and sheet.
use super::tally::NAMES;
use super::Name;
use comparison::calls::FAST;
use comparison::samples::TariffSample;
use planner::format::{amount, HAUL, MOST_BANDS, RECORD};
use planner::Tariff;

/// What is true of a sheet beside a tariff where it is refused. "Beside" another number means that its question would be
/// answered no too.
#[derive(Clone, Copy, Debug, PartialEq, Eq)]
pub enum Circumstance {
    BrokenAlone,
    BrokenBesideRising,
    BrokenBesideForm,
    RisingAlone,
    RisingBesideForm,
    LoadsBesideTooFar,
    TooFarAlone,
    TooFarBesideAmount,
    TooFarBesideRule,
}

use Circumstance::*;

const CIRCUMSTANCES: [(Circumstance, &str); 9] = [
    (BrokenAlone, "11 alone"),
    (BrokenBesideRising, "11 beside 12"),
    (BrokenBesideForm, "11 beside 1 to 4 or 10"),
    (RisingAlone, "12 alone"),
    (RisingBesideForm, "12 beside 1 to 4 or 10"),
    (LoadsBesideTooFar, "10 beside 13"),
    (TooFarAlone, "13 alone"),
    (TooFarBesideAmount, "13 beside 5"),
    (TooFarBesideRule, "13 beside 6"),
];

/// What is counted over readings: sheets, or distances of accepted sheets.
#[derive(Clone, Copy)]
enum Fact {
    House,
    RateOfZero,
    EqualRates,
    HighRate,
    AtInnerEnd,
    AtLastEnd,
    HighDistance,
    InSixteenthBand,
    OnlyDistancesBreakRule,
    OnlyHaulsTooHigh,
    TooHighBesideRule,
    RuleBroken,
}

const FACTS: [(Fact, &str); 12] = [
    (Fact::House, "accepted by the house tariff"),
    (Fact::RateOfZero, "accepted with a rate of 0"),
    (Fact::EqualRates, "accepted with equal rates"),
    (Fact::HighRate, "accepted with a rate above 32,767"),
    (Fact::AtInnerEnd, "distances at inner band ends"),
    (Fact::AtLastEnd, "distances at the last end"),
    (Fact::HighDistance, "distances above 32,767"),
    (Fact::InSixteenthBand, "distances in a sixteenth band of lower rate"),
    (Fact::OnlyDistancesBreakRule, "accepted where the distances break the rule"),
    (Fact::OnlyHaulsTooHigh, "refused by 5 where the distances pass"),
    (Fact::TooHighBesideRule, "refused by 5 where the distances break the rule"),
    (Fact::RuleBroken, "refused by 6"),
];
/// A number of two bytes above this has its highest bit set.
const HIGH: u32 = i16::MAX as u32;

#[derive(Default)]
pub struct Tariffs {
    /// By call.
    refused: [[u64; CIRCUMSTANCES.len()]; NAMES.len()],
    bands: [u64; MOST_BANDS],
    facts: [u64; FACTS.len()],
    /// Refused by 6 though the distances keep the rule: by no accepted tariff (paper 3 of document 02).
    pub only_hauls_break_rule: u64,
    readings: u64,
}

impl Tariffs {
    /// Counts a reading by a tariff, and gives what is true of it where it is refused.
    pub fn reading(&mut self, tariff: &TariffSample, sheet: &[u8], refused: Option<u8>) -> Vec<Circumstance> {
        self.readings += 1;
        let by_distances = (FAST.read)(sheet).err();
        match refused {
            None => self.accepted(tariff, sheet, by_distances),
            Some(5) => {
                self.see(Fact::OnlyHaulsTooHigh, by_distances.is_none());
                self.see(Fact::TooHighBesideRule, by_distances == Some(6));
            }
            Some(6) => {
                self.see(Fact::RuleBroken, true);
                self.only_hauls_break_rule += u64::from(by_distances != Some(6));
            }
            _ => {}
        }
        circumstances(tariff, sheet, refused, by_distances)
    }

    fn see(&mut self, fact: Fact, seen: bool) {
        self.facts[fact as usize] += u64::from(seen);
    }

    fn accepted(&mut self, tariff: &TariffSample, sheet: &[u8], by_distances: Option<u8>) {
        let bands = tariff.as_written();
        let given = matches!(tariff.tariff(), Tariff::Given(_));
        self.bands[bands.len() - 1] += u64::from(given);
        self.see(Fact::House, !given);
        self.see(Fact::RateOfZero, bands.iter().any(|&(_, rate)| rate == 0));
        self.see(Fact::EqualRates, bands.windows(2).any(|two| two[0].1 == two[1].1));
        self.see(Fact::HighRate, bands.iter().any(|&(_, rate)| rate > HIGH));
        self.see(Fact::OnlyDistancesBreakRule, by_distances == Some(6));
        let (&(last_end, _), inner) = bands.split_last().expect("a band");
        let falls_last = inner.len() == MOST_BANDS - 1 && inner[MOST_BANDS - 2].1 > bands[MOST_BANDS - 1].1;
        for distance in distances(sheet) {
            self.see(Fact::InSixteenthBand, falls_last && distance > inner[MOST_BANDS - 2].0);
            self.see(Fact::AtInnerEnd, inner.iter().any(|&(end, _)| end == distance));
            self.see(Fact::AtLastEnd, distance == last_end);
            self.see(Fact::HighDistance, distance > HIGH);
        }
    }

    /// Counts a refusal of a call.
    pub fn refused(&mut self, name: Name, refused: Option<u8>, beside: &[Circumstance]) {
        if matches!(refused, Some(10..=13)) {
            beside.iter().for_each(|&at| self.refused[name as usize][at as usize] += 1);
        }
    }

    /// How often calls were refused so, in the order of `NAMES`.
    pub fn refusals(&self) -> [(&'static str, [u64; NAMES.len()]); CIRCUMSTANCES.len()] {
        CIRCUMSTANCES.map(|(of, text)| (text, NAMES.map(|name| self.refused[name as usize][of as usize])))
    }

    /// Accepted sheets by the count of bands of the given tariff, 1 first.
    pub fn bands(&self) -> [u64; MOST_BANDS] {
        self.bands
    }

    pub fn facts(&self) -> [(&'static str, u64); FACTS.len()] {
        FACTS.map(|(fact, text)| (text, self.facts[fact as usize]))
    }

    pub fn print(&self) {
        if self.readings == 0 {
            return;
        }
        println!("by tariffs, refused by {NAMES:?}:");
        self.refusals().iter().for_each(|(text, counts)| println!("{text:>24} {counts:?}"));
        println!("accepted sheets by the count of bands of a given tariff, 1 to 16: {:?}", self.bands());
        self.facts().iter().for_each(|(text, count)| println!("{text}: {count}"));
        println!("refused by 6 where the distances keep the rule: {}", self.only_hauls_break_rule);
    }
}

fn circumstances(
    tariff: &TariffSample,
    sheet: &[u8],
    refused: Option<u8>,
    by_distances: Option<u8>,
) -> Vec<Circumstance> {
    let bands = tariff.as_written();
    let rising = bands.windows(2).any(|two| two[0].1 < two[1].1);
    let form = matches!(by_distances, Some(1..=4 | 10));
    let last_end = bands.last().map_or(0, |&(end, _)| end);
    let too_far = || distances(sheet).any(|distance| distance > last_end);
    let if_any = |list: &[(Circumstance, bool)], alone: &[Circumstance]| {
        let others: Vec<Circumstance> = list.iter().filter(|(_, seen)| *seen).map(|&(other, _)| other).collect();
        if others.is_empty() {
            alone.to_vec()
        } else {
            others
        }
    };
    match refused {
        Some(11) => if_any(&[(BrokenBesideRising, rising), (BrokenBesideForm, form)], &[BrokenAlone]),
        Some(12) => if_any(&[(RisingBesideForm, form)], &[RisingAlone]),
        Some(10) => if_any(&[(LoadsBesideTooFar, too_far())], &[]),
        Some(13) => {
            let behind = (FAST.read_by)(&brought_nearer(sheet, last_end), tariff.tariff()).err();
            let others = [(TooFarBesideAmount, behind == Some(5)), (TooFarBesideRule, behind == Some(6))];
            if_any(&others, &[TooFarAlone])
        }
        _ => Vec::new(),
    }
}

fn distances(sheet: &[u8]) -> impl Iterator<Item = u32> + '_ {
    sheet.chunks_exact(RECORD).filter(|record| record[0] == HAUL).map(amount)
}

/// The sheet with the last end for every distance past it.
fn brought_nearer(sheet: &[u8], last_end: u32) -> Vec<u8> {
    let mut sheet = sheet.to_vec();
    for record in sheet.chunks_exact_mut(RECORD).filter(|record| record[0] == HAUL && amount(record) > last_end) {
        record[4..].copy_from_slice(&last_end.to_le_bytes());
    }
    sheet
}
