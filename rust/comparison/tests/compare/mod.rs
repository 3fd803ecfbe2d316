//! Every call on one sheet, without a tariff or by one: the proved library against the other implementations, area and all, byte for
//! byte. `fast` is among them so that the benchmark's times are those of the same answers. `shut` has the calls of paper 5, `floor`
//! that of paper 10.
mod floor;
mod loads;
mod shut;
mod tally;
mod tariffs;

use comparison::calls::{Calls, PlanCall, FAST, FAST_32, LIBRARY, LIBRARY_BY_NONE, LITERAL};
use comparison::literal;
use comparison::random::Random;
use comparison::samples::{Beside, Sample, TariffSample};
use loads::{opened, without_loads};
use planner::format::{least_area, MOST_AREA, MOST_FARMS, MOST_YARDS, RECORD};
use planner::{library, Answer, Counts, Tariff, Written};
pub use tally::{Name, Tally};
use tariffs::Circumstance;

/// Sheets with more records than this get a choice of sets, counts, areas and bytes only.
const MANY_RECORDS: usize = 300;
const CHOICE: usize = 3;
/// Bytes before and behind the lent area, which no call may touch.
const MARGIN: usize = 24;
/// A failed comparison prints sheets up to this length.
const LONGEST_PRINTED: usize = 1_024;

/// Without a tariff, the library by no tariff is one of the others.
const OTHERS: [Calls; 4] = [LIBRARY_BY_NONE, LITERAL, FAST, FAST_32];
const OTHERS_BY: [Calls; 3] = [LITERAL, FAST, FAST_32];

/// One sheet under comparison.
struct Comparison<'a> {
    others: &'a [Calls],
    sample: &'a Sample,
    /// None where calls without a tariff are compared.
    tariff: Option<&'a TariffSample>,
    /// The sheet of distances with its hauls, where reading accepts it by a tariff that is as it was made.
    priced: Option<Vec<u8>>,
    /// The sheet before any call.
    before: Vec<u8>,
    without_loads: Vec<u8>,
    /// Where question 10 refuses the sheet, the number that it gives without loads.
    beside_10: Option<u8>,
    /// What is true of the sheet beside the tariff where it is refused.
    beside: Vec<Circumstance>,
    seed: u64,
    random: Random,
    tally: &'a mut Tally,
}

/// Makes every call on the sheet, with sets, counts, areas and their bytes drawn from the seed.
pub fn every_call(sample: &Sample, seed: u64, tally: &mut Tally) {
    let mut comparison = Comparison::new(&OTHERS, sample, None, seed, tally);
    comparison.stretches();
    comparison.reading_and_plans();
}

/// Makes every call but those for stretches, which know no tariff, by the tariff beside the sheet.
pub fn every_call_by(beside: &Beside, seed: u64, tally: &mut Tally) {
    Comparison::new(&OTHERS_BY, &beside.sample, Some(&beside.tariff), seed, tally).reading_and_plans();
}

impl<'a> Comparison<'a> {
    fn new(
        others: &'a [Calls],
        sample: &'a Sample,
        tariff: Option<&'a TariffSample>,
        seed: u64,
        tally: &'a mut Tally,
    ) -> Comparison<'a> {
        let (before, without_loads) = (sample.sheet.clone(), without_loads(&sample.sheet));
        let (priced, beside_10, beside) = (None, None, Vec::new());
        let random = Random::new(!seed);
        Comparison { others, sample, tariff, priced, before, without_loads, beside_10, beside, seed, random, tally }
    }

    fn reading_and_plans(&mut self) {
        let tariff_before = self.tariff.map(|tariff| tariff.bytes.clone());
        let counts = self.reading();
        match counts {
            Ok(counts) => self.plans(counts),
            Err(_) => self.refusals(),
        }
        self.shutting(counts.ok());
        self.floors(counts);
        assert!(self.before == self.sample.sheet, "a call wrote to the sheet; {}", self.sheet());
        let tariff_after = self.tariff.map(|tariff| tariff.bytes.clone());
        assert!(tariff_before == tariff_after, "a call wrote to the tariff; {}", self.sheet());
    }

    fn given(&self) -> Tariff<'a> {
        self.tariff.map_or(Tariff::None, TariffSample::tariff)
    }

    fn read(&self, calls: &Calls) -> Answer<Counts> {
        match self.tariff {
            None => (calls.read)(&self.sample.sheet),
            Some(tariff) => (calls.read_by)(&self.sample.sheet, tariff.tariff()),
        }
    }

    fn put(&self, call: PlanCall, calls: &Calls, area: &mut [u8]) -> Answer<Written> {
        match self.tariff {
            None => call.put_to(calls, &self.sample.sheet, area),
            Some(tariff) => call.put_by(calls, &self.sample.sheet, tariff.tariff(), area),
        }
    }

    fn reading(&mut self) -> Answer<Counts> {
        let answer = self.read(&LIBRARY);
        for calls in self.others {
            let (name, other) = (calls.name, self.read(calls));
            assert!(answer == other, "read: library {answer:?}, {name} {other:?}; {}", self.sheet());
        }
        if let Some(made) = self.sample.reading {
            assert!(answer == made, "read: library {answer:?}, made to give {made:?}; {}", self.sheet());
        }
        match self.tariff {
            None if answer == Err(10) => self.beside_10 = literal::read(&self.without_loads).err(),
            None => {}
            Some(tariff) => {
                self.priced = (answer.is_ok() && tariff.asked.is_some()).then(|| tariff.priced(&self.sample.sheet));
                self.beside = self.tally.tariffs.reading(tariff, &self.sample.sheet, answer.err());
            }
        }
        self.count(Name::Read, answer.err());
        answer
    }

    fn count(&mut self, name: Name, refused: Option<u8>) {
        self.tally.answer(name, refused);
        if refused == Some(10) && self.tariff.is_none() {
            self.tally.loads.refused(name, self.beside_10);
        }
        self.tally.tariffs.refused(name, refused, &self.beside);
    }

    /// The stretches of farms below, at and above n, and their bytes to past the end.
    fn stretches(&mut self) {
        let farms = farms_of_good_form(&self.sample.sheet);
        for farm in [0, 1, farms.saturating_sub(1), farms, farms + 1, MOST_FARMS, 256, 1 << 32, usize::MAX] {
            let other = literal::farm_hauls(&self.sample.sheet, farm);
            let length = library::farm_len(&self.sample.sheet, farm);
            assert!(length == other.len(), "farm_len {farm}: {length}, literal {}; {}", other.len(), self.sheet());
            let from = library::farm_from(&self.sample.sheet, farm);
            let other_from =
                if other.is_empty() { 0 } else { other.as_ptr().addr() - self.sample.sheet.as_ptr().addr() };
            assert!(from == other_from, "farm_from {farm}: {from}, literal {other_from}; {}", self.sheet());
            assert!(library::farm_hauls(&self.sample.sheet, farm) == other, "farm_hauls {farm}; {}", self.sheet());
            self.tally.stretch(length);
            let step = if self.large() { 29 } else { 1 };
            for at in (0..length + RECORD).step_by(step).chain([length, 1 << 32, usize::MAX]) {
                let expected = other.get(at).copied().unwrap_or(0);
                let byte = library::farm_byte(&self.sample.sheet, farm, at);
                assert!(byte == expected, "farm_byte {farm}, {at}: {byte}, literal {expected}; {}", self.sheet());
                self.tally.bytes += 1;
            }
        }
    }

    /// Calls on a sheet that reading refuses.
    fn refusals(&mut self) {
        let any_set = self.random.draw() as u32;
        let mut calls = vec![PlanCall::OpenPlan];
        calls.extend([0, 1, any_set].map(|set| PlanCall::Price { set }));
        calls.extend([0, 1, usize::MAX].map(|k| PlanCall::LimitedPlan { k }));
        for call in calls {
            let any_length = self.random.between(1, MOST_AREA as u64) as usize;
            for length in [0, any_length, MOST_AREA + 1] {
                self.plan(call, length);
            }
        }
    }

    /// Calls on an accepted sheet.
    fn plans(&mut self, counts: Counts) {
        let enough = least_area(counts.yards, counts.farms);
        let large = self.large();
        for call in self.calls(counts.yards, large) {
            let written = self.plan(call, enough);
            let mut lengths = vec![enough - 1, enough + 1, enough + self.random.between(2, 99) as usize, 0];
            lengths.extend(written);
            if large {
                lengths = self.some_of(1, lengths);
            }
            for length in lengths {
                self.plan(call, length);
            }
        }
    }

    /// Every set; counts from 0 to past m, and ones whose low part alone would pass.
    fn calls(&mut self, yards: usize, large: bool) -> Vec<PlanCall> {
        let sets = self.sets(yards, large);
        let past_yards = [yards + 1, MOST_YARDS + 1, 257, (1 << 32) + 1, usize::MAX];
        let mut counts: Vec<usize> = (0..=yards).chain(past_yards).collect();
        if large {
            counts = self.some_of(CHOICE, counts);
        }
        let mut calls = vec![PlanCall::OpenPlan];
        calls.extend(sets.into_iter().map(|set| PlanCall::Price { set }));
        calls.extend(counts.into_iter().map(|k| PlanCall::LimitedPlan { k }));
        calls
    }

    /// Sets with and without marks at m and above.
    fn sets(&mut self, yards: usize, large: bool) -> Vec<u32> {
        let all = u32::MAX >> (u32::BITS as usize - yards);
        let mut next = || self.random.draw() as u32;
        let within = [1, all, all >> (yards / 2), next() & all, next() & all, next() & all, next() & next() & all];
        let past_all = [0, u32::MAX, 1 << 31, all.wrapping_add(1), all.wrapping_add(1) | next() & all, next()];
        let mut sets: Vec<u32> = within.into_iter().chain(past_all).collect();
        if large {
            sets = self.some_of(CHOICE, sets);
            sets.push(all);
        }
        sets
    }

    /// One call with an area of the given length, filled with random bytes before: the library's against each other implementation's.
    /// Gives the bytes written, if the call is accepted.
    fn plan(&mut self, call: PlanCall, length: usize) -> Option<usize> {
        let pattern: Vec<u8> = (0..length + 2 * MARGIN).map(|_| self.random.draw() as u8).collect();
        let lent = MARGIN..MARGIN + length;
        let mut area = pattern.clone();
        let answer = self.put(call, &LIBRARY, &mut area[lent.clone()]);
        let ours = || format!("{call:?} with an area of {length} bytes: library {answer:?}");
        let compare = |name: &str, put: &dyn Fn(&mut [u8]) -> Answer<Written>| {
            let mut other_area = pattern.clone();
            let other = put(&mut other_area[lent.clone()]);
            let difference = first_difference(&area, &other_area);
            let same = answer == other && difference.is_none();
            assert!(same, "{}, {name} {other:?}; {difference:?}; {}", ours(), self.sheet());
        };
        for calls in self.others {
            compare(calls.name, &|area| self.put(call, calls, area));
        }
        if let Some(priced) = &self.priced {
            compare("library on the priced hauls", &|area| call.put_to(&LIBRARY, priced, area));
        }
        let written = answer.map(|written| written.bytes).ok();
        let plan = MARGIN..MARGIN + written.unwrap_or(0);
        let mut expected = pattern;
        expected[plan.clone()].copy_from_slice(&area[plan.clone()]);
        let difference = first_difference(&area, &expected);
        assert!(difference.is_none(), "{}; not as before the call: {difference:?}; {}", ours(), self.sheet());
        self.count(Name::of(call), answer.err());
        self.tally.moves += answer.map_or(0, |written| written.moves.into());
        self.tally.loads.plan(call, &area[plan.clone()], &self.without_loads, self.given());
        self.choices(Name::of(call), &area[plan]);
        written
    }

    /// Counts the farms of a plan by what their yard was chosen by, as literal sees it.
    fn choices(&mut self, name: Name, plan: &[u8]) {
        for by in literal::chosen_by(&self.sample.sheet, self.given(), opened(plan)) {
            self.tally.choice(name, by);
        }
    }

    fn large(&self) -> bool {
        self.sample.sheet.len() > RECORD * MANY_RECORDS
    }

    fn some_of<T: Copy>(&mut self, count: usize, list: Vec<T>) -> Vec<T> {
        (0..count).map(|_| list[self.random.between(0, list.len() as u64 - 1) as usize]).collect()
    }

    /// The sheet in the message of a failed comparison.
    fn sheet(&self) -> String {
        let Sample { name, sheet, .. } = self.sample;
        let printed = sheet.iter().take(LONGEST_PRINTED).map(|byte| format!("{byte:02x}")).collect::<String>();
        let tariff = self.tariff.map_or(String::new(), |tariff| format!(", {}: {:02x?}", tariff.name, tariff.bytes));
        format!("seed {}, {name}, {} bytes: {printed}{tariff}", self.seed, sheet.len())
    }
}

/// How many farms a sheet of good form has, 0 for others: each farm's stretch is as long as that of farm 0 or the yards.
fn farms_of_good_form(sheet: &[u8]) -> usize {
    match literal::farm_hauls(sheet, 0).len() {
        0 => 0,
        stretch => sheet.len() / stretch - 1,
    }
}

/// A byte of the area, counted from its start, with its two values; below 0 and past the end it lies in a margin.
#[derive(Debug)]
#[allow(dead_code)] // read by the message of a failed comparison
struct Difference {
    byte: isize,
    library: u8,
    other: u8,
}

fn first_difference(area: &[u8], other: &[u8]) -> Option<Difference> {
    let at = (0..area.len()).find(|&at| area[at] != other[at])?;
    Some(Difference { byte: at as isize - MARGIN as isize, library: area[at], other: other[at] })
}
