//! The calls of paper 5 of document 02 on one sheet: the proved library against the second program and against its own plans of
//! sets, and how many of them had to do with what.
use super::{Comparison, Name, CHOICE};
use comparison::calls::{ShutCalls, SHUT_LIBRARY, SHUT_LITERAL};
use comparison::literal::{self, ChosenBy};
use planner::format::{amount, FARM, MOST_AREA, MOST_FARMS, MOST_YARDS, RECORD, TOTAL};
use planner::{library, Answer, Counts, Second, Tariff};
use std::cmp::Ordering;
use std::fmt::Debug;

/// On a large sheet, one call in so many is put to the second program.
pub const RARELY: u64 = 60;

/// What is counted over these calls.
#[derive(Clone, Copy)]
enum Fact {
    Saves,
    ChangesNothing,
    CostsMore,
    OtherByLoads,
    NotInTheSet,
    NoYardOfTheSheet,
    OnlyYard,
    SetRefusedFirst,
    ByHaul,
    ByFee,
    ByNumber,
    AsNearAsTheFirst,
    NoneWhereOneIsOpen,
    NoFarmOfTheSheet,
}

const FACTS: [(Fact, &str); 14] = [
    (Fact::Saves, "changes below zero"),
    (Fact::ChangesNothing, "changes of zero"),
    (Fact::CostsMore, "changes above zero"),
    (Fact::OtherByLoads, "changes that would be others without loads"),
    (Fact::NotInTheSet, "refused with 14, a yard that is not in the set"),
    (Fact::NoYardOfTheSheet, "refused with 14, a number m or above"),
    (Fact::OnlyYard, "refused with 14, the only yard"),
    (Fact::SetRefusedFirst, "refused with 8 beside 14"),
    (Fact::ByHaul, "second yards chosen by the haul"),
    (Fact::ByFee, "second yards chosen by the fee"),
    (Fact::ByNumber, "second yards chosen by the number"),
    (Fact::AsNearAsTheFirst, "second yards as near as the first"),
    (Fact::NoneWhereOneIsOpen, "no second yard where one is open"),
    (Fact::NoFarmOfTheSheet, "no second yard for a farm n or above"),
];

#[derive(Default)]
pub struct Shut {
    facts: [u64; FACTS.len()],
}

impl Shut {
    fn see(&mut self, fact: Fact) {
        self.facts[fact as usize] += 1;
    }

    pub fn facts(&self) -> [(&'static str, u64); FACTS.len()] {
        FACTS.map(|(fact, text)| (text, self.facts[fact as usize]))
    }
}

impl Comparison<'_> {
    /// The calls on a sheet with these counts, or on one that reading refuses.
    pub fn shutting(&mut self, counts: Option<Counts>) {
        let any_set = self.random.draw() as u32;
        let large = self.large();
        let sets = counts.map_or(vec![0, 1, any_set], |counts| self.sets(counts.yards, large));
        let Counts { yards, farms } = counts.unwrap_or(Counts { yards: 1, farms: 1 });
        for set in sets {
            let plan = self.own_plan(set);
            for yard in self.numbers(yards, no_yards(yards, set), plan.is_err()) {
                self.shut_yard(set, yard, yards, &plan);
            }
            for farm in self.numbers(farms, no_farms(farms), plan.is_err()) {
                self.second_yard(set, farm, &plan);
            }
        }
    }

    /// All numbers below a count and a choice of those above, or a choice of all.
    fn numbers(&mut self, count: usize, above: Vec<usize>, few: bool) -> Vec<usize> {
        if few {
            return self.some_of(CHOICE, (0..count).chain(above).collect());
        }
        (0..count).chain(self.some_of(CHOICE, above)).collect()
    }

    /// What shutting the yard changes; by the library's own prices it is that of the set without the yard less that of the set.
    fn shut_yard(&mut self, set: u32, yard: usize, yards: usize, plan: &Answer<Vec<u8>>) {
        let answer = self.shut(set, yard);
        let marked = yard < MOST_YARDS && set >> yard & 1 == 1;
        let can_shut = marked && !set.is_power_of_two();
        let own = match plan {
            Err(number) => Err(*number),
            Ok(_) if !can_shut => Err(14),
            Ok(plan) => Ok(total(&self.own_plan(set & !(1 << yard)).expect("a yard is left")) - total(plan)),
        };
        assert!(answer == own, "shut {yard} of {set:b}: {answer:?}, by prices {own:?}; {}", self.sheet());
        let fact = match own.map(|change| change.cmp(&0)) {
            Ok(Ordering::Less) => Fact::Saves,
            Ok(Ordering::Equal) => Fact::ChangesNothing,
            Ok(Ordering::Greater) => Fact::CostsMore,
            Err(14) if marked => Fact::OnlyYard,
            Err(14) if yard < yards => Fact::NotInTheSet,
            Err(14) => Fact::NoYardOfTheSheet,
            Err(8) if !can_shut => Fact::SetRefusedFirst,
            Err(_) => return,
        };
        self.tally.shut.see(fact);
        if own.is_ok() && library::shut_by(&self.without_loads, self.given(), set, yard) != own {
            self.tally.shut.see(Fact::OtherByLoads);
        }
    }

    /// A farm's second yard; by the library's own plans it is the farm's yard in that of the set without its first one.
    fn second_yard(&mut self, set: u32, farm: usize, plan: &Answer<Vec<u8>>) {
        let answer = self.second(set, farm);
        let first = plan.as_ref().ok().and_then(|plan| yard_in(plan, farm));
        let without = first.map_or(0, |first| set & !(1 << first.yard));
        let own = match plan {
            Err(number) => Err(*number),
            Ok(_) => Ok(self.own_plan(without).ok().and_then(|plan| yard_in(&plan, farm))),
        };
        assert!(answer == own, "second {farm} of {set:b}: {answer:?}, by plans {own:?}; {}", self.sheet());
        let fact = match (first, own) {
            (_, Err(_)) => return,
            (None, _) => Fact::NoFarmOfTheSheet,
            (_, Ok(None)) => Fact::NoneWhereOneIsOpen,
            (Some(first), Ok(Some(second))) => {
                if second.haul == first.haul {
                    self.tally.shut.see(Fact::AsNearAsTheFirst);
                }
                match literal::chosen_by(&self.sample.sheet, self.given(), without)[farm] {
                    ChosenBy::Haul => Fact::ByHaul,
                    ChosenBy::Fee => Fact::ByFee,
                    ChosenBy::Number => Fact::ByNumber,
                }
            }
        };
        self.tally.shut.see(fact);
    }

    fn second(&mut self, set: u32, farm: usize) -> Answer<Option<Second>> {
        let name = format!("second {farm} of {set:b}");
        let answer = self.same(&name, |calls, sheet, tariff| (calls.second_by)(sheet, tariff, set, farm));
        self.count(Name::Second, answer.err());
        answer
    }

    fn shut(&mut self, set: u32, yard: usize) -> Answer<i64> {
        let name = format!("shut {yard} of {set:b}");
        let answer = self.same(&name, |calls, sheet, tariff| (calls.shut_by)(sheet, tariff, set, yard));
        self.count(Name::Shut, answer.err());
        answer
    }

    /// The library's answer, which is that of the second program and that of the library on the priced hauls. The second program
    /// takes long on a large sheet and is asked there now and then.
    fn same<T: PartialEq + Debug>(&mut self, name: &str, put: impl Fn(&ShutCalls, &[u8], Tariff) -> T) -> T {
        let answer = put(&SHUT_LIBRARY, &self.sample.sheet, self.given());
        if !self.large() || self.random.one_in(RARELY) {
            let other = put(&SHUT_LITERAL, &self.sample.sheet, self.given());
            assert!(answer == other, "{name}: library {answer:?}, literal {other:?}; {}", self.sheet());
        }
        if let Some(priced) = &self.priced {
            let other = put(&SHUT_LIBRARY, priced, Tariff::None);
            assert!(answer == other, "{name}: library {answer:?}, on the priced hauls {other:?}; {}", self.sheet());
        }
        answer
    }

    /// The library's plan of a set, or the number with which it refuses sheet or set.
    pub fn own_plan(&self, set: u32) -> Answer<Vec<u8>> {
        let mut area = vec![0; MOST_AREA];
        let written = library::price_by(&self.sample.sheet, self.given(), set, &mut area)?;
        area.truncate(written.bytes);
        Ok(area)
    }
}

/// Numbers of no yard, some of which would be a yard of the set by their low part alone.
fn no_yards(yards: usize, set: u32) -> Vec<usize> {
    let marked = set.trailing_zeros() as usize;
    let low_part = [MOST_YARDS, 64, 256, 1 << 32].map(|more| marked + more);
    [yards, MOST_YARDS, 33, 255, 256, 1 << 32, usize::MAX].into_iter().chain(low_part).collect()
}

fn no_farms(farms: usize) -> Vec<usize> {
    vec![farms, farms + 1, MOST_FARMS, 255, 256, 1 << 32, usize::MAX]
}

pub fn total(plan: &[u8]) -> i64 {
    let record = plan.chunks_exact(RECORD).find(|record| record[0] == TOTAL).expect("a plan has its total");
    amount(record).into()
}

/// The farm's yard and haul in a plan.
fn yard_in(plan: &[u8], farm: usize) -> Option<Second> {
    let mut farms = plan.chunks_exact(RECORD).filter(|record| record[0] == FARM);
    let record = farms.find(|record| usize::from(record[2]) == farm)?;
    Some(Second { yard: record[1].into(), haul: amount(record) })
}
