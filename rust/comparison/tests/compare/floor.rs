//! The call of paper 10 of document 02 on one sheet, with offers of every kind: the proved library against the other implementations
//! and against its own prices of sets, and how many of them had to do with what.
use super::shut::{total, RARELY};
use super::{farms_of_good_form, Comparison, Name, CHOICE, OTHERS_BY};
use comparison::calls::LITERAL;
use comparison::random::Random;
use comparison::samples::{self, BREAKS};
use planner::format::{offers, MOST_AREA, RECORD};
use planner::table::Table;
use planner::{library, Answer, Counts, Tariff};

/// What is counted over these calls.
#[derive(Clone, Copy)]
enum Fact {
    Accepted,
    Tight,
    AsCheapAsASet,
    FeeJustMet,
    AmountOneCentOver,
    FeeOneCentBelow,
    Huge,
    OtherByLoads,
    BrokenBesideOverbid,
    SheetRefusedFirst,
}

const FACTS: [(Fact, &str); 10] = [
    (Fact::Accepted, "offers accepted by the way they are made"),
    (Fact::Tight, "accepted offers of which none can be raised"),
    (Fact::AsCheapAsASet, "sums that are the full cost of a set"),
    (Fact::FeeJustMet, "accepted offers that just meet a fee"),
    (Fact::AmountOneCentOver, "refused with 16, an amount one cent too high"),
    (Fact::FeeOneCentBelow, "refused with 16, one yard overbid by one cent"),
    (Fact::Huge, "refused with 16, huge amounts"),
    (Fact::OtherByLoads, "answers to offers that would be others without loads"),
    (Fact::BrokenBesideOverbid, "refused with 15 beside 16"),
    (Fact::SheetRefusedFirst, "refused sheets beside broken offers"),
];

#[derive(Default)]
pub struct Floor {
    facts: [u64; FACTS.len()],
    /// Refused with 15, by the way to be broken.
    broken: [u64; BREAKS.len()],
}

impl Floor {
    fn see(&mut self, fact: Fact) {
        self.facts[fact as usize] += 1;
    }

    pub fn facts(&self) -> Vec<(&'static str, u64)> {
        let facts = FACTS.map(|(fact, text)| (text, self.facts[fact as usize]));
        let broken = BREAKS.iter().zip(self.broken).map(|(&(text, _), count)| (text, count));
        facts.into_iter().chain(broken).collect()
    }
}

/// One amount per farm at these prices.
type Maker = fn(&mut Random, &Table) -> Vec<u32>;

/// Offers that are refused with 16 by the way they are made.
const OVERBIDS: [(Fact, Maker); 2] =
    [(Fact::AmountOneCentOver, samples::one_cent_over), (Fact::Huge, samples::huge_offers)];

impl Comparison<'_> {
    /// The calls on a sheet with these counts, or on one that reading refuses.
    pub fn floors(&mut self, counts: Answer<Counts>) {
        let counts = match counts {
            Ok(counts) => counts,
            Err(number) => return self.offers_beside_refusal(number),
        };
        let prices = self.own_prices(counts.yards);
        for _ in 0..CHOICE {
            let any = samples::any_offers(&mut self.random, counts.farms);
            self.offered(&any, &prices, None);
        }
        // By a damaged tariff the priced hauls are not known here.
        let hauls = if self.tariff.is_none() { Some(&self.before) } else { self.priced.as_ref() };
        if let Some(table) = hauls.map(|sheet| Table::of_sheet(sheet, counts.yards)) {
            self.accepted_offers(&table, &prices);
            self.tight_offers(&table, &prices);
            self.overbids(&table, &prices);
        }
        self.broken_offers(&vec![0; counts.farms], None);
    }

    /// The full costs of sets by the library's own plans, and that of its open plan.
    fn own_prices(&mut self, yards: usize) -> Vec<u64> {
        let large = self.large();
        let sets = self.sets(yards, large);
        let mut open_plan = vec![0; MOST_AREA];
        library::open_plan_by(&self.sample.sheet, self.given(), &mut open_plan).expect("an accepted sheet");
        let plans = sets.into_iter().filter_map(|set| self.own_plan(set).ok()).chain([open_plan]);
        plans.map(|plan| total(&plan) as u64).collect()
    }

    fn accepted_offers(&mut self, table: &Table, prices: &[u64]) {
        for _ in 0..CHOICE {
            let amounts = samples::accepted_offers(&mut self.random, table);
            self.offered(&amounts, prices, Some((Fact::Accepted, Ok(sum(table, &amounts)))));
        }
    }

    /// No yard is overbid, though none of the amounts can be raised. With a fee just met they are accepted, and with one a cent lower
    /// that yard alone is overbid, by one cent.
    fn tight_offers(&mut self, table: &Table, prices: &[u64]) {
        let amounts = samples::tight_offers(&mut self.random, table);
        let accepted = Ok(sum(table, &amounts));
        self.offered(&amounts, prices, Some((Fact::Tight, accepted)));
        let farm = self.random.between(0, amounts.len() as u64 - 1) as usize;
        let mut raised = amounts.clone();
        raised[farm] += 1;
        self.offered(&raised, prices, Some((Fact::AmountOneCentOver, Err(16))));
        if let Some((yard, fee)) = samples::fee_just_met(&mut self.random, table, &amounts) {
            let bytes = offers(&amounts);
            let answers = [fee, fee - 1].map(|fee| self.floor(&bytes, Some((yard, fee))));
            self.made(&bytes, answers[0], Fact::FeeJustMet, accepted);
            self.made(&bytes, answers[1], Fact::FeeOneCentBelow, Err(16));
        }
    }

    fn overbids(&mut self, table: &Table, prices: &[u64]) {
        for (fact, make) in OVERBIDS {
            let amounts = make(&mut self.random, table);
            self.offered(&amounts, prices, Some((fact, Err(16))));
            self.broken_offers(&amounts, Some(Fact::BrokenBesideOverbid));
        }
    }

    /// These amounts in records broken in every way.
    fn broken_offers(&mut self, amounts: &[u32], beside: Option<Fact>) {
        for (way, broken) in samples::broken_offers(&mut self.random, &offers(amounts)) {
            let (answer, name) = (self.floor(&broken, None), BREAKS[way].0);
            assert!(answer == Err(15), "{name}: library {answer:?}; {}", self.sheet_and(&broken));
            match beside {
                Some(fact) => self.tally.floor.see(fact),
                None => self.tally.floor.broken[way] += 1,
            }
        }
    }

    /// Offers, whole and broken, beside a sheet that reading refuses with this number.
    fn offers_beside_refusal(&mut self, number: u8) {
        let farms = farms_of_good_form(&self.sample.sheet).max(1);
        let amounts = samples::any_offers(&mut self.random, farms);
        let answer = self.floor(&offers(&amounts), None);
        assert!(answer == Err(number), "floor: {answer:?}, read: refused with {number}; {}", self.sheet());
        let broken = samples::broken_offers(&mut self.random, &offers(&amounts));
        for at in self.some_of(CHOICE, (0..broken.len()).collect()) {
            let answer = self.floor(&broken[at].1, None);
            assert!(answer == Err(number), "floor: {answer:?}, read: refused with {number}; {}", self.sheet());
            self.tally.floor.see(Fact::SheetRefusedFirst);
        }
    }

    /// Whole records of these amounts, whose answer may be settled by the way they are made. An accepted sum is at most each of these
    /// prices of sets.
    fn offered(&mut self, amounts: &[u32], prices: &[u64], made: Option<(Fact, Answer<u64>)>) {
        let bytes = offers(amounts);
        let answer = self.floor(&bytes, None);
        if let Ok(sum) = answer {
            let least = *prices.iter().min().expect("an open plan");
            assert!(sum <= least, "floor {sum}, a set costs {least}; {}", self.sheet_and(&bytes));
            if sum == least {
                self.tally.floor.see(Fact::AsCheapAsASet);
            }
        }
        if library::floor_by(&self.without_loads, self.given(), &bytes) != answer {
            self.tally.floor.see(Fact::OtherByLoads);
        }
        if let Some((fact, made)) = made {
            self.made(&bytes, answer, fact, made);
        }
    }

    fn made(&mut self, offers: &[u8], answer: Answer<u64>, fact: Fact, made: Answer<u64>) {
        assert!(answer == made, "floor: library {answer:?}, made to give {made:?}; {}", self.sheet_and(offers));
        self.tally.floor.see(fact);
    }

    /// The library's answer, on the sheet or on one with another fee of a yard: it is that of each other implementation, and that of
    /// the library on the priced hauls. The second program takes long on a large sheet and is asked there now and then.
    fn floor(&mut self, offers: &[u8], fee: Option<(usize, u32)>) -> Answer<u64> {
        let with_fee = |sheet: &[u8]| {
            let mut sheet = sheet.to_vec();
            fee.into_iter().for_each(|(yard, fee)| samples::put_amount(&mut sheet, RECORD * yard, fee));
            sheet
        };
        let (sheet, offers_before) = (with_fee(&self.sample.sheet), offers.to_vec());
        let answer = library::floor_by(&sheet, self.given(), offers);
        assert!(sheet == with_fee(&self.before), "the call wrote to the sheet; {}", self.sheet_and(offers));
        assert!(offers == offers_before, "the call wrote to the offers; {}", self.sheet_and(&offers_before));
        let all = !self.large() || self.random.one_in(RARELY);
        for calls in OTHERS_BY.iter().filter(|calls| all || calls.name != LITERAL.name) {
            let (name, other) = (calls.name, (calls.floor_by)(&sheet, self.given(), offers));
            assert!(answer == other, "floor: library {answer:?}, {name} {other:?}; {}", self.sheet_and(offers));
        }
        if let Some(priced) = &self.priced {
            let other = library::floor_by(&with_fee(priced), Tariff::None, offers);
            assert!(answer == other, "floor: {answer:?}, on the priced hauls {other:?}; {}", self.sheet_and(offers));
        }
        self.count(Name::Floor, answer.err());
        answer
    }

    fn sheet_and(&self, offers: &[u8]) -> String {
        format!("offers {offers:02x?}; {}", self.sheet())
    }
}

/// Loads times amounts.
fn sum(table: &Table, amounts: &[u32]) -> u64 {
    (0..).zip(amounts).map(|(farm, &amount)| table.loads_of(farm) * u64::from(amount)).sum()
}
