//! How many calls were compared, by call and by answer, and how many farms of their plans, by what their yard was chosen by.
use super::floor::Floor;
use super::loads::Loads;
use super::shut::Shut;
use super::tariffs::Tariffs;
use comparison::calls::PlanCall;
use comparison::literal::ChosenBy;

#[derive(Clone, Copy, Debug)]
pub enum Name {
    Read,
    Price,
    OpenPlan,
    LimitedPlan,
    Second,
    Shut,
    Floor,
}

impl Name {
    pub fn of(call: PlanCall) -> Name {
        match call {
            PlanCall::Price { .. } => Name::Price,
            PlanCall::OpenPlan => Name::OpenPlan,
            PlanCall::LimitedPlan { .. } => Name::LimitedPlan,
        }
    }
}

pub const NAMES: [Name; 7] =
    [Name::Read, Name::Price, Name::OpenPlan, Name::LimitedPlan, Name::Second, Name::Shut, Name::Floor];

#[derive(Default)]
pub struct Tally {
    /// For each call, how often it was accepted (place 0) and refused with each number.
    answers: [[u64; 17]; NAMES.len()],
    /// For each call, the farms of its plans by `ChosenBy`.
    chosen: [[u64; 3]; NAMES.len()],
    pub loads: Loads,
    /// Of second yards and of yards that shut.
    pub shut: Shut,
    /// Of offers.
    pub floor: Floor,
    /// Of calls by a tariff.
    pub tariffs: Tariffs,
    /// Of all accepted calls.
    pub moves: u64,
    pub whole_stretches: u64,
    pub empty_stretches: u64,
    pub bytes: u64,
}

impl Tally {
    pub fn answer(&mut self, name: Name, refused: Option<u8>) {
        self.answers[name as usize][usize::from(refused.unwrap_or(0))] += 1;
    }

    /// A farm of the call's plan.
    pub fn choice(&mut self, name: Name, by: ChosenBy) {
        self.chosen[name as usize][by as usize] += 1;
    }

    pub fn stretch(&mut self, length: usize) {
        if length == 0 {
            self.empty_stretches += 1;
        } else {
            self.whole_stretches += 1;
        }
    }

    /// Calls of reading, pricing, plans and papers 5 and 10; the many calls for the length or a byte of a stretch are not among them.
    pub fn calls(&self) -> u64 {
        self.answers.iter().flatten().sum()
    }

    /// How often the call gave the answer: 0 for accepted, else the refusal number.
    pub fn count(&self, name: Name, answer: u8) -> u64 {
        self.answers[name as usize][usize::from(answer)]
    }

    /// For each call that writes plans, their farms by what the yard was chosen by: haul, fee, number.
    pub fn choices(&self) -> [(Name, [u64; 3]); 3] {
        [Name::Price, Name::OpenPlan, Name::LimitedPlan].map(|name| (name, self.chosen[name as usize]))
    }

    /// What is counted over the calls of papers 5 and 10.
    pub fn facts(&self) -> Vec<(&'static str, u64)> {
        self.shut.facts().into_iter().chain(self.floor.facts()).collect()
    }

    pub fn print(&self) {
        println!("{} calls, each accepted and refused with 1, 2, 3 and so on:", self.calls());
        for name in NAMES {
            let [accepted, refused @ ..] = self.answers[name as usize];
            println!("{:>12} {accepted:>7} {refused:?}", format!("{name:?}"));
        }
        println!("farms by what their yard was chosen by: haul, fee among equal hauls, number among equal fees:");
        for (name, chosen) in self.choices() {
            println!("{:>12} {chosen:?}", format!("{name:?}"));
        }
        self.loads.print();
        self.facts().iter().for_each(|(text, count)| println!("{text}: {count}"));
        self.tariffs.print();
        let Tally { moves, whole_stretches, empty_stretches, bytes, .. } = self;
        println!("{moves} moves");
        println!("{whole_stretches} whole stretches, {empty_stretches} empty ones, {bytes} bytes of them");
    }
}
