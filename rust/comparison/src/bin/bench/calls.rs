//! The calls that are timed, put to each implementation.
use comparison::calls::{Calls, PlanCall, ALL};
use comparison::samples::Sample;
use planner::format::MOST_AREA;
use planner::{Answer, Counts, Tariff, Written};

/// Every second yard.
pub const SIXTEEN_YARDS: u32 = 0x5555_5555;
pub const OPEN_PLAN: Call<'static> = Call::Plan(PlanCall::OpenPlan);
pub const CALLS: [Call<'static>; 5] = [
    Call::Read,
    Call::Plan(PlanCall::Price { set: SIXTEEN_YARDS }),
    OPEN_PLAN,
    Call::Plan(PlanCall::LimitedPlan { k: 8 }),
    Call::Plan(PlanCall::LimitedPlan { k: 16 }),
];

#[derive(Clone, Copy)]
pub enum Call<'a> {
    Read,
    Plan(PlanCall),
    ReadBy(Tariff<'a>),
    PlanBy(PlanCall, Tariff<'a>),
}

#[derive(Debug, PartialEq, Eq)]
pub enum Outcome {
    Counts(Answer<Counts>),
    Written(Answer<Written>),
}

impl Call<'_> {
    pub fn name(self) -> String {
        match self {
            Call::Read | Call::ReadBy(_) => "read".to_string(),
            Call::Plan(call) | Call::PlanBy(call, _) => match call {
                PlanCall::Price { set } => format!("price, {} yards", set.count_ones()),
                PlanCall::OpenPlan => "open plan".to_string(),
                PlanCall::LimitedPlan { k } => format!("limited plan, k = {k}"),
            },
        }
    }

    /// What the fast program has in fewer bits, where it makes a difference.
    pub fn narrower(self) -> Option<&'static str> {
        match self {
            Call::Read | Call::Plan(PlanCall::Price { .. }) => None,
            Call::Plan(_) => Some("  sums of 32 bits"),
            Call::ReadBy(_) | Call::PlanBy(PlanCall::Price { .. }, _) => Some("  prices of 16 bits"),
            Call::PlanBy(..) => Some("  sums of 32 bits, prices of 16"),
        }
    }

    pub fn put_to(self, calls: &Calls, sheet: &[u8], area: &mut [u8]) -> Outcome {
        match self {
            Call::Read => Outcome::Counts((calls.read)(sheet)),
            Call::Plan(call) => Outcome::Written(call.put_to(calls, sheet, area)),
            Call::ReadBy(tariff) => Outcome::Counts((calls.read_by)(sheet, tariff)),
            Call::PlanBy(call, tariff) => Outcome::Written(call.put_by(calls, sheet, tariff, area)),
        }
    }
}

/// The implementations must give the same outcome and area: all refuse the call by this number or, without one,
/// all accept it.
pub fn compare(call: Call, inputs: &[Sample], refused: Option<u8>) -> Result<(), String> {
    for input in inputs {
        let number = match the_same(call, input)? {
            Outcome::Counts(answer) => answer.err(),
            Outcome::Written(answer) => answer.err(),
        };
        if number != refused {
            return Err(format!("{} of {}: refused by {number:?}, not {refused:?}", call.name(), input.name));
        }
    }
    Ok(())
}

fn the_same(call: Call, input: &Sample) -> Result<Outcome, String> {
    let given = |calls: &Calls| {
        let mut area = [0xA5; MOST_AREA];
        (call.put_to(calls, &input.sheet, &mut area), area)
    };
    let [ours, others @ ..] = &ALL;
    let first = given(ours);
    match others.iter().find(|calls| given(calls) != first) {
        Some(other) => Err(format!("{} of {}: library and {} differ", call.name(), input.name, other.name)),
        None => Ok(first.0),
    }
}
