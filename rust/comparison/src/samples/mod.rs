//! Seeded sheets of every kind: tables by the way their amounts are drawn (`tables`), with loads (`loads`), sheets of good
//! form (`good_form`), sheets with a fault made on purpose (`faults`) or by chance (`chance`), those that document 01 names
//! (`named`), and the kept sheets whose open plan drops a yard (`kept`); tariffs (`tariffs`), broken ones (`breaks`), sheets of
//! distances (`distances`), and a tariff beside a sheet (`beside`); and offers of one amount per farm (`offers`).
use crate::random::Random;
use planner::table::Table;
use planner::{Answer, Counts};

mod beside;
mod breaks;
mod chance;
mod distances;
mod faults;
mod good_form;
mod kept;
mod loads;
mod named;
mod offers;
mod tables;
mod tariffs;

pub use beside::{
    accepted_by, damaged_by, faulty_by, fee_too_high_by, loose_by, refused_by, to_the_cent_by, too_far_beside,
    too_far_by, Beside,
};
pub use breaks::refused_tariffs;
pub use chance::{damaged, loose_records, random_bytes};
pub use distances::put_amount;
pub use faults::{faulty, several_faults};
pub use good_form::{accepted, broken_by_one_cent, kept_to_the_cent, tied, unrepaired};
pub use kept::{kept, kept_moves};
pub use loads::{any_loads, put_loads, with_any_loads};
pub use named::named;
pub use offers::{
    accepted_offers, any_offers, broken_offers, fee_just_met, huge_offers, one_cent_over, tight_offers, BREAKS,
};
pub use tables::{from_lists, manhattan, plane, repair, small_amounts, within_threefold};
pub use tariffs::{house_tariff, one_rate, tariff, TariffSample};

/// A sheet under the name that a failed comparison prints.
#[derive(Clone, Debug)]
pub struct Sample {
    pub name: String,
    pub sheet: Vec<u8>,
    /// What reading answers, where the way the sheet was made settles it.
    pub reading: Option<Answer<Counts>>,
}

impl Sample {
    /// A sheet of the right form, which reading accepts or refuses for the given question.
    fn of_table(name: &str, table: &Table, refused: Option<u8>) -> Sample {
        let counts = Counts { yards: table.fees.len(), farms: table.hauls.len() };
        let loads = table.loads.iter().max().copied().unwrap_or(0);
        let name = format!("{name}, {} yards, {} farms, loads up to {loads}", counts.yards, counts.farms);
        Sample { name, sheet: table.sheet(), reading: Some(refused.map_or(Ok(counts), Err)) }
    }
}

/// A number below `count`.
fn below(random: &mut Random, count: usize) -> usize {
    random.between(0, count as u64 - 1) as usize
}
