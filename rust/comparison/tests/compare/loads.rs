//! How many plans and refusals had to do with loads, by call.
use super::tally::NAMES;
use super::Name;
use comparison::calls::{PlanCall, FAST};
use planner::format::{FARM, HAUL, MOST_AREA, OPEN, RECORD};
use planner::Tariff;

/// What one call had to do with loads.
#[derive(Clone, Copy, Default)]
pub struct OfCall {
    /// Plans with a farm of more than one load.
    pub plans: u64,
    /// Those of them whose yards would be others without loads.
    pub other_yards: u64,
    /// The farms of all plans by their byte: 0, 1, above 1.
    pub farms: [u64; 3],
    /// Refusals with 10: where it is the only fault, where question 5 would be answered no too, where question 6 would.
    pub refused: [u64; 3],
}

#[derive(Default)]
pub struct Loads {
    calls: [OfCall; NAMES.len()],
}

impl Loads {
    /// A plan that a call wrote, its sheet without loads, and the tariff.
    pub fn plan(&mut self, call: PlanCall, plan: &[u8], without_loads: &[u8], tariff: Tariff) {
        let seen = &mut self.calls[Name::of(call) as usize];
        let farms = plan.chunks_exact(RECORD).filter(|record| record[0] == FARM);
        let mut most = 0;
        for record in farms {
            seen.farms[usize::from(record[3].min(2))] += 1;
            most = most.max(record[3]);
        }
        if most > 1 {
            seen.plans += 1;
            seen.other_yards += u64::from(opened(plan) != opened(&planned(call, without_loads, tariff)));
        }
    }

    /// A refusal with 10, and the number that reading gives the sheet without loads.
    pub fn refused(&mut self, name: Name, without_loads: Option<u8>) {
        let place = without_loads.map_or(0, |number| usize::from(number - 4));
        self.calls[name as usize].refused[place] += 1;
    }

    pub fn of(&self, name: Name) -> OfCall {
        self.calls[name as usize]
    }

    pub fn print(&self) {
        println!("plans with loads above 1, of them with other yards than without loads; farms by byte 0, 1, above;");
        println!("refused with 10 alone, beside 5, beside 6:");
        for name in NAMES {
            let OfCall { plans, other_yards, farms, refused } = self.of(name);
            println!("{:>12} {plans}, {other_yards}; {farms:?}; {refused:?}", format!("{name:?}"));
        }
    }
}

/// The sheet with byte 3 of every haul zero.
pub fn without_loads(sheet: &[u8]) -> Vec<u8> {
    let mut sheet = sheet.to_vec();
    for record in sheet.chunks_exact_mut(RECORD).filter(|record| record[0] == HAUL) {
        record[3] = 0;
    }
    sheet
}

/// The records of a plan of an accepted sheet, by the fast program.
fn planned(call: PlanCall, sheet: &[u8], tariff: Tariff) -> Vec<u8> {
    let mut area = vec![0; MOST_AREA];
    let written = call.put_by(&FAST, sheet, tariff, &mut area).expect("accepted with loads and without");
    area.truncate(written.bytes);
    area
}

/// The yards of a plan as a set.
pub fn opened(plan: &[u8]) -> u32 {
    let opened = plan.chunks_exact(RECORD).filter(|record| record[0] == OPEN);
    opened.fold(0, |set, record| set | 1 << record[1])
}
