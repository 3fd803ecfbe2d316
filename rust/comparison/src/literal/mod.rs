//! Document 01, with papers 1, 2, 3, 5 and 10 of document 02, written a second time, sentence by sentence and in its order, to
//! compare the proved library with. Plain before fast: every question is asked over the whole sheet and every move is priced from
//! nothing.
mod floor;
mod haul_sheet;
mod plan_area;
mod questions;
mod search;
mod shut;
mod tariff;
#[cfg(test)]
mod tests;

use planner::{Answer, Counts, Tariff, Written};
use questions::{ask, ask_1_to_4, ask_1_to_6, question_7, question_8, question_9};
use search::Settled;

pub use floor::floor_by;
pub use search::{ChosenBy, Move};
pub use shut::{second_by, shut_by};

/// Reading asks 1 to 6 and returns m and n. Wherever 1 to 6 are asked, paper 2 has 10 asked after 4.
pub fn read(sheet: &[u8]) -> Answer<Counts> {
    read_by(sheet, Tariff::None)
}

/// Paper 3: every call on a sheet, but for that giving a farm's stretch, may be given a tariff, or the house one, beside it.
pub fn read_by(sheet: &[u8], tariff: Tariff) -> Answer<Counts> {
    let sheet = ask_1_to_6(sheet, tariff)?;
    Ok(Counts { yards: sheet.m(), farms: sheet.n() })
}

/// A farm's hauls as that stretch of the caller's sheet, empty for a farm n or above and where questions 1 to 4 turn it down.
/// Question 10 is not asked here.
pub fn farm_hauls(sheet: &[u8], farm: usize) -> &[u8] {
    match ask_1_to_4(sheet) {
        Ok(accepted) if farm < accepted.n() => haul_sheet::stretch(sheet, accepted.m(), farm),
        _ => &[],
    }
}

/// Pricing asks 1 to 6, 8 and 9.
pub fn price(sheet: &[u8], set: u32, area: &mut [u8]) -> Answer<Written> {
    price_by(sheet, Tariff::None, set, area)
}

/// The same by a tariff.
pub fn price_by(sheet: &[u8], tariff: Tariff, set: u32, area: &mut [u8]) -> Answer<Written> {
    let sheet = ask_1_to_6(sheet, tariff)?;
    ask(8, question_8(&sheet, set))?;
    ask(9, question_9(&sheet, area))?;
    let priced = Settled { set, moves: Vec::new() };
    Ok(plan_area::write(&sheet, &priced, sheet.full_cost(set), area))
}

/// An open plan asks 1 to 6 and 9.
pub fn open_plan(sheet: &[u8], area: &mut [u8]) -> Answer<Written> {
    open_plan_by(sheet, Tariff::None, area)
}

/// The same by a tariff.
pub fn open_plan_by(sheet: &[u8], tariff: Tariff, area: &mut [u8]) -> Answer<Written> {
    let sheet = ask_1_to_6(sheet, tariff)?;
    ask(9, question_9(&sheet, area))?;
    let settled = search::open_plan(&sheet);
    Ok(plan_area::write(&sheet, &settled, sheet.full_cost(settled.set), area))
}

/// A limited plan asks 1 to 6, 7 and 9.
pub fn limited_plan(sheet: &[u8], k: usize, area: &mut [u8]) -> Answer<Written> {
    limited_plan_by(sheet, Tariff::None, k, area)
}

/// The same by a tariff.
pub fn limited_plan_by(sheet: &[u8], tariff: Tariff, k: usize, area: &mut [u8]) -> Answer<Written> {
    let sheet = ask_1_to_6(sheet, tariff)?;
    ask(7, question_7(&sheet, k))?;
    ask(9, question_9(&sheet, area))?;
    let settled = search::limited_plan(&sheet, k);
    Ok(plan_area::write(&sheet, &settled, sheet.haul_cost(settled.set), area))
}

/// The moves of the open plan, first to last; none where reading refuses the sheet.
pub fn open_moves(sheet: &[u8]) -> Vec<Move> {
    ask_1_to_6(sheet, Tariff::None).map_or(Vec::new(), |sheet| search::open_plan(&sheet).moves)
}

/// What each farm's yard of a set is chosen by; of no farm where a question of 11, 12, 1 to 4 and 8 is answered no.
pub fn chosen_by(sheet: &[u8], tariff: Tariff, set: u32) -> Vec<ChosenBy> {
    let (Ok(bands), Ok(mut sheet)) = (tariff::ask_11_and_12(tariff), ask_1_to_4(sheet)) else {
        return Vec::new();
    };
    if !question_8(&sheet, set) {
        return Vec::new();
    }
    if let Some(bands) = bands {
        sheet = tariff::priced(sheet, &bands);
    }
    (0..sheet.n()).map(|farm| sheet.chosen_by(set, farm)).collect()
}
