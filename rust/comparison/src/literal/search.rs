//! Document 01, "Price, start, moves".
use super::haul_sheet::HaulSheet;
use super::questions::marks;

impl HaulSheet {
    /// The sum over farms of the smallest haul to a yard of the set, which is not empty. Paper 2 of document 02: hauls
    /// count times loads in every cost.
    pub fn haul_cost(&self, set: u32) -> u64 {
        let smallest = |farm| self.open_yards(set).map(|yard| self.haul(yard, farm)).min();
        (0..self.n()).map(|farm| self.loads(farm) * smallest(farm).expect("the set is not empty")).sum()
    }

    pub fn fees_of(&self, set: u32) -> u64 {
        self.open_yards(set).map(|yard| self.fees[yard]).sum()
    }

    /// The haul cost and the fees of the set's yards.
    pub fn full_cost(&self, set: u32) -> u64 {
        self.haul_cost(set) + self.fees_of(set)
    }

    /// Paper 1: the yard of the set with the smallest haul, among equals the one with the lower fee, and only then
    /// the lower number. This holds in every plan and in pricing.
    pub fn given_yard(&self, set: u32, farm: usize) -> usize {
        let rank = |&yard: &usize| (self.haul(yard, farm), self.fees[yard], yard);
        self.open_yards(set).min_by_key(rank).expect("the set is not empty")
    }

    /// What the farm's yard is chosen by.
    pub fn chosen_by(&self, set: u32, farm: usize) -> ChosenBy {
        let given = self.given_yard(set, farm);
        let as_near = |&yard: &usize| yard != given && self.haul(yard, farm) == self.haul(given, farm);
        let fees: Vec<u64> = self.open_yards(set).filter(as_near).map(|yard| self.fees[yard]).collect();
        if fees.is_empty() {
            ChosenBy::Haul
        } else if fees.contains(&self.fees[given]) {
            ChosenBy::Number
        } else {
            ChosenBy::Fee
        }
    }

    /// The yards of the set, by number.
    pub fn open_yards(&self, set: u32) -> impl Iterator<Item = usize> {
        (0..self.m()).filter(move |&yard| marks(set, yard))
    }

    fn closed_yards(&self, set: u32) -> impl Iterator<Item = usize> {
        (0..self.m()).filter(move |&yard| !marks(set, yard))
    }
}

/// The haul where one yard alone has the smallest, the fee among equal hauls, or the number where fees are equal too.
#[derive(Clone, Copy, Debug, PartialEq, Eq)]
pub enum ChosenBy {
    Haul,
    Fee,
    Number,
}

/// One step of a search.
#[derive(Clone, Copy, Debug, PartialEq, Eq)]
pub enum Move {
    Add { yard: usize },
    Drop { yard: usize },
    Swap { out: usize, into: usize },
}

impl Move {
    /// The set that the move makes of a set.
    fn result(self, set: u32) -> u32 {
        match self {
            Move::Add { yard } => set | bit(yard),
            Move::Drop { yard } => set & !bit(yard),
            Move::Swap { out, into } => (set & !bit(out)) | bit(into),
        }
    }
}

fn bit(yard: usize) -> u32 {
    1 << yard
}

/// Where a search ends, and the moves it made.
pub struct Settled {
    pub set: u32,
    pub moves: Vec<Move>,
}

/// Open plan, by full cost. Start: the single yard of least full cost, the first and so the lowest number among equals.
pub fn open_plan(sheet: &HaulSheet) -> Settled {
    let yard = (0..sheet.m()).min_by_key(|&yard| sheet.full_cost(bit(yard))).expect("the sheet has a yard");
    settle(sheet, bit(yard), HaulSheet::full_cost, open_plan_moves)
}

/// Add each closed yard, by number; drop each open yard, by number, only while two or more are open; then the swaps.
pub fn open_plan_moves(sheet: &HaulSheet, set: u32) -> Vec<Move> {
    let mut moves: Vec<Move> = sheet.closed_yards(set).map(|yard| Move::Add { yard }).collect();
    if sheet.open_yards(set).count() >= 2 {
        moves.extend(sheet.open_yards(set).map(|yard| Move::Drop { yard }));
    }
    moves.extend(swaps(sheet, set));
    moves
}

/// Swap one open yard out for one closed yard in, by the number going out, then the number coming in.
pub fn swaps(sheet: &HaulSheet, set: u32) -> Vec<Move> {
    let mut moves = Vec::new();
    for out in sheet.open_yards(set) {
        for into in sheet.closed_yards(set) {
            moves.push(Move::Swap { out, into });
        }
    }
    moves
}

/// Limited plan, by haul cost; fees do not count. Start: yards 0 to k − 1. Moves: swaps alone, same order.
pub fn limited_plan(sheet: &HaulSheet, k: usize) -> Settled {
    let start = (0..k).fold(0, |set, yard| set | bit(yard));
    settle(sheet, start, HaulSheet::haul_cost, swaps)
}

/// At each step the move of least resulting cost is taken, if that cost is strictly less than the present one. The search
/// yields its plan at the step where no move lowers the cost.
fn settle(
    sheet: &HaulSheet,
    start: u32,
    cost: fn(&HaulSheet, u32) -> u64,
    moves_in_order: fn(&HaulSheet, u32) -> Vec<Move>,
) -> Settled {
    let mut settled = Settled { set: start, moves: Vec::new() };
    loop {
        // Among equals `min_by_key` gives the earliest in order.
        let moves = moves_in_order(sheet, settled.set);
        let least = moves.into_iter().min_by_key(|step| cost(sheet, step.result(settled.set)));
        match least {
            Some(step) if cost(sheet, step.result(settled.set)) < cost(sheet, settled.set) => {
                settled.set = step.result(settled.set);
                settled.moves.push(step);
            }
            _ => return settled,
        }
    }
}
