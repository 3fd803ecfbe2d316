//! What the tool says in plain text: a sheet as a table (`sheets`), a list (`list`) with how far from best it is (`best`), lists side
//! by side (`side_by_side`), two lists compared (`compared`), what shutting a yard would change (`shutting`), cards and farms by yard
//! (`cards`), a tariff by itself (`tariffs`), or why the library refuses the call (`refusal`).
pub mod best;
pub mod cards;
pub mod compared;
pub mod list;
pub mod refusal;
pub mod sheets;
pub mod shutting;
pub mod side_by_side;
pub mod tables;
pub mod tariffs;

use crate::csv::Cells;
use crate::list::{Choice, List};
use planner::format::{MOST_AREA, RECORD};
use planner::{library, Counts, Plan, Refusal, Sheet, Tariff};
use refusal::Given;
use std::ops::RangeInclusive;

/// Exit statuses. A defect is a refusal for which the tool does not find the fault, or a list that is not what it says.
pub const ACCEPTED: u8 = 0;
pub const REFUSED: u8 = 1;
pub const DEFECT: u8 = 3;

/// The names of yards and farms by number, the files of the sheet and of a given tariff, and the cells that the amounts were typed
/// in; empty where they are not known.
#[derive(Clone, Debug, Default, PartialEq, Eq)]
pub struct Names {
    pub yards: Vec<String>,
    pub farms: Vec<String>,
    pub sheet: String,
    pub tariff: String,
    pub cells: Cells,
}

impl Names {
    pub fn yard(&self, yard: usize) -> String {
        named("yard", yard, &self.yards)
    }

    pub fn farm(&self, farm: usize) -> String {
        named("farm", farm, &self.farms)
    }

    /// What a list is by; nothing where haul amounts are hauls.
    pub fn by(&self, tariff: Tariff) -> Option<String> {
        match tariff {
            Tariff::None => None,
            Tariff::House => Some("by the house tariff".into()),
            Tariff::Given(_) if self.tariff.is_empty() => Some("by a given tariff".into()),
            Tariff::Given(_) => Some(format!("by the tariff {}", self.tariff)),
        }
    }

    /// A title and what it is by.
    pub fn title(&self, title: &str, tariff: Tariff) -> String {
        self.by(tariff).map_or(title.into(), |by| format!("{title}, {by}"))
    }

    /// The same, and below it the sheet with its counts, of which the folder has the first.
    fn titled(&self, title: &str, sheet: Sheet, counts: Counts) -> String {
        format!("{}\n{}\n", self.title(title, sheet.tariff), self.counted(sheet, counts))
    }

    /// The sheet's file, where it is known, and its counts.
    pub fn counted(&self, sheet: Sheet, counts: Counts) -> String {
        let file = if self.sheet.is_empty() { String::new() } else { format!(" {}", self.sheet) };
        format!("sheet{file}: {}", counted(sheet.bytes, counts))
    }
}

fn named(word: &str, number: usize, names: &[String]) -> String {
    names.get(number).map_or(format!("{word} {number}"), |name| format!("{word} {number} ({name})"))
}

fn counted(sheet: &[u8], counts: Counts) -> String {
    format!("records {}, yards {}, farms {}", sheet.len() / RECORD, counts.yards, counts.farms)
}

/// The counts of an accepted sheet, of which this is a plan.
pub fn counts(sheet: Sheet, plan: &Plan) -> Counts {
    let farms = plan.farms.len();
    Counts { yards: sheet.bytes.len() / RECORD / (farms + 1), farms }
}

/// What the tool prints, and its exit status.
#[derive(Debug)]
pub struct Said {
    pub text: String,
    pub status: u8,
}

/// An accepted call's text, or why the call is refused.
pub fn outcome(answer: Result<String, Refusal>, sheet: Sheet, given: &Given, names: &Names) -> Said {
    match answer.map_err(|refusal| refusal::explained(refusal, sheet, given, names)) {
        Ok(text) => Said { text, status: ACCEPTED },
        Err(Ok(text)) => Said { text, status: REFUSED },
        Err(Err(text)) => Said { text, status: DEFECT },
    }
}

/// What reading answers to a sheet that was just made.
pub fn read(sheet: Sheet, names: &Names) -> Said {
    let distances = names.by(sheet.tariff).map_or(String::new(), |by| format!(", distances {by}"));
    let accepted = |counts| format!("accepted: {}{distances}\n", counted(sheet.bytes, counts));
    outcome(sheet.read().map(accepted), sheet, &Given::default(), names)
}

/// The sheet as a table; one of good form that is refused too, with why below it.
pub fn shown(sheet: Sheet, names: &Names) -> Said {
    let counts = sheet.read();
    let said = outcome(counts.map(|counts| sheets::sheet(sheet, counts, names)), sheet, &Given::default(), names);
    match (counts, of_good_form(sheet.bytes)) {
        (Err(_), Some(counts)) => {
            Said { text: format!("{}\n{}", sheets::sheet(sheet, counts, names), said.text), ..said }
        }
        _ => said,
    }
}

/// The counts of a sheet that questions 1 to 4 accept: then, and only then, farm 0 has a stretch.
pub fn of_good_form(sheet: &[u8]) -> Option<Counts> {
    let yards = library::farm_len(sheet, 0) / RECORD;
    (yards > 0).then(|| Counts { yards, farms: sheet.len() / RECORD / yards - 1 })
}

/// A list put in some form, or why its call is refused.
pub fn listed(choice: Choice, sheet: Sheet, names: &Names, form: impl FnOnce(&List) -> String) -> Said {
    let list = List::of(sheet, choice);
    let disagreement = list.as_ref().ok().and_then(List::disagreement);
    agreed(disagreement, outcome(list.map(|list| form(&list)), sheet, &given(choice), names))
}

/// Lists side by side put in some form.
pub type ListsForm = fn(&[List], Sheet, &Names) -> String;

/// The open list and the limited ones for a range of k that is not empty, or for every k of the sheet.
pub fn side_by_side(ks: Option<RangeInclusive<usize>>, sheet: Sheet, names: &Names, form: ListsForm) -> Said {
    let all = |counts: Counts| 1..=counts.yards;
    let ks = ks.unwrap_or_else(|| sheet.read().map_or(1..=1, all));
    let lists = List::of(sheet, Choice::Open).and_then(|open| {
        let limited = List::limited(sheet, ks.clone())?;
        Ok(std::iter::once(open).chain(limited).collect::<Vec<_>>())
    });
    let disagreement = lists.iter().flatten().find_map(List::disagreement);
    // Where the range leaves the sheet, its lower end does, or its upper end.
    let k = if *ks.start() == 0 { 0 } else { *ks.end() };
    let text = lists.map(|lists| form(&lists, sheet, names));
    agreed(disagreement, outcome(text, sheet, &given(Choice::Limited(k)), names))
}

/// What is said, but where a list is not what it says, that it is not.
pub fn agreed(disagreement: Option<String>, said: Said) -> Said {
    match disagreement {
        Some(words) => Said { text: format!("{words}: the library or the tool has a defect.\n"), status: DEFECT },
        None => said,
    }
}

/// What the call for a list is given.
pub fn given(choice: Choice) -> Given {
    let lent = Given { area: Some(MOST_AREA), ..Given::default() };
    match choice {
        Choice::Open => lent,
        Choice::Limited(k) => Given { k: Some(k), ..lent },
        Choice::Set(set) => Given { set: Some(set), ..lent },
    }
}
