//! A sheet as the command line names it: its bytes, its tariff, the names of its tables, and its record count held to the folder's.
use super::arguments::Arguments;
use super::differences::differences;
use super::{files, number, refused, unusable, Said};
use crate::csv::{self, Amounts, Fault, Place, Typed};
use crate::words::{of_good_form, Names};
use planner::format::RECORD;
use planner::table::Table;
use planner::{Counts, Sheet, Tariff};
use std::ffi::OsStr;

/// So many faults of a table are told, and so many places in which a table differs from a sheet.
const MOST_TOLD: usize = 20;

/// What prices distances: nothing, the house tariff, or the tariff of a file.
pub struct Pricing {
    house: bool,
    given: Option<(String, Vec<u8>)>,
}

impl Pricing {
    pub fn of(arguments: &Arguments) -> Result<Pricing, Said> {
        let (house, file) = (arguments.has("--house-tariff"), arguments.value("--tariff"));
        if house && file.is_some() {
            return Err(unusable("a sheet is priced by one tariff: give --tariff FILE or --house-tariff\n"));
        }
        let given = file.map(|file| Ok((files::name(file), files::bytes(file)?))).transpose()?;
        Ok(Pricing { house, given })
    }

    pub fn tariff(&self) -> Tariff<'_> {
        match &self.given {
            Some((_, bytes)) => Tariff::Given(bytes),
            None if self.house => Tariff::House,
            None => Tariff::None,
        }
    }

    /// The file of a given tariff.
    pub fn file(&self) -> &str {
        self.given.as_ref().map_or("", |(file, _)| file)
    }
}

pub struct Loaded {
    bytes: Vec<u8>,
    pricing: Pricing,
    pub names: Names,
}

impl Loaded {
    /// The sheet of a file, with the names of the tables that an option gives.
    pub fn of(file: &OsStr, arguments: &Arguments, names: &'static str) -> Result<Loaded, Said> {
        let (bytes, pricing) = (files::bytes(file)?, Pricing::of(arguments)?);
        let tables: Vec<&OsStr> = arguments.values(names).collect();
        let file = files::name(file);
        if of_good_form(&bytes).is_none() && csv::is_table(&bytes) {
            let first = "make the sheet of it first, sheet make TABLE.csv FILE";
            return Err(refused(format!("{file} is a table and no sheet: {first}\n")));
        }
        held_to_folder(&bytes, &file, arguments)?;
        let mut names = match tables.is_empty() {
            true => Names::default(),
            false => names_of(&bytes, &file, &tables, pricing.tariff())?,
        };
        names.tariff = pricing.file().into();
        names.sheet = file;
        Ok(Loaded { bytes, pricing, names })
    }

    pub fn sheet(&self) -> Sheet<'_> {
        Sheet { bytes: &self.bytes, tariff: self.pricing.tariff() }
    }

    /// The table that makes the sheet, and what it is of; none where the form is not good or a farm's records differ in
    /// their loads.
    pub fn table(&self) -> Option<(Table, Amounts)> {
        let Counts { yards, .. } = of_good_form(&self.bytes)?;
        let amounts = if self.pricing.tariff() == Tariff::None { Amounts::Hauls } else { Amounts::Distances };
        let table = Table::of_sheet(&self.bytes, yards);
        (table.sheet() == self.bytes).then_some((table, amounts))
    }
}

/// The sheet has as many records as its folder says: one that lost a farm's records whole would pass every question.
pub fn held_to_folder(sheet: &[u8], file: &str, arguments: &Arguments) -> Result<(), Said> {
    let asked = arguments.value("--records").map(number).transpose()?;
    let (whole, over) = (sheet.len() / RECORD, sheet.len() % RECORD);
    match asked {
        Some(count) if (whole, over) != (count, 0) => {
            let over = if over == 0 { String::new() } else { format!(" and {over} bytes left over") };
            Err(refused(format!("{file} has {whole} records{over}, and its folder says {count}\n")))
        }
        _ => Ok(()),
    }
}

/// The table of these files, or all its faults.
pub fn typed(tables: &[&OsStr]) -> Result<Typed, Said> {
    let read = |table: &&OsStr| Ok((files::name(table), files::bytes(table)?));
    let files: Vec<(String, Vec<u8>)> = tables.iter().map(read).collect::<Result<_, Said>>()?;
    let files: Vec<csv::File> = files.iter().map(|(name, bytes)| csv::File { name, bytes }).collect();
    csv::read(&files).map_err(faulty)
}

/// The places of yards and farms, of which every one of the sheet's is there.
pub fn places(table: &OsStr, names: &Names) -> Result<Vec<Place>, Said> {
    let (name, bytes) = (files::name(table), files::bytes(table)?);
    let places = csv::read_places(csv::File { name: &name, bytes: &bytes }).map_err(faulty)?;
    let is_there =
        |asked: &str, is_yard: bool| places.iter().any(|place| place.name == asked && place.is_yard == is_yard);
    let yards = names.yards.iter().filter(|yard| !is_there(yard, true)).map(|yard| format!("yard {yard}"));
    let farms = names.farms.iter().filter(|farm| !is_there(farm, false)).map(|farm| format!("farm {farm}"));
    let missing: Vec<String> = yards.chain(farms).collect();
    match (names.yards.is_empty(), missing.is_empty()) {
        (true, _) => Err(unusable("places have names, so the sheet's are needed too: --names TABLE.csv\n")),
        (_, false) => Err(refused(format!("{name} has no place for {}\n", missing.join(", ")))),
        _ => Ok(places),
    }
}

/// All faults, each on a line of its own.
pub fn faulty(faults: Vec<Fault>) -> Said {
    refused(first_of(faults.iter().map(Fault::to_string).collect()))
}

/// As many lines as are told, and how many more there are.
pub fn first_of(mut lines: Vec<String>) -> String {
    let more = lines.len().saturating_sub(MOST_TOLD);
    lines.truncate(MOST_TOLD);
    lines.extend((more > 0).then(|| format!("and {more} more")));
    lines.join("\n") + "\n"
}

/// The names of tables, which must be those that the sheet was made from: others would send farms to wrong yards. A sheet does not
/// tell what its haul amounts are, but its table does.
fn names_of(sheet: &[u8], file: &str, tables: &[&OsStr], tariff: Tariff) -> Result<Names, Said> {
    let typed = typed(tables)?;
    let named = files::names(tables);
    if typed.table.sheet() != sheet {
        let differences = differences(sheet, &typed);
        return Err(refused(format!(
            "{named} makes another sheet than {file}: its names do not belong to it\n{differences}"
        )));
    }
    match (typed.amounts, tariff) {
        (Amounts::Distances, Tariff::None) => {
            let asked = "give the tariff that prices them, --tariff FILE or --house-tariff";
            Err(refused(format!("{named} has distances, so {file} is a sheet of distances: {asked}\n")))
        }
        (Amounts::Hauls, Tariff::House | Tariff::Given(_)) => {
            Err(refused(format!("{named} has hauls, so {file} is no sheet of distances and takes no tariff\n")))
        }
        _ => Ok(typed.names),
    }
}
