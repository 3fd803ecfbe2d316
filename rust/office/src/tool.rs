//! The tool as a program: a command line, the files that it names, and what is said to it.
mod arguments;
mod differences;
mod files;
mod loaded;
mod make;
mod manual;

use crate::list::{Choice, List};
use crate::words::compared::{self, Side};
use crate::words::{cards, list, listed, shown, shutting, side_by_side, tariffs, Names, Said, ACCEPTED, REFUSED};
use crate::{csv, list_csv, page};
use arguments::{known, Arguments};
use loaded::Loaded;
use manual::overview;
use planner::{Sheet, Tariff};
use std::ffi::{OsStr, OsString};
use std::ops::RangeInclusive;

pub const UNUSABLE: u8 = 2;

const VERSION: &str = concat!("sheet ", env!("CARGO_PKG_VERSION"), "\n");

/// What a command has to say: its result, for standard output, or a message on what it did, for standard error. Faults of the
/// command line and of files are messages too.
pub enum Told {
    Result(Said),
    Message(Said),
}

/// Does what the words of a command line say.
pub fn run(words: Vec<OsString>) -> Told {
    done(words).unwrap_or_else(Told::Message)
}

fn done(words: Vec<OsString>) -> Result<Told, Said> {
    let arguments = Arguments::of(words)?;
    let Some((command, words)) = arguments.words.split_first() else {
        return match (arguments.has("--version"), arguments.has("--help")) {
            (true, _) => Ok(said(VERSION.into())),
            (_, true) => Ok(said(overview())),
            _ => Err(unusable(overview())),
        };
    };
    let manual = known(command)?;
    if arguments.has("--help") {
        return Ok(said(manual.text()));
    }
    arguments.taken_by(manual)?;
    let words: Vec<&OsStr> = words.iter().map(OsString::as_os_str).collect();
    let wrong = || unusable(format!("this is not how {} is used\n\n{}", manual.command, manual.text()));
    command_done(manual.command, &words, &arguments)?.ok_or_else(wrong)
}

/// What a command says to its words, nothing where they are not those of one of its forms.
fn command_done(command: &str, words: &[&OsStr], arguments: &Arguments) -> Result<Option<Told>, Said> {
    let told = match (command, words) {
        ("help", []) => said(overview()),
        ("help", [command]) => said(known(command)?.text()),
        ("make", [tables @ .., file]) if !tables.is_empty() => make::sheet(tables, file, arguments)?,
        ("make-tariff", [table, file]) => make::tariff(table, file, arguments.has("--force"))?,
        ("tariff", [file]) if !arguments.has("--house-tariff") => tariff(file)?,
        ("tariff", []) if arguments.has("--house-tariff") => {
            Told::Result(tariffs::shown(Tariff::House, &Names::default()))
        }
        ("compare-sheets", [file, other]) => compare_sheets(file, other, Choice::Open, arguments)?,
        ("compare-sheets", [file, other, list]) => compare_sheets(file, other, choice(list)?, arguments)?,
        (_, [file, words @ ..]) => match of_sheet(command, file, words, arguments)? {
            Some(said) => Told::Result(said),
            None => return Ok(None),
        },
        _ => return Ok(None),
    };
    Ok(Some(told))
}

/// The commands about one sheet.
fn of_sheet(command: &str, file: &OsStr, words: &[&OsStr], arguments: &Arguments) -> Result<Option<Said>, Said> {
    let asked = match (command, words) {
        ("show", []) => Asked::Show,
        ("lists", []) => Asked::Lists(None),
        ("lists", [from, to]) => Asked::Lists(Some(range(from, to)?)),
        ("shut", []) => Asked::Shut(None),
        ("shut", yards) => Asked::Shut(Some(set(yards)?)),
        ("price", yards) => Asked::List(Choice::Set(set(yards)?)),
        ("plan" | "cards" | "yards" | "page", []) => Asked::List(Choice::Open),
        ("plan" | "cards" | "yards" | "page", [list]) => Asked::List(choice(list)?),
        ("compare", [first, second]) => Asked::Compare(choice(first)?, choice(second)?),
        _ => return Ok(None),
    };
    let loaded = Loaded::of(file, arguments, "--names")?;
    let (sheet, names) = (loaded.sheet(), &loaded.names);
    Ok(Some(match asked {
        Asked::Show if arguments.has("--csv") => shown_as_table(&loaded),
        Asked::Show => shown(sheet, names),
        Asked::Lists(range) if arguments.has("--csv") => side_by_side(range, sheet, names, side_by_side::csv),
        Asked::Lists(range) => side_by_side(range, sheet, names, side_by_side::words),
        Asked::Shut(set) => shutting::said(set, sheet, names),
        Asked::Compare(first, second) => compare([(&loaded, first), (&loaded, second)])?,
        Asked::List(choice) => listed_as(command, choice, &loaded, arguments)?,
    }))
}

/// What is asked about a sheet.
enum Asked {
    Show,
    Lists(Option<RangeInclusive<usize>>),
    Shut(Option<u32>),
    Compare(Choice, Choice),
    List(Choice),
}

/// A list in the form that the command and its options name.
fn listed_as(command: &str, choice: Choice, loaded: &Loaded, arguments: &Arguments) -> Result<Said, Said> {
    let (sheet, names) = (loaded.sheet(), &loaded.names);
    let places = match arguments.value("--places") {
        Some(table) => loaded::places(table, names)?,
        None => Vec::new(),
    };
    let form: fn(&List, Sheet, &Names) -> String = match (command, arguments.has("--csv"), arguments.has("--lines")) {
        (_, true, true) => return Err(unusable("a list is one of --csv and --lines\n")),
        ("cards", false, _) => cards::cards,
        ("cards", true, _) => cards::csv,
        ("yards", false, _) => cards::by_yard,
        ("yards", true, _) => cards::by_yard_csv,
        ("page", ..) => return Ok(listed(choice, sheet, names, |list| page::html(list, sheet, names, &places))),
        (_, true, _) => |list, _, names| list_csv::csv(list, names),
        (_, _, true) => |list, _, _| list.plan.to_string(),
        _ => list::words,
    };
    Ok(listed(choice, sheet, names, |list| form(list, sheet, names)))
}

/// A sheet as the table that makes it again, where there is one.
fn shown_as_table(loaded: &Loaded) -> Said {
    match loaded.table() {
        Some((table, amounts)) => Said { text: csv::written(&table, amounts, &loaded.names), status: ACCEPTED },
        None => shown(loaded.sheet(), &loaded.names),
    }
}

fn compare_sheets(file: &OsStr, other: &OsStr, choice: Choice, arguments: &Arguments) -> Result<Told, Said> {
    let first = Loaded::of(file, arguments, "--names")?;
    let second = Loaded::of(other, arguments, "--other-names")?;
    Ok(Told::Result(compare([(&first, choice), (&second, choice)])?))
}

/// Two lists compared, or why one of them is refused; a message where they cannot be compared.
fn compare(sides: [(&Loaded, Choice); 2]) -> Result<Said, Said> {
    let (first, second) = match sides.map(|(loaded, choice)| agreed_list(loaded, choice)) {
        [Ok(first), Ok(second)] => (first, second),
        [Err(said), _] | [_, Err(said)] => return Ok(said),
    };
    let [(one, _), (other, _)] = sides;
    let first = Side { list: &first, sheet: one.sheet(), names: &one.names };
    let second = Side { list: &second, sheet: other.sheet(), names: &other.names };
    compared::comparable(&first, &second).map_err(refused)?;
    Ok(Said { text: compared::words(&first, &second), status: ACCEPTED })
}

/// A list that is what it says, or of which sheet and why there is none.
fn agreed_list(loaded: &Loaded, choice: Choice) -> Result<List, Said> {
    let mut agreed = None;
    let said = listed(choice, loaded.sheet(), &loaded.names, |list| {
        agreed = Some(list.clone());
        String::new()
    });
    let of_file = |said: Said| Said { text: format!("{}: {}", loaded.names.sheet, said.text), ..said };
    agreed.filter(|_| said.status == ACCEPTED).ok_or_else(|| of_file(said))
}

fn tariff(file: &OsStr) -> Result<Told, Said> {
    let names = Names { tariff: files::name(file), ..Names::default() };
    Ok(Told::Result(tariffs::shown(Tariff::Given(&files::bytes(file)?), &names)))
}

/// Which list a word names.
fn choice(word: &OsStr) -> Result<Choice, Said> {
    let text = word.to_string_lossy();
    match text.strip_prefix("yards=") {
        Some(yards) => Ok(Choice::Set(set(&[OsStr::new(yards)])?)),
        None if text == "open" => Ok(Choice::Open),
        None => number(word).map(Choice::Limited),
    }
}

fn number(word: &OsStr) -> Result<usize, Said> {
    let word = word.to_string_lossy();
    if word.is_empty() {
        return Err(unusable("a number is missing: between commas and after = there is one\n"));
    }
    if !word.bytes().all(|byte| byte.is_ascii_digit()) {
        return Err(unusable(format!("{word} is not a whole number from 0 up\n")));
    }
    word.parse().map_err(|_| unusable(format!("{word} is more than the tool can count to\n")))
}

/// The counts K from one to another, at least one of them.
fn range(from: &OsStr, to: &OsStr) -> Result<RangeInclusive<usize>, Said> {
    let (from, to) = (number(from)?, number(to)?);
    match from <= to {
        true => Ok(from..=to),
        false => Err(unusable(format!("there is no count from {from} to {to}: the first is the lower one\n"))),
    }
}

/// The set with a bit for each yard, given one a word or parted by commas. It has room for yards 0 to 31, on whatever sheet.
fn set(words: &[&OsStr]) -> Result<u32, Said> {
    let words: Vec<String> = words.iter().map(|word| word.to_string_lossy().into_owned()).collect();
    words.iter().flat_map(|word| word.split(',')).try_fold(0, |set, word| match number(OsStr::new(word))? {
        yard if yard >= u32::BITS as usize => {
            Err(unusable(format!("yard {word} cannot be in a set, which has room for yards 0 to {}\n", u32::BITS - 1)))
        }
        yard if set >> yard & 1 == 1 => Err(unusable(format!("yard {yard} is given twice\n"))),
        yard => Ok(set | 1 << yard),
    })
}

fn said(text: String) -> Told {
    Told::Result(Said { text, status: ACCEPTED })
}

fn refused(text: String) -> Said {
    Said { text, status: REFUSED }
}

fn unusable(text: impl Into<String>) -> Said {
    Said { text: text.into(), status: UNUSABLE }
}
