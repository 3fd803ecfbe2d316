//! The words of a command line: options with their values, and what is left.
use super::manual::{manual, near, Manual};
use super::{unusable, Said};
use std::ffi::{OsStr, OsString};
use std::os::unix::ffi::{OsStrExt, OsStringExt};

/// An option: its name, what follows it, where something does, whether it may come more than once, and what it is for.
pub struct Spec {
    pub name: &'static str,
    pub value: Option<&'static str>,
    pub many: bool,
    pub words: &'static str,
}

const fn plain(name: &'static str, words: &'static str) -> Spec {
    Spec { name, value: None, many: false, words }
}

const fn with(name: &'static str, value: &'static str, many: bool, words: &'static str) -> Spec {
    Spec { name, value: Some(value), many, words }
}

pub const OPTIONS: [Spec; 11] = [
    with(
        "--names",
        "TABLE.csv",
        true,
        "the names of yards and farms, from the table that the sheet was made of; each of several tables",
    ),
    with("--other-names", "TABLE.csv", true, "the same for the second sheet of a comparison"),
    with("--records", "N", false, "refuses a sheet that has not N records, the count on its folder"),
    with("--tariff", "FILE", false, "the tariff that prices the distances of a sheet of distances"),
    plain("--house-tariff", "the house tariff in place of a file"),
    with("--places", "TABLE.csv", false, "the places of yards and farms, for a map"),
    plain("--csv", "as CSV, for a spreadsheet or a mail merge"),
    plain("--lines", "as the lines of document 01, which the program plan prints"),
    plain("--force", "writes over a file that is there"),
    plain("--help", "how the command is used"),
    plain("--version", "the version of the tool"),
];

/// The words that are no options, and the options.
#[derive(Debug)]
pub struct Arguments {
    pub words: Vec<OsString>,
    options: Vec<(&'static str, OsString)>,
}

impl Arguments {
    pub fn of(words: Vec<OsString>) -> Result<Arguments, Said> {
        let mut arguments = Arguments { words: Vec::new(), options: Vec::new() };
        let mut words = words.into_iter();
        while let Some(word) = words.next() {
            match word.as_bytes() {
                b"--" => arguments.words.extend(words.by_ref()),
                b"-h" => arguments.options.push(("--help", OsString::new())),
                [b'-', _, ..] => arguments.add(&word, &mut words)?,
                _ => arguments.words.push(word),
            }
        }
        Ok(arguments)
    }

    /// Adds an option, with its value behind `=` or in the next word.
    fn add(&mut self, word: &OsStr, words: &mut impl Iterator<Item = OsString>) -> Result<(), Said> {
        let mut parts = word.as_bytes().splitn(2, |&byte| byte == b'=');
        let name = parts.next().unwrap_or_default();
        let behind = parts.next().map(|value| OsString::from_vec(value.to_vec()));
        let spec =
            OPTIONS.iter().find(|spec| spec.name.as_bytes() == name).ok_or_else(|| unknown(OsStr::from_bytes(name)))?;
        let value = match (spec.value, behind) {
            (None, None) => OsString::new(),
            (None, Some(_)) => return Err(unusable(format!("{} takes no value\n", spec.name))),
            (Some(_), Some(value)) => value,
            (Some(what), None) => {
                words.next().ok_or_else(|| unusable(format!("{} needs a value: {0} {what}\n", spec.name)))?
            }
        };
        if !spec.many && self.has(spec.name) {
            return Err(unusable(format!("{} is given twice\n", spec.name)));
        }
        self.options.push((spec.name, value));
        Ok(())
    }

    pub fn has(&self, name: &'static str) -> bool {
        self.values(name).next().is_some()
    }

    pub fn value(&self, name: &'static str) -> Option<&OsStr> {
        self.values(name).next()
    }

    pub fn values(&self, name: &'static str) -> impl Iterator<Item = &OsStr> {
        self.options.iter().filter(move |(option, _)| *option == name).map(|(_, value)| value.as_os_str())
    }

    /// Every option is one that the command takes.
    pub fn taken_by(&self, manual: &Manual) -> Result<(), Said> {
        match self.options.iter().find(|(option, _)| !manual.options.contains(option)) {
            Some((option, _)) => {
                Err(unusable(format!("{} does not take {option}\n\n{}", manual.command, manual.text())))
            }
            None => Ok(()),
        }
    }
}

fn unknown(word: &OsStr) -> Said {
    let word = word.to_string_lossy();
    let names = OPTIONS.iter().map(|spec| spec.name);
    unusable(format!("{word} is no option.{} `sheet help` has them all.\n", near(&word, names)))
}

/// The manual of a command, or that there is no such command.
pub fn known(command: &OsStr) -> Result<&'static Manual, Said> {
    let word = command.to_string_lossy();
    manual(&word).ok_or_else(|| {
        let names = super::manual::MANUALS.iter().map(|manual| manual.command);
        unusable(format!("{word} is no command.{} `sheet help` has them all.\n", near(&word, names)))
    })
}
