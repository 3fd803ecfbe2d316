//! The page for the office, docs/OFFICE.md: every command in it prints just what is shown under it.
use std::fs;
use std::path::{Path, PathBuf};
use std::process::Command;

const PAGE: &str = include_str!("../../../docs/OFFICE.md");
const COMMAND: &str = "    $ sheet ";
const INDENT: &str = "    ";
/// Stands for lines left out.
const LEFT_OUT: &str = "..";

/// The words of a command, and the lines that are shown under it.
struct Example {
    words: Vec<&'static str>,
    shown: Vec<&'static str>,
}

fn examples() -> Vec<Example> {
    let mut examples: Vec<Example> = Vec::new();
    let mut is_within = false;
    for line in PAGE.lines() {
        if let Some(words) = line.strip_prefix(COMMAND) {
            examples.push(Example { words: words.split(' ').collect(), shown: Vec::new() });
            is_within = true;
        } else if line.is_empty() || line.starts_with(INDENT) {
            let shown = examples.last_mut().filter(|_| is_within).map(|example| &mut example.shown);
            shown.into_iter().for_each(|shown| shown.push(line.strip_prefix(INDENT).unwrap_or("")));
        } else {
            is_within = false;
        }
    }
    for example in &mut examples {
        while example.shown.last() == Some(&"") {
            example.shown.pop();
        }
    }
    examples
}

/// A folder of its own, with the example sheets where the page has them.
fn folder(test: &str) -> PathBuf {
    let folder = Path::new(env!("CARGO_TARGET_TMPDIR")).join(test);
    let _ = fs::remove_dir_all(&folder);
    fs::create_dir_all(&folder).unwrap();
    copy(&Path::new(env!("CARGO_MANIFEST_DIR")).join("../../sheets"), &folder.join("sheets"));
    folder
}

/// A folder with all that is below it. The gate refuses links anywhere in a checkout.
fn copy(from: &Path, to: &Path) {
    fs::create_dir_all(to).unwrap();
    for entry in fs::read_dir(from).unwrap() {
        let (from, to) = (entry.as_ref().unwrap().path(), to.join(entry.as_ref().unwrap().file_name()));
        if from.is_dir() {
            copy(&from, &to);
        } else {
            fs::copy(from, to).unwrap();
        }
    }
}

/// What the command says, on standard output and then on standard error.
fn said(words: &[&str], folder: &Path) -> String {
    let output = Command::new(env!("CARGO_BIN_EXE_sheet")).args(words).current_dir(folder).output().unwrap();
    String::from_utf8([output.stdout, output.stderr].concat()).unwrap()
}

/// Whether the lines are those shown, with any in place of those left out.
fn is_shown(lines: &[&str], shown: &[&str]) -> bool {
    match (lines, shown) {
        ([], []) => true,
        (lines, [first, rest @ ..]) if *first == LEFT_OUT => {
            (0..=lines.len()).any(|from| is_shown(&lines[from..], rest))
        }
        ([line, lines @ ..], [first, rest @ ..]) => line == first && is_shown(lines, rest),
        _ => false,
    }
}

#[test]
fn every_command_prints_what_the_page_shows() {
    let (folder, examples) = (folder("office-page"), examples());
    assert!(examples.len() >= 12, "{} commands", examples.len());
    for Example { words, shown } in examples {
        let said = said(&words, &folder);
        let lines: Vec<&str> = said.trim_end().lines().collect();
        assert!(shown.iter().any(|line| !line.is_empty()), "nothing is shown under {words:?}");
        assert!(is_shown(&lines, &shown), "{words:?} is shown with\n{}\nand prints\n{said}", shown.join("\n"));
    }
}

/// The page that the office prints is kept beside its example.
#[test]
fn the_printed_page_of_the_boerde_is_what_the_tool_prints() {
    let words = "page sheets/boerde.sheet --names sheets/boerde.csv --places sheets/boerde-places.csv";
    let said = said(&words.split(' ').collect::<Vec<_>>(), &folder("printed-page"));
    assert!(said == include_str!("../../../sheets/boerde.html"), "{said}");
}
