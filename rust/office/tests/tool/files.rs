//! Where the program's output goes, and files by names of any bytes.
use super::program::{answer, Answer, Folder, BOERDE, BROKEN, S};
use super::s;
use std::ffi::OsStr;
use std::fs::{self, File};
use std::io::pipe;
use std::os::unix::ffi::OsStrExt;

/// What the program says to a command line where nobody reads its standard output.
fn run_into_closed_pipe(folder: &Folder, line: &str) -> Answer {
    let (reader, writer) = pipe().unwrap();
    drop(reader);
    folder.run_into(line, writer)
}

#[test]
fn a_reader_that_closed_the_pipe_is_no_fault() {
    let folder = Folder::with_sheets("files-pipe", &[("boerde", BOERDE), ("broken", BROKEN)]);
    for line in ["plan boerde.sheet", "page boerde.sheet", "cards boerde.sheet --csv", "help", "--version"] {
        let answer = run_into_closed_pipe(&folder, line);
        assert_eq!((answer.status, &answer.err[..]), (0, ""), "{line}");
    }
    let refused = run_into_closed_pipe(&folder, "plan broken.sheet");
    assert_eq!((refused.status, &refused.err[..]), (1, ""));
    // A sheet that nobody took was not made.
    let made = run_into_closed_pipe(&folder, "make boerde.csv -");
    assert_eq!((made.status, made.err.starts_with("standard output cannot be written: ")), (2, true), "{}", made.err);
}

#[test]
fn a_result_that_cannot_be_written_is_told() {
    let folder = Folder::with_sheets("files-full", &[("s", S)]);
    let full = || File::options().write(true).open("/dev/full").unwrap();
    for line in ["plan s.sheet", "show s.sheet --csv", "help", "plan s.sheet 4"] {
        let answer = folder.run_into(line, full());
        assert_eq!(answer.status, 2, "{line}");
        assert!(answer.err.starts_with("the result cannot be written: No space left"), "{line}: {}", answer.err);
    }
    let made = folder.run_into("make s.csv -", full());
    assert!(made.status == 2 && made.err.starts_with("standard output cannot be written: No space left"), "{made:?}");
}

#[test]
fn a_message_that_cannot_be_written_is_told_by_the_status() {
    let folder = Folder::with_sheets("files-full-error", &[("s", S)]);
    let full = File::options().write(true).open("/dev/full").unwrap();
    let output = folder.command(["plan", "none.sheet"]).stderr(full).output().unwrap();
    assert_eq!((output.status.code(), output.stdout), (Some(2), vec![]));
}

#[test]
fn files_may_have_names_that_are_not_utf_8() {
    let folder = Folder::new("files-latin-1");
    let [table, sheet, again] = [&b"B\xF6rde.csv"[..], b"B\xF6rde.sheet", b"\xFF\xFE"].map(OsStr::from_bytes);
    fs::write(folder.path(table), S).unwrap();
    let run = |words: &[&OsStr]| answer(folder.command(words).output().unwrap());
    let [make, plan, names] = ["make", "plan", "--names"].map(OsStr::new);
    let made = run(&[make, table, sheet]);
    assert_eq!((made.status, &made.err[..]), (0, "accepted: records 12, yards 3, farms 3\n"));
    assert_eq!(run(&[make, table, again]).status, 0);
    let mut files: Vec<_> = fs::read_dir(folder.path(".")).unwrap().map(|entry| entry.unwrap().file_name()).collect();
    files.sort();
    assert_eq!(files, [table, sheet, again]);
    assert_eq!(fs::read(folder.path(sheet)).unwrap(), s().sheet());
    let planned = run(&[plan, sheet, names, table]);
    assert!(planned.status == 0 && planned.out.contains("sheet B\u{FFFD}rde.sheet: records 12"), "{planned:?}");
    assert!(planned.out.contains("Hill Farm"), "{planned:?}");
    let joined = OsStr::from_bytes(b"--names=B\xF6rde.csv");
    assert_eq!(run(&[plan, sheet, joined]).out, planned.out);
    let kept = run(&[make, table, sheet]);
    assert_eq!((kept.status, &kept.err[..38]), (2, "B\u{FFFD}rde.sheet is there already and was"));
    let words = run(&[plan, sheet, again]);
    assert_eq!((words.status, &words.err[..]), (2, "\u{FFFD}\u{FFFD} is not a whole number from 0 up\n"));
}

#[test]
fn files_that_cannot_be_read_are_named() {
    let folder = Folder::with_sheets("files-unread", &[("s", S)]);
    for (line, told) in [
        ("plan .", ". cannot be read: "),
        ("show none.sheet", "none.sheet cannot be read: "),
        ("plan s.sheet --names none.csv", "none.csv cannot be read: "),
        ("make none.csv t.sheet", "none.csv cannot be read: "),
        ("make s.csv none.csv t.sheet", "none.csv cannot be read: "),
        ("tariff none.tariff", "none.tariff cannot be read: "),
    ] {
        folder.assert_told((line, 2, "", told));
    }
    assert_eq!(folder.files(), ["s.csv", "s.sheet"]);
}

#[test]
fn endless_input_is_refused() {
    let folder = Folder::new("files-endless");
    folder.assert_told(("plan /dev/zero", 1, "", "/dev/zero has more than 16777216 bytes: no table is so large\n"));
    folder.assert_told(("make /dev/zero s.sheet", 1, "", "/dev/zero has more than 16777216 bytes"));
}
