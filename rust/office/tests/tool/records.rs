//! The count of records, which a sheet's folder has too: every command prints it, and holds a sheet to the count that it is
//! given.
use super::program::{Folder, BOERDE, S};

const COUNTED: &str = "records 290, yards 10, farms 28";

#[test]
fn every_list_and_the_sheet_itself_are_printed_with_the_record_count() {
    let folder = Folder::with_sheets("records", &[("boerde", BOERDE)]);
    let answer = folder.run("make boerde.csv again.sheet");
    assert_eq!((answer.status, answer.err), (0, format!("accepted: {COUNTED}\n")));
    for line in [
        "show",
        "plan",
        "plan FILE 3",
        "price FILE 0 4",
        "lists FILE 2 3",
        "shut",
        "shut FILE 0 4",
        "yards",
        "yards FILE 3",
    ] {
        let line =
            if line.contains("FILE") { line.replace("FILE", "boerde.sheet") } else { format!("{line} boerde.sheet") };
        let said = folder.said(&line);
        let second = said.lines().nth(1).unwrap();
        assert_eq!(second, format!("sheet boerde.sheet: {COUNTED}"), "{line}");
    }
    for line in ["page boerde.sheet", "page boerde.sheet 3", "page boerde.sheet yards=0,4"] {
        let said = folder.said(line);
        assert!(said.contains("<tr><th>record count</th><td><strong>290</strong></td></tr>\n"), "{line}: {said}");
        assert!(said.contains("<tr><th>yards and farms of the sheet</th><td>10 and 28</td></tr>\n"), "{line}: {said}");
    }
}

/// Every command about one sheet, with what it asks beside the file.
const COMMANDS: [&str; 11] = [
    "show FILE",
    "show FILE --csv",
    "plan FILE",
    "plan FILE 2",
    "price FILE 0 1",
    "lists FILE",
    "shut FILE",
    "compare FILE open 2",
    "cards FILE",
    "yards FILE",
    "page FILE",
];

#[test]
fn a_sheet_with_another_record_count_is_refused_by_every_command() {
    let folder = Folder::with_sheets("records-other", &[("boerde", BOERDE), ("s", S)]);
    let sheet = folder.get("boerde.sheet");
    // Without its last farm it is accepted, so nothing but the count tells that it was cut.
    folder.put("cut.sheet", &sheet[..sheet.len() - 80]);
    folder.put("over.sheet", [&sheet[..], &[0, 0, 0]].concat());
    folder.said("plan cut.sheet");
    let wrong = [
        ("cut.sheet", "cut.sheet has 280 records, and its folder says 290\n"),
        ("over.sheet", "over.sheet has 290 records and 3 bytes left over, and its folder says 290\n"),
        ("s.sheet", "s.sheet has 12 records, and its folder says 290\n"),
    ];
    for command in COMMANDS {
        let line = format!("{command} --records 290");
        folder.said(&line.replace("FILE", "boerde.sheet"));
        for (file, told) in wrong {
            let answer = folder.run(&line.replace("FILE", file));
            assert_eq!((answer.status, &answer.out[..], &answer.err[..]), (1, "", told), "{line}");
        }
    }
}

#[test]
fn make_writes_nothing_where_the_record_count_is_another() {
    let folder = Folder::new("records-made");
    folder.put("s.csv", S);
    let answer = folder.run("make s.csv s.sheet --records 11");
    assert_eq!((answer.status, &answer.err[..]), (1, "s.csv has 12 records, and its folder says 11\n"));
    assert_eq!(folder.files(), ["s.csv"]);
    folder.assert_told(("make s.csv s.sheet --records=12", 0, "", "accepted: records 12, "));
    folder.assert_told(("make s.csv s.sheet --records 13 --force", 1, "", "its folder says 13\n"));
    assert_eq!(folder.get("s.sheet"), super::s().sheet());
}

#[test]
fn a_record_count_is_a_whole_number_given_once_to_a_command_that_takes_it() {
    let folder = Folder::with_sheets("records-number", &[("s", S)]);
    for (line, told) in [
        ("plan s.sheet --records", "--records needs a value: --records N\n"),
        ("plan s.sheet --records -12", "-12 is not a whole number from 0 up\n"),
        ("plan s.sheet --records 12.0", "12.0 is not a whole number from 0 up\n"),
        ("plan s.sheet --records 99999999999999999999", "99999999999999999999 is more than the tool can count to\n"),
        ("plan s.sheet --records 12 --records 12", "--records is given twice\n"),
        ("compare-sheets s.sheet s.sheet --records 12", "compare-sheets does not take --records\n"),
    ] {
        folder.assert_told((line, 2, "", told));
    }
}
