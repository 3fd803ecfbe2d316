//! What `make` writes and what it leaves alone.
use super::program::{Folder, BROKEN, S};
use super::{damaged, s};
use std::fs::{self, Permissions};
use std::os::unix::fs::{symlink, FileTypeExt, PermissionsExt};

/// The yards of S in two tables, the farms of the second in another order; one table is in euros.
const NORTH: &str = "cents,North,Middle\nfee,1,4\nHill Farm,1,3\nMill Farm,5,1\nLake Farm,9,5\n";
const SOUTH: &str = "euros;South\nfee;0,02\nLake Farm;0,01\nHill Farm;0,09\nMill Farm;0,05\n";

#[test]
fn several_tables_make_the_sheet_of_all_their_yards() {
    let folder = Folder::new("make-several");
    folder.put("north.csv", NORTH);
    folder.put("south.csv", SOUTH);
    folder.assert_told(("make north.csv south.csv s.sheet", 0, "", "accepted: records 12, yards 3, farms 3\n"));
    assert_eq!(folder.get("s.sheet"), s().sheet());
    folder.put("fewer.csv", SOUTH.replace("Mill Farm;0,05\n", ""));
    let told = "fewer.csv: line 5, column 1: farm Mill Farm is missing, which is in north.csv: line 4, column 1;";
    folder.assert_told(("make north.csv fewer.csv t.sheet", 1, "", told));
    folder.assert_told(("make north.csv north.csv t.sheet", 1, "", "another yard is called North too, in north.csv"));
    folder.assert_told(("make north.csv south.csv ./south.csv", 2, "", "./south.csv is the table itself"));
    assert!(folder.get("south.csv") == SOUTH.as_bytes() && !folder.path("t.sheet").exists());
}

#[test]
fn all_faults_are_told_at_once_up_to_twenty() {
    let folder = Folder::new("make-faults");
    let faulty = |count: usize| {
        let farms: String = (0..count).map(|farm| format!("Farm {farm},1.5\n")).collect();
        format!("cents,A\nfee,1\n{farms}")
    };
    folder.put("three.csv", faulty(3));
    folder.put("many.csv", faulty(23));
    let three = folder.run("make three.csv none.sheet");
    assert_eq!((three.status, three.err.lines().count()), (1, 3));
    for (told, line) in three.err.lines().zip(3..) {
        assert!(told.starts_with(&format!("three.csv: line {line}, column 2: under yard A: '1.5'")), "{told}");
    }
    let many = folder.run("make many.csv none.sheet");
    assert!(many.status == 1 && many.err.lines().count() == 21 && many.err.ends_with("\nand 3 more\n"), "{many:?}");
    assert_eq!(folder.files(), ["many.csv", "three.csv"]);
}

#[test]
fn a_file_that_is_there_is_kept_unless_told_otherwise() {
    let folder = Folder::new("make-kept");
    folder.put("s.csv", S);
    folder.put("precious.txt", "precious");
    let told = "precious.txt is there already and was kept; --force writes over it\n";
    let answer = folder.run("make s.csv precious.txt");
    assert_eq!((answer.status, &answer.err[..]), (2, told));
    assert_eq!(folder.get("precious.txt"), b"precious");
    fs::set_permissions(folder.path("precious.txt"), Permissions::from_mode(0o640)).unwrap();
    folder.assert_told(("make s.csv precious.txt --force", 0, "", "accepted: records 12"));
    assert_eq!(folder.get("precious.txt"), s().sheet());
    let mode = fs::metadata(folder.path("precious.txt")).unwrap().permissions().mode();
    assert_eq!(mode & 0o777, 0o640, "who may read it stays");
    assert_eq!(folder.files(), ["precious.txt", "s.csv"], "nothing is left beside it");
}

#[test]
fn a_refused_sheet_is_written_over_no_file() {
    let folder = Folder::with_sheets("make-refused", &[("s", S)]);
    folder.put("broken.csv", BROKEN);
    let kept = "s.sheet was kept as it was: a sheet that is refused is written over no file\n";
    for line in ["make broken.csv s.sheet", "make broken.csv s.sheet --force"] {
        let answer = folder.run(line);
        assert!(
            answer.status == 1 && answer.err.starts_with("refused 6\n") && answer.err.ends_with(kept),
            "{answer:?}"
        );
        assert_eq!(folder.get("s.sheet"), s().sheet(), "{line}");
    }
    // Where nothing is there it is written, so that it can be shown.
    folder.assert_told(("make broken.csv broken.sheet", 1, "", "refused 6\n"));
    assert_eq!(folder.files(), ["broken.csv", "broken.sheet", "s.csv", "s.sheet"]);
}

#[test]
fn a_refused_tariff_is_written_over_no_file() {
    let folder = Folder::new("make-refused-tariff");
    let head = "end in hundreds of metres,rate in cents per hundred metres";
    folder.put("good.csv", format!("{head}\n100,40\n"));
    folder.put("rising.csv", format!("{head}\n100,40\n200,41\n"));
    folder.assert_told(("make-tariff good.csv a.tariff", 0, "", "accepted: bands 1"));
    folder.assert_told(("make-tariff good.csv a.tariff", 2, "", "a.tariff is there already and was kept"));
    folder.assert_told(("make-tariff good.csv a.tariff --force", 0, "", "accepted: bands 1"));
    let kept = "a.tariff was kept as it was: a tariff that is refused is written over no file\n";
    folder.assert_told(("make-tariff rising.csv a.tariff --force", 1, "", kept));
    assert_eq!(folder.get("a.tariff"), [0x42, 0, 0, 0, 100, 0, 40, 0]);
}

#[test]
fn behind_a_link_the_file_that_it_leads_to_is_written() {
    let folder = Folder::new("make-link");
    folder.put("s.csv", S);
    folder.put("real.sheet", "old");
    symlink("real.sheet", folder.path("link.sheet")).unwrap();
    symlink("s.csv", folder.path("link.csv")).unwrap();
    folder.assert_told(("make s.csv link.sheet", 2, "", "link.sheet is there already and was kept"));
    assert_eq!(folder.get("real.sheet"), b"old");
    folder.assert_told(("make s.csv link.sheet --force", 0, "", "accepted: "));
    assert_eq!(folder.get("real.sheet"), s().sheet());
    assert!(fs::symlink_metadata(folder.path("link.sheet")).unwrap().is_symlink());
    folder.assert_told(("make s.csv link.csv --force", 2, "", "link.csv is the table itself"));
    assert_eq!(folder.get("s.csv"), S.as_bytes());
    // The gate refuses links anywhere in a checkout.
    for link in ["link.sheet", "link.csv"] {
        fs::remove_file(folder.path(link)).unwrap();
    }
}

#[test]
fn devices_and_folders_are_no_files_to_keep() {
    let folder = Folder::new("make-device");
    folder.put("s.csv", S);
    for line in ["make s.csv /dev/null", "make s.csv /dev/null --force"] {
        folder.assert_told((line, 0, "", "accepted: records 12"));
    }
    assert!(fs::metadata("/dev/null").unwrap().file_type().is_char_device());
    folder.assert_told(("make s.csv /dev/full", 2, "", "/dev/full cannot be written: "));
    folder.assert_told(("make s.csv .", 2, "", ". cannot be written: "));
    folder.assert_told(("make s.csv none/s.sheet", 2, "", "none/s.sheet cannot be written: "));
    folder.assert_told(("make . s.sheet", 2, "", ". cannot be read: "));
    assert_eq!(folder.files(), ["s.csv"]);
}

#[test]
fn a_table_and_a_sheet_may_come_and_go_by_standard_input_and_output() {
    let folder = Folder::new("make-standard");
    let even = "cents,A\nfee,7\nF,3\n";
    let sheet = "Y\0\0\0\x07\0\0\0H\0\0\0\x03\0\0\0";
    let answer = folder.run_with_input("make - -", even.as_bytes());
    assert_eq!(
        (answer.status, &answer.out[..], &answer.err[..]),
        (0, sheet, "accepted: records 2, yards 1, farms 1\n")
    );
    let answer = folder.run_with_input("make - -", b"cents,A\nfee,7\nF,x\n");
    assert_eq!((answer.status, &answer.out[..]), (1, ""));
    assert!(answer.err.starts_with("standard input: line 3, column 2: under yard A: 'x'"), "{answer:?}");
    let answer = folder.run_with_input("plan - --lines", sheet.as_bytes());
    assert_eq!((answer.status, &answer.out[..]), (0, "open 0 7\nfarm 0 0 3\ntotal 10\nmoves 0\n"));
    let answer = folder.run_with_input("plan -", sheet.as_bytes());
    assert!(answer.out.starts_with("Open plan\nsheet standard input: records 2, yards 1, farms 1\n"), "{answer:?}");
    for (line, input) in [("make - - a.sheet", even), ("plan - --names -", sheet), ("plan - --tariff -", sheet)] {
        let answer = folder.run_with_input(line, input.as_bytes());
        assert_eq!((answer.status, &answer.err[..]), (2, "standard input, -, can be read once only\n"), "{line}");
    }
    assert!(folder.files().is_empty());
    // A file called - is named by its path, and - never means it.
    folder.put("-", "kept");
    assert_eq!(folder.run_with_input("make - -", even.as_bytes()).out, sheet);
    assert_eq!(folder.get("-"), b"kept");
    folder.assert_told(("show ./-", 1, "refused 1\n", ""));
}

#[test]
fn a_refused_sheet_of_good_form_is_shown_with_why_below_it() {
    let folder = Folder::with_sheets("make-shown", &[("broken", BROKEN)]);
    let answer = folder.run("show broken.sheet --names broken.csv");
    let table = "\
Fees and hauls
sheet broken.sheet: records 6, yards 2, farms 2

yard     fee, cents
   0  A           0
   1  B           0

farm  haul to yard, cents:  0  1
   0  F                     1  1
   1  G                     1  4

refused 6
Question 6: ";
    assert!(answer.status == 1 && answer.out.starts_with(table) && answer.err.is_empty(), "{answer:?}");
    folder.put("formless.sheet", damaged(&[(41, 1)]));
    let answer = folder.run("show formless.sheet");
    assert!(answer.status == 1 && answer.out.starts_with("refused 4\n"), "{answer:?}");
}

#[test]
fn show_as_csv_makes_the_same_sheet_again() {
    let loads = "cents,loads,\"A, old\",B\nfee,,7,8\nF,3,1,2\n\"G \"\"x\"\"\",,2,1\n";
    let folder = Folder::with_sheets("make-again", &[("s", S), ("broken", BROKEN), ("loads", loads)]);
    for sheet in ["s", "broken", "loads"] {
        for names in [String::new(), format!(" --names {sheet}.csv")] {
            folder.put("again.csv", folder.said(&format!("show {sheet}.sheet --csv{names}")));
            folder.run("make again.csv again.sheet");
            assert_eq!(folder.get("again.sheet"), folder.get(&format!("{sheet}.sheet")), "{sheet}{names}");
            fs::remove_file(folder.path("again.sheet")).unwrap();
        }
    }
    assert_eq!(folder.said("show loads.sheet --csv --names loads.csv"), loads);
    assert_eq!(folder.said("show s.sheet --csv").lines().next(), Some("cents,yard 0,yard 1,yard 2"));
    let distances = folder.said("show s.sheet --csv --house-tariff");
    assert!(
        distances.starts_with("distances in hundreds of metres,yard 0,yard 1,yard 2\nfee in cents,1,"),
        "{distances}"
    );
}

#[test]
fn show_as_csv_gives_no_table_that_would_make_another_sheet() {
    let folder = Folder::new("make-not-again");
    // The records of farm 0 have loads 0, 0 and 1, for which a table has no cell.
    folder.put("loads.sheet", damaged(&[(43, 1)]));
    folder.assert_told(("show loads.sheet --csv", 1, "refused 10\n", ""));
    folder.put("formless.sheet", damaged(&[(41, 1)]));
    folder.assert_told(("show formless.sheet --csv", 1, "refused 4\n", ""));
}
