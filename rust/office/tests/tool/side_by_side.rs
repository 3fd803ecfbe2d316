//! The open list and the limited ones side by side.
use super::program::{Folder, BOERDE, BROKEN, S, UNUSED};

/// The cells of each list: all but the floor and what is above it, which the columns between have.
fn rows(said: &str) -> Vec<(String, Vec<u64>, String)> {
    let lines = said.lines().skip(4).take_while(|line| !line.is_empty());
    lines.map(row).collect()
}

/// The list, then fees, hauls, both and the floor, then the rest of the line.
fn row(line: &str) -> (String, Vec<u64>, String) {
    let (list, cells) = match line.strip_prefix("open") {
        Some(cells) => ("open".into(), cells),
        None => (line[..6].trim().to_string(), &line[6..]),
    };
    let mut cells: Vec<&str> = cells.split_whitespace().collect();
    let rest = cells.split_off(4);
    (list, cells.iter().map(|cell| cell.parse().unwrap()).collect(), rest.join(" "))
}

/// The lists of the Börde for 1 to 10 yards: fees and hauls.
const BOERDE_LISTS: [(u64, u64); 11] = [
    (1_500_000, 3_694_179),
    (200_000, 7_113_731),
    (600_000, 5_712_938),
    (1_000_000, 4_399_700),
    (1_400_000, 3_941_343),
    (1_700_000, 3_631_600),
    (1_900_000, 3_468_980),
    (2_300_000, 3_340_217),
    (2_700_000, 3_252_321),
    (3_000_000, 3_179_137),
    (3_200_000, 3_179_137),
];

#[test]
fn without_a_range_every_limited_list_stands_below_the_open_one() {
    let folder = Folder::with_sheets("side-by-side", &[("boerde", BOERDE)]);
    let said = folder.said("lists boerde.sheet --names boerde.csv");
    let title = "Lists, in cents\nsheet boerde.sheet: records 290, yards 10, farms 28\n\nlist ";
    assert!(said.starts_with(title), "{said}");
    let rows = rows(&said);
    assert_eq!(rows.len(), 11, "{said}");
    for (k, ((list, cells, rest), (fees, hauls))) in rows.iter().zip(BOERDE_LISTS).enumerate() {
        assert_eq!(*list, if k == 0 { "open".into() } else { format!("k = {k}") });
        assert_eq!(cells[..3], [fees, hauls, fees + hauls], "{list}");
        let total = if k == 0 { fees + hauls } else { hauls };
        assert!(cells[3] <= total, "{list}");
        let above = if cells[3] == total { "the cheapest".into() } else { (total - cells[3]).to_string() };
        assert!(rest.starts_with(&above), "{list}: {rest}, asked: {above}");
    }
    assert!(rows[0].2.ends_with(" 1, 3, 4, 6, 9") && rows[2].2.ends_with(" 3, 4"), "{said}");
    // Nobody goes to yard 7, which the last list has all the same.
    assert!(rows[10].2.ends_with(" 0, 1, 2, 3, 4, 5, 6, 7, 8, 9 7"), "{said}");
    assert!(said.contains("no farm goes to\n"), "{said}");
}

#[test]
fn a_range_has_its_lists_alone() {
    let folder = Folder::with_sheets("side-by-side-range", &[("boerde", BOERDE)]);
    for (line, lists) in [
        ("lists boerde.sheet 3 5", vec!["open", "k = 3", "k = 4", "k = 5"]),
        ("lists boerde.sheet 1 1", vec!["open", "k = 1"]),
        ("lists boerde.sheet 10 10", vec!["open", "k = 10"]),
    ] {
        let said = folder.said(line);
        assert_eq!(rows(&said).iter().map(|(list, ..)| &list[..]).collect::<Vec<_>>(), lists, "{said}");
    }
}

#[test]
fn a_range_that_leaves_the_sheet_is_refused_and_an_empty_one_is_wrong_usage() {
    let folder = Folder::with_sheets("side-by-side-refused", &[("s", S), ("broken", BROKEN)]);
    for (line, k) in [("0 2", "0"), ("0 0", "0"), ("1 4", "4"), ("4 4", "4"), ("5 7", "7"), ("0 9", "0")] {
        let told =
            format!("refused 7\nQuestion 7: Limited plan only: is k from 1 to m? No.\nk is {k}. Asked: from 1 to 3");
        folder.assert_told((&format!("lists s.sheet {line}"), 1, &told, ""));
    }
    for (line, told) in [
        ("3 2", "there is no count from 3 to 2: the first is the lower one\n"),
        ("5 2", "there is no count from 5 to 2: the first is the lower one\n"),
        ("1", "this is not how lists is used\n\nsheet lists FILE "),
        ("1 two", "two is not a whole number from 0 up\n"),
        ("1 2 3", "sheet lists FILE FROM TO"),
    ] {
        folder.assert_told((&format!("lists s.sheet {line}"), 2, "", told));
    }
    for line in ["lists broken.sheet", "lists broken.sheet 0 1"] {
        folder.assert_told((line, 1, "refused 6\n", ""));
    }
}

#[test]
fn one_yard_has_one_limited_list() {
    let folder = Folder::with_sheets("side-by-side-one", &[("one", "cents,A\nfee,7\nF,3\n"), ("unused", UNUSED)]);
    let rows = rows(&folder.said("lists one.sheet"));
    assert_eq!(rows.len(), 2);
    assert_eq!((&rows[0].0[..], &rows[0].1[..3]), ("open", &[7, 3, 10][..]));
    assert_eq!((&rows[1].0[..], &rows[1].1[..3]), ("k = 1", &[7, 3, 10][..]));
    folder.assert_told(("lists one.sheet 1 2", 1, "k is 2. Asked: from 1 to 1", ""));
    let unused = folder.said("lists unused.sheet 2 2");
    assert!(unused.lines().any(|line| line.starts_with("k = 2") && line.ends_with("  0, 1   1")), "{unused}");
}

#[test]
fn as_csv_the_lists_are_numbers_alone() {
    let folder = Folder::with_sheets("side-by-side-csv", &[("boerde", BOERDE)]);
    let said = folder.said("lists boerde.sheet 1 3 --csv");
    let heads = "list,fees,hauls,fees and hauls,no list is below,above it by at most,yards,no farm goes to";
    let lines: Vec<&str> = said.lines().collect();
    assert!(lines[0] == heads && lines.len() == 5, "{said}");
    for (k, (line, (fees, hauls))) in lines[1..].iter().zip(BOERDE_LISTS).enumerate() {
        let (list, total) = if k == 0 { ("open".into(), fees + hauls) } else { (format!("k = {k}"), hauls) };
        assert!(line.starts_with(&format!("{list},{fees},{hauls},{},", fees + hauls)), "{line}");
        let numbers: Vec<u64> = line.split(',').skip(4).take(2).map(|cell| cell.parse().unwrap()).collect();
        assert_eq!(numbers[0] + numbers[1], total, "{line}");
    }
    assert!(lines[3].ends_with(",\"3, 4\",") && lines[2].ends_with(",9,"), "{said}");
}
