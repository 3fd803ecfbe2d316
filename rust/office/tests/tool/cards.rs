//! Cards, the farms of each yard, and lists as CSV and as the lines of document 01.
use super::program::{Folder, BOERDE, LOADS, S, UNUSED};
use office::csv::{self, File};

#[test]
fn each_grower_has_a_card_with_the_yard() {
    let folder = Folder::with_sheets("cards", &[("loads", LOADS), ("s", S)]);
    let end = "- - - - - - - - - - - - - - - - - - - -\n";
    let said = folder.said("cards loads.sheet --names loads.csv");
    let cards: Vec<&str> = said.split_inclusive(end).collect();
    assert_eq!(cards.len(), 6, "{said}");
    assert_eq!(cards[0], format!("Alder Farm (farm 0)\nyour yard: Mill Gate (yard 0)\nyour loads: 3\n{end}"));
    assert_eq!(cards[5], format!("Willow Farm (farm 5)\nyour yard: South Dock (yard 3)\nyour loads: 12\n{end}"));
    let limited = folder.said("cards loads.sheet 1 --names loads.csv");
    assert_eq!(limited.matches("your yard: Station (yard 2)\n").count(), 6, "{limited}");
    let numbers = folder.said("cards s.sheet yards=1,2");
    assert!(numbers.starts_with(&format!("farm 0\nyour yard: yard 1\n{end}farm 1\n")), "{numbers}");
}

#[test]
fn each_yard_has_the_farms_that_go_to_it() {
    let folder = Folder::with_sheets("cards-yards", &[("loads", LOADS), ("unused", UNUSED)]);
    let text = "\
Open plan, farms by yard
sheet loads.sheet: records 28, yards 4, farms 6

yard 0 (Mill Gate): farms 2, loads 23
farm              loads
   0  Alder Farm      3
   1  Birch Farm     20

yard 2 (Station): farms 2, loads 19
farm              loads
   2  Elm Farm        1
   3  Hazel Farm     18

yard 3 (South Dock): farms 2, loads 13
farm               loads
   4  Oak Farm         1
   5  Willow Farm     12
";
    assert_eq!(folder.said("yards loads.sheet --names loads.csv"), text);
    let unused = folder.said("yards unused.sheet 2");
    assert!(unused.starts_with("Limited plan, k = 2, farms by yard\n"), "{unused}");
    assert!(unused.ends_with("\nyard 1: farms 0, loads 0\n"), "{unused}");
}

/// Names that CSV must quote; a line end in a name is read as one blank.
const ODD: &str =
    "cents,\"North, old\",\"South \"\"B\"\"\"\nfee,1,2\n\"Hof; Nr. 5\",3,9\n\"Mill\nFarm\",5,1\nHof  Nr. 6,5,1\n";

/// The cells of each line, read back. A name has two blanks where it was typed so.
fn cells(text: &str) -> Vec<Vec<String>> {
    text.lines().map(line_cells).collect()
}

fn line_cells(line: &str) -> Vec<String> {
    let mut cells = vec![String::new()];
    let mut is_quoted = false;
    for letter in line.replace("\"\"", "\u{1}").chars() {
        match letter {
            '"' => is_quoted = !is_quoted,
            ',' if !is_quoted => cells.push(String::new()),
            letter => cells.last_mut().unwrap().push(if letter == '\u{1}' { '"' } else { letter }),
        }
    }
    cells
}

#[test]
fn cards_as_csv_have_a_line_a_grower_with_every_name_whole() {
    let folder = Folder::with_sheets("cards-csv", &[("odd", ODD)]);
    let said = folder.said("cards odd.sheet --names odd.csv --csv");
    let heads =
        ["farm", "farm name", "yard", "yard name", "loads", "haul of one load in cents", "haul of all loads in cents"];
    let rows = [
        heads,
        ["0", "Hof; Nr. 5", "0", "North, old", "1", "3", "3"],
        ["1", "Mill Farm", "1", "South \"B\"", "1", "1", "1"],
        ["2", "Hof  Nr. 6", "1", "South \"B\"", "1", "1", "1"],
    ];
    assert_eq!(cells(&said), rows);
    let text = folder.said("cards odd.sheet --names odd.csv");
    assert!(text.contains("Hof  Nr. 6 (farm 2)\nyour yard: South \"B\" (yard 1)\n"), "{text}");
}

#[test]
fn yards_as_csv_have_the_growers_yard_by_yard() {
    let folder = Folder::with_sheets("cards-yards-csv", &[("boerde", BOERDE)]);
    let by_farm = folder.said("cards boerde.sheet 2 --names boerde.csv --csv");
    let by_yard = folder.said("yards boerde.sheet 2 --names boerde.csv --csv");
    let numbers = |text: &str, column: usize| -> Vec<usize> {
        cells(text)[1..].iter().map(|cells| cells[column].parse().unwrap()).collect()
    };
    assert!(numbers(&by_farm, 0).is_sorted() && !numbers(&by_farm, 2).is_sorted(), "{by_farm}");
    assert!(numbers(&by_yard, 2).is_sorted() && !numbers(&by_yard, 0).is_sorted(), "{by_yard}");
    let [mut farms, mut yards] = [by_farm, by_yard].map(|text| cells(&text));
    farms.sort();
    yards.sort();
    assert_eq!(farms, yards);
}

#[test]
fn a_list_as_csv_has_every_number_of_its_lines() {
    let folder = Folder::with_sheets("cards-list-csv", &[("loads", LOADS), ("odd", ODD)]);
    for list in ["plan loads.sheet", "plan loads.sheet 2", "price loads.sheet 0 1"] {
        let rows = cells(&folder.said(&format!("{list} --csv")));
        assert_eq!(rows[0].join(","), "line,yard,yard name,farm,farm name,loads,one load in cents,cents");
        let line = |row: &Vec<String>| match &row[0][..] {
            "open" => format!("open {} {}\n", row[1], row[7]),
            "farm" => format!("farm {} {} {}\n", row[3], row[1], row[6]),
            "floor" => String::new(),
            word => format!("{word} {}\n", row[7]),
        };
        assert_eq!(rows[1..].iter().map(line).collect::<String>(), folder.said(&format!("{list} --lines")), "{list}");
        let number = |cell: &String| cell.parse::<u64>().unwrap();
        for farm in rows.iter().filter(|row| row[0] == "farm") {
            assert_eq!(number(&farm[5]) * number(&farm[6]), number(&farm[7]), "{farm:?}");
        }
        let amount = |word: &str| number(&rows.iter().find(|row| row[0] == word).unwrap()[7]);
        assert!(amount("floor") <= amount("total"), "{list}");
    }
    let odd = cells(&folder.said("plan odd.sheet --names odd.csv --csv"));
    assert_eq!(odd[1][..3], ["open", "0", "North, old"]);
    assert_eq!(odd[3], ["farm", "0", "North, old", "0", "Hof; Nr. 5", "1", "3", "3"]);
}

#[test]
fn lists_as_lines_are_what_the_program_plan_prints() {
    let folder = Folder::with_sheets("cards-lines", &[("s", S), ("boerde", BOERDE), ("loads", LOADS)]);
    let plans = [
        ("s", include_str!("../../../../sheets/s.plan")),
        ("boerde", include_str!("../../../../sheets/boerde.plan")),
        ("loads", include_str!("../../../../sheets/loads.plan")),
    ];
    for (sheet, plan) in plans {
        assert_eq!(folder.said(&format!("plan {sheet}.sheet --lines")), plan);
        assert_eq!(folder.said(&format!("plan --lines {sheet}.sheet --names {sheet}.csv")), plan);
    }
    let priced = "open 0 1\nopen 2 2\nfarm 0 0 1\nfarm 1 0 5\nfarm 2 2 1\ntotal 10\nmoves 0\n";
    assert_eq!(folder.said("price s.sheet 2 0 --lines"), priced);
    let limited = "open 1 4\nopen 2 2\nfarm 0 1 3\nfarm 1 1 1\nfarm 2 2 1\ntotal 5\n";
    assert!(folder.said("plan s.sheet 2 --lines").starts_with(limited));
    folder.assert_told(("plan s.sheet --lines --csv", 2, "", "a list is one of --csv and --lines\n"));
    folder.assert_told(("plan s.sheet 4 --lines", 1, "refused 7\n", ""));
    folder.assert_told(("cards s.sheet --lines", 2, "", "cards does not take --lines\n"));
}

#[test]
fn the_names_of_the_odd_table_are_those_that_reading_gives() {
    let typed = csv::read(&[File { name: "odd.csv", bytes: ODD.as_bytes() }]).unwrap();
    assert_eq!(typed.names.farms, ["Hof; Nr. 5", "Mill Farm", "Hof  Nr. 6"]);
    assert_eq!(typed.names.yards, ["North, old", "South \"B\""]);
}
