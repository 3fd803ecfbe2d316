//! Names come from the tables that make exactly the sheet: what is told of others, and of a table given for a sheet.
use super::program::{Folder, LOADS, S};
use super::{damaged, shorter};

#[test]
fn a_table_that_is_given_for_a_sheet_is_called_a_table() {
    let folder = Folder::with_sheets("names-table", &[("s", S)]);
    folder.put("euros.csv", "euros;A\nfee;1,00\nF;2,00\n");
    folder.put("distances.csv", "distances in hundreds of metres,A\nfee in cents,1\nF,2\n");
    let first = "make the sheet of it first, sheet make TABLE.csv FILE\n";
    for table in ["s.csv", "euros.csv", "distances.csv"] {
        for line in ["plan", "show", "lists", "cards", "plan --records 12", "show --csv"] {
            let answer = folder.run(&format!("{line} {table}"));
            assert_eq!((answer.status, answer.err), (1, format!("{table} is a table and no sheet: {first}")), "{line}");
        }
    }
    folder.put("letter.txt", "Dear Sir, cents are enclosed");
    folder.assert_told(("plan letter.txt", 1, "refused 1\n", ""));
}

#[test]
fn a_table_that_was_corrected_is_told_cell_by_cell() {
    let folder = Folder::with_sheets("names-corrected", &[("s", S), ("loads", LOADS)]);
    folder.put("fee.csv", S.replace("fee,1,4,2", "fee,1,40,2"));
    folder.put("two.csv", S.replace("Hill Farm,1,3,9", "Hill Farm,1,2,9").replace("9,5,1", "9,5,0"));
    folder.put("loads-21.csv", LOADS.replace("Birch Farm,20,", "Birch Farm,2,"));
    let told = |table: &str, sheet: &str, lines: &[&str]| {
        let answer = folder.run(&format!("plan {sheet} --names {table}"));
        let lines: String = lines.iter().map(|line| format!("{table}: {line}\n")).collect();
        let asked = format!("{table} makes another sheet than {sheet}: its names do not belong to it\n{lines}");
        assert_eq!((answer.status, &answer.out[..], answer.err), (1, "", asked));
    };
    told("fee.csv", "s.sheet", &["line 2, column 3: the table has 40 and the sheet 4 cents"]);
    let two = [
        "line 3, column 3: the table has 2 and the sheet 3 cents",
        "line 5, column 4: the table has 0 and the sheet 1 cents",
    ];
    told("two.csv", "s.sheet", &two);
    told("loads-21.csv", "loads.sheet", &["line 4, column 2: the table has 2 and the sheet 20 loads"]);
}

#[test]
fn a_table_that_lacks_loads_or_has_other_counts_is_told_so() {
    let folder = Folder::with_sheets("names-counts", &[("s", S), ("loads", LOADS)]);
    let without_loads = LOADS.lines().map(|line| {
        let mut cells: Vec<&str> = line.split(',').collect();
        cells.remove(1);
        cells.join(",") + "\n"
    });
    folder.put("without.csv", without_loads.collect::<String>());
    let told = "\nfarm 0 (Alder Farm): the table has 0 and the sheet 3 loads\n\
                farm 1 (Birch Farm): the table has 0 and the sheet 20 loads\n";
    folder.assert_told(("plan loads.sheet --names without.csv", 1, "", told));
    let told = "\nthe table has yards 4, farms 6, the sheet yards 3, farms 3\n";
    folder.assert_told(("plan s.sheet --names loads.csv", 1, "", told));
    folder.put("cut.sheet", shorter(1));
    let told = "\nthe table has yards 3, farms 3, and the sheet is not of good form\n";
    folder.assert_told(("plan cut.sheet --names s.csv", 1, "", told));
    folder.put("mixed.sheet", damaged(&[(43, 1)]));
    let told = "its names do not belong to it\nin the sheet the records of a farm do not have the same loads\n";
    folder.assert_told(("plan mixed.sheet --names s.csv", 1, "", told));
}

#[test]
fn of_many_cells_that_differ_twenty_are_told_and_how_many_more() {
    let table = |haul: usize| {
        let farms: String = (0..23).map(|farm| format!("Farm {farm},{haul}\n")).collect();
        format!("cents,A\nfee,1\n{farms}")
    };
    let folder = Folder::with_sheets("names-many", &[("first", &table(5)), ("second", &table(6))]);
    let answer = folder.run("plan first.sheet --names second.csv");
    assert!(answer.status == 1 && answer.err.lines().count() == 22, "{answer:?}");
    assert!(answer.err.ends_with("second.csv: line 22, column 2: the table has 6 and the sheet 5 cents\nand 3 more\n"));
}

#[test]
fn cells_of_distances_are_told_in_their_unit() {
    let table = "distances in hundreds of metres,A\nfee in euros,1.00\nF,12\n";
    let folder = Folder::with_sheets("names-distances", &[("far", table)]);
    folder.put("other.csv", table.replace("1.00", "1.01").replace("12", "13"));
    let told = "other.csv: line 2, column 2: the table has 101 and the sheet 100 cents\n\
                other.csv: line 3, column 2: the table has 13 and the sheet 12 hundreds of metres\n";
    folder.assert_told(("plan far.sheet --house-tariff --names other.csv", 1, "", told));
}

#[test]
fn names_may_come_from_several_tables() {
    let folder = Folder::new("names-several");
    folder.put("north.csv", "cents,North,Middle\nfee,1,4\nHill Farm,1,3\nMill Farm,5,1\nLake Farm,9,5\n");
    folder.put("south.csv", "cents,South\nfee,2\nLake Farm,1\nHill Farm,9\nMill Farm,5\n");
    folder.put("s.csv", S);
    folder.run("make north.csv south.csv s.sheet");
    let one = folder.said("plan s.sheet --names s.csv");
    assert_eq!(folder.said("plan s.sheet --names north.csv --names south.csv"), one);
    assert_eq!(folder.said("plan --names=north.csv s.sheet --names=south.csv"), one);
    let told = "south.csv, north.csv makes another sheet than s.sheet: its names do not belong to it\n\
                south.csv: line 2, column 2: the table has 2 and the sheet 1 cents\n";
    folder.assert_told(("plan s.sheet --names south.csv --names north.csv", 1, "", told));
    folder.assert_told(("plan s.sheet --names north.csv", 1, "", "the table has yards 2, farms 3, the sheet yards 3"));
    let compared =
        folder.said("compare-sheets s.sheet s.sheet --names s.csv --other-names north.csv --other-names south.csv");
    assert!(compared.contains("no farm goes to another yard, and no haul changes\n"), "{compared}");
}
