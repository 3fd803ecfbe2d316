//! What the program makes, shows and plans, and its exit statuses.
use super::program::{Case, Folder, BROKEN, S};
use super::s;
use planner::table::Table;

#[test]
fn the_tool_makes_shows_and_plans_with_these_statuses() {
    let folder = Folder::new("commands");
    folder.put("s.csv", S);
    folder.put("far.csv", BROKEN);
    folder.put("faulty.csv", "cents,A\nfee,1\nF,1.5\n");
    let cases: [Case; 25] = [
        ("make s.csv s.sheet", 0, "", "accepted: records 12, yards 3, farms 3\n"),
        ("make far.csv far.sheet", 1, "", "refused 6\nQuestion 6: Four-point rule"),
        ("make faulty.csv none.sheet", 1, "", "faulty.csv: line 3, column 2: under yard A: '1.5'"),
        ("make s.csv ./s.csv", 2, "", "./s.csv is the table itself: the sheet would be written over it\n"),
        ("show s.sheet --names s.csv", 0, "   2  Lake Farm             9  5  1", ""),
        ("show s.sheet --names far.csv", 1, "", "far.csv makes another sheet than s.sheet"),
        ("show s.sheet --names", 2, "", "--names needs a value: --names TABLE.csv\n"),
        ("show far.sheet", 1, "refused 6", ""),
        ("plan s.sheet", 0, "total, fees and hauls     10", ""),
        ("plan s.sheet 2", 0, "total, hauls alone      5", ""),
        ("plan s.sheet 4", 1, "refused 7", ""),
        ("plan s.sheet two", 2, "", "two is not a whole number from 0 up"),
        ("price s.sheet 0 2", 0, "   1             0            5", ""),
        ("price s.sheet", 1, "refused 8", ""),
        ("price s.sheet 32", 2, "", "yard 32 cannot be in a set"),
        ("shut s.sheet --names s.csv", 0, "   1  Middle           4      1  changes nothing     0\n", ""),
        (
            "shut s.sheet 2 1",
            0,
            "Shutting one yard of a set\nsheet s.sheet: records 12, yards 3, farms 3\n\nyard  fee",
            "",
        ),
        ("shut s.sheet 1", 1, "refused 14\nQuestion 14: Shutting a yard (paper 5): is the named", ""),
        ("shut s.sheet 3", 1, "refused 8", ""),
        ("shut s.sheet 0 all", 2, "", "all is not a whole number from 0 up"),
        ("shut far.sheet", 1, "refused 6", ""),
        ("shut", 2, "", "this is not how shut is used\n\nsheet shut FILE  "),
        ("shut", 2, "", "sheet shut FILE YARD .."),
        ("plan none.sheet", 2, "", "none.sheet cannot be read"),
        ("", 2, "", "sheet make TABLE.csv .. FILE"),
    ];
    cases.into_iter().for_each(|case| folder.assert_told(case));
    assert_eq!(folder.get("s.sheet"), s().sheet());
    assert_eq!(folder.files(), ["far.csv", "far.sheet", "faulty.csv", "s.csv", "s.sheet"]);
}

#[test]
fn the_tool_makes_tables_with_loads_and_tells_their_faults() {
    let cases = [
        ("cents,loads,A\nfee,,1\nF,20,5\nG,,6\n", 0, "accepted: records 3, yards 1, farms 2\n"),
        ("cents,loads,A\nfee,,1\nF,3,5\nG,21,6\n", 1, "Its byte 3, the loads of farm 1 (G), is 21. Asked: 0 to 20."),
        ("cents,loads,A\nfee,,1\nF,256,5\n", 1, "loads.csv: line 3, column 2: under loads: 256 is more than the byte"),
        ("cents,A,loads\nfee,1,\nF,5,2\n", 1, "loads.csv: line 1, column 3: the column of loads is the second one"),
    ];
    for (table, status, part) in cases {
        let folder = Folder::new("commands-loads");
        folder.put("loads.csv", table);
        folder.assert_told(("make loads.csv loads.sheet", status, "", part));
    }
}

/// A sheet of distances (far), one of hauls (near), and tariffs: good, one with an empty band, one with a rate that rises.
fn put_distances(folder: &Folder) {
    let head = "end in hundreds of metres,rate in cents per hundred metres";
    let far = "distances in hundreds of metres,A,B\nfee in cents,30000,20000\nF,120,30\nG,50,99\n";
    folder.put("far.csv", far);
    folder.put("near.csv", "cents,A,B\nfee,30000,20000\nF,120,30\nG,50,99\n");
    folder.put("farther.csv", far.replace("99", "251"));
    folder.put("farthest.csv", far.replace("99", "65536"));
    folder.put("good.csv", format!("{head}\n100,40\n250,34\n"));
    folder.put("empty.csv", format!("{head}\n100,40\n100,34\n"));
    folder.put("rising.csv", format!("{head}\n100,40\n250,41\n"));
    folder.put("faulty.csv", format!("{head}\n100,40\n250,3.4\n"));
}

#[test]
fn the_tool_makes_and_shows_tariffs_with_these_statuses() {
    let folder = Folder::new("commands-tariffs");
    put_distances(&folder);
    let cases: [Case; 15] = [
        ("make-tariff good.csv good.tariff", 0, "", "accepted: bands 2, distances up to 250 hundreds of metres\n"),
        ("make-tariff empty.csv empty.tariff", 1, "", "refused 11\nQuestion 11: Tariff (paper 3): is it 1"),
        ("make-tariff rising.csv rising.tariff", 1, "", "refused 12\nQuestion 12: Tariff (paper 3): is no rate above"),
        ("make-tariff faulty.csv none.tariff", 1, "", "faulty.csv: line 3, column 2: under rate"),
        ("make-tariff good.csv ./good.csv", 2, "", "is the table itself: the tariff would be written over it"),
        ("make-tariff none.csv none.tariff", 2, "", "none.csv cannot be read"),
        ("make-tariff good.csv none.tariff --house-tariff", 2, "", "make-tariff does not take --house-tariff\n\nsheet"),
        ("tariff good.tariff", 0, "Tariff good.tariff: bands 2\n\nband  from, hundreds of metres  to, hundreds", ""),
        ("tariff empty.tariff", 1, "refused 11\n", ""),
        ("tariff rising.tariff", 1, "Its rate is 41; that of the band before it, record 0, is 40.", ""),
        ("tariff far.csv", 1, "refused 11\n", ""),
        ("tariff --house-tariff", 0, "The house tariff: bands 6\n\nband  from", ""),
        ("tariff", 2, "", "this is not how tariff is used\n\nsheet tariff FILE"),
        ("tariff good.tariff --house-tariff", 2, "", "this is not how tariff is used\n\nsheet tariff FILE"),
        ("tariff --tariff good.tariff", 2, "", "tariff does not take --tariff\n\nsheet tariff FILE"),
    ];
    cases.into_iter().for_each(|case| folder.assert_told(case));
    let good = [0x42, 0, 0, 0, 100, 0, 40, 0, 0x42, 1, 100, 0, 250, 0, 34, 0];
    assert_eq!(folder.get("good.tariff"), good);
    assert!(folder.path("rising.tariff").exists() && !folder.path("none.tariff").exists());
}

/// The folder of distances with its tariffs.
fn folder_of_distances(test: &str) -> Folder {
    let folder = Folder::new(test);
    put_distances(&folder);
    for tariff in ["good", "empty", "rising"] {
        folder.run(&format!("make-tariff {tariff}.csv {tariff}.tariff"));
    }
    folder
}

#[test]
fn the_tool_makes_sheets_of_distances_with_these_statuses() {
    let folder = folder_of_distances("commands-distances-made");
    let cases: [Case; 12] = [
        (
            "make far.csv far.sheet",
            0,
            "",
            "written as a sheet of distances: records 6, yards 2, farms 2\nNo tariff was given",
        ),
        (
            "make far.csv far.sheet --house-tariff --force",
            0,
            "",
            "accepted: records 6, yards 2, farms 2, distances by the house tariff\n",
        ),
        ("make far.csv far.sheet --tariff good.tariff --force", 0, "", "distances by the tariff good.tariff\n"),
        ("make far.csv far.sheet --tariff empty.tariff --force", 1, "", "refused 11\n"),
        ("make farther.csv farther.sheet --tariff good.tariff", 1, "", "Its distance is 251. Asked: at most 250,"),
        ("make farthest.csv farthest.sheet", 1, "", "this sheet of distances is refused by every tariff"),
        ("make near.csv near.sheet --house-tariff", 1, "", "has hauls, and a tariff is for distances"),
        ("show near.sheet", 2, "", "near.sheet cannot be read"),
        ("make near.csv near.sheet", 0, "", "accepted: records 6, yards 2, farms 2\n"),
        ("make far.csv good.tariff --tariff ./good.tariff", 2, "", "good.tariff is the tariff itself"),
        (
            "make far.csv far.sheet --names near.csv",
            2,
            "",
            "make does not take --names\n\nsheet make TABLE.csv .. FILE",
        ),
        ("make far.csv none.sheet --tariff none.tariff", 2, "", "none.tariff cannot be read"),
    ];
    cases.into_iter().for_each(|case| folder.assert_told(case));
    let made = Table::new(vec![30_000, 20_000], vec![vec![120, 30], vec![50, 99]]).sheet();
    assert!(folder.get("far.sheet") == made && folder.get("near.sheet") == made);
    assert!(!folder.path("none.sheet").exists());
}

#[test]
fn the_tool_plans_by_tariffs_with_these_statuses() {
    let folder = folder_of_distances("commands-distances");
    for sheet in ["far", "farther"] {
        folder.run(&format!("make {sheet}.csv {sheet}.sheet"));
    }
    let counted = "sheet far.sheet: records 6, yards 2, farms 2\n";
    let titled = |title: &str| format!("{title}\n{counted}\n");
    let distances = "so far.sheet is a sheet of distances: give the tariff";
    let once = "a sheet is priced by one tariff: give --tariff FILE or --house-tariff\n";
    let cases: [Case; 22] = [
        ("show far.sheet --house-tariff", 0, &(titled("Fees and distances, by the house tariff") + "band"), ""),
        ("show far.sheet --tariff good.tariff", 0, "\nfarm  distance to yard, hundreds of metres:    0   1\n   0", ""),
        ("show farther.sheet --tariff good.tariff", 1, "refused 13\nQuestion 13: Distances (paper 3): is no", ""),
        ("show far.sheet --tariff rising.tariff", 1, "refused 12\n", ""),
        ("plan far.sheet --house-tariff", 0, &titled("Open plan, by the house tariff"), ""),
        ("plan --house-tariff far.sheet 2", 0, &titled("Limited plan, k = 2, by the house tariff"), ""),
        ("plan far.sheet 3 --house-tariff", 1, "refused 7\n", ""),
        (
            "price far.sheet --tariff good.tariff 0",
            0,
            "   0             0                           120         4680",
            "",
        ),
        ("price far.sheet --tariff good.tariff 0", 0, &titled("Price of a set, by the tariff good.tariff"), ""),
        (
            "plan far.sheet --names far.csv --house-tariff",
            0,
            "   1  G             1  B                            99",
            "",
        ),
        ("shut far.sheet --house-tariff", 1, "The set has one yard, yard 1: the only yard cannot be shut.\n", ""),
        (
            "shut far.sheet 0 1 --tariff good.tariff",
            0,
            "  saves 28040         1\n   1       20000      1  saves 16520",
            "",
        ),
        ("shut far.sheet --names far.csv", 1, "", distances),
        ("plan far.sheet --names far.csv", 1, "", distances),
        ("show far.sheet --names far.csv", 1, "", distances),
        ("plan far.sheet --names near.csv --house-tariff", 1, "", "is no sheet of distances and takes no tariff"),
        ("plan far.sheet --names farther.csv --house-tariff", 1, "", "farther.csv makes another sheet than far.sheet"),
        ("plan far.sheet --house-tariff --tariff good.tariff", 2, "", once),
        ("price far.sheet --tariff good.tariff --tariff good.tariff 0", 2, "", "--tariff is given twice\n"),
        ("price far.sheet --house-tariff --house-tariff 0", 2, "", "--house-tariff is given twice\n"),
        ("plan far.sheet --tariff none.tariff", 2, "", "none.tariff cannot be read"),
        ("plan far.sheet --tariff", 2, "", "--tariff needs a value: --tariff FILE\n"),
    ];
    cases.into_iter().for_each(|case| folder.assert_told(case));
}
