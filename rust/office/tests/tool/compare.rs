//! Two lists compared, of one sheet and of two.
use super::program::{Folder, BROKEN, LOADS, S};

#[test]
fn two_lists_of_a_sheet_are_compared_by_number() {
    let folder = Folder::with_sheets("compare", &[("s", S)]);
    let text = "\
Two lists compared
first:  Open plan, sheet s.sheet: records 12, yards 3, farms 3
second: Limited plan, k = 2, sheet s.sheet: records 12, yards 3, farms 3

yard to lease  fee in the first, cents  fee in the second, cents
yard 0                               1                            in the first alone
yard 1                               4                         4
yard 2                               2                         2

farms that go to another yard: 1

farm    in the first to yard  hauls, cents  in the second to yard  hauls, cents
farm 0  yard 0                           1  yard 1                            3

sum, cents      first  second  change
fees                7       6      -1
hauls               3       5      +2
fees and hauls     10      11      +1
";
    assert_eq!(folder.said("compare s.sheet open 2"), text);
    assert_eq!(folder.said("compare s.sheet yards=0,1,2 yards=2,1").replace("Price of a set", "Open plan"), {
        text.replace("Limited plan, k = 2", "Open plan")
    });
}

#[test]
fn two_lists_of_a_sheet_are_compared_by_name() {
    let folder = Folder::with_sheets("compare-names", &[("loads", LOADS)]);
    let said = folder.said("compare loads.sheet 4 yards=1 --names loads.csv");
    for line in [
        "Mill Gate                        60000                            in the first alone\n",
        "Old Harbour                      90000                     90000\n",
        "Willow Farm  South Dock                   21600  Old Harbour                  115200\n",
        "hauls            87300  261900  +174600\n",
    ] {
        assert!(said.contains(line), "{line}, in: {said}");
    }
    assert!(!said.contains("yard 0") && !said.contains("farm 0"), "{said}");
    let same = folder.said("compare loads.sheet open yards=3,2,0 --names loads.csv");
    assert!(same.contains("\nno farm goes to another yard, and no haul changes\n"), "{same}");
    assert!(same.contains("\nfees and hauls  232300  232300      +0\n"), "{same}");
}

/// The table of S with yards and farms in another order, one yard less, one farm more and another price.
const OTHER: &str = "cents,South,North\nfee,2,1\nNew Farm,4,4\nLake Farm,1,9\nHill Farm,9,2\nMill Farm,5,5\n";

#[test]
fn two_sheets_are_compared_by_the_names_of_their_tables() {
    let folder = Folder::with_sheets("compare-sheets", &[("s", S), ("other", OTHER)]);
    let said = folder.said("compare-sheets s.sheet other.sheet --names s.csv --other-names other.csv");
    let text = "\
Two lists compared
first:  Open plan, sheet s.sheet: records 12, yards 3, farms 3
second: Open plan, sheet other.sheet: records 10, yards 2, farms 4

yard to lease  fee in the first, cents  fee in the second, cents
North                                1                         1
Middle                               4                            in the first alone
South                                2                         2

farms that go to another yard: 1

farm       in the first to yard  hauls, cents  in the second to yard  hauls, cents
Hill Farm  North                            1  North                             2
Mill Farm  Middle                           1  North                             5
New Farm                                       North                             4  in the second alone

sum, cents      first  second  change
fees                7       3      -4
hauls               3      12      +9
fees and hauls     10      15      +5
";
    assert_eq!(said, text);
    let limited = folder.said("compare-sheets s.sheet other.sheet 1 --names=s.csv --other-names=other.csv");
    assert!(limited.contains("\nsecond: Limited plan, k = 1, sheet other.sheet: records 10,"), "{limited}");
}

#[test]
fn sheets_of_the_same_counts_are_compared_by_number_and_others_are_not() {
    let dearer = S.replace("Lake Farm,9,5,1", "Lake Farm,9,5,2");
    let folder = Folder::with_sheets("compare-counts", &[("s", S), ("dearer", &dearer), ("other", OTHER)]);
    let said = folder.said("compare-sheets s.sheet dearer.sheet");
    assert!(said.contains("\nfarms that go to another yard: 0\n"), "{said}");
    assert!(
        said.contains("\nfarm 2  yard 2                           1  yard 2                            2\n"),
        "{said}"
    );
    assert!(said.contains("\nfees and hauls     10      11      +1\n"), "{said}");
    let told = "give the tables of both, --names TABLE.csv and --other-names TABLE.csv\n";
    for line in
        ["s.sheet other.sheet", "s.sheet other.sheet --names s.csv", "s.sheet dearer.sheet --other-names dearer.csv"]
    {
        folder.assert_told((&format!("compare-sheets {line}"), 1, "", told));
    }
}

#[test]
fn a_comparison_tells_which_sheet_is_refused() {
    let folder = Folder::with_sheets("compare-refused", &[("s", S), ("broken", BROKEN)]);
    for (line, out) in [
        ("compare-sheets s.sheet broken.sheet", "broken.sheet: refused 6\nQuestion 6: "),
        ("compare-sheets broken.sheet s.sheet", "broken.sheet: refused 6\nQuestion 6: "),
        ("compare-sheets s.sheet s.sheet 4", "s.sheet: refused 7\n"),
        ("compare s.sheet open 4", "s.sheet: refused 7\n"),
        ("compare s.sheet yards=3 open", "s.sheet: refused 8\n"),
    ] {
        folder.assert_told((line, 1, out, ""));
        assert!(folder.run(line).out.starts_with(out), "{line}");
    }
}

#[test]
fn a_comparison_is_of_two_lists_or_two_sheets() {
    let folder = Folder::with_sheets("compare-usage", &[("s", S)]);
    for (line, told) in [
        ("compare s.sheet", "this is not how compare is used\n\nsheet compare FILE LIST LIST"),
        ("compare s.sheet open", "this is not how compare is used\n"),
        ("compare s.sheet open 1 2", "this is not how compare is used\n"),
        ("compare s.sheet open yards=", "a number is missing: between commas and after = there is one\n"),
        ("compare s.sheet open closed", "closed is not a whole number from 0 up\n"),
        ("compare s.sheet open 1 --other-names s.csv", "compare does not take --other-names\n"),
        ("compare-sheets s.sheet", "this is not how compare-sheets is used\n"),
        ("compare-sheets s.sheet none.sheet", "none.sheet cannot be read"),
        ("compare-sheets - -", "standard input, -, can be read once only\n"),
    ] {
        folder.assert_told((line, 2, "", told));
    }
}
