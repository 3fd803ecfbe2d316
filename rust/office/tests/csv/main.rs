//! Tables as spreadsheets save them: how they are read, and where their faults are told.
mod clerk;
mod distances;
mod euros;
mod fixed_columns;
mod joined;
mod loads;
mod mutated;
mod spreadsheets;
mod written;

use office::csv::{self, Fault, File, Typed};
use planner::table::Table;

const TYPED: &str = include_str!("../../../../sheets/s.csv");

/// A file of the name that faults and cells are told with.
fn file<'a>(bytes: &'a (impl AsRef<[u8]> + ?Sized)) -> File<'a> {
    File { name: "t.csv", bytes: bytes.as_ref() }
}

fn read(bytes: &(impl AsRef<[u8]> + ?Sized)) -> Result<Typed, Vec<Fault>> {
    csv::read(&[file(bytes)])
}

/// All faults of a table, each as its line, its column and a part of its words.
fn assert_faults(bytes: &(impl AsRef<[u8]> + ?Sized), expected: &[(usize, usize, &str)]) {
    assert_told(&read(bytes).unwrap_err(), expected);
}

fn assert_told(faults: &[Fault], expected: &[(usize, usize, &str)]) {
    let told: Vec<String> = faults.iter().map(Fault::to_string).collect();
    assert_eq!(faults.len(), expected.len(), "{expected:?}, in: {told:#?}");
    for (fault, &(line, column, part)) in faults.iter().zip(expected) {
        assert_eq!((fault.line, fault.column), (line, column), "{part}, in: {told:#?}");
        assert!(fault.words.contains(part), "{part}, in: {told:#?}");
    }
}

#[test]
fn a_table_is_read_however_a_spreadsheet_saves_it() {
    let quoted = r#""cents","North, ""old""",Middle,South
Fee,1,4,"2"
Hill,1, 3 ,9
 "Mill" ,5,1,5
Läke,9,5,1

"#;
    for text in [
        TYPED.to_string(),
        TYPED.trim_end().to_string(),
        TYPED.replace('\n', "\r\n"),
        TYPED.replace(',', ";"),
        format!("\u{FEFF}{TYPED}"),
        quoted.to_string(),
    ] {
        assert_eq!(read(&text).unwrap().table, Table::s(), "{text}");
    }
    let names = read(quoted).unwrap().names;
    assert_eq!(names.yards, ["North, \"old\"", "Middle", "South"]);
    assert_eq!(names.farms, ["Hill", "Mill", "Läke"]);
}

#[test]
fn every_fault_of_a_table_is_told_with_line_and_column() {
    let head = "cents,A,B\nfee,1,2\n";
    let cases = [
        ("cents\nfee\nF\n".into(), 1, 2, "there is no yard"),
        ("cents,A,,C\nfee,1,2,3\nF,1,2,3\n".into(), 1, 3, "the name of the yard is missing"),
        ("cents,A,,C\nfee,1,,3\nF,1,,3\n".into(), 1, 3, "the column is empty"),
        ("cents,A,B\nfee,1,2,3\nF,1,2,3\n".into(), 1, 4, "the name of the yard is missing"),
        ("cents,A,B,A\nfee,1,2,3\nF,1,2,3\n".into(), 1, 4, "another yard is called A too, in t.csv: line 1, column 2"),
        (format!("{head}F,1,2\nG,1,2\nF,1,2\n"), 5, 1, "another farm is called F too, in line 3"),
        ("cents,A\n".into(), 2, 1, "the line of fees is missing"),
        ("cents,A\nF,1\nG,1\n".into(), 2, 1, "'F' stands here; asked here: the word fee, then the fee of each yard"),
        (head.into(), 3, 1, "there is no farm; asked: one line for each farm, at least one (question 4)"),
        (format!("{head},1,2\n"), 3, 1, "the name of the farm is missing"),
        (format!("{head}F,1\n"), 3, 3, "under yard B: the amount is missing"),
        (format!("{head}F,,2\n"), 3, 2, "under yard A: the amount is missing"),
        (format!("{head}F\n"), 3, 2, "the line has no amounts; asked: one for each yard"),
        (format!("{head}F,1,2,3,4\n"), 3, 4, "line 1 names no yard above this cell"),
        (format!("{head}F,1,12.50\n"), 3, 3, "'12.50' is no whole number of cents; asked: digits alone"),
        (format!("{head}F,\"12,50\",2\n"), 3, 2, "'12,50' is no whole number of cents"),
        (format!("{head}F,-1,2\n"), 3, 2, "'-1' is no whole number of cents"),
        (format!("{head}F,+1,2\n"), 3, 2, "'+1' is no whole number of cents"),
        (
            format!("{head}F,1,4294967296\n"),
            3,
            3,
            "4294967296 is more than the four bytes of an amount hold, 4294967295",
        ),
    ];
    for (text, line, column, part) in cases {
        assert_faults(&text, &[(line, column, part)]);
    }
}

/// A table of so many yards and farms, all of whose amounts are 1.
fn even(yards: usize, farms: usize) -> String {
    let row = |first: &str, cell: &dyn Fn(usize) -> String| {
        format!("{first}{}\n", (0..yards).map(|yard| format!(",{}", cell(yard))).collect::<String>())
    };
    let one = |_| "1".to_string();
    let hauls: String = (0..farms).map(|farm| row(&format!("F{farm}"), &one)).collect();
    row("cents", &|yard| format!("Y{yard}")) + &row("fee", &one) + &hauls
}

#[test]
fn the_first_yard_and_the_first_farm_too_many_are_told_once() {
    assert_eq!(read(&even(32, 128)).unwrap().table, Table::even(32, 128, 1, 1));
    assert_faults(&even(40, 2), &[(1, 34, "a sheet has at most 32 yards (question 3)")]);
    assert_faults(&even(2, 140), &[(131, 1, "a sheet has at most 128 farms (question 4)")]);
}

#[test]
fn all_faults_are_told_at_once_in_the_order_of_lines() {
    let text = "cents,loads,A,,A\nfees,,1.5,2,3\n,x,1,2,\n\nF,300,1,2,3,4\n\"G,1,2,3\n";
    let faults = [
        (1, 4, "the name of the yard is missing"),
        (1, 5, "another yard is called A too"),
        (2, 1, "'fees' stands here"),
        (2, 3, "'1.5' is no whole number of cents"),
        (3, 1, "the name of the farm is missing"),
        (3, 2, "under loads: 'x'"),
        (3, 5, "under yard A: the amount is missing"),
        (4, 1, "the line is empty"),
        (5, 2, "under loads: 300"),
        (5, 6, "line 1 names no yard above this cell"),
        (6, 1, "the closing quote of this cell is missing"),
    ];
    assert_faults(text, &faults);
    assert_eq!(
        read(text).unwrap_err()[3].to_string(),
        format!("t.csv: line 2, column 3: under yard A: {}", faults[3].2) + "; asked: digits alone"
    );
}

#[test]
fn a_name_that_comes_again_is_told_with_its_first_place() {
    let first = "another yard is called A too, in t.csv: line 1, column 2";
    assert_faults("cents,A,A,A\nfee,1,2,3\nF,1,2,3\n", &[(1, 3, first), (1, 4, first)]);
    let first = "another farm is called F too, in line 3";
    assert_faults("cents,A\nfee,1\nF,1\nF,1\nF,1\n", &[(4, 1, first), (5, 1, first)]);
}

#[test]
fn where_line_1_is_not_understood_nothing_else_is_told() {
    let rest = ",A,A,\nfees,x\n,,\n\"F,\n";
    let asked =
        "asked here: the word cents (amounts are whole cents), the word euros (amounts have two decimals) or the \
                 words distances in hundreds of metres, then the name of each yard";
    for (corner, found) in [("Cent", "'Cent' stands here"), ("", "the cell is empty"), ("€", "'€' stands here")] {
        assert_faults(&format!("{corner}{rest}"), &[(1, 1, &format!("{found}; {asked}"))]);
    }
    assert_faults(&format!("\"Prices, net\"{rest}").replace("\",", "\";"), &[(1, 1, "'Prices, net' stands here")]);
    assert_faults("cents,\"A\"B,C\nfees,x\n", &[(1, 2, "text follows the closing quote")]);
    assert_faults("cents,loads\nfees,x\n", &[(1, 3, "there is no yard, and a yard cannot be called loads")]);
}

#[test]
fn faulty_quotes_are_told_once_in_a_line() {
    let head = "cents,A,B\nfee,1,2\n";
    let cases = [
        (format!("{head}\"F,1,2\nG,x,1\n"), 3, 1, "the closing quote of this cell is missing"),
        (format!("{head}\"F,1,2\nG,\"x\",1\nH,y,1\n"), 3, 1, "text follows the closing quote"),
        (format!("{head}F,1,2,\"x\"y\n"), 3, 4, "text follows the closing quote"),
        (format!("{head}F,\"1\"0,2\n"), 3, 2, "text follows the closing quote"),
        (format!("{head}F,\"1\"0,\"2\n"), 3, 2, "text follows the closing quote"),
        (format!("{head}F,1\"0,2\n"), 3, 2, "a quote stands inside a cell"),
        (format!("{head}F,a \"b,c\" d,2,3\n"), 3, 2, "a quote stands inside a cell"),
    ];
    for (text, line, column, part) in cases {
        assert_faults(&text, &[(line, column, part)]);
    }
    let text = format!("{head}5\" pipe,1,2\nF,x,2\n");
    assert_faults(&text, &[(3, 1, "a quote stands inside a cell"), (4, 2, "'x' is no whole number")]);
}

#[test]
fn the_largest_amount_of_four_bytes_is_read() {
    assert_eq!(read("cents,A\nfee,0\nF,4294967295\n").unwrap().table.hauls, [[u32::MAX]]);
}

#[test]
fn no_table_is_a_fault() {
    assert_told(&csv::read(&[]).unwrap_err(), &[(1, 1, "no table was given")]);
}
