//! Several tables of one sheet.
use super::{assert_told, even, read};
use comparison::random::Random;
use office::csv::{self, Amounts, File, Typed};
use office::words::Names;
use planner::table::Table;

/// Reads tables called 0.csv, 1.csv and so on.
fn joined(tables: &[&str]) -> Result<Typed, Vec<csv::Fault>> {
    let names: Vec<String> = (0..tables.len()).map(|table| format!("{table}.csv")).collect();
    let files = names.iter().zip(tables).map(|(name, text)| File { name, bytes: text.as_bytes() });
    csv::read(&files.collect::<Vec<_>>())
}

/// All faults, each as its table, its line, its column and a part of its words.
fn assert_joined_faults(tables: &[&str], expected: &[(&str, usize, usize, &str)]) {
    let faults = joined(tables).unwrap_err();
    let places: Vec<(usize, usize, &str)> =
        expected.iter().map(|&(_, line, column, part)| (line, column, part)).collect();
    assert_told(&faults, &places);
    let names: Vec<&str> = faults.iter().map(|fault| &fault.table[..]).collect();
    assert_eq!(names, expected.iter().map(|&(table, ..)| table).collect::<Vec<_>>());
}

const NORTH: &str = "cents,A,B\nfee,10,20\nF,1,2\nG,3,4\nH,5,6\n";
const SOUTH: &str = ";\n;euros;loads;C\n;fee;;0,30\n;H;2;0,09\n;F;;0,07\n;G;20;0,08\n";

#[test]
fn tables_are_joined_by_the_names_of_the_farms() {
    let typed = joined(&[NORTH, SOUTH]).unwrap();
    let hauls = vec![vec![1, 2, 7], vec![3, 4, 8], vec![5, 6, 9]];
    assert_eq!(typed.table, Table { fees: vec![10, 20, 30], hauls, loads: vec![0, 20, 2] });
    assert_eq!((typed.amounts, &typed.names.yards[..]), (Amounts::Hauls, &["A", "B", "C"].map(String::from)[..]));
    assert_eq!(typed.names.farms, ["F", "G", "H"]);
    let turned = joined(&[SOUTH, NORTH]).unwrap();
    let hauls = vec![vec![9, 5, 6], vec![7, 1, 2], vec![8, 3, 4]];
    assert_eq!(turned.table, Table { fees: vec![30, 10, 20], hauls, loads: vec![2, 0, 20] });
    assert_eq!((&turned.names.yards.concat()[..], &turned.names.farms.concat()[..]), ("CAB", "HFG"));
}

#[test]
fn each_amount_is_known_by_its_cell() {
    let cells = joined(&[NORTH, SOUTH]).unwrap().names.cells;
    let told = |cell: Option<csv::Cell>| cell.map_or("none".into(), |cell| cell.to_string());
    assert_eq!(told(cells.fee(1)), "0.csv: line 2, column 3");
    assert_eq!(told(cells.fee(2)), "1.csv: line 3, column 4");
    assert_eq!(told(cells.haul(0, 2)), "0.csv: line 5, column 2");
    assert_eq!(told(cells.haul(2, 0)), "1.csv: line 5, column 4");
    assert_eq!(told(cells.loads(0)), "1.csv: line 5, column 3");
    assert_eq!(told(cells.loads(2)), "1.csv: line 4, column 3");
    assert_eq!([cells.fee(3), cells.haul(3, 0), cells.haul(0, 3), cells.loads(3)], [None, None, None, None]);
    let alone = read(NORTH).unwrap().names.cells;
    assert_eq!((told(alone.haul(1, 0)), alone.loads(0)), ("t.csv: line 3, column 3".into(), None));
    assert_eq!(csv::Cells::default().fee(0), None);
}

#[test]
fn a_farm_that_is_not_in_every_table_is_told() {
    let every = "; asked: every farm in every table";
    let (missing, other) = (
        format!("farm G is missing, which is in 0.csv: line 4, column 1{every}"),
        format!("farm g is not in 0.csv{every}"),
    );
    assert_joined_faults(&[NORTH, "cents,C\nfee,1\nF,1\nH,1\n"], &[("1.csv", 5, 1, &missing)]);
    let misspelt = [("1.csv", 4, 1, &other[..]), ("1.csv", 6, 1, &missing)];
    assert_joined_faults(&[NORTH, "cents,C\nfee,1\nF,1\ng,1\nH,1\n"], &misspelt);
    assert_joined_faults(&[NORTH, "cents,C\nfee,1\nH,1\nG,1\nF,1\ng,1\n"], &[("1.csv", 6, 1, &other)]);
}

#[test]
fn what_follows_from_a_faulty_line_is_not_told_of_farms() {
    let name_missing = "the name of the farm is missing";
    assert_joined_faults(&[NORTH, "cents,C\nfee,1\nF,1\n,1\nH,1\n"], &[("1.csv", 4, 1, name_missing)]);
    assert_joined_faults(
        &["cents,A\nfee,1\nF,1\n,1\nH,1\n", "cents,C\nfee,1\nF,1\nG,1\nH,1\n"],
        &[("0.csv", 4, 1, name_missing)],
    );
    assert_joined_faults(&[NORTH, "cents,C\nfee,1\nF,1\n\"G,1\nH,1\n"], &[("1.csv", 4, 1, "the closing quote")]);
    assert_joined_faults(&[NORTH, "cents,C\nfee,1\nF,\"1\nG,1\nH,1\n"], &[("1.csv", 3, 2, "the closing quote")]);
    assert_joined_faults(&[NORTH, "cents,C\nfee,1\n"], &[("1.csv", 3, 1, "there is no farm")]);
    assert_joined_faults(&[NORTH, "cents,C\nF,1\nG,1\nH,1\n"], &[("1.csv", 2, 1, "'F' stands here")]);
    assert_joined_faults(
        &["Cent,A\nfee,1\nF,1\n", "cents,C\nfee,1\nX,1\n", "cents,D\nfee,x\nY,1\n"],
        &[("0.csv", 1, 1, "'Cent' stands here"), ("2.csv", 2, 2, "'x' is no whole number")],
    );
}

#[test]
fn no_yard_is_in_two_tables_and_the_bounds_hold_of_the_whole() {
    let twice = "another yard is called B too, in 0.csv: line 1, column 3";
    assert_joined_faults(&[NORTH, "cents,C,B\nfee,1,1\nF,1,1\nG,1,1\nH,1,1\n"], &[("1.csv", 1, 3, twice)]);
    let (wide, more) = (even(30, 128), even(2, 128).replace('Y', "Z"));
    assert_eq!(joined(&[&wide, &more]).unwrap().table, Table::even(32, 128, 1, 1));
    let (wide, more) = (even(30, 2), even(4, 2).replace('Y', "Z"));
    assert_joined_faults(&[&wide, &more], &[("1.csv", 1, 4, "a sheet has at most 32 yards (question 3)")]);
    let (long, longer) = (even(1, 129), even(1, 129).replace('Y', "Z"));
    assert_joined_faults(&[&long, &longer], &[("0.csv", 131, 1, "a sheet has at most 128 farms (question 4)")]);
    let full = even(1, 128);
    assert_joined_faults(&[&full, &longer], &[("1.csv", 131, 1, "farm F128 is not in 0.csv")]);
}

#[test]
fn hauls_and_distances_are_not_joined() {
    let distances = "distances in hundreds of metres,C\nfee in euros,1.00\nF,1\nG,2\nH,3\n";
    let words = "this table has distances and 0.csv has hauls; such tables are not joined";
    assert_joined_faults(&[NORTH, distances], &[("1.csv", 1, 1, words)]);
    let others = distances.replace(",C", ",D").replace("euros,1.00", "cents,100");
    let typed = joined(&[distances, &others]).unwrap();
    assert_eq!((typed.amounts, &typed.table.fees[..]), (Amounts::Distances, &[100, 100][..]));
}

#[test]
fn loads_are_the_same_in_every_table_that_has_them() {
    let loads = |cells: [&str; 3]| {
        let [f, g, h] = cells;
        format!("cents,loads,C\nfee,,1\nF,{f},1\nG,{g},1\nH,{h},1\n")
    };
    let (first, other) = (loads(["3", "", "1"]), loads(["3", "1", ""]).replace('C', "D"));
    assert_eq!(joined(&[NORTH, &first, &other]).unwrap().table.loads, [3, 0, 1]);
    let words = |here, there, line| {
        let words = format!("under loads: {here} here and {there} in 0.csv: line {line}, column 2");
        words + " (an empty cell is one load); asked: the same in every table that has loads"
    };
    let (f, g) = (words(1, 3, 3), words(2, 1, 4));
    let other = loads(["", "2", "x"]).replace('C', "D");
    let expected = [("1.csv", 3, 2, &f[..]), ("1.csv", 4, 2, &g), ("1.csv", 5, 2, "under loads: 'x'")];
    assert_joined_faults(&[&first, &other], &expected);
}

/// The yards of a range and all farms, in another order from the second table on.
fn part_of(table: &Table, yards: std::ops::Range<usize>) -> String {
    let order = |farm: usize| if yards.start == 0 { farm } else { table.hauls.len() - 1 - farm };
    let farms: Vec<usize> = (0..table.hauls.len()).map(order).collect();
    let part = Table {
        fees: table.fees[yards.clone()].to_vec(),
        hauls: farms.iter().map(|&farm| table.hauls[farm][yards.clone()].to_vec()).collect(),
        loads: farms.iter().map(|&farm| table.loads[farm]).collect(),
    };
    let names = Names {
        yards: yards.map(|yard| format!("Y{yard}")).collect(),
        farms: farms.iter().map(|farm| format!("F{farm}")).collect(),
        ..Names::default()
    };
    csv::written(&part, Amounts::Hauls, &names)
}

#[test]
fn the_parts_of_any_table_are_joined_to_the_whole() {
    let mut random = Random::new(18);
    for _ in 0..200 {
        let (yards, farms) = (random.between(2, 32) as usize, random.between(1, 12) as usize);
        let mut row = || (0..yards).map(|_| random.draw() as u32).collect::<Vec<u32>>();
        let mut table = Table::new(row(), (0..farms).map(|_| row()).collect());
        table.loads.fill_with(|| random.between(0, 255) as u8);
        let cut = random.between(1, yards as u64 - 1) as usize;
        let parts = [part_of(&table, 0..cut), part_of(&table, cut..yards)];
        assert_eq!(joined(&[&parts[0], &parts[1]]).unwrap().table, table, "{parts:#?}");
    }
}
