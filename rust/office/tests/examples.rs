//! The example sheets: each is what its table makes, and the tool and the library say of it what stands beside it. So is the
//! tariff of the example of distances.
use office::csv::{self, File};
use office::list::Choice;
use office::words::{list, listed, read, shown, shutting, tariffs, Names, Said, ACCEPTED};
use planner::format::{amount, FARM, MOST_AREA, MOVES, OPEN, RECORD, TOTAL};
use planner::table::Table;
use planner::{bands, library, Sheet, Tariff};
use std::fs;
use std::path::{Path, PathBuf};

const EXAMPLES: [&str; 3] = ["s", "boerde", "loads"];
const EARTH_RADIUS: f64 = 6371.0;
const ROAD_FACTOR: f64 = 1.3;
const CENTS_FOR_A_KILOMETRE: f64 = 9000.0;
const HUNDREDS_OF_METRES: f64 = 10.0;

/// The example of distances and its tariff, as the command line names it.
const DISTANCES: &str = "distances/boerde";
const HAULIER: &str = "sheets/distances/haulier.tariff";

/// The places of the example with loads along its road, in kilometres, and the price of a load for each.
const YARDS_ALONG_ROAD: [u32; 4] = [4, 18, 30, 44];
const FARMS_ALONG_ROAD: [u32; 6] = [0, 11, 24, 33, 37, 50];
const CENTS_ALONG_ROAD: u32 = 300;

fn file(name: &str) -> PathBuf {
    Path::new(env!("CARGO_MANIFEST_DIR")).join("../../sheets").join(name)
}

fn text(name: &str) -> String {
    fs::read_to_string(file(name)).unwrap()
}

/// An example's table, its names with the sheet as the command line names it, and its sheet.
fn typed(example: &str) -> (Table, Names, Vec<u8>) {
    let name = format!("{example}.csv");
    let typed = csv::read(&[File { name: &name, bytes: text(&name).as_bytes() }]).unwrap();
    let names = Names { sheet: format!("sheets/{example}.sheet"), ..typed.names };
    (typed.table, names, fs::read(file(&format!("{example}.sheet"))).unwrap())
}

/// A list as the tool prints it.
fn in_words(choice: Choice, sheet: Sheet, names: &Names) -> Said {
    listed(choice, sheet, names, |list| list::words(list, sheet, names))
}

/// Each is accepted and has its part.
fn assert_parts(cases: &[(&Said, &str)]) {
    for (said, part) in cases {
        assert!(said.status == ACCEPTED && said.text.contains(part), "{part}, in: {}", said.text);
    }
}

/// What the program `plan` prints for the records of a plan area.
fn lines(area: &[u8]) -> String {
    let line = |record: &[u8]| {
        let (yard, farm, amount) = (record[1], record[2], amount(record));
        match record[0] {
            OPEN => format!("open {yard} {amount}\n"),
            FARM => format!("farm {farm} {yard} {amount}\n"),
            TOTAL => format!("total {amount}\n"),
            MOVES => format!("moves {amount}\n"),
            kind => panic!("a record of kind {kind:02X}"),
        }
    };
    area.chunks(RECORD).map(line).collect()
}

#[test]
fn each_sheet_is_what_its_table_makes() {
    for example in EXAMPLES {
        let (table, _, sheet) = typed(example);
        assert!(table.sheet() == sheet, "{example}");
    }
}

#[test]
fn each_plan_is_the_librarys() {
    for example in EXAMPLES {
        let (_, _, sheet) = typed(example);
        let mut area = [0; MOST_AREA];
        let written = library::open_plan(&sheet, &mut area).unwrap();
        assert_eq!(lines(&area[..written.bytes]), text(&format!("{example}.plan")), "{example}");
    }
}

#[test]
fn each_plan_in_words_is_what_the_tool_prints() {
    for example in EXAMPLES {
        let (_, names, sheet) = typed(example);
        let said = in_words(Choice::Open, Sheet::of_hauls(&sheet), &names);
        assert_eq!((said.status, said.text), (ACCEPTED, text(&format!("{example}.txt"))), "{example}");
    }
}

#[test]
fn the_plan_for_the_boerde_leases_some_yards_and_not_all() {
    let (table, _, sheet) = typed("boerde");
    let mut area = [0; MOST_AREA];
    let written = library::open_plan(&sheet, &mut area).unwrap();
    let open = area[..written.bytes].chunks(RECORD).filter(|record| record[0] == OPEN).count();
    assert!(1 < open && open < table.fees.len(), "{open} yards");
}

struct Place {
    kind: String,
    name: String,
    latitude: f64,
    longitude: f64,
}

fn place(line: &str) -> Place {
    let cells: Vec<&str> = line.split(',').collect();
    let angle = |cell: &str| cell.parse::<f64>().unwrap().to_radians();
    Place { kind: cells[0].into(), name: cells[1].into(), latitude: angle(cells[2]), longitude: angle(cells[3]) }
}

/// The great-circle distance in kilometres, by the haversine formula.
fn distance(one: &Place, other: &Place) -> f64 {
    let square = |angle: f64| (angle / 2.0).sin().powi(2);
    let north = square(one.latitude - other.latitude);
    let east = one.latitude.cos() * other.latitude.cos() * square(one.longitude - other.longitude);
    2.0 * EARTH_RADIUS * (north + east).sqrt().asin()
}

/// Rounded up, three ways that are together as long as a fourth stay so: the four-point rule holds.
fn haul(farm: &Place, yard: &Place) -> u32 {
    (distance(farm, yard) * ROAD_FACTOR * CENTS_FOR_A_KILOMETRE).ceil() as u32
}

fn fee(yard: &Place) -> u32 {
    match yard.kind.as_str() {
        "small yard" => 200_000,
        "medium yard" => 300_000,
        "large yard" => 400_000,
        kind => panic!("{kind}"),
    }
}

/// The same in hundreds of metres, for a table of distances.
fn road(farm: &Place, yard: &Place) -> u32 {
    (distance(farm, yard) * ROAD_FACTOR * HUNDREDS_OF_METRES).ceil() as u32
}

/// An example's fees, names and amounts are those of the places.
fn assert_from_places(example: &str, amount: fn(&Place, &Place) -> u32) {
    let places: Vec<Place> = text("boerde-places.csv").lines().skip(1).map(place).collect();
    let (farms, yards): (Vec<&Place>, Vec<&Place>) = places.iter().partition(|place| place.kind == "farm");
    let amounts = |farm: &&Place| yards.iter().map(|yard| amount(farm, yard)).collect();
    let (table, names, _) = typed(example);
    assert_eq!(table.fees, yards.iter().map(|yard| fee(yard)).collect::<Vec<_>>());
    assert_eq!(table.hauls, farms.iter().map(amounts).collect::<Vec<Vec<u32>>>());
    assert_eq!(names.yards, yards.iter().map(|yard| yard.name.clone()).collect::<Vec<_>>());
    assert_eq!(names.farms, farms.iter().map(|farm| farm.name.clone()).collect::<Vec<_>>());
}

#[test]
fn the_tables_of_the_boerde_come_from_its_places() {
    assert_from_places("boerde", haul);
    assert_from_places(DISTANCES, road);
}

/// The bytes of the haulier's tariff.
fn haulier() -> Vec<u8> {
    fs::read(file("distances/haulier.tariff")).unwrap()
}

#[test]
fn the_sheet_of_distances_and_its_tariff_are_what_their_tables_make() {
    let (table, _, sheet) = typed(DISTANCES);
    assert!(table.sheet() == sheet);
    let [distances, tariff] = ["distances/boerde.csv", "distances/haulier.csv"].map(text);
    let distances = csv::read(&[File { name: "boerde.csv", bytes: distances.as_bytes() }]).unwrap();
    assert_eq!(distances.amounts, csv::Amounts::Distances);
    let bands = csv::read_tariff(File { name: "haulier.csv", bytes: tariff.as_bytes() }).unwrap();
    assert_eq!(bands::bytes(&bands), haulier());
}

#[test]
fn the_plans_by_tariffs_and_the_tariff_in_words_are_what_the_tool_prints() {
    let (_, names, sheet) = typed(DISTANCES);
    let names = Names { tariff: HAULIER.into(), ..names };
    let haulier = haulier();
    let open_plan = |tariff| in_words(Choice::Open, Sheet::of_distances(&sheet, tariff), &names);
    let cases = [
        ("distances/boerde-by-house.txt", open_plan(Tariff::House)),
        ("distances/boerde-by-haulier.txt", open_plan(Tariff::Given(&haulier))),
        ("distances/haulier.txt", tariffs::shown(Tariff::Given(&haulier), &names)),
    ];
    for (name, said) in cases {
        assert_eq!((said.status, said.text), (ACCEPTED, text(name)), "{name}");
    }
}

#[test]
fn the_tool_shows_distances_and_prices_every_list_by_the_tariff() {
    let (_, names, bytes) = typed(DISTANCES);
    let sheet = Sheet::of_distances(&bytes, Tariff::House);
    let (made, shown) = (read(sheet, &names), shown(sheet, &names));
    let [limited, priced] = [Choice::Limited(1), Choice::Set(0b1)].map(|choice| in_words(choice, sheet, &names));
    let counted = "sheet sheets/distances/boerde.sheet: records 290, yards 10, farms 28\n";
    assert_parts(&[
        (&made, "accepted: records 290, yards 10, farms 28, distances by the house tariff\n"),
        (&shown, &format!("Fees and distances, by the house tariff\n{counted}")),
        (&shown, "\n   5                      2000                    4000                              15 "),
        (&shown, "\nfarm                    loads  distance to yard, hundreds of metres:    0    1    2 "),
        (&shown, "\n   0  Barleben             12                                         103  227  236 "),
        (&limited, &format!("Limited plan, k = 1, by the house tariff\n{counted}")),
        (&limited, "   0  Barleben             12             9  Wanzleben                           258 "),
        (&limited, "hauls               2910684\nfees and hauls      3110684\ntotal, hauls alone  2910684\n"),
        (&priced, "   0  Barleben             12             0  Magdeburg                           103 "),
        (&priced, "                    4102                     49224\n"),
    ]);
}

/// The records of open yards in the open plan of the sheet of distances.
fn leased(tariff: Tariff) -> String {
    let (_, _, sheet) = typed(DISTANCES);
    let mut area = [0; MOST_AREA];
    let written = library::open_plan_by(&sheet, tariff, &mut area).unwrap();
    let lines = lines(&area[..written.bytes]);
    lines.lines().filter(|line| line.starts_with("open ")).collect::<Vec<_>>().join(", ")
}

#[test]
fn by_the_haulier_more_yards_are_leased_than_by_the_house_tariff() {
    assert_eq!(leased(Tariff::House), "open 6 300000, open 9 200000");
    let yards = "open 1 400000, open 3 300000, open 4 300000, open 6 300000, open 9 200000";
    assert_eq!(leased(Tariff::Given(&haulier())), yards);
}

#[test]
fn the_hauls_of_the_example_with_loads_come_from_its_road() {
    let hauls = |farm: u32| YARDS_ALONG_ROAD.map(|yard| CENTS_ALONG_ROAD * yard.abs_diff(farm)).to_vec();
    let (table, ..) = typed("loads");
    assert_eq!(table.hauls, FARMS_ALONG_ROAD.map(hauls));
    assert_eq!(table.loads, [3, 20, 0, 18, 1, 12]);
}

#[test]
fn with_one_load_for_each_farm_the_example_with_loads_leases_one_yard() {
    let (table, ..) = typed("loads");
    let mut area = [0; MOST_AREA];
    let written = library::open_plan(&Table::new(table.fees, table.hauls).sheet(), &mut area).unwrap();
    let lines = lines(&area[..written.bytes]);
    assert!(lines.starts_with("open 2 45000\nfarm 0 2 9000\n") && lines.ends_with("total 70500\nmoves 0\n"), "{lines}");
}

#[test]
fn the_tool_shows_loads_and_counts_them_in_every_sum() {
    let (_, names, bytes) = typed("loads");
    let sheet = Sheet::of_hauls(&bytes);
    let shown = shown(sheet, &names);
    let [limited, priced] = [Choice::Limited(2), Choice::Set(0b10)].map(|choice| in_words(choice, sheet, &names));
    assert_parts(&[
        (&shown, "farm               loads  one load to yard, cents:      0     1     2      3\n"),
        (&shown, "   2  Elm Farm         1                             6000  1800  1800   6000\n"),
        (&limited, "hauls               134700\nfees and hauls      234700\ntotal, hauls alone  134700\n"),
        (&priced, "18             1  Old Harbour                     4500                     81000\n"),
        (&priced, "fees                    90000\nhauls                  261900\ntotal, fees and hauls  351900\n"),
    ]);
}

#[test]
fn what_shutting_a_yard_would_change_is_what_the_tool_prints() {
    let (_, names, sheet) = typed("loads");
    let open_plan = shutting::said(None, Sheet::of_hauls(&sheet), &names);
    assert_eq!((open_plan.status, open_plan.text), (ACCEPTED, text("loads-shut.txt")));
    let all = shutting::said(Some(0b1111), Sheet::of_hauls(&sheet), &names);
    let lines = "\
   0  Mill Gate         60000      2     23  saves 47400         1
   1  Old Harbour       90000      0      0  saves 90000
   2  Station           45000      2     19  saves 1800          1, 3
   3  South Dock        40000      2     13  costs 10400 more    2
";
    assert!(all.status == ACCEPTED && all.text.contains(lines), "{}", all.text);
    let (_, names, sheet) = typed(DISTANCES);
    let by_haulier = shutting::said(None, Sheet::of_distances(&sheet, Tariff::Given(&haulier())), &names);
    let line = "   1  Haldensleben      400000      6     61  costs 13262 more    4, 9\n";
    assert!(by_haulier.status == ACCEPTED && by_haulier.text.contains(line), "{}", by_haulier.text);
}

#[test]
fn loads_of_one_are_left_out() {
    let (table, names, _) = typed("s");
    let sheet = Table { loads: vec![1, 0, 1], ..table }.sheet();
    let said = in_words(Choice::Open, Sheet::of_hauls(&sheet), &names);
    assert_eq!((said.status, said.text), (ACCEPTED, text("s.txt")));
}
