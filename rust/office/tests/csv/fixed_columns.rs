//! Tables of tariffs and of places.
use super::{assert_told, file, TYPED};
use office::csv::{self, Place};
use planner::bands::following;

const TARIFF_HEAD: &str = "end in hundreds of metres,rate in cents per hundred metres\n";
const PLACES_HEAD: &str = "kind,name,latitude,longitude\n";
const PLACES: &str = include_str!("../../../../sheets/boerde-places.csv");

#[test]
fn a_table_of_a_tariff_is_read_however_a_spreadsheet_saves_it() {
    let text = format!("{TARIFF_HEAD}100,40\n65535, 34 \n7,65535\n7,0\n");
    let bands = following(&[(100, 40), (65_535, 34), (7, 65_535), (7, 0)]);
    for text in [
        text.clone(),
        text.trim_end().to_uppercase(),
        text.replace('\n', "\r\n"),
        text.replace('\n', ",,\r"),
        text.replace(',', ";"),
        format!("sep=\t\n{}", text.replace(',', "\t")),
        format!("\u{FEFF}{text}\n\n"),
        text.replace("100,", "\"100\","),
    ] {
        assert_eq!(csv::read_tariff(file(&text)).unwrap(), bands, "{text}");
    }
    let starts: Vec<u16> = bands.iter().map(|band| band.start).collect();
    assert_eq!(starts, [0, 100, 65_535, 7]);
}

#[test]
fn every_fault_of_a_table_of_a_tariff_is_told_with_line_and_column() {
    let sixteen: String = (1..=16).map(|end| format!("{end},5\n")).collect();
    assert_eq!(csv::read_tariff(file(&format!("{TARIFF_HEAD}{sixteen}"))).unwrap().len(), 16);
    let cases = [
        (String::new(), 1, 1, "the table is empty"),
        ("100,40\n".into(), 1, 1, "'100' stands here; asked here: the words end in hundreds of metres"),
        (TYPED.into(), 1, 1, "asked here: the words end in hundreds of metres"),
        ("end in kilometres,rate in cents per hundred metres\n".into(), 1, 1, "the words end in hundreds of metres"),
        ("end in hundreds of metres\n1\n".into(), 1, 2, "asked here: the words rate in cents per hundred metres"),
        ("end in hundreds of metres,rate in cents\n1,1\n".into(), 1, 2, "the words rate in cents per hundred metres"),
        (format!("{},start\n1,1,0\n", TARIFF_HEAD.trim_end()), 1, 3, "has two columns, end and rate"),
        (TARIFF_HEAD.into(), 2, 1, "there is no band; asked: one line for each band, at least one (question 11)"),
        (format!("{TARIFF_HEAD}{sixteen}17,5\n18,5\n"), 18, 1, "a tariff has at most 16 bands (question 11)"),
        (format!("{TARIFF_HEAD}100,40\n,34\n"), 3, 1, "under end in hundreds of metres: the number is missing"),
        (format!("{TARIFF_HEAD}100\n"), 2, 2, "under rate in cents per hundred metres: the number is missing"),
        (format!("{TARIFF_HEAD}100,40,7\n"), 2, 3, "has two columns, end and rate"),
        (format!("{TARIFF_HEAD}100,40,\"7\"7\n"), 2, 3, "text follows the closing quote"),
        (format!("{TARIFF_HEAD}65536,40\n"), 2, 1, "65536 is more than its two bytes hold, 65535"),
        (format!("{TARIFF_HEAD}1,65536\n"), 2, 2, "65536 is more than its two bytes hold, 65535"),
        (format!("{TARIFF_HEAD}1,2.5\n"), 2, 2, "'2.5' is no whole number; asked: digits alone"),
        (format!("{TARIFF_HEAD}-1,2\n"), 2, 1, "'-1' is no whole number"),
        (format!("{TARIFF_HEAD}1,2\n\n3,1\n"), 3, 1, "the line is empty"),
    ];
    for (text, line, column, part) in cases {
        assert_told(&csv::read_tariff(file(&text)).unwrap_err(), &[(line, column, part)]);
    }
    let several = format!(",,\n,{}", TARIFF_HEAD.to_string() + ",x,40\n,7,8,9\n,2\n");
    let expected = [(3, 2, "under end"), (4, 4, "has two columns"), (5, 3, "the number is missing")];
    assert_told(&csv::read_tariff(file(&several)).unwrap_err(), &expected);
}

#[test]
fn places_are_read_however_a_spreadsheet_saves_them() {
    let places = csv::read_places(file(PLACES)).unwrap();
    let first = Place { name: "Magdeburg".into(), is_yard: true, latitude: 52.13, longitude: 11.64 };
    assert_eq!((places.len(), &places[0], places.iter().filter(|place| place.is_yard).count()), (38, &first, 10));
    let german = PLACES.replace(',', ";").replace('.', ",").replace('\n', ";\r\n");
    assert_eq!(csv::read_places(file(&german)).unwrap(), places);
    let edges = format!("{PLACES_HEAD}Farm,A,-90,180\nyard,A,90.0,-180.000\nfarm,B,0,-0.5\n");
    let angles: Vec<(bool, f64, f64)> = csv::read_places(file(&edges))
        .unwrap()
        .iter()
        .map(|place| (place.is_yard, place.latitude, place.longitude))
        .collect();
    assert_eq!(angles, [(false, -90.0, 180.0), (true, 90.0, -180.0), (false, 0.0, -0.5)]);
}

/// All faults of places, whose lines follow line 1.
fn assert_place_faults(lines: &str, expected: &[(usize, usize, &str)]) {
    assert_told(&csv::read_places(file(&format!("{PLACES_HEAD}{lines}"))).unwrap_err(), expected);
}

#[test]
fn every_fault_of_a_table_of_places_is_told_with_line_and_column() {
    let cases = [
        ("", 2, 1, "there is no place; asked: one line for each place"),
        ("barn,A,1,1\n", 2, 1, "under kind: 'barn' is no kind of place; asked: farm, yard, small yard"),
        (",A,1,1\n", 2, 1, "under kind: the kind is missing; asked: farm, yard"),
        ("farm,,1,1\n", 2, 2, "under name: the name is missing"),
        ("farm,A,1,1\nyard,A,1,1\nfarm,A,1,1\n", 4, 2, "another farm is called A too, in line 2"),
        ("yard,A,1,1\nlarge yard,A,1,1\n", 3, 2, "another yard is called A too, in line 2"),
        ("farm,A,1,1,1\n", 2, 5, "has four columns, kind, name, latitude and longitude"),
    ];
    for (lines, line, column, part) in cases {
        assert_place_faults(lines, &[(line, column, part)]);
    }
    assert_place_faults("barn,,x,200\n", &[(2, 1, "kind"), (2, 2, "name"), (2, 3, "latitude"), (2, 4, "longitude")]);
    let heads = [("farm,A,1,1\n", 1, "kind"), ("kind,name,longitude,latitude\nfarm,A,1,1\n", 3, "latitude")];
    for (text, column, asked) in heads {
        let asked = format!("stands here; asked here: the word {asked}");
        assert_told(&csv::read_places(file(text)).unwrap_err(), &[(1, column, &asked)]);
    }
}

#[test]
fn an_angle_that_is_no_number_or_out_of_range_is_told() {
    let asked = "is no number of degrees; asked: digits, with decimals after a point or a comma";
    for cell in ["x", "1e1", "+1", "1.", ".5", "--1", "-", "NaN", "inf", "1.2.3", "52°", "1 2"] {
        assert_place_faults(&format!("farm,A,{cell},1\n"), &[(2, 3, &format!("under latitude: '{cell}' {asked}"))]);
    }
    assert_place_faults("farm,A,,1\n", &[(2, 3, "under latitude: the number is missing")]);
    assert_place_faults("farm,A,90.01,1\n", &[(2, 3, "under latitude: 90.01 is outside -90 to 90 degrees")]);
    assert_place_faults("farm,A,-91,1\n", &[(2, 3, "under latitude: -91 is outside -90 to 90 degrees")]);
    assert_place_faults("farm,A,1,180.1\n", &[(2, 4, "under longitude: 180.1 is outside -180 to 180 degrees")]);
    assert_place_faults("farm,A,1,-181\n", &[(2, 4, "under longitude: -181 is outside -180 to 180 degrees")]);
}
