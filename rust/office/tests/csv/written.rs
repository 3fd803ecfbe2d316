//! The way back: what is written reads to the same again.
use super::{read, TYPED};
use comparison::random::Random;
use office::csv::{written, Amounts, Typed};
use office::words::Names;
use planner::table::Table;

#[test]
fn a_table_is_written_as_it_was_typed() {
    let Typed { table, amounts, names } = read(TYPED).unwrap();
    assert_eq!(written(&table, amounts, &names), TYPED);
    for text in [
        include_str!("../../../../sheets/boerde.csv"),
        include_str!("../../../../sheets/loads.csv"),
        include_str!("../../../../sheets/distances/boerde.csv"),
        "cents,loads,\"A, \"\"old\"\"\",B\nfee,,1,2\n\"F;G\",255,0,4294967295\nH,,1,1\n",
    ] {
        let Typed { table, amounts, names } = read(text).unwrap();
        assert_eq!(written(&table, amounts, &names), text);
    }
}

#[test]
fn without_names_yards_and_farms_are_called_by_their_numbers() {
    let table = Table { loads: vec![0, 20, 1], ..Table::s() };
    let text = "\
distances in hundreds of metres,loads,yard 0,yard 1,yard 2
fee in cents,,1,4,2
farm 0,,1,3,9
farm 1,20,5,1,5
farm 2,1,9,5,1
";
    assert_eq!(written(&table, Amounts::Distances, &Names::default()), text);
    let read = read(text).unwrap();
    assert_eq!((read.table, read.amounts), (table, Amounts::Distances));
}

/// A name with anything that may part, quote or end a cell.
fn name(random: &mut Random, number: usize) -> String {
    const LETTERS: [&str; 14] =
        ["a", "ü", ",", ";", "\"", "\"\"", " ", "'", "=", "sep=", "fee", "loads", "\u{A0}", "東"];
    let length = random.between(0, 5);
    let letters: String = (0..length).map(|_| LETTERS[random.between(0, LETTERS.len() as u64 - 1) as usize]).collect();
    format!("{letters}{number}")
}

#[test]
fn any_table_with_any_names_reads_to_the_same_again() {
    let mut random = Random::new(16);
    for _ in 0..500 {
        let (yards, farms) = (random.between(1, 32) as usize, random.between(1, 12) as usize);
        let amounts = if random.one_in(2) { Amounts::Hauls } else { Amounts::Distances };
        let mut row = || (0..yards).map(|_| random.draw() as u32).collect::<Vec<u32>>();
        let mut table = Table::new(row(), (0..farms).map(|_| row()).collect());
        if random.one_in(2) {
            table.loads.fill_with(|| random.draw() as u8);
        }
        let mut names =
            |count| (0..count).map(|number| name(&mut random, number).trim().to_string()).collect::<Vec<_>>();
        let names = Names { yards: names(yards), farms: names(farms), ..Names::default() };
        let text = written(&table, amounts, &names);
        let read = read(&text).unwrap_or_else(|faults| panic!("{faults:#?} in {text}"));
        assert_eq!((&read.table, read.amounts), (&table, amounts), "{text}");
        assert_eq!((&read.names.yards, &read.names.farms), (&names.yards, &names.farms), "{text}");
    }
}
