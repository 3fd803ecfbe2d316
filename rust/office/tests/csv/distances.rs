//! Tables of distances.
use super::{assert_faults, read, TYPED};
use office::csv::Amounts;
use planner::table::Table;

#[test]
fn a_table_of_distances_makes_the_sheet_of_its_distances() {
    for text in [
        "distances in hundreds of metres,A,B\nfee in cents,1,2\nF,120,30\nG,0,99\n",
        "Distances in hundreds of metres;A;B\r\nFee in cents;1;2\r\nF;120;30\r\nG;0;99\r\n",
        "distances in hundreds of metres;A;B\r\nfee in euros;0,01;0.02\r\nF;120;30\r\nG;0;99\r\n",
    ] {
        let typed = read(text).unwrap();
        assert_eq!(typed.amounts, Amounts::Distances, "{text}");
        assert_eq!(typed.table, Table::new(vec![1, 2], vec![vec![120, 30], vec![0, 99]]), "{text}");
        assert_eq!(
            (&typed.names.yards[..], &typed.names.farms[..]),
            (&["A", "B"].map(String::from)[..], &["F", "G"].map(String::from)[..])
        );
    }
    let typed = read("distances in hundreds of metres,loads,A\nfee in cents,,1\nF,20,120\n").unwrap();
    assert_eq!((typed.amounts, &typed.table.loads[..]), (Amounts::Distances, &[20][..]));
    assert_eq!(read(TYPED).unwrap().amounts, Amounts::Hauls);
}

#[test]
fn every_fault_of_a_table_of_distances_is_told_with_line_and_column() {
    let head = "distances in hundreds of metres,A,B\nfee in cents,1,2\n";
    let corner = "or the words distances in hundreds of metres, then the name";
    let cases = [
        ("distances,A\nfee in cents,1\nF,1\n".into(), 1, 1, corner),
        ("distances in kilometres,A\nfee in cents,1\nF,1\n".into(), 1, 1, corner),
        (
            "distances in hundreds of metres,A\nfee,1.5\nF,1\n".into(),
            2,
            1,
            "'fee' stands here; asked here: the words fee in cents or fee in euros, then the fee of each yard",
        ),
        ("cents,A\nfee in cents,1\nF,1\n".into(), 2, 1, "the word fee, then the fee of each yard"),
        (
            "distances in hundreds of metres,A\nfee in cents,1.50\nF,1\n".into(),
            2,
            2,
            "'1.50' is no whole number of cents",
        ),
        ("distances in hundreds of metres,A\nfee in euros,1\nF,1\n".into(), 2, 2, "'1' does not have two decimals"),
        (
            format!("{head}F,1,12.5\n"),
            3,
            3,
            "under yard B: '12.5' is no whole number of hundreds of metres; asked: digits",
        ),
        (format!("{head}F,1\n"), 3, 3, "under yard B: the amount is missing"),
        (format!("{head}F,1,4294967296\n"), 3, 3, "is more than the four bytes of an amount hold"),
    ];
    for (text, line, column, part) in cases {
        assert_faults(&text, &[(line, column, part)]);
    }
}
