//! Amounts in euros.
use super::{assert_faults, read};
use planner::table::Table;

#[test]
fn euros_are_read_as_cents_after_a_point_or_a_comma() {
    let table = Table::new(vec![204_187, 0], vec![vec![5, u32::MAX]]);
    for text in [
        "euros,A,B\nfee,2041.87,0.00\nF,0.05,42949672.95\n",
        "EUROS;A;B\nfee;2041,87;00,00\nF;0,05;42949672.95\n",
        "euros,A,B\nfee,\"2041,87\",0.00\nF,\"0,05\",\"42949672,95\"\n",
        "euros\tA\tB\nfee\t2041,87\t0,00\nF\t0,05\t42949672,95\n",
    ] {
        assert_eq!(read(text).unwrap().table, table, "{text}");
    }
}

#[test]
fn an_amount_of_euros_without_two_decimals_or_with_more_is_told_what_it_has() {
    let asked =
        "; asked: euros with two decimals after a point or a comma and no thousands mark, as 2041.87 or 2041,87 (in \
                 quotes where commas part the cells)";
    let cases = [
        ("2041", "does not have two decimals"),
        ("2041.8", "does not have two decimals"),
        ("2041,870", "does not have two decimals"),
        ("2.041", "does not have two decimals"),
        ("2041,", "does not have two decimals"),
        (",87", "has no digit before its decimals"),
        ("2.041,87", "has a thousands mark"),
        ("2 041,87", "has a thousands mark"),
        ("2\u{A0}041,87", "has a thousands mark"),
        ("2'041.87", "has a thousands mark"),
        ("2041,87 €", "has more than digits and a point or a comma"),
        ("-2041,87", "has more than digits and a point or a comma"),
        ("４1,87", "has more than digits and a point or a comma"),
        ("free", "is no amount"),
        ("-", "is no amount"),
    ];
    for (cell, found) in cases {
        let words = format!("under yard A: '{cell}' {found}{asked}");
        assert_faults(&format!("euros;A\nfee;{cell}\nF;1,00\n"), &[(2, 2, &words)]);
        assert_faults(&format!("euros;A\nfee;1,00\nF;{cell}\n"), &[(3, 2, &words)]);
    }
    assert_faults("euros;A\nfee;\nF;1,00\n", &[(2, 2, "under yard A: the amount is missing")]);
    let words = "42949672,96 is more than the four bytes of an amount hold, 42949672.95";
    assert_faults("euros;A\nfee;42949672,96\nF;1,00\n", &[(2, 2, words)]);
}
