//! The column of loads.
use super::{assert_faults, even, read, TYPED};

#[test]
fn the_second_column_may_hold_loads() {
    for text in [
        "cents,loads,A,B\nfee,,1,2\nF,3,5,6\nG,,7,8\nH,0,7,8\nI,1,7,8\nJ,20,7,8\nK,21,7,8\nL,255,7,8\n",
        "cents;LOADS;A;B\nfee; ;1;2\nF;3;5;6\nG;;7;8\nH;0;7;8\nI;01;7;8\nJ; 20 ;7;8\nK;21;7;8\nL;\"255\";7;8\n",
    ] {
        let typed = read(text).unwrap();
        assert_eq!(typed.table.loads, [3, 0, 0, 1, 20, 21, 255], "{text}");
        assert_eq!((&typed.table.fees[..], &typed.table.hauls[0][..]), (&[1, 2][..], &[5, 6][..]), "{text}");
        assert_eq!((&typed.names.yards[..], &typed.names.farms[0][..]), (&["A".into(), "B".into()][..], "F"), "{text}");
    }
}

#[test]
fn a_column_of_empty_cells_makes_the_sheet_that_no_column_makes() {
    let typed = read("cents,loads,A,B,C\nfee,,1,4,2\nF,,1,3,9\nG,0,5,1,5\nH,,9,5,1\n").unwrap();
    assert_eq!(typed.table.sheet(), read(TYPED).unwrap().table.sheet());
}

#[test]
fn every_fault_of_a_column_of_loads_is_told_with_line_and_column() {
    let head = "cents,loads,A,B\nfee,,1,2\n";
    let only_second =
        "the column of loads is the second one, right after the names of the farms, and there is only one";
    let cases = [
        ("cents,A,loads\nfee,1,\nF,1,2.5\n".into(), 1, 3, only_second),
        ("cents,A,B,Loads,C\nfee,1,2,3,4\nF,1,2,3,4\n".into(), 1, 4, "a yard cannot be called Loads"),
        ("cents,loads,LOADS,A\nfee,,,1\nF,2,2,1\n".into(), 1, 3, only_second),
        ("cents,Loads\nfee,1\nF,1\n".into(), 1, 3, "there is no yard, and a yard cannot be called loads"),
        ("cents,Loads,A\nfee,1,2\nF,1,2\n".into(), 2, 2, "which have no fee; asked here: an empty cell. A yard cannot"),
        (even(33, 1).replace(",Y0", ",loads,Y0").replace("fee,", "fee,,").replace("F0,", "F0,,"), 1, 35, "32 yards"),
        (format!("{head}F,256,1,2\n"), 3, 2, "under loads: 256 is more than the byte of loads holds, 255"),
        (
            format!("{head}F,3,1,2\nG,2.5,1,2\n"),
            4,
            2,
            "under loads: '2.5' is no whole number; asked: 1 to 20, or an empty cell",
        ),
        (format!("{head}F,-1,1,2\n"), 3, 2, "under loads: '-1' is no whole number"),
        (format!("{head}F\n"), 3, 3, "the line has no amounts"),
        (format!("{head}F,1,2\n"), 3, 4, "under yard B: the amount is missing"),
        (format!("{head}F,1,2,3,4\n"), 3, 5, "line 1 names no yard above this cell"),
    ];
    for (text, line, column, part) in cases {
        assert_faults(&text, &[(line, column, part)]);
    }
}
