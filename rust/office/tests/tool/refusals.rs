//! Refusals that name the yard, the farm and the cell, and the haul to look at first where the four-point rule is
//! broken.
use super::one_far;
use super::program::{Folder, BOERDE, BROKEN};
use office::words::refusal::{first_fault, Given};
use office::words::{read, Names};
use planner::Sheet;

/// What `make` tells of a table, after the question.
fn told(folder: &Folder, table: &str, options: &str) -> String {
    folder.put("t.csv", table);
    let answer = folder.run(&format!("make t.csv /dev/null{options}"));
    assert!(answer.status == 1 && answer.err.starts_with("refused "), "{table}: {answer:?}");
    answer.err
}

#[test]
fn a_fee_or_a_haul_above_its_bound_is_told_with_its_yard_farm_and_cell() {
    let folder = Folder::new("refusals-bounds");
    let fee = told(&folder, "cents,A,B\nfee,1,50000001\nF,1,1\n", "");
    let words = "Its fee is 50000001. Asked: at most 50000000.\nIt is the fee of yard 1 (B).\n\
                 It was typed in t.csv: line 2, column 3.\n";
    assert!(fee.starts_with("refused 5\n") && fee.ends_with(words), "{fee}");
    let haul = told(&folder, "cents,loads,A,B\nfee,,1,1\nF,,1,1\nG,2,1000001,1\n", "");
    let words = "Its haul is 1000001. Asked: at most 1000000.\nIt is from farm 1 (G) to yard 0 (A).\n\
                 It was typed in t.csv: line 4, column 3.\n";
    assert!(haul.starts_with("refused 5\n") && haul.ends_with(words), "{haul}");
    let euros = told(&folder, ";;\n;euros;A\n;fee;500000,01\n;F;1,00\n", "");
    assert!(euros.ends_with("yard 0 (A).\nIt was typed in t.csv: line 3, column 3.\n"), "{euros}");
}

#[test]
fn loads_and_distances_out_of_bounds_are_told_with_farm_and_cell() {
    let folder = Folder::new("refusals-loads");
    let loads = told(&folder, "cents,loads,A\nfee,,1\nF,3,1\nG,21,1\n", "");
    let words =
        "Its byte 3, the loads of farm 1 (G), is 21. Asked: 0 to 20.\nIt was typed in t.csv: line 4, column 2.\n";
    assert!(loads.starts_with("refused 10\n") && loads.ends_with(words), "{loads}");
    let table = "distances in hundreds of metres,A,B\nfee in cents,1,1\nF,1,4001\n";
    let distance = told(&folder, table, " --house-tariff");
    let words = "Its distance is 4001. Asked: at most 4000, the last end of the tariff.\n\
                 It is from farm 0 (F) to yard 1 (B).\nIt was typed in t.csv: line 3, column 3.\n";
    assert!(distance.starts_with("refused 13\n") && distance.ends_with(words), "{distance}");
    folder.put("dear.csv", "end in hundreds of metres,rate in cents per hundred metres\n5000,1000\n");
    folder.run("make-tariff dear.csv dear.tariff");
    let haul = told(&folder, table, " --tariff dear.tariff");
    let words = "Its haul is 4001000, priced from the distance 4001. Asked: at most 1000000.\n\
                 It is from farm 0 (F) to yard 1 (B).\nIt was typed in t.csv: line 3, column 3.\n";
    assert!(haul.starts_with("refused 5\n") && haul.ends_with(words), "{haul}");
}

#[test]
fn of_several_tables_the_one_with_the_cell_is_named() {
    let folder = Folder::new("refusals-tables");
    folder.put("a.csv", "cents,A\nfee,1\nF,1\nG,1\n");
    folder.put("b.csv", "cents,B\nfee,1\nG,1000001\nF,1\n");
    let words = "It is from farm 1 (G) to yard 1 (B).\nIt was typed in b.csv: line 3, column 2.\n";
    folder.assert_told(("make a.csv b.csv s.sheet", 1, "", words));
    folder.assert_told(("plan s.sheet --names a.csv --names b.csv", 1, words, ""));
    folder.assert_told(("plan s.sheet", 1, "It is from farm 1 to yard 1.\n", ""));
    assert!(!folder.run("plan s.sheet").out.contains("typed"));
}

/// Hötensleben to Burg costs 697717. With its last digit left out, every broken choice has that haul, and the haul that is
/// more than three others is another, which is right.
#[test]
fn a_price_that_was_typed_a_digit_short_is_found() {
    let low = BOERDE.replace("697717", "69771");
    let folder = Folder::with_sheets("refusals-low", &[("low", &low)]);
    let answer = folder.run("show low.sheet --names low.csv");
    let suspect = "\
Choices of a, b, p, q that break the rule: 38.
One haul is in 38 of them, more than any other: 69771, record 102. Look at it first.
It is from farm 9 (Hötensleben) to yard 2 (Burg).
It was typed in low.csv: line 12, column 4.
";
    assert!(answer.status == 1 && answer.out.ends_with(suspect), "{}", answer.out);
    assert!(
        answer.out.contains("\nhaul(a, q) is ") && !answer.out.contains("\nhaul(a, q) is 69771,"),
        "{}",
        answer.out
    );
    let made = folder.run("make low.csv /dev/null");
    assert!(made.status == 1 && made.err.ends_with(suspect), "{made:?}");
}

#[test]
fn a_price_that_was_typed_too_high_is_found_too() {
    let high = BOERDE.replace("Hötensleben,495379,381576,697717,", "Hötensleben,495379,381576,997717,");
    let folder = Folder::with_sheets("refusals-high", &[("high", &high)]);
    let answer = folder.run("make high.csv /dev/null");
    let suspect = ": 997717, record 102. Look at it first.\nIt is from farm 9 (Hötensleben) to yard 2 (Burg).\n";
    assert!(answer.status == 1 && answer.err.contains(suspect), "{answer:?}");
}

#[test]
fn where_several_hauls_are_in_as_many_broken_choices_none_is_named() {
    let folder = Folder::with_sheets("refusals-none", &[("broken", BROKEN)]);
    let answer = folder.run("show broken.sheet --names broken.csv");
    let none = "Choices of a, b, p, q that break the rule: 1. No haul is in more of them than every other.\n";
    assert!(answer.status == 1 && answer.out.ends_with(none), "{}", answer.out);
    assert!(!answer.out.contains("typed"), "{}", answer.out);
}

/// In `one_far` the haul of 4, of farm 1 to yard 1, breaks the rule beside farm 0 with yard 0 and with yard 2.
#[test]
fn the_haul_in_most_broken_choices_is_told_with_their_count() {
    let sheet = one_far().sheet();
    let words = first_fault(Sheet::of_hauls(&sheet), &Given::default(), &Names::default()).unwrap().words;
    // The haul of farm 0 to yard 1 is in both choices too.
    assert!(words.ends_with("that break the rule: 2. No haul is in more of them than every other."), "{words}");
    let mut table = one_far();
    table.hauls.push(vec![1; 3]);
    table.loads.push(0);
    let sheet = table.sheet();
    let said = read(Sheet::of_hauls(&sheet), &Names::default());
    let suspect =
        "that break the rule: 4.\nOne haul is in 4 of them, more than any other: 4, record 7. Look at it first.\n\
                   It is from farm 1 to yard 1.\n";
    assert!(said.status == 1 && said.text.ends_with(suspect), "{}", said.text);
}
