//! Lists in words: each yard with what goes to it, the sums, the floor, and lists side by side.
use super::program::{Folder, BOERDE, LOADS, S, UNUSED};
use office::list::{Choice, List};
use office::words::best;
use planner::table::Table;
use planner::Sheet;

/// The rows of the yards of Mill Gate, Station and South Dock, with 3 and 20, 1 and 18, 1 and 12 loads.
#[test]
fn each_yard_has_its_farms_loads_and_hauls_and_the_fee_with_them() {
    let folder = Folder::with_sheets("lists-yards", &[("loads", LOADS), ("s", S)]);
    let yards = "
yard to lease              fee, cents  farms  loads  hauls, cents  fee and hauls, cents
            0  Mill Gate        60000      2     23         45600                105600
            2  Station          45000      2     19         18000                 63000
            3  South Dock       40000      2     13         23700                 63700

farm ";
    for line in ["plan loads.sheet", "plan loads.sheet 3", "price loads.sheet 0 2 3"] {
        let said = folder.said(&format!("{line} --names loads.csv"));
        assert!(said.contains(yards), "{line}: {said}");
    }
    // One load for each farm is not told.
    let yards = "
yard to lease  fee, cents  farms  hauls, cents  fee and hauls, cents
            1           4      2             4                     8
            2           2      1             1                     3

farm ";
    let said = folder.said("plan s.sheet 2");
    assert!(said.contains(yards), "{said}");
}

#[test]
fn a_yard_that_no_farm_goes_to_stands_out_in_words_and_in_the_lines_of_sums() {
    let folder = Folder::with_sheets("lists-unused", &[("unused", UNUSED), ("boerde", BOERDE)]);
    let yards = "
yard to lease        fee, cents  farms  hauls, cents  fee and hauls, cents
            0  Near           5      2            30                    35
            1  Twin     5000000      0             0               5000000  no farm goes there
without these yards hauls are the same and fees lower by 5000000 cents: 1

farm ";
    let said = folder.said("plan unused.sheet 2 --names unused.csv");
    assert!(said.contains(yards), "{said}");
    let said = folder.said("price unused.sheet 0,1 --names unused.csv");
    assert!(said.contains(yards), "{said}");
    let said = folder.said("plan unused.sheet --names unused.csv");
    assert!(!said.contains("no farm goes there") && !said.contains("without these yards"), "{said}");
    let said = folder.said("plan boerde.sheet 10 --names boerde.csv");
    assert!(
        said.contains("7  Aschersleben      200000      0             0                200000  no farm goes"),
        "{said}"
    );
    assert_eq!(said.matches("no farm goes there").count(), 1);
}

#[test]
fn a_limited_list_has_fees_and_hauls_together_beside_its_total() {
    let folder = Folder::with_sheets("lists-sums", &[("s", S)]);
    let limited = "
sum                 cents
fees                    6
hauls                   5
fees and hauls         11
total, hauls alone      5

";
    let said = folder.said("plan s.sheet 2");
    assert!(said.contains(limited), "{said}");
    let open = "
sum                    cents
fees                       7
hauls                      3
total, fees and hauls     10

";
    let said = folder.said("plan s.sheet");
    assert!(said.contains(open), "{said}");
}

/// A list of S with this floor, made by hand.
fn with_floor(choice: Choice, cents: u64, equal_fee: Option<u32>) -> List {
    let mut list = List::of(Sheet::of_hauls(&Table::s().sheet()), choice).unwrap();
    list.floor.cents = cents;
    list.floor.equal_fee = equal_fee;
    list
}

/// S costs 10 with all yards open, and with two yards 11, of which 5 are hauls.
#[test]
fn how_far_from_best_a_list_may_be_is_told_by_its_floor() {
    let rests_on = "(this rests on offers that the proved call planner_floor accepted, and on nothing else";
    let cases = [
        (Choice::Open, 10, None, "no list is below 10 cents: this one is the cheapest there is"),
        (Choice::Open, 9, None, "no list is below 9 cents: this one is at most 1 cent, 11.12 %, above the cheapest"),
        (Choice::Open, 0, None, "no list is below 0 cents: this one is at most 10 cents above the cheapest"),
        (
            Choice::Set(0b110),
            8,
            None,
            "no list is below 8 cents: this one is at most 3 cents, 37.50 %, above the \
                                       cheapest",
        ),
        (
            Choice::Limited(2),
            4,
            Some(3),
            "no list of at most 2 yards has hauls below 4 cents: this one is at most 1 cent, 25.00 %, above the \
             cheapest in hauls",
        ),
        (
            Choice::Limited(1),
            9,
            Some(7),
            "no single yard has hauls below 9 cents: this one is the cheapest there is in hauls",
        ),
    ];
    for (choice, cents, equal_fee, sentence) in cases {
        let copy = match (choice, equal_fee) {
            (Choice::Limited(k), Some(fee)) => {
                format!(": on a copy of the sheet with every fee {fee}; {k} times that is taken off their sum")
            }
            _ => String::new(),
        };
        assert_eq!(best::told(&with_floor(choice, cents, equal_fee)), format!("{sentence}\n{rests_on}{copy})\n"));
    }
}

/// The numbers before ` cents` of the line on the floor.
fn floor_of(said: &str) -> u64 {
    let line = said.lines().find(|line| line.starts_with("no list is below ")).unwrap();
    line.split(' ').nth(4).unwrap().parse().unwrap()
}

#[test]
fn every_list_has_its_floor_which_is_at_most_its_total() {
    let folder = Folder::with_sheets("lists-floor", &[("boerde", BOERDE)]);
    let open = folder.said("plan boerde.sheet");
    let floor = floor_of(&open);
    assert!(floor <= 5_194_179, "{open}");
    assert_eq!(
        open.contains(": this one is the cheapest there is\n(this rests on offers"),
        floor == 5_194_179,
        "{open}"
    );
    assert_eq!(open.contains(": this one is at most "), floor < 5_194_179, "{open}");
    let set = folder.said("price boerde.sheet 0");
    assert_eq!(floor_of(&set), floor);
    let limited = folder.said("plan boerde.sheet 3");
    assert!(limited.contains("\nno list of at most 3 yards has hauls below "), "{limited}");
    assert!(limited.contains(" times that is taken off their sum)\nmoves made: "), "{limited}");
}
