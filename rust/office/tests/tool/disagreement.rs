//! Lists that are not what they say: the tool calls them a defect and prints none of them.
use office::list::{Choice, List};
use office::words::{agreed, Said, ACCEPTED, DEFECT};
use planner::table::Table;
use planner::Sheet;

fn list(choice: Choice) -> List {
    List::of(Sheet::of_hauls(&Table::s().sheet()), choice).unwrap()
}

const CHOICES: [Choice; 4] = [Choice::Open, Choice::Limited(1), Choice::Limited(2), Choice::Set(0b101)];

/// What the tool says where it would print this list.
fn said(list: &List) -> (u8, String) {
    let said = agreed(list.disagreement(), Said { text: "the list\n".into(), status: ACCEPTED });
    (said.status, said.text)
}

#[test]
fn a_list_that_is_what_it_says_is_printed() {
    for choice in CHOICES {
        assert_eq!(said(&list(choice)), (ACCEPTED, "the list\n".into()), "{choice:?}");
        // A floor may be as high as the total.
        let mut best = list(choice);
        best.floor.cents = best.plan.total.into();
        assert_eq!(said(&best), (ACCEPTED, "the list\n".into()), "{choice:?}");
    }
}

#[test]
fn records_that_do_not_come_to_the_total_are_a_defect() {
    let defect = |sum: u64, total: u32| {
        let words = format!("The records come to {sum} and the library's total is {total}");
        (DEFECT, format!("{words}: the library or the tool has a defect.\n"))
    };
    for choice in CHOICES {
        let right = list(choice);
        let total = right.plan.total;
        for wrong in [total - 1, total + 1] {
            let mut list = right.clone();
            list.plan.total = wrong;
            list.floor.cents = 0;
            assert_eq!(said(&list), defect(total.into(), wrong), "{choice:?}");
        }
        let mut list = right.clone();
        list.plan.farms[0].loads += 1;
        let more = u64::from(total) + u64::from(list.plan.farms[0].haul);
        assert_eq!(said(&list), defect(more, total), "{choice:?}");
    }
}

#[test]
fn fees_count_in_every_list_but_a_limited_one() {
    for choice in CHOICES {
        let mut list = list(choice);
        list.plan.yards[0].fee += 1;
        let is_limited = matches!(choice, Choice::Limited(_));
        assert_eq!(said(&list).0, if is_limited { ACCEPTED } else { DEFECT }, "{choice:?}");
    }
}

#[test]
fn a_floor_above_the_total_is_a_defect() {
    for choice in CHOICES {
        let mut list = list(choice);
        let total = u64::from(list.plan.total);
        list.floor.cents = total + 1;
        let words = format!("The library's floor {} is above the library's total {total}", total + 1);
        assert_eq!(said(&list), (DEFECT, format!("{words}: the library or the tool has a defect.\n")), "{choice:?}");
    }
}
