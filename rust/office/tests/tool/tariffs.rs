//! The faults of tariffs and of distances, a tariff in words, and plans by a tariff.
use super::{assert_fault_by, number, with_hauls};
use office::list::Choice;
use office::words::refusal::{first_fault, Given};
use office::words::{listed, outcome, tariffs, Names};
use planner::bands::{bytes, following, haul, house};
use planner::format::{amount, MOST_AREA, RECORD};
use planner::table::Table;
use planner::{library, Counts, Refusal, Sheet, Tariff};

/// Three bands, of which record 1 goes from 100 to 250.
fn three() -> Vec<u8> {
    bytes(&following(&[(100, 40), (250, 34), (500, 28)]))
}

/// The tariff of three bands with bytes changed: pairs of a place and its new value.
fn damaged(changes: &[(usize, u8)]) -> Vec<u8> {
    let mut tariff = three();
    for &(at, value) in changes {
        tariff[at] = value;
    }
    tariff
}

fn by<'a>(sheet: &'a [u8], tariff: &'a [u8]) -> Sheet<'a> {
    Sheet::of_distances(sheet, Tariff::Given(tariff))
}

fn many_bands(count: u16) -> Vec<u8> {
    bytes(&following(&(1..=count).map(|end| (end, 5)).collect::<Vec<_>>()))
}

#[test]
fn every_fault_of_a_tariff_is_found_in_its_record() {
    let cases: [(Vec<u8>, u8, &[usize], &str); 20] = [
        (vec![], 11, &[], "The length of the tariff is 0 bytes: whole records 0, bytes left over 0. Asked: 1 to 16"),
        (three()[..23].to_vec(), 11, &[], "23 bytes: whole records 2, bytes left over 7"),
        (three()[..4].to_vec(), 11, &[], "4 bytes: whole records 0, bytes left over 4"),
        (many_bands(17), 11, &[], "136 bytes: whole records 17, bytes left over 0"),
        ([three(), vec![0; 128]].concat(), 11, &[], "152 bytes: whole records 19"),
        (
            damaged(&[(8, 0x48)]),
            11,
            &[1],
            "at byte 8: 48 01 64 00 FA 00 22 00 hex: no band.\nIts kind is 48 hex. Asked: 42",
        ),
        (damaged(&[(17, 1)]), 11, &[2], "Its number is 1. Asked here: 2."),
        (damaged(&[(1, 1)]), 11, &[0], "Its number is 1. Asked here: 0."),
        (damaged(&[(2, 1)]), 11, &[0], "It starts at 1, which leaves a gap. Asked: 0 for band 0."),
        (damaged(&[(10, 101)]), 11, &[1], "It starts at 101, which leaves a gap. Asked: its predecessor's end, 100."),
        (damaged(&[(10, 99)]), 11, &[1], "It starts at 99, which is an overlap. Asked: its predecessor's end, 100."),
        (damaged(&[(4, 101)]), 11, &[1], "It starts at 100, which is an overlap. Asked: its predecessor's end, 101."),
        (damaged(&[(11, 1)]), 11, &[1], "It starts at 356, which leaves a gap."),
        (
            damaged(&[(12, 100), (18, 100)]),
            11,
            &[1],
            "It ends at 100 and starts at 100, so the band is empty. Asked: an end",
        ),
        (damaged(&[(12, 99), (18, 99)]), 11, &[1], "It ends at 99 and starts at 100. Asked: an end above the start."),
        (damaged(&[(4, 0)]), 11, &[0], "It ends at 0 and starts at 0, so the band is empty."),
        (
            damaged(&[(14, 41)]),
            12,
            &[1],
            "Its rate is 41; that of the band before it, record 0, is 40. Asked: no rate above",
        ),
        (damaged(&[(6, 0)]), 12, &[1], "a band, number 1, from 100 to 250, rate 34.\nIts rate is 34; that"),
        (damaged(&[(23, 1)]), 12, &[2], "Its rate is 284; that of the band before it, record 1, is 34."),
        (damaged(&[(14, 41), (16, 0)]), 11, &[2], "Its kind is 00 hex. Asked: 42 for a band."),
    ];
    let sheets = [vec![], with_hauls([[1, 1], [1, 4]]), Table::s().sheet()];
    for (tariff, question, records, part) in cases {
        for sheet in &sheets {
            let beside = Given { k: Some(0), area: Some(0), ..Given::default() };
            for given in [Given::default(), beside] {
                assert_fault_by(by(sheet, &tariff), given, question, records, part);
            }
        }
    }
}

#[test]
fn tariffs_at_their_bounds_are_accepted() {
    let widest = [(u16::MAX - 1, u16::MAX), (u16::MAX, u16::MAX)];
    for tariff in [three(), many_bands(1), many_bands(16), bytes(&following(&widest)), bytes(&following(&[(1, 0)]))] {
        let even = Table::even(2, 2, 1, 1).sheet();
        assert_eq!(number(by(&even, &tariff), &Given::default()), None);
        assert!(first_fault(by(&even, &tariff), &Given::default(), &Names::default()).is_none());
    }
}

/// Two yards and two farms of these distances, by one band up to 5,000 at 1,000 cents: 1,000 is priced at the highest haul.
#[test]
fn every_fault_of_distances_is_found_in_its_record() {
    let tariff = bytes(&following(&[(5_000, 1_000)]));
    let far = |far: u32| with_hauls([[1, 1], [1, far]]);
    let mut fee = far(5_001);
    fee[7] = 255;
    let mut loads = far(5_001);
    loads[8 * 2 + 3] = 21;
    let cases: [(Vec<u8>, u8, &[usize], &str); 8] = [
        (far(5_001), 13, &[5], "amount 5001.\nIts distance is 5001. Asked: at most 5000, the last end of the tariff."),
        (far(u32::MAX), 13, &[5], "Its distance is 4294967295."),
        (fee.clone(), 13, &[5], "Its distance is 5001."),
        (loads, 10, &[2], "the loads of farm 0, is 21."),
        (
            far(1_001),
            5,
            &[5],
            "amount 1001.\nIts haul is 1001000, priced from the distance 1001. Asked: at most 1000000.",
        ),
        ([&fee[..40], &far(1_001)[40..]].concat(), 5, &[0], "Its fee is 4278190080. Asked: at most 50000000."),
        (far(1_000), 6, &[5, 3, 2, 4], "haul(a, q) is 1000000, priced from the distance 1000, record 5 at byte 40."),
        (far(4), 6, &[5, 3, 2, 4], "The last three come to 3000; the first is more by 1000."),
    ];
    for (sheet, question, records, part) in cases {
        assert_fault_by(by(&sheet, &tariff), Given::default(), question, records, part);
    }
    let given = Given { k: Some(3), area: Some(0), ..Given::default() };
    assert_fault_by(by(&far(3), &tariff), given, 7, &[], "k is 3. Asked: from 1 to 2");
    let (farther, farthest) = (far(4_001), with_hauls([[4_000; 2]; 2]));
    let [farther, farthest] = [&farther, &farthest].map(|sheet| Sheet::of_distances(sheet, Tariff::House));
    let part = "Asked: at most 4000, the last end of the tariff.";
    assert_fault_by(farther, Given::default(), 13, &[5], part);
    assert_eq!(number(farthest, &Given::default()), None);
}

/// The distances 1, 1, 1, 3 keep the rule at any rates that fall; 1, 1, 1, 4 keep it where the priced hauls do.
#[test]
fn question_6_is_about_the_priced_hauls() {
    let tariff = bytes(&following(&[(1, 9), (9, 6)]));
    let sheet = with_hauls([[1, 1], [1, 4]]);
    let numbers = [by(&sheet, &tariff), Sheet::of_hauls(&sheet)].map(|sheet| number(sheet, &Given::default()));
    assert_eq!(numbers, [None, Some(6)]);
    assert!(first_fault(by(&sheet, &tariff), &Given::default(), &Names::default()).is_none());
}

#[test]
fn refusals_by_a_tariff_are_told_in_these_words() {
    let names = Names { farms: vec!["Hill".into(), "Mill".into()], ..Names::default() };
    let sheet = with_hauls([[1, 1], [1, 4]]);
    let told = listed(Choice::Open, Sheet::of_distances(&sheet, Tariff::House), &names, |_| "a list".into());
    let text = "\
refused 6
Question 6: Four-point rule: for all yards a, b and all farms p, q, is haul(a, q) at most haul(a, p) + haul(b, p) + haul(b, q)? No.
a is yard 1, b is yard 0, p is farm 0 (Hill), q is farm 1 (Mill).
haul(a, q) is 160, priced from the distance 4, record 5 at byte 40.
haul(a, p) is 40, priced from the distance 1, record 3 at byte 24.
haul(b, p) is 40, priced from the distance 1, record 2 at byte 16.
haul(b, q) is 40, priced from the distance 1, record 4 at byte 32.
The last three come to 120; the first is more by 40.
Choices of a, b, p, q that break the rule: 1. No haul is in more of them than every other.
";
    assert_eq!((told.status, &told.text[..]), (1, text));
    let told = tariffs::read(&damaged(&[(14, 41)]));
    let text = "\
refused 12
Question 12: Tariff (paper 3): is no rate above the band before it? No.
Record 1 of the tariff (counted from 0), at byte 8: 42 01 64 00 FA 00 29 00 hex: a band, number 1, from 100 to 250, rate 41.
Its rate is 41; that of the band before it, record 0, is 40. Asked: no rate above the band before it.
";
    assert_eq!((told.status, &told.text[..]), (1, text));
}

#[test]
fn where_tool_and_library_disagree_on_a_tariff_that_is_called_a_defect() {
    let (good, gap) = (three(), damaged(&[(10, 101)]));
    let accepted = Ok(Counts { yards: 1, farms: 1 });
    let cases = [
        (&good, Err(1), 0, "passes"),
        (&gap, Err(11), 1, "refused 11"),
        (&gap, Err(1), 3, "refused 1\nThis tool finds a fault of question 11: the library or the tool has a defect."),
        (&gap, Err(12), 3, "refused 12\nThis tool finds a fault of question 11"),
        (&good, Err(11), 3, "refused 11\nThis tool finds a fault of question 1:"),
        (&good, Err(2), 3, "refused 2\nThis tool finds a fault of question 1:"),
        (&good, accepted, 3, "accepts an empty sheet"),
    ];
    for (tariff, answer, status, part) in cases {
        let said = tariffs::outcome(answer.map_err(Refusal), Tariff::Given(tariff), "passes".into());
        assert!(said.status == status && said.text.contains(part), "{answer:?} {part}: {}", said.text);
    }
    let sheet = with_hauls([[1; 2]; 2]);
    for (number, tariff, part) in [(13, &good, "no fault at all"), (5, &gap, "a fault of question 11")] {
        let said = outcome(Err(Refusal(number)), by(&sheet, tariff), &Given::default(), &Names::default());
        assert!(said.status == 3 && said.text.contains(part), "{}", said.text);
    }
}

/// What the library prices a distance at.
fn priced(tariff: Tariff, distance: u32) -> u64 {
    let mut area = [0; MOST_AREA];
    library::price_by(&Table::new(vec![0], vec![vec![distance]]).sheet(), tariff, 1, &mut area).unwrap();
    amount(&area[RECORD..]).into()
}

#[test]
fn the_tool_prices_distances_as_the_library_does() {
    assert_eq!(haul(&house(), 120), 4_680);
    let same = bytes(&house());
    for distance in 0..=4_000 {
        assert_eq!(priced(Tariff::House, distance), haul(&house(), distance), "{distance}");
        assert_eq!(priced(Tariff::Given(&same), distance), haul(&house(), distance), "{distance}");
    }
    let other = following(&[(7, 900), (1_000, 250), (1_001, 250), (u16::MAX, 0)]);
    for distance in (0..=u16::MAX.into()).step_by(3) {
        assert_eq!(priced(Tariff::Given(&bytes(&other)), distance), haul(&other, distance), "{distance}");
    }
}

#[test]
fn a_sheet_of_distances_without_a_tariff_is_refused_where_every_tariff_refuses_it() {
    let names = Names { yards: vec!["A".into(), "B".into()], farms: vec!["F".into(), "G".into()], ..Names::default() };
    let sheet =
        |far: u32, loads: u8| Table { loads: vec![loads; 2], ..Table::new(vec![0; 2], vec![vec![far, 1]; 2]) }.sheet();
    let refused = "No tariff was given; this sheet of distances is refused by every tariff.\n";
    for (far, loads, status, parts) in [
        (65_535, 20, 0, ["written as a sheet of distances: records 6, yards 2, farms 2\n", "No tariff was given"]),
        (65_536, 20, 1, ["refused 13\n", refused]),
        (65_536, 21, 1, ["refused 10\n", refused]),
    ] {
        let said = tariffs::without_tariff(&sheet(far, loads), &names);
        assert!(said.status == status && parts.iter().all(|part| said.text.contains(part)), "{}", said.text);
        assert!(!said.text.contains("accepted"), "{}", said.text);
    }
}
