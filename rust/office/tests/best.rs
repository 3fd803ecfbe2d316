//! Floors under lists: never above a list or a set of yards, by offers that the library accepts, and high enough.
use comparison::random::Random;
use comparison::samples;
use office::best::{limited_floors, limited_offers, open_floor, open_offers, Floor, Offered};
use planner::format::{
    amount, HIGHEST_FEE, HIGHEST_HAUL, MOST_AREA, MOST_FARMS, MOST_LOADS, MOST_YARDS, RECORD, TOTAL,
};
use planner::table::Table;
use planner::{library, Answer, Tariff, Written};
use std::fs;
use std::path::Path;

/// The bytes of a file of the repository.
fn file(name: &str) -> Vec<u8> {
    fs::read(Path::new(env!("CARGO_MANIFEST_DIR")).join("../..").join(name)).unwrap()
}

/// The total of the plan that a call writes.
fn total(call: impl Fn(&mut [u8]) -> Answer<Written>) -> u64 {
    let mut area = [0; MOST_AREA];
    let written = call(&mut area).unwrap();
    let records = area[..written.bytes].chunks(RECORD);
    records.filter(|record| record[0] == TOTAL).map(|record| u64::from(amount(record))).sum()
}

/// A sheet and what it is priced by.
struct Case {
    name: String,
    sheet: Vec<u8>,
    tariff: Option<samples::TariffSample>,
}

impl Case {
    fn tariff(&self) -> Tariff<'_> {
        self.tariff.as_ref().map_or(Tariff::None, |tariff| tariff.tariff())
    }

    fn yards(&self) -> usize {
        library::read_by(&self.sheet, self.tariff()).unwrap().yards
    }

    fn open_list(&self) -> u64 {
        total(|area| library::open_plan_by(&self.sheet, self.tariff(), area))
    }

    fn limited_list(&self, k: usize) -> u64 {
        total(|area| library::limited_plan_by(&self.sheet, self.tariff(), k, area))
    }

    fn open_floor(&self) -> u64 {
        open_floor(&self.sheet, self.tariff()).unwrap().cents
    }

    fn limited_floors(&self) -> Vec<u64> {
        let floors = limited_floors(&self.sheet, self.tariff(), 1..=self.yards()).unwrap();
        floors.iter().map(|floor| floor.cents).collect()
    }

    /// The full cost of a set and its hauls.
    fn costs(&self, set: u32) -> (u64, u64) {
        let all = total(|area| library::price_by(&self.sheet, self.tariff(), set, area));
        let fees = Table::of_sheet(&self.sheet, self.yards()).fees;
        let paid = fees.iter().enumerate().filter(|(yard, _)| set >> yard & 1 == 1);
        (all, all - paid.map(|(_, &fee)| u64::from(fee)).sum::<u64>())
    }
}

/// Random sheets of up to so many yards and farms, every other one by a tariff; some have loads.
fn random_cases(seed: u64, count: usize, most_yards: u64, most_farms: u64) -> Vec<Case> {
    let random = &mut Random::new(seed);
    let mut case = |place: usize| {
        let (yards, farms) = (random.between(1, most_yards) as usize, random.between(1, most_farms) as usize);
        if place.is_multiple_of(2) {
            let sample = samples::accepted(random, yards, farms);
            return Case { name: sample.name, sheet: sample.sheet, tariff: None };
        }
        let beside = samples::accepted_by(random, yards, farms);
        Case { name: beside.sample.name, sheet: beside.sample.sheet, tariff: Some(beside.tariff) }
    };
    (0..count).map(&mut case).collect()
}

fn of_table(table: &Table) -> Case {
    Case { name: format!("{table:?}"), sheet: table.sheet(), tariff: None }
}

#[test]
fn the_open_lists_of_sheet_s_and_of_the_boerde_are_shown_best() {
    for (name, cents) in [("sheets/s.sheet", 10), ("sheets/boerde.sheet", 5_194_179)] {
        let sheet = file(name);
        assert_eq!(open_floor(&sheet, Tariff::None), Ok(Floor { cents, equal_fee: None }), "{name}");
        assert_eq!(total(|area| library::open_plan(&sheet, area)), cents, "{name}");
    }
}

#[test]
fn the_floors_under_the_limited_lists_of_the_boerde_are_no_lower_than_these() {
    let plain_ascent = [7_113_731, 5_641_550, 4_399_700, 3_941_343, 3_631_600, 3_468_980, 3_340_217, 3_252_321];
    let floors = limited_floors(&file("sheets/boerde.sheet"), Tariff::None, 1..=8).unwrap();
    for (k, (floor, least)) in (1..).zip(floors.iter().zip(plain_ascent)) {
        assert!(floor.cents >= least, "{k} yards: {floor:?}, {least}");
    }
}

#[test]
fn floors_are_at_most_the_lists_and_many_lists_are_shown_best() {
    let (mut open, mut limited, mut all_limited) = (0, 0, 0);
    let cases = random_cases(1, 60, 12, 40);
    for case in &cases {
        let (list, floor) = (case.open_list(), case.open_floor());
        assert!(floor <= list, "{}: {floor} above {list}", case.name);
        open += usize::from(floor == list);
        for (k, floor) in (1..).zip(case.limited_floors()) {
            let list = case.limited_list(k);
            assert!(floor <= list, "{}, {k} yards: {floor} above {list}", case.name);
            limited += usize::from(floor == list);
            all_limited += 1;
        }
    }
    println!("shown best: {open} of {} open lists, {limited} of {all_limited} limited ones", cases.len());
    assert!(open >= 49 && limited >= 280);
}

#[test]
fn no_set_of_yards_costs_less_than_a_floor() {
    for case in random_cases(2, 60, 6, 12) {
        let (floor, floors) = (case.open_floor(), case.limited_floors());
        for set in 1..1 << case.yards() {
            let (all, hauls) = case.costs(set);
            assert!(floor <= all, "{}: {floor} above set {set:b}, {all}", case.name);
            let limited = &floors[set.count_ones() as usize - 1..];
            assert!(limited.iter().all(|&floor| floor <= hauls), "{}: {limited:?}, set {set:b}, {hauls}", case.name);
        }
    }
}

#[test]
fn the_library_accepts_all_offers_and_a_floor_is_their_sum() {
    for case in random_cases(3, 60, 12, 40) {
        let (sheet, tariff) = (&case.sheet, case.tariff());
        let sums = |offered: &[Offered]| -> Vec<u64> {
            let sum = |offered: &Offered| offered.sum(sheet, tariff);
            offered
                .iter()
                .map(|offered| sum(offered).unwrap_or_else(|number| panic!("{}: {number}", case.name)))
                .collect()
        };
        let open = open_offers(sheet, tariff).unwrap();
        assert_eq!(sums(&open).into_iter().max(), Some(case.open_floor()), "{}", case.name);
        let limited = limited_offers(sheet, tariff, 1..=case.yards()).unwrap();
        let sums = sums(&limited);
        for (k, floor) in (1..).zip(limited_floors(sheet, tariff, 1..=case.yards()).unwrap()) {
            let less = |(sum, offered): (&u64, &Offered)| sum.checked_sub(k * u64::from(offered.equal_fee.unwrap()));
            let best = sums.iter().zip(&limited).filter_map(less).max();
            assert_eq!(best, Some(floor.cents), "{}, {k} yards", case.name);
        }
    }
}

#[test]
fn offers_that_overbid_a_yard_are_refused() {
    let offered = |equal_fee| Offered { amounts: vec![2, 5, 4], equal_fee };
    assert_eq!(offered(None).sum(&Table::s().sheet(), Tariff::None), Err(16));
    assert_eq!(offered(Some(2)).sum(&Table::s().sheet(), Tariff::None), Err(16));
    assert_eq!(offered(Some(7)).sum(&Table::s().sheet(), Tariff::None), Ok(11));
}

/// The highest sum of whole amounts up to 13 that the library accepts on sheet S with any loads, by its fees or by
/// equal ones. By its fees no higher amount can be accepted: no haul is above 9 and no fee above 4.
fn highest_sum(sheet: &[u8], equal_fee: Option<u32>) -> u64 {
    let amounts = (0..14_u32.pow(3)).map(|number| vec![number % 14, number / 14 % 14, number / 196]);
    amounts.filter_map(|amounts| Offered { amounts, equal_fee }.sum(sheet, Tariff::None).ok()).max().unwrap()
}

#[test]
fn on_sheet_s_with_loads_no_whole_amounts_come_to_more() {
    for loads in [[20, 1, 1], [1, 1, 1], [2, 3, 5], [7, 7, 14]] {
        let case = of_table(&Table { loads: loads.to_vec(), ..Table::s() });
        assert_eq!(case.open_floor(), highest_sum(&case.sheet, None), "{loads:?}");
        let floors = case.limited_floors();
        for fee in 0..=10 {
            let sum = highest_sum(&case.sheet, Some(fee));
            let reached = (1..).zip(&floors).all(|(k, floor)| floor + k * u64::from(fee) >= sum);
            assert!(reached, "{loads:?}: {floors:?}, {sum} for fees of {fee}");
        }
    }
}

#[test]
fn a_refused_sheet_gives_its_number() {
    for sample in samples::named() {
        let Some(Err(number)) = sample.reading else {
            continue;
        };
        assert_eq!(open_floor(&sample.sheet, Tariff::None), Err(number), "{}", sample.name);
        assert_eq!(limited_floors(&sample.sheet, Tariff::None, 0..=0), Err(number), "{}", sample.name);
    }
    let sheet = Table::even(2, 2, 1, 4_001).sheet();
    assert_eq!(open_floor(&sheet, Tariff::House), Err(13));
    assert_eq!(limited_floors(&sheet, Tariff::Given(&[]), 1..=2), Err(11));
}

#[test]
fn a_range_that_is_empty_or_leaves_the_yards_gives_7() {
    let sheet = Table::s().sheet();
    #[allow(clippy::reversed_empty_ranges)]
    for ks in [0..=3, 1..=4, 4..=4, 2..=1, 0..=0, usize::MAX..=usize::MAX] {
        assert_eq!(limited_floors(&sheet, Tariff::None, ks.clone()), Err(7), "{ks:?}");
    }
    assert_eq!(limited_floors(&sheet, Tariff::None, 2..=3).unwrap().len(), 2);
}

#[test]
fn lists_at_the_edges_are_shown_best() {
    let dearest =
        Table { loads: vec![MOST_LOADS; MOST_FARMS], ..Table::even(MOST_YARDS, MOST_FARMS, HIGHEST_FEE, HIGHEST_HAUL) };
    let apart = |far: u32| Table::new(vec![HIGHEST_FEE, 0], vec![vec![0, far], vec![far, 0]]);
    let cases = [
        (Table::even(1, 1, 7, 5), 12),
        (Table::even(1, 1, 0, 0), 0),
        (Table::even(1, 5, 3, 2), 13),
        (Table::new(vec![4, 2, 9], vec![vec![6, 7, 3]]), 9),
        (Table { fees: vec![0; 3], ..Table::s() }, 3),
        (Table::even(4, 6, 9, 0), 9),
        (apart(HIGHEST_HAUL), u64::from(HIGHEST_HAUL)),
        (dearest, 2_610_000_000),
    ];
    for (table, cents) in cases {
        let case = of_table(&table);
        assert_eq!((case.open_list(), case.open_floor()), (cents, cents), "{} yards", case.yards());
        let lists: Vec<u64> = (1..=case.yards()).map(|k| case.limited_list(k)).collect();
        assert_eq!(case.limited_floors(), lists, "{} yards", case.yards());
    }
}

#[test]
fn with_all_yards_the_floor_is_what_every_farm_pays_to_its_nearest() {
    for case in random_cases(4, 60, 12, 40) {
        let yards = case.yards();
        let floor = limited_floors(&case.sheet, case.tariff(), yards..=yards).unwrap()[0];
        assert_eq!(floor, Floor { cents: case.limited_list(yards), equal_fee: Some(0) }, "{}", case.name);
    }
}
