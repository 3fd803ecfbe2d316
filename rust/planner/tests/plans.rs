//! Sheets, plans and refusals as a programmer in Rust has them, on document 01's sheet S.
use planner::format::{least_area, MOST_AREA};
use planner::table::Table;
use planner::{library, OpenYard, PlannedFarm, Refusal, Second, Sheet, Tariff};
use std::error::Error;

#[test]
fn a_plan_has_the_parts_of_its_records() {
    let bytes = Table { loads: vec![0, 3, 1], ..Table::s() }.sheet();
    let plan = Sheet::of_hauls(&bytes).price(0b101).unwrap();
    assert_eq!(plan.yards, [OpenYard { yard: 0, fee: 1 }, OpenYard { yard: 2, fee: 2 }]);
    let farm = |farm, yard, loads, haul| PlannedFarm { farm, yard, loads, haul };
    assert_eq!(plan.farms, [farm(0, 0, 1, 1), farm(1, 0, 3, 5), farm(2, 2, 1, 1)]);
    assert_eq!((plan.fees(), plan.hauls(), plan.total, plan.moves), (3, 17, 20, 0));
    assert_eq!((plan.set(), plan.farms_of(0).count(), plan.farms_of(1).count()), (0b101, 2, 0));
    assert_eq!(plan.to_string(), "open 0 1\nopen 2 2\nfarm 0 0 1\nfarm 1 0 5\nfarm 2 2 1\ntotal 20\nmoves 0\n");
}

#[test]
fn every_call_is_the_librarys() {
    let bytes = Table { fees: vec![1, 4, 9], ..Table::s() }.sheet();
    for tariff in [Tariff::None, Tariff::House] {
        let sheet = Sheet::of_distances(&bytes, tariff);
        let mut area = [0; MOST_AREA];
        assert_eq!(sheet.read().map_err(|refusal| refusal.0), library::read_by(&bytes, tariff));
        let open = library::open_plan_by(&bytes, tariff, &mut area).unwrap();
        assert_eq!((sheet.open_plan().unwrap().moves, open.bytes <= least_area(3, 3)), (open.moves, true));
        let limited = library::limited_plan_by(&bytes, tariff, 2, &mut area).unwrap();
        assert_eq!(sheet.limited_plan(2).unwrap().moves, limited.moves);
        assert_eq!(sheet.shut(0b111, 2).map_err(|refusal| refusal.0), library::shut_by(&bytes, tariff, 0b111, 2));
        assert_eq!(sheet.second(0b111, 0).map_err(|refusal| refusal.0), library::second_by(&bytes, tariff, 0b111, 0));
    }
    let sheet = Sheet::of_hauls(&bytes);
    assert_eq!(sheet.limited_plan(2).unwrap().yards.len(), 2);
    assert_eq!((sheet.shut(0b111, 2), sheet.second(0b111, 0)), (Ok(-5), Ok(Some(Second { yard: 1, haul: 3 }))));
    assert_eq!((sheet.floor(&[2, 5, 3]), sheet.floor(&[2, 5, 99])), (Ok(10), Err(Refusal(16))));
}

#[test]
fn a_refusal_is_an_error_in_words() {
    let bytes = Table::s().sheet();
    let sheet = Sheet::of_hauls(&bytes);
    let refusals = [
        (Sheet::of_hauls(&bytes[1..]).open_plan().unwrap_err(), "refused 1: Is the length a multiple of 8"),
        (sheet.limited_plan(4).unwrap_err(), "refused 7: Limited plan only: is k from 1 to m? No."),
        (sheet.price(0).unwrap_err(), "refused 8: Pricing only"),
        (sheet.shut(0b001, 0).unwrap_err(), "refused 14: Shutting a yard"),
        (sheet.floor(&[1]).unwrap_err(), "refused 15: Offers (paper 10): are they n records"),
        (Refusal(17), "refused 17, which is no question's number"),
        (Refusal(0), "refused 0, which is no question's number"),
    ];
    for (refusal, words) in refusals {
        assert_eq!(format!("{refusal:?}"), refusal.to_string());
        let error: Box<dyn Error> = refusal.into();
        assert!(error.to_string().starts_with(words), "{error}");
    }
}
