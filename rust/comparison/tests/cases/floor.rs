//! Cases of paper 10 of document 02: offers, their sum, and questions 15 and 16.
//!
//! At each yard the bids, loads times the excess of amount over haul, are held against the fee; the fees of S are 1, 4 and 2. What the sets
//! of S cost is in `loads`: at least 10, with loads 2, 1, 3 at least 13. What those of D by the house tariff cost is in `tariffs`: at
//! least 19000.
use crate::sheets::{even, of_length, s, s_with_loads, unread_sheets};
use crate::tariffs::{d, t};
use comparison::calls::Calls;
use planner::format::{offers, HIGHEST_FEE, HIGHEST_HAUL, MOST_FARMS, MOST_LOADS, MOST_YARDS, OFFER, RECORD};
use planner::table::Table;
use planner::Tariff::{self, Given, House};

pub fn all(calls: &Calls) -> Vec<String> {
    let unread =
        unread_sheets(|name, sheet, tariff| vec![floor(calls, &format!("of no record, {name}"), sheet, tariff, &[])]);
    [amounts(calls), with_loads(calls), broken(calls), largest(calls), by_tariffs(calls), unread].concat()
}

fn floor(calls: &Calls, name: &str, sheet: &[u8], tariff: Tariff, offers: &[u8]) -> String {
    match (calls.floor_by)(sheet, tariff, offers) {
        Ok(sum) => format!("floor {name}: {sum}"),
        Err(number) => format!("floor {name}: refused {number}"),
    }
}

fn floor_of(calls: &Calls, name: &str, sheet: &[u8], tariff: Tariff, amounts: &[u32]) -> String {
    floor(calls, &format!("of {amounts:?}, {name}"), sheet, tariff, &offers(amounts))
}

/// Bids for yards 0, 1 and 2 of S: none; 1, 3 and 2; 1, 4 and 2, which are the fees; 2 at yard 0; 2, 5 and 3; 3 at yard 2; far above all
/// fees. With fees 5, 5 and 9 farms 0 and 2 share yard 1: bids 4, 2 + 3 and 7; 2 + 4 at yard 1; the same as at first, since farm 1 offers
/// just its haul; 2 + 1 + 3 at yard 1. With these fees {1} costs 14, and no set costs less.
fn amounts(calls: &Calls) -> Vec<String> {
    let shared = Table { fees: vec![5, 5, 9], ..Table::s() }.sheet();
    let of_s = |amounts: [u32; 3]| floor_of(calls, "S", &s(), Tariff::None, &amounts);
    let of_shared = |amounts: [u32; 3]| floor_of(calls, "S with fees 5, 5, 9", &shared, Tariff::None, &amounts);
    let with_s = [[0, 0, 0], [2, 4, 3], [2, 5, 3], [3, 5, 3], [2, 6, 3], [2, 5, 4], [0, 0, u32::MAX]].map(of_s);
    let with_shared = [[5, 0, 8], [5, 0, 9], [5, 1, 8], [5, 2, 8]].map(of_shared);
    [&with_s[..], &with_shared].concat()
}

/// With loads 2, 1, 3 bids 0, 4 and 0; 2 at yard 0; 3 at yard 2; and 2, 4 and 3, which are the fees in the next line. With 20 loads of
/// farm 0 the bid for yard 0 is 20: its fee, and one cent above it. 0 is read as 1.
fn with_loads(calls: &Calls) -> Vec<String> {
    let case = |fees: [u32; 3], loads: [u8; 3], amounts: [u32; 3]| {
        let sheet = Table { fees: fees.to_vec(), loads: loads.to_vec(), ..Table::s() }.sheet();
        floor_of(calls, &format!("fees {fees:?}, loads {loads:?}"), &sheet, Tariff::None, &amounts)
    };
    vec![
        case([1, 4, 2], [2, 1, 3], [1, 5, 1]),
        case([1, 4, 2], [2, 1, 3], [2, 5, 1]),
        case([1, 4, 2], [2, 1, 3], [1, 5, 2]),
        case([2, 4, 3], [2, 1, 3], [2, 5, 2]),
        case([20, 4, 2], [20, 1, 1], [2, 5, 3]),
        case([19, 4, 2], [20, 1, 1], [2, 5, 3]),
        floor_of(calls, "S, loads 1, 0, 1", &s_with_loads([1, 0, 1]), Tariff::None, &[2, 5, 3]),
    ]
}

/// Each thing in the records that may be wrong, in offers that would be accepted, and one of them where all yards are overbid.
fn broken(calls: &Calls) -> Vec<String> {
    let case = |name: &str, offers: &[u8]| floor(calls, name, &s(), Tariff::None, offers);
    let with = |name: &str, amounts: [u32; 3], at: usize, byte: u8| {
        let mut offers = offers(&amounts);
        offers[at] = byte;
        case(name, &offers)
    };
    let good = offers(&[2, 5, 3]);
    let in_order = |farms: &[usize]| -> Vec<u8> {
        farms.iter().flat_map(|farm| &good[RECORD * farm..][..RECORD]).copied().collect()
    };
    vec![
        case("of no record", &[]),
        case("of two records", &in_order(&[0, 1])),
        case("of four records", &offers(&[2, 5, 3, 0])),
        case("of 23 bytes", &good[..23]),
        case("of 25 bytes", &of_length(good.clone(), 25)),
        with("of another kind at the end", [2, 5, 3], 16, OFFER | 1 << 7),
        with("with byte 1", [2, 5, 3], 17, 1),
        with("with byte 3", [2, 5, 3], 3, 1),
        with("of farm 1 numbered 2", [2, 5, 3], 10, 2),
        case("of farms 1, 2, 0", &in_order(&[1, 2, 0])),
        case("of farms 0, 0, 2", &in_order(&[0, 0, 2])),
        with("with byte 3 and every yard overbid", [u32::MAX; 3], 19, 20),
    ]
}

/// The most yards and farms, where farm 127 offers its haul and the fee, 1000000 + 50000000; and one yard with the most loads, where farm
/// 0 offers its haul and 2500000, of which 20 times make the fee: the sum is 128 times 20 times 1000000 and 50000000, what the yard costs.
fn largest(calls: &Calls) -> Vec<String> {
    let dearest = even(MOST_YARDS, MOST_FARMS, HIGHEST_FEE, HIGHEST_HAUL);
    let loads = vec![MOST_LOADS; MOST_FARMS];
    let loaded = Table { loads, ..Table::even(1, MOST_FARMS, HIGHEST_FEE, HIGHEST_HAUL) }.sheet();
    let with = |sheet: &[u8], name: &str, farm: usize, amount: u32| {
        let mut amounts = [HIGHEST_HAUL; MOST_FARMS];
        amounts[farm] = amount;
        floor(calls, &format!("of {amount} by farm {farm}, {name}"), sheet, Tariff::None, &offers(&amounts))
    };
    let (of_dearest, of_loaded) = ("32 yards, 128 farms", "1 yard, 128 farms of 20 loads");
    let highest = offers(&[u32::MAX; MOST_FARMS]);
    vec![
        with(&dearest, of_dearest, 127, 51_000_000),
        with(&dearest, of_dearest, 127, 51_000_001),
        with(&loaded, of_loaded, 0, 3_500_000),
        with(&loaded, of_loaded, 0, 3_500_001),
        floor(calls, &format!("of the highest amounts, {of_loaded}"), &loaded, Tariff::None, &highest),
    ]
}

/// By the house tariff D has hauls of 4000 to the nearest yards, and bids are the fees 1000, 4000 and 2000. By T every haul is 300, so that
/// bids of 1000 for yard 0 are bid for the others too. As hauls its distances to the nearest yards are 100.
fn by_tariffs(calls: &Calls) -> Vec<String> {
    let t = t();
    let case =
        |(name, tariff, amounts): (&str, Tariff, [u32; 3])| floor_of(calls, name, &d().sheet(), tariff, &amounts);
    let cases = [
        ("D by the house tariff", House, [5_000, 8_000, 6_000]),
        ("D by the house tariff", House, [5_000, 8_001, 6_000]),
        ("D by T", Given(&t), [800, 800, 300]),
        ("D by T", Given(&t), [800, 800, 301]),
        ("D by no tariff", Tariff::None, [1_100, 100, 100]),
        ("D by no tariff", Tariff::None, [1_101, 100, 100]),
    ];
    cases.map(case).to_vec()
}
