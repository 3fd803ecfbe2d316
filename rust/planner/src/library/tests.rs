//! The number that tells a call by a tariff what the amounts of haul records are: 0 hauls, 1 distances by the house tariff, and any
//! other distances by the tariff handed over, which is looked at only then. And the parts of the results of papers 5 and 10.
use super::*;
use crate::format::{band, offers, HIGHEST_FEE, HIGHEST_HAUL, MOST_AREA, MOST_FARMS, MOST_LOADS};
use crate::table::Table;
use std::array::from_fn;

/// The whole results of the seven calls, and the areas that they leave. The offers are accepted by the tariffs here, and refused on
/// hauls as written.
fn results(sheet: &[u8], hauls: u8, tariff: &[u8]) -> ([u64; 7], [Vec<u8>; 3]) {
    let (from, length, bands, bands_length) = (sheet.as_ptr(), sheet.len(), tariff.as_ptr(), tariff.len());
    let mut areas: [Vec<u8>; 3] = from_fn(|_| vec![0xA5; MOST_AREA]);
    let [priced, opened, limited] = areas.each_mut().map(|area| area.as_mut_ptr());
    let (set, k, farm, yard, offers) = (0b101, 2, 1, 0, offers(&[9; 3]));
    let results = unsafe {
        [
            raw::planner_read_by(from, length, hauls, bands, bands_length),
            raw::planner_price_by(from, length, hauls, bands, bands_length, set, priced, MOST_AREA),
            raw::planner_open_plan_by(from, length, hauls, bands, bands_length, opened, MOST_AREA),
            raw::planner_limited_plan_by(from, length, hauls, bands, bands_length, k, limited, MOST_AREA),
            raw::planner_second(from, length, hauls, bands, bands_length, set, farm),
            raw::planner_shut(from, length, hauls, bands, bands_length, set, yard),
            raw::planner_floor(from, length, hauls, bands, bands_length, offers.as_ptr(), offers.len()),
        ]
    };
    (results, areas)
}

fn three_bands() -> Vec<u8> {
    [band(0, 0, 2, 9), band(1, 2, 5, 4), band(2, 5, 9, 0)].concat()
}

#[test]
fn every_number_from_2_on_means_the_given_tariff() {
    let sheet = Table::s().sheet();
    let rising = [band(0, 0, 2, 4), band(1, 2, 9, 5)].concat();
    let too_short = band(0, 0, 8, 4);
    for tariff in [&three_bands(), &rising, &rising[8..], &too_short, &[][..]] {
        let by_2 = results(&sheet, 2, tariff);
        for hauls in 3..=255 {
            assert_eq!(results(&sheet, hauls, tariff), by_2, "hauls {hauls}, tariff {tariff:?}");
        }
    }
    let number = |tariff: &[u8]| results(&sheet, 255, tariff).0.map(|result| result & 0xFF);
    assert_eq!(number(&three_bands()), [0; 7]);
    assert_eq!([number(&rising), number(&rising[8..]), number(&[])], [[12; 7], [11; 7], [11; 7]]);
    assert_eq!(number(&too_short), [13; 7]);
}

#[test]
fn a_refused_call_gives_its_number_alone() {
    let sheet = Table::s().sheet();
    let (results, areas) = results(&sheet, 2, &band(0, 0, 8, 4));
    assert_eq!(results, [13; 7]);
    assert!(areas.iter().flatten().all(|&byte| byte == 0xA5));
}

#[test]
fn the_tariff_is_looked_at_only_where_it_is_given() {
    let sheet = Table::s().sheet();
    let hauls = results(&sheet, 0, &[]);
    let house = results(&sheet, 1, &[]);
    let given = results(&sheet, 2, &three_bands());
    assert_eq!([&hauls, &house, &given].map(|(results, _)| results[0]), [3 << 16 | 3 << 8; 3]);
    assert_eq!([&hauls, &house, &given].map(|(results, _)| results[6]), [16, 27 << 8, 27 << 8]);
    assert!(hauls != house && house != given && given != hauls);
    for tariff in [&three_bands()[..], &[0; 8], &[0xFF; 300]] {
        assert_eq!(results(&sheet, 0, tariff), hauls, "tariff {tariff:?}");
        assert_eq!(results(&sheet, 1, tariff), house, "tariff {tariff:?}");
    }
}

#[test]
fn the_parts_of_a_second_yard() {
    assert_eq!(found(1 << 8 | 31 << 16 | 1_000_000 << 32), Ok(Some(Second { yard: 31, haul: 1_000_000 })));
    assert_eq!(found(1 << 8), Ok(Some(Second { yard: 0, haul: 0 })));
    assert_eq!(found(u64::MAX << 8), Ok(Some(Second { yard: 255, haul: u32::MAX })));
    assert_eq!([found(0), found(8), found(13)], [Ok(None), Err(8), Err(13)]);
}

#[test]
fn the_parts_of_a_change() {
    assert_eq!([change(0), change(1 << 16), change(1 << 8 | 1 << 16)], [Ok(0), Ok(1), Ok(-1)]);
    // The most that shutting a yard costs, 128 × 20 × 1,000,000, and the most that it saves.
    assert_eq!(change(2_560_000_000 << 16), Ok(2_560_000_000));
    assert_eq!(change(1 << 8 | 50_000_000 << 16), Ok(-50_000_000));
    assert_eq!(change(u64::MAX << 8), Ok(-0xFFFF_FFFF_FFFF));
    assert_eq!([change(8), change(14)], [Err(8), Err(14)]);
}

/// The most that offers come to: the full cost of one yard with the highest fee and the most loads at the highest haul.
const HIGHEST_SUM: u64 = HIGHEST_FEE as u64 + MOST_FARMS as u64 * MOST_LOADS as u64 * HIGHEST_HAUL as u64;

#[test]
fn the_parts_of_a_sum() {
    assert_eq!([sum(0), sum(1 << 8), sum(10 << 8)], [Ok(0), Ok(1), Ok(10)]);
    assert_eq!(sum(HIGHEST_SUM << 8), Ok(2_610_000_000));
    assert_eq!(sum(u64::MAX << 8), Ok(0xFF_FFFF_FFFF_FFFF));
    assert_eq!([sum(15), sum(16)], [Err(15), Err(16)]);
}

fn whole_floor(sheet: &[u8], offers: &[u8]) -> u64 {
    unsafe { raw::planner_floor(sheet.as_ptr(), sheet.len(), 0, [].as_ptr(), 0, offers.as_ptr(), offers.len()) }
}

/// 20 times 2,500,000 is the highest fee, which farm 0 offers beside its haul, and the others offer theirs.
#[test]
fn the_whole_results_of_offers() {
    let s = Table::s().sheet();
    let of_s = [[2, 5, 3], [0, 0, 0], [2, 5, 4]].map(|amounts| whole_floor(&s, &offers(&amounts)));
    assert_eq!(of_s, [10 << 8, 0, 16]);
    assert_eq!([whole_floor(&s, &[]), whole_floor(&s[1..], &[])], [15, 1]);
    assert_eq!(super::floor(&s, &offers(&[2, 5, 3])), Ok(10));
    let loads = vec![MOST_LOADS; MOST_FARMS];
    let dearest = Table { loads, ..Table::even(1, MOST_FARMS, HIGHEST_FEE, HIGHEST_HAUL) }.sheet();
    let mut amounts = [HIGHEST_HAUL; MOST_FARMS];
    amounts[0] += 2_500_000;
    assert_eq!(whole_floor(&dearest, &offers(&amounts)), HIGHEST_SUM << 8);
    amounts[MOST_FARMS - 1] += 1;
    assert_eq!(whole_floor(&dearest, &offers(&amounts)), 16);
}

fn whole_second(sheet: &[u8], set: u32, farm: usize) -> u64 {
    unsafe { raw::planner_second(sheet.as_ptr(), sheet.len(), 0, [].as_ptr(), 0, set, farm) }
}

fn whole_shut(sheet: &[u8], set: u32, yard: usize) -> u64 {
    unsafe { raw::planner_shut(sheet.as_ptr(), sheet.len(), 0, [].as_ptr(), 0, set, yard) }
}

/// Fees 1, 4 and 9: all three yards cost 17, {1, 2} 18, {0, 2} 17 and {0, 1} 12.
#[test]
fn the_whole_results_of_second_yards_and_changes() {
    let sheet = Table { fees: vec![1, 4, 9], ..Table::s() }.sheet();
    let seconds = [0, 1, 2, 3].map(|farm| whole_second(&sheet, 0b111, farm));
    assert_eq!(seconds, [3 << 32 | 1 << 16 | 1 << 8, 5 << 32 | 1 << 8, 5 << 32 | 1 << 16 | 1 << 8, 0]);
    assert_eq!([0b001, 0, 0b1000].map(|set| whole_second(&sheet, set, 0)), [0, 8, 8]);
    assert_eq!([0, 1, 2, 3].map(|yard| whole_shut(&sheet, 0b111, yard)), [1 << 16, 0, 5 << 16 | 1 << 8, 14]);
    assert_eq!([0b100, 0, 0b1000].map(|set| whole_shut(&sheet, set, 2)), [14, 8, 8]);
    let second = Second { yard: 1, haul: 3 };
    assert_eq!((super::second(&sheet, 0b111, 0), super::shut(&sheet, 0b111, 2)), (Ok(Some(second)), Ok(-5)));
}
