//! Paper 3 of document 02: hauls from a tariff.
use super::tariff::{haul, Band, HOUSE};
use super::*;

/// A tariff of bands from 0 on, each an end and a rate.
fn bands(bands: &[(u16, u16)]) -> Vec<u8> {
    let mut bytes = Vec::new();
    let mut start = 0_u16;
    for (number, &(end, rate)) in (0..).zip(bands) {
        bytes.extend([0x42, number]);
        bytes.extend([start, end, rate].map(u16::to_le_bytes).concat());
        start = end;
    }
    bytes
}

fn record(kind: u8, byte_1: u8, byte_2: u8, amount: u32) -> [u8; 8] {
    let [a, b, c, d] = amount.to_le_bytes();
    [kind, byte_1, byte_2, 0, a, b, c, d]
}

/// A sheet of these distances of each farm; the fees are 0.
fn distances<const M: usize>(farms: &[[u32; M]]) -> Vec<u8> {
    let mut bytes: Vec<u8> = (0..M).flat_map(|yard| record(0x59, yard as u8, 0, 0)).collect();
    for (farm, distances) in (0..).zip(farms) {
        bytes.extend((0..).zip(distances).flat_map(|(yard, &distance)| record(0x48, yard, farm, distance)));
    }
    bytes
}

/// The records of the plan that the call writes.
fn plan(call: impl Fn(&mut [u8]) -> Answer<Written>) -> Vec<[u8; 8]> {
    let mut area = [0; 64];
    let written = call(&mut area).unwrap();
    area[..written.bytes].as_chunks().0.to_vec()
}

#[test]
fn hauls_of_the_house_tariff() {
    let house = |distance| haul(&HOUSE, distance);
    assert_eq!(house(120), 4_680);
    assert_eq!(
        [0, 1, 100, 101, 250, 500, 1000, 2000, 4000].map(house),
        [0, 40, 4_000, 4_034, 9_100, 16_100, 27_100, 45_100, 75_100]
    );
}

#[test]
fn hauls_of_a_given_tariff() {
    // 10 hundreds of metres at 7 cents, 5 at 7, 100 at 0.
    let given = [(0, 10, 7), (10, 15, 7), (15, 115, 0)].map(|(start, end, rate)| Band { start, end, rate });
    assert_eq!([0, 3, 10, 12, 15, 16, 115].map(|distance| haul(&given, distance)), [0, 21, 70, 84, 105, 105, 105]);
    // The dearest haul is below the end of 32 bits.
    assert_eq!(haul(&[Band { start: 0, end: 65_535, rate: 65_535 }], 65_535), 4_294_836_225);
}

#[test]
fn the_plan_holds_the_priced_hauls() {
    let bytes = distances(&[[120, 250], [100, 101]]);
    let records = plan(|area| price_by(&bytes, Tariff::House, 0b11, area));
    let farms = [record(0x41, 0, 0, 4_680), record(0x41, 0, 1, 4_000)];
    assert_eq!((&records[2..4], records[4]), (&farms[..], record(0x54, 2, 2, 8_680)));
    let given = bands(&[(100, 3), (5000, 1)]);
    let records = plan(|area| limited_plan_by(&bytes, Tariff::Given(&given), 1, area));
    // 300 + 20 and 300 for yard 0.
    assert_eq!(records[3], record(0x54, 1, 2, 620));
    // By none the amounts are hauls.
    let records = plan(|area| open_plan_by(&bytes, Tariff::None, area));
    assert_eq!(records[records.len() - 2], record(0x54, 1, 2, 220));
}

#[test]
fn loads_count_the_priced_haul() {
    let mut bytes = distances(&[[120]]);
    bytes[11] = 3;
    let records = plan(|area| open_plan_by(&bytes, Tariff::House, area));
    assert_eq!(records[1], [0x41, 0, 0, 3, 0x48, 0x12, 0, 0]);
    assert_eq!(records[2], record(0x54, 1, 1, 3 * 4_680));
}

#[test]
fn a_yard_is_chosen_by_the_priced_haul() {
    use ChosenBy::{Fee, Haul};
    // Beyond 10 nothing is charged: of distances 20 and 30 the hauls are equal, and the lower fee decides.
    let flat = bands(&[(10, 7), (40, 0)]);
    let mut bytes = distances(&[[20, 30]]);
    bytes[4] = 1;
    let records = plan(|area| price_by(&bytes, Tariff::Given(&flat), 0b11, area));
    assert_eq!(records[2], record(0x41, 1, 0, 70));
    assert_eq!(chosen_by(&bytes, Tariff::Given(&flat), 0b11), [Fee]);
    assert_eq!(chosen_by(&bytes, Tariff::None, 0b11), [Haul]);
    assert_eq!(chosen_by(&bytes, Tariff::Given(&flat[1..]), 0b11), []);
}

#[test]
fn broken_tariffs() {
    let sheet = distances(&[[1]]);
    let reading = |tariff: &[u8]| read_by(&sheet, Tariff::Given(tariff)).err();
    let good = bands(&[(10, 9), (20, 9), (30, 2)]);
    assert_eq!(reading(&good), None);
    // Lengths: none, a part of a record, 17 records.
    let sixteen: Vec<(u16, u16)> = (1..=16).map(|end| (end, 5)).collect();
    let seventeen: Vec<(u16, u16)> = (1..=17).map(|end| (end, 5)).collect();
    assert_eq!([reading(&[]), reading(&good[..23]), reading(&good[..8])], [Some(11), Some(11), None]);
    assert_eq!([reading(&bands(&sixteen)), reading(&bands(&seventeen))], [None, Some(11)]);
    let with = |at: usize, byte: u8| {
        let mut tariff = good.clone();
        tariff[at] = byte;
        reading(&tariff)
    };
    // Another kind, another number, a gap, an overlap, a start that is not 0, empty bands and ends below starts.
    assert_eq!([with(8, 0x59), with(9, 2), with(10, 11), with(10, 9), with(2, 1)], [Some(11); 5]);
    assert_eq!([with(12, 10), with(12, 9), with(20, 20), with(4, 0)], [Some(11); 4]);
    // A rate above the band before it, by its high byte too; equal and zero rates pass.
    assert_eq!(
        [with(14, 10), with(22, 10), with(15, 1), with(22, 9), with(22, 0)],
        [Some(12), Some(12), Some(12), None, None]
    );
    // 11 is asked of all bands before 12 is asked of any.
    let mut both = good.clone();
    (both[14], both[17]) = (10, 0);
    assert_eq!(reading(&both), Some(11));
}

#[test]
fn the_order_of_11_12_and_13() {
    let (good, rising, empty) = (bands(&[(10, 9)]), bands(&[(10, 9), (20, 10)]), bands(&[(0, 9)]));
    let reading = |sheet: &[u8], tariff: &[u8]| read_by(sheet, Tariff::Given(tariff)).err();
    // 11 and 12 come ahead of question 1.
    assert_eq!([reading(&[], &empty), reading(&[], &rising), reading(&[], &good)], [Some(11), Some(12), Some(1)]);
    // 13 just before question 5: a distance at the last end passes, one past it does not.
    let far = |distance| distances(&[[distance]]);
    assert_eq!([reading(&far(10), &good), reading(&far(11), &good)], [None, Some(13)]);
    let mut dear = far(11);
    dear[7] = 255;
    assert_eq!(reading(&dear, &good), Some(13));
    dear[8 + 3] = 21;
    assert_eq!(reading(&dear, &good), Some(10));
    // By the house tariff a distance of 4000 passes.
    assert_eq!([4000, 4001].map(|distance| read_by(&far(distance), Tariff::House).err()), [None, Some(13)]);
    assert_eq!(read_by(&far(u32::MAX), Tariff::House), Err(13));
}

#[test]
fn questions_5_and_6_hold_the_priced_hauls() {
    let reading = |farms: &[[u32; 2]], tariff: &[u8]| read_by(&distances(farms), Tariff::Given(tariff)).err();
    let dear = bands(&[(1000, 10_000)]);
    assert_eq!([reading(&[[100, 100]], &dear), reading(&[[100, 101]], &dear)], [None, Some(5)]);
    // Distances that break the rule, hauls that keep it.
    let flat = bands(&[(1, 9), (100, 0)]);
    let broken = [[1, 1], [1, 4]];
    assert_eq!([reading(&broken, &flat), reading(&broken, &dear)], [None, Some(6)]);
    assert_eq!(read(&distances(&broken)), Err(6));
}
