//! Paper 10 of document 02: a floor under all lists.
use super::*;

fn offers(amounts: &[u32]) -> Vec<u8> {
    let record = |(farm, amount): (u8, &u32)| [[0x56, 0, farm, 0], amount.to_le_bytes()].concat();
    (0..).zip(amounts).flat_map(record).collect()
}

fn floor(sheet: &[u8], amounts: &[u32]) -> Answer<u64> {
    floor_by(sheet, Tariff::None, &offers(amounts))
}

#[test]
fn floors_of_s() {
    let of_s = |amounts: [u32; 3]| floor(&sheet_s(), &amounts);
    // The excess is 2 - 1 at yard 0 with fee 1, 4 - 1 at yard 1 with fee 4, 3 - 1 at yard 2 with fee 2.
    assert_eq!(of_s([2, 4, 3]), Ok(9));
    // Now each yard has its fee; farm 1's 5 is its haul to yards 0 and 2. All three yards cost 10, and no set costs less.
    assert_eq!([of_s([2, 5, 3]), of_s([0, 0, 0]), of_s([1, 1, 1])], [Ok(10), Ok(0), Ok(3)]);
    // One cent more: 2 at yard 0; 1 + 1 at yard 0, 5 at yard 1 and 1 + 2 at yard 2; 3 at yard 2.
    assert_eq!([of_s([3, 5, 3]), of_s([2, 6, 3]), of_s([2, 5, 4])], [Err(16); 3]);
    assert_eq!([of_s([u32::MAX; 3]), of_s([u32::MAX, 0, 0]), of_s([0, 0, u32::MAX])], [Err(16); 3]);
}

#[test]
fn farms_share_a_fee() {
    // One yard with fee 5 and hauls 9 and 1: 2 + 3 is the fee, 3 + 3 and 2 + 4 are above it.
    let one_yard = sheet([5], &[[9], [1]]);
    let of_one = |amounts: [u32; 2]| floor(&one_yard, &amounts);
    assert_eq!([of_one([11, 4]), of_one([12, 4]), of_one([11, 5])], [Ok(15), Err(16), Err(16)]);
    // What farm 0's amount lacks of its haul makes no room for farm 1.
    assert_eq!([of_one([9, 6]), of_one([0, 6]), of_one([0, 7]), of_one([8, 7])], [Ok(15), Ok(6), Err(16), Err(16)]);
}

#[test]
fn loads_count_in_the_excess_and_in_the_sum() {
    // Hauls of S times loads 2, 1 and 3. Yard 0 has 2 × (1 - 1), yard 1 4 - 1, yard 2 3 × (1 - 1): 2 × 1 + 4 + 3 × 1.
    let loaded = with_loads(sheet_s(), &[2, 1, 3]);
    assert_eq!(floor(&loaded, &[1, 4, 1]), Ok(9));
    // One cent more per load is 2 cents at yard 0, whose fee is 1, and 3 at yard 2, whose fee is 2.
    assert_eq!([floor(&loaded, &[2, 4, 1]), floor(&loaded, &[1, 4, 2])], [Err(16); 2]);
    // With fees of 2 and 3 they are accepted, to the cent.
    let dearer = with_loads(sheet([2, 4, 3], &[[1, 3, 9], [5, 1, 5], [9, 5, 1]]), &[2, 1, 3]);
    assert_eq!(floor(&dearer, &[2, 5, 2]), Ok(2 * 2 + 5 + 3 * 2));
    // 0 is read as 1.
    assert_eq!(floor(&with_loads(sheet_s(), &[1, 0, 1]), &[2, 5, 3]), Ok(10));
}

#[test]
fn question_15_asks_for_one_whole_record_per_farm_in_order() {
    let good = offers(&[2, 5, 3]);
    let of_s = |offers: &[u8]| floor_by(&sheet_s(), Tariff::None, offers);
    for (at, byte) in [(0, 0x48), (8, 0x59), (16, 0), (1, 1), (9, 1), (3, 1), (11, 20), (2, 1), (10, 0), (18, 3)] {
        let mut broken = good.clone();
        broken[at] = byte;
        assert_eq!(of_s(&broken), Err(15), "byte {at} is {byte}");
    }
    let four = offers(&[2, 5, 3, 0]);
    for length in (0..24).chain(25..=32) {
        assert_eq!(of_s(&four[..length]), Err(15), "{length} bytes");
    }
    let (first, others) = good.split_at(8);
    let exchanged = [others, first].concat();
    let (twice, twice_for_another) = ([first, &good].concat(), [first, first, &good[16..]].concat());
    assert_eq!(
        [of_s(&exchanged), of_s(&twice), of_s(&twice_for_another), of_s(&good)],
        [Err(15), Err(15), Err(15), Ok(10)]
    );
}

#[test]
fn question_15_comes_before_16_and_both_after_6() {
    let mut both = offers(&[u32::MAX; 3]);
    both[19] = 1;
    assert_eq!(floor_by(&sheet_s(), Tariff::None, &both), Err(15));
    let broken_rule = sheet([0, 0], &[[1, 1], [1, 4]]);
    assert_eq!(
        [floor(&broken_rule, &[]), floor(&broken_rule, &[9, 9]), floor(&sheet_s()[1..], &[])],
        [Err(6), Err(6), Err(1)]
    );
}

#[test]
fn floors_by_a_tariff() {
    // Hauls 4,680 and 9,100 by the house tariff; by the other both are 70.
    let sheet = sheet([9, 9], &[[120, 250]]);
    let by = |tariff, amount| floor_by(&sheet, tariff, &offers(&[amount]));
    assert_eq!([by(Tariff::House, 4_689), by(Tariff::House, 4_690)], [Ok(4_689), Err(16)]);
    let flat = [[0x42, 0, 0, 0, 10, 0, 7, 0], [0x42, 1, 10, 0, 250, 0, 0, 0]].concat();
    assert_eq!([by(Tariff::Given(&flat), 79), by(Tariff::Given(&flat), 80)], [Ok(79), Err(16)]);
    assert_eq!([by(Tariff::None, 129), by(Tariff::None, 130)], [Ok(129), Err(16)]);
    assert_eq!(floor_by(&sheet, Tariff::Given(&flat[..4]), &[]), Err(11));
}
