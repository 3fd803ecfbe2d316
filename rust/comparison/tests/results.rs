//! The results of paper 5's calls as C gets them, against the second program.
use comparison::random::Random;
use comparison::{literal, samples};
use planner::{raw, Second, Tariff};

fn whole_second(sheet: &[u8], set: u32, farm: usize) -> u64 {
    unsafe { raw::planner_second(sheet.as_ptr(), sheet.len(), 0, [].as_ptr(), 0, set, farm) }
}

fn whole_shut(sheet: &[u8], set: u32, yard: usize) -> u64 {
    unsafe { raw::planner_shut(sheet.as_ptr(), sheet.len(), 0, [].as_ptr(), 0, set, yard) }
}

/// On seeded sheets the results have the bits of the second program's answers and no others.
#[test]
fn bits_that_are_not_named_are_zero() {
    let of_second = |Second { yard, haul }: Second| 1 << 8 | (yard as u64) << 16 | u64::from(haul) << 32;
    let of_change = |change: i64| u64::from(change < 0) << 8 | change.unsigned_abs() << 16;
    for seed in 0..40 {
        let sheet = samples::tied(&mut Random::new(seed), 4, 6).sheet;
        for (set, number) in (0..=1 << 4).flat_map(|set| (0..8).map(move |number| (set, number))) {
            let second = literal::second_by(&sheet, Tariff::None, set, number);
            let bits = second.map_or_else(u64::from, |second| second.map_or(0, of_second));
            assert_eq!(whole_second(&sheet, set, number), bits, "seed {seed}, set {set}, farm {number}");
            let change = literal::shut_by(&sheet, Tariff::None, set, number);
            let bits = change.map_or_else(u64::from, of_change);
            assert_eq!(whole_shut(&sheet, set, number), bits, "seed {seed}, set {set}, yard {number}");
        }
    }
}
