//! The times of calls on many sheets, one after the other.
use planner::format::MOST_AREA;
use std::hint::black_box;
use std::time::Instant;

/// A pass makes a call once on each sheet. Passes of the implementations take turns, so that what else the machine does
/// disturbs all of them alike.
pub const PASSES: usize = 41;
/// Of calls that take milliseconds.
pub const LONG_PASSES: usize = 3;

/// A call on the sheet of a number, lent an area.
pub type OnSheet<'a> = &'a dyn Fn(usize, &mut [u8]);

/// Microseconds of each of some calls on each of so many sheets: the median over the passes that each is given.
pub fn time<const COUNT: usize>(calls: [(OnSheet, usize); COUNT], sheets: usize) -> Vec<[f64; COUNT]> {
    let mut taken = vec![[const { Vec::new() }; COUNT]; sheets];
    for pass in 0..PASSES {
        for (at, &(call, passes)) in calls.iter().enumerate() {
            if pass < passes {
                for (sheet, taken) in taken.iter_mut().enumerate() {
                    taken[at].push(once(|area| call(sheet, area)));
                }
            }
        }
    }
    taken.into_iter().map(|taken| taken.map(|times| median(&times))).collect()
}

fn once(call: impl FnOnce(&mut [u8])) -> f64 {
    let mut area = [0; MOST_AREA];
    let start = Instant::now();
    call(black_box(&mut area));
    start.elapsed().as_secs_f64() * 1e6
}

/// Of an odd count of times.
fn median(times: &[f64]) -> f64 {
    let mut sorted = times.to_vec();
    sorted.sort_by(f64::total_cmp);
    sorted[sorted.len() / 2]
}
