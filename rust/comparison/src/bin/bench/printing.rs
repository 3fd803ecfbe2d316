//! The lines that the benchmark prints.
use crate::calls::{Call, SIXTEEN_YARDS};
use crate::timing::{time, OnSheet, LONG_PASSES, PASSES};
use comparison::calls::{Calls, ALL};
use comparison::random::Random;
use comparison::samples::{tight_offers, Sample};
use comparison::{four_loops, literal};
use planner::format::{offers, MOST_YARDS};
use planner::table::Table;
use planner::{library, Tariff};
use std::hint::black_box;

pub fn print_heading(title: &str) {
    println!("\n{title}");
    println!("{:<40} {:>9} {:>11} {:>9}   {:<28} ours/fast", "", "ours", "literal", "fast", "ours/literal");
}

/// The times of a call of the implementations on each sheet in turn. Where it makes a difference, a second line has the fast program
/// in narrower numbers.
pub fn print_call(name: &str, call: Call, inputs: &[Sample]) {
    let [ours, literal, fast, fast_32] = ALL.each_ref().map(|calls: &Calls| {
        move |at: usize, area: &mut [u8]| {
            black_box(call.put_to(calls, black_box(&inputs[at].sheet), area));
        }
    });
    print_times(name, [&ours, &literal, &fast, &fast_32], inputs.len(), call.narrower());
}

/// The times of a call of the implementations on so many sheets, in the order of `ALL`.
fn print_times(name: &str, [ours, literal, fast, fast_32]: [OnSheet; 4], sheets: usize, narrower: Option<&str>) {
    let calls = [(ours, PASSES), (literal, LONG_PASSES), (fast, PASSES), (fast_32, PASSES)];
    let times = time(calls, sheets);
    let [ours, literal, fast, fast_32] = [0, 1, 2, 3].map(|of| mean(&times, of));
    let (by_literal, by_fast) = (ratios(&times, 0, 1, 4), ratios(&times, 0, 2, 2));
    println!("{name:<40} {ours:>9.2} {literal:>11.2} {fast:>9.2}   {by_literal:<28} {by_fast}");
    if let Some(narrower) = narrower {
        let by_fast_32 = ratios(&times, 0, 3, 2);
        println!("{narrower:<40} {:>9} {:>11} {fast_32:>9.2}   {:<28} {by_fast_32}", "", "", "");
    }
}

/// Paper 10 of document 02: the sum of tight offers, which all must accept.
pub fn print_floor(inputs: &[Sample]) -> Result<(), String> {
    let tight = |(seed, input): (u64, &Sample)| {
        offers(&tight_offers(&mut Random::new(seed), &Table::of_sheet(&input.sheet, MOST_YARDS)))
    };
    let offers: &Vec<Vec<u8>> = &(0..).zip(inputs).map(tight).collect();
    for (input, offers) in inputs.iter().zip(offers) {
        let [ours, others @ ..] = ALL.map(|calls| (calls.floor_by)(&input.sheet, Tariff::None, offers));
        if ours.is_err() || others != [ours; 3] {
            return Err(format!("floor of {}: library {ours:?}, others {others:?}", input.name));
        }
    }
    let [ours, literal, fast, fast_32] = ALL.map(|calls| {
        move |at: usize, _: &mut [u8]| {
            black_box((calls.floor_by)(black_box(&inputs[at].sheet), Tariff::None, black_box(&offers[at]))).ok();
        }
    });
    print_times("floor", [&ours, &literal, &fast, &fast_32], inputs.len(), None);
    Ok(())
}

/// Paper 4 of document 02: question 6 alone by four loops in plain Rust, on a table already read, against our whole reading.
pub fn print_four_loops(inputs: &[Sample]) -> Result<(), String> {
    let tables: Vec<_> = inputs.iter().map(|input| four_loops::hauls_of(&input.sheet, MOST_YARDS)).collect();
    if let Some(at) = tables.iter().position(|hauls| !four_loops::holds(hauls, MOST_YARDS)) {
        return Err(format!("{}: four loops say no", inputs[at].name));
    }
    let read = |at: usize, _: &mut [u8]| {
        black_box(library::read(black_box(&inputs[at].sheet))).ok();
    };
    let loops = |at: usize, _: &mut [u8]| {
        black_box(four_loops::holds(black_box(&tables[at]), MOST_YARDS));
    };
    let times = time([(&read as OnSheet, PASSES), (&loops, LONG_PASSES)], inputs.len());
    let [ours, loops] = [0, 1].map(|of| mean(&times, of));
    println!("\nQuestion 6 alone by four loops in plain Rust, on a table already read, over the whole of our `read`:");
    println!("ours {ours:.2}, four loops {loops:.2}, four loops/ours {}", ratios(&times, 1, 0, 0));
    Ok(())
}

/// Paper 5 of document 02: what shutting one yard of a set changes, against the price of the set. By prices it would take two.
pub fn print_shut(inputs: &[Sample]) -> Result<(), String> {
    let differs = |sheet: &[u8]| {
        library::shut(sheet, SIXTEEN_YARDS, 0) != literal::shut_by(sheet, Tariff::None, SIXTEEN_YARDS, 0)
    };
    if let Some(input) = inputs.iter().find(|input| differs(&input.sheet)) {
        return Err(format!("shutting a yard of {}: library and literal differ", input.name));
    }
    let shut = |at: usize, _: &mut [u8]| {
        black_box(library::shut(black_box(&inputs[at].sheet), SIXTEEN_YARDS, 0)).ok();
    };
    let price = |at: usize, area: &mut [u8]| {
        black_box(library::price(black_box(&inputs[at].sheet), SIXTEEN_YARDS, area)).ok();
    };
    let times = time([(&shut as OnSheet, PASSES), (&price, PASSES)], inputs.len());
    let [shut, price] = [0, 1].map(|of| mean(&times, of));
    println!("\nWhat shutting one yard of 16 changes, over our price of the 16:");
    println!("shut {shut:.2}, price {price:.2}, shut/price {}", ratios(&times, 0, 1, 2));
    Ok(())
}

fn mean<const COUNT: usize>(times: &[[f64; COUNT]], of: usize) -> f64 {
    times.iter().map(|times| times[of]).sum::<f64>() / times.len() as f64
}

/// One's mean time over another's, and in brackets the lowest and the highest ratio on a sheet.
fn ratios<const COUNT: usize>(times: &[[f64; COUNT]], one: usize, other: usize, digits: usize) -> String {
    let ratios = || times.iter().map(|times| times[one] / times[other]);
    let (lowest, highest) = (ratios().fold(f64::INFINITY, f64::min), ratios().fold(0.0, f64::max));
    let whole = mean(times, one) / mean(times, other);
    format!("{whole:.digits$} ({lowest:.digits$} to {highest:.digits$})")
}
