//! How long each call takes: the proved library (ours), document 01 with papers 1, 2, 3, 5 and 10 to the letter (literal), and plain
//! Rust made for speed (fast), its sums of 64 bits as the library's are, or of 32. Before a call is timed, all must give
//! the same answers and the same areas.
mod calls;
mod inputs;
mod printing;
mod timing;

use calls::{compare, Call, CALLS, OPEN_PLAN};
use comparison::calls::PlanCall;
use comparison::samples::{self, Sample};
use inputs::{FEES, SHEETS, SIDE, SPAN};
use planner::format::{MOST_FARMS, MOST_LOADS, MOST_YARDS};
use planner::Tariff;
use printing::{print_call, print_floor, print_four_loops, print_heading, print_shut};
use std::process::ExitCode;
use timing::{LONG_PASSES, PASSES};

fn main() -> ExitCode {
    match bench() {
        Ok(()) => ExitCode::SUCCESS,
        Err(fault) => {
            eprintln!("{fault}");
            ExitCode::FAILURE
        }
    }
}

fn bench() -> Result<(), String> {
    let full = inputs::full_sheets(true);
    println!("{SHEETS} sheets of {MOST_YARDS} yards and {MOST_FARMS} farms in a square of side {SPAN}, fees up to {FEES:?} in turn.");
    println!("Each farm has 1 to {MOST_LOADS} loads; of the same sheets without loads the lines under that heading.");
    println!("Microseconds of whole calls, made on one sheet after the other: mean over the sheets; of a sheet the median of");
    println!("{PASSES} passes, {LONG_PASSES} of literal and of four loops. Ratios: of the means (lowest to highest of a sheet).");
    println!("Ours: the proved library. Literal: document 01 to the letter in Rust. Fast: plain Rust made for speed, with sums of");
    println!("64 bits and prices by lines as ours has them; where it makes a difference, a second line has it in narrower numbers.");
    print_heading("Accepted sheets");
    for call in CALLS {
        line(&call.name(), call, &full, None)?;
    }
    print_floor(&full)?;
    print_four_loops(&full)?;
    print_shut(&full)?;
    print_heading("The same sheets without loads");
    let without_loads = inputs::full_sheets(false);
    for call in CALLS {
        line(&call.name(), call, &without_loads, None)?;
    }
    print_heading(&format!(
        "Sheets of distances by tariffs, loads as above, in a square of side {SIDE} hundreds of metres"
    ));
    let (distances, sixteen) = (inputs::distances(), inputs::sixteen_bands());
    for (name, tariff) in [("house tariff", Tariff::House), ("16 bands", Tariff::Given(&sixteen))] {
        for call in [Call::ReadBy(tariff), Call::PlanBy(PlanCall::OpenPlan, tariff)] {
            line(&format!("{}, {name}", call.name()), call, &distances, None)?;
        }
    }
    print_heading("Other sheets");
    line("read, every two yards by the cent", Call::Read, &inputs::low_hauls(), None)?;
    let drops = samples::kept().map_err(|fault| format!("sheets/drops: {fault}"))?;
    line("open plan of sheets/drops", OPEN_PLAN, &drops, None)?;
    for (number, name, sheets) in inputs::refused(&full) {
        line(&format!("read, {name}"), Call::Read, &sheets, Some(number))?;
    }
    Ok(())
}

fn line(name: &str, call: Call, inputs: &[Sample], refused: Option<u8>) -> Result<(), String> {
    compare(call, inputs, refused)?;
    print_call(name, call, inputs);
    Ok(())
}
