//! How near floors come to lists: on each sheet of the repository, and by kind on 2,000 random sheets, with and without
//! loads.
use comparison::random::Random;
use comparison::samples;
use office::best::{limited_floors, open_floor};
use planner::format::{amount, MOST_AREA, MOST_FARMS, MOST_YARDS, RECORD, TOTAL};
use planner::{library, Answer, Tariff, Written};
use std::collections::BTreeMap;
use std::fs;
use std::path::{Path, PathBuf};

const SEED: u64 = 11;
const SHEETS: usize = 2_000;

fn main() {
    println!("Sheets of the repository, amounts in cents\n");
    println!("{:>12} {:>12} {:>12} {:>22}  sheet", "open list", "its floor", "above it", "limited lists, worst");
    for folder in ["sheets", "sheets/drops", "tests/plan"] {
        sheets_of(folder).iter().for_each(|path| print_sheet(path, Tariff::None, ""));
    }
    let haulier = fs::read(repository().join("sheets/distances/haulier.tariff")).expect("the haulier's tariff");
    for path in sheets_of("sheets/distances") {
        print_sheet(&path, Tariff::House, ", by the house tariff");
        print_sheet(&path, Tariff::Given(&haulier), ", by the haulier's");
    }
    println!("\n{SHEETS} random sheets, a third of them drawn without loads; of limited lists one k for each\n");
    random_sheets();
}

fn repository() -> PathBuf {
    Path::new(env!("CARGO_MANIFEST_DIR")).join("../..")
}

/// The sheets of a folder, by name.
fn sheets_of(folder: &str) -> Vec<PathBuf> {
    let entries = fs::read_dir(repository().join(folder)).expect("a folder of the repository");
    let paths = entries.map(|entry| entry.expect("an entry").path());
    let mut sheets: Vec<PathBuf> = paths.filter(|path| path.extension().is_some_and(|end| end == "sheet")).collect();
    sheets.sort();
    sheets
}

/// One line for a sheet, none where reading refuses it.
fn print_sheet(path: &Path, tariff: Tariff, by: &str) {
    let sheet = fs::read(path).expect("a sheet");
    let Ok(counts) = library::read_by(&sheet, tariff) else {
        return;
    };
    let open = total(|area| library::open_plan_by(&sheet, tariff, area));
    let floor = open_floor(&sheet, tariff).expect("an accepted sheet").cents;
    let limited = limited_floors(&sheet, tariff, 1..=counts.yards).expect("an accepted sheet");
    let gaps = limited.iter().zip(1..).map(|(floor, k)| (limited_gap(&sheet, tariff, k, floor.cents), k));
    let (worst, k) = gaps.max_by_key(|&(gap, _)| gap).expect("a yard");
    let limited = if worst == 0 { "all best".into() } else { format!("{} for {k:2}", percent(worst)) };
    let mark = if (counts.yards, counts.farms) == (MOST_YARDS, MOST_FARMS) { ", full" } else { "" };
    let name = path.file_name().expect("a file").to_string_lossy();
    println!("{open:12} {floor:12} {:>12} {limited:>22}  {name}{by}{mark}", percent(gap(open, floor)));
}

/// What the hauls of the list of k yards are above a floor.
fn limited_gap(sheet: &[u8], tariff: Tariff, k: usize, floor: u64) -> u64 {
    gap(total(|area| library::limited_plan_by(sheet, tariff, k, area)), floor)
}

/// The total of the plan that a call writes.
fn total(call: impl Fn(&mut [u8]) -> Answer<Written>) -> u64 {
    let mut area = [0; MOST_AREA];
    let written = call(&mut area).expect("an accepted call");
    let records = area[..written.bytes].chunks(RECORD);
    records.filter(|record| record[0] == TOTAL).map(|record| u64::from(amount(record))).sum()
}

/// In hundredths of a per cent, rounded up. Above a floor of nothing every total is as far as can be.
fn gap(total: u64, floor: u64) -> u64 {
    assert!(floor <= total, "a floor of {floor} above a list of {total}");
    match (total - floor, floor) {
        (0, _) => 0,
        (_, 0) => u64::MAX,
        (above, _) => (above * 10_000).div_ceil(floor),
    }
}

fn percent(gap: u64) -> String {
    match gap {
        0 => "best".into(),
        u64::MAX => "no floor".into(),
        _ => format!("{}.{:02} %", gap / 100, gap % 100),
    }
}

/// The gaps of each kind of sheet.
type Gaps = BTreeMap<String, Vec<u64>>;

/// The gaps of open lists and of limited ones.
#[derive(Default)]
struct Lists {
    open: Gaps,
    limited: Gaps,
}

impl Lists {
    fn see(&mut self, kind: &str, sheet: &[u8], k: usize) {
        let floor = open_floor(sheet, Tariff::None).expect("an accepted sheet").cents;
        let open = gap(total(|area| library::open_plan(sheet, area)), floor);
        let floor = limited_floors(sheet, Tariff::None, k..=k).expect("an accepted sheet")[0].cents;
        let limited = limited_gap(sheet, Tariff::None, k, floor);
        self.open.entry(kind.into()).or_default().push(open);
        self.limited.entry(kind.into()).or_default().push(limited);
    }

    fn print(self, loads: &str) {
        print_gaps(&format!("Open lists, {loads}"), self.open);
        print_gaps(&format!("Limited lists, {loads}"), self.limited);
    }
}

fn random_sheets() {
    let (mut random, mut any_k) = (Random::new(SEED), Random::new(SEED));
    let (mut one_load, mut as_drawn) = (Lists::default(), Lists::default());
    for _ in 0..SHEETS {
        let (yards, farms) = (random.between(2, MOST_YARDS as u64), random.between(2, MOST_FARMS as u64));
        let mut sample = samples::accepted(&mut random, yards as usize, farms as usize);
        let kind = sample.name.split(", ").next().expect("a kind");
        let k = any_k.between(1, yards) as usize;
        as_drawn.see(kind, &sample.sheet, k);
        samples::put_loads(&mut sample.sheet, yards as usize, &vec![0; farms as usize]);
        one_load.see(kind, &sample.sheet, k);
    }
    one_load.print("one load for each farm");
    as_drawn.print("loads as drawn");
}

/// One line for each kind, and one for all.
fn print_gaps(title: &str, gaps: Gaps) {
    println!("{title}\n");
    println!("{:>8} {:>11} {:>10} {:>12} {:>10}  kind", "sheets", "shown best", "median", "nine in ten", "worst");
    let all = gaps.values().flatten().copied().collect();
    for (kind, mut gaps) in gaps.into_iter().chain([("all".into(), all)]) {
        gaps.sort_unstable();
        let (count, best) = (gaps.len(), gaps.iter().filter(|&&gap| gap == 0).count());
        let [median, nine_in_ten, worst] = [count / 2, count * 9 / 10, count - 1].map(|at| percent(gaps[at]));
        println!("{count:8} {best:11} {median:>10} {nine_in_ten:>12} {worst:>10}  {kind}");
    }
    println!();
}
