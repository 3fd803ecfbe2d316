//! The highest ratios seen, and the sheets that they came from.

/// At least so many sheets of a hundred have a farm of more than one load.
const LEAST_WITH_LOADS: u64 = 30;

/// Our cost and the rival's where ours was highest for the rival's.
#[derive(Clone, Default)]
pub struct Worst {
    ours: u64,
    rival: u64,
    sheet: String,
}

impl Worst {
    /// A rival who pays nothing allows us nothing, and gives no ratio.
    pub fn see(&mut self, ours: u64, rival: u64) {
        let new = Worst { ours, rival, sheet: String::new() };
        if rival > 0 && new.is_above(self) {
            *self = new;
        }
    }

    /// Where nothing was seen yet, anything is above it.
    pub fn is_above(&self, other: &Worst) -> bool {
        self.rival > 0 && (other.rival == 0 || self.ours * other.rival > other.ours * self.rival)
    }

    fn take_in(&mut self, other: Worst) {
        if other.is_above(self) {
            *self = other;
        }
    }

    fn print(&self, title: &str) {
        let ratio = self.ours as f64 / self.rival as f64;
        println!("{title}: {ratio:.4} ({} to {}), {}", self.ours, self.rival, self.sheet);
    }
}

#[derive(Clone, Default)]
pub struct Seen {
    pub open_hauls: Worst,
    pub open_fees: Worst,
    pub open_total: Worst,
    pub limited_hauls: Worst,
    /// The sum of offers and the rival's full cost; the same where all fees are one.
    pub floor: Worst,
    pub limited_floor: Worst,
    pub sheets: u64,
    /// Those of them with a farm of more than one load.
    pub with_loads: u64,
    pub rivals_of_open: u64,
    pub rivals_of_limited: u64,
    /// Sums of offers that were compared, those of them that some rival just pays, and the rivals of all.
    pub floors: u64,
    pub floors_met: u64,
    pub rivals_of_floors: u64,
}

impl Seen {
    /// All ratios seen so far are of this sheet.
    pub fn name(&mut self, sheet: &str) {
        let lists = [&mut self.open_hauls, &mut self.open_fees, &mut self.open_total, &mut self.limited_hauls];
        for worst in lists.into_iter().chain([&mut self.floor, &mut self.limited_floor]) {
            worst.sheet = sheet.to_string();
        }
    }

    pub fn take_in(&mut self, other: Seen) {
        self.open_hauls.take_in(other.open_hauls);
        self.open_fees.take_in(other.open_fees);
        self.open_total.take_in(other.open_total);
        self.limited_hauls.take_in(other.limited_hauls);
        self.floor.take_in(other.floor);
        self.limited_floor.take_in(other.limited_floor);
        self.sheets += other.sheets;
        self.with_loads += other.with_loads;
        self.rivals_of_open += other.rivals_of_open;
        self.rivals_of_limited += other.rivals_of_limited;
        self.floors += other.floors;
        self.floors_met += other.floors_met;
        self.rivals_of_floors += other.rivals_of_floors;
    }

    /// So many sheets were compared, enough of them with loads, and on average at least as many rivals of each list and of sums of offers as
    /// a sheet of two yards has.
    pub fn enough(&self, least_sheets: u64) {
        let Seen { sheets, with_loads, rivals_of_open, rivals_of_limited, rivals_of_floors, .. } = self;
        assert!(*sheets >= least_sheets, "{sheets} sheets");
        assert!(100 * with_loads >= LEAST_WITH_LOADS * sheets, "{with_loads} of {sheets} sheets with loads");
        assert!(*rivals_of_open >= 3 * sheets, "{rivals_of_open} rivals of open lists");
        assert!(*rivals_of_limited >= 3 * sheets, "{rivals_of_limited} rivals of limited lists");
        assert!(*rivals_of_floors >= 3 * sheets, "{rivals_of_floors} rivals of sums of offers");
    }

    pub fn print(&self) {
        self.open_hauls.print("open hauls to the rival's fees and hauls, at most 1");
        self.open_fees.print("open fees to the rival's fees and twice its hauls, at most 1");
        self.open_total.print("open total to the rival's, at most 3");
        self.limited_hauls.print("limited hauls to the rival's, at most 5");
        self.floor.print("sum of offers to the rival's full cost, at most 1");
        self.limited_floor.print("sum of offers at one fee to the rival's full cost, at most 1");
        let Seen { sheets, with_loads, rivals_of_open, rivals_of_limited, .. } = self;
        println!("{sheets} sheets, {with_loads} with loads, {rivals_of_open} rivals of open lists, {rivals_of_limited} of limited lists");
        let Seen { floors, floors_met, rivals_of_floors, .. } = self;
        println!("{rivals_of_floors} rivals of {floors} sums of offers, {floors_met} of which some rival just pays");
    }
}
