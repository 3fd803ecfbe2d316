//! Questions 13, 5 and 6, which are about amounts. Where haul amounts are distances, 5 and 6 are about the priced hauls.
use super::super::Names;
use super::{at_record, in_table, place, Fault};
use planner::bands::{haul, Band};
use planner::format::{amount, HIGHEST_FEE, HIGHEST_HAUL, RECORD, YARD};

/// A sheet that 1 to 4 accept: m yards, then the hauls of each of n farms.
pub struct WellFormed<'a> {
    pub records: &'a [&'a [u8]],
    pub m: usize,
    pub n: usize,
    /// What distances are priced by.
    pub bands: Option<Vec<Band>>,
    pub names: &'a Names,
}

impl WellFormed<'_> {
    /// The fee or the haul of a record.
    fn cents(&self, at: usize) -> u64 {
        let amount = amount(self.records[at]);
        match &self.bands {
            Some(bands) if at >= self.m => haul(bands, amount),
            _ => amount.into(),
        }
    }

    /// What the cents of a record were priced from, where they were.
    fn source(&self, at: usize) -> String {
        match &self.bands {
            Some(_) if at >= self.m => format!(", priced from the distance {}", amount(self.records[at])),
            _ => String::new(),
        }
    }

    /// The yard whose fee a record has, or the farm and the yard of its haul, and where it was typed.
    fn whose(&self, at: usize) -> String {
        let (names, cells) = (self.names, &self.names.cells);
        if at < self.m {
            return format!("\nIt is the fee of {}.{}", names.yard(at), in_table(cells.fee(at)));
        }
        let (yard, farm) = place(at, self.m);
        format!("\nIt is from {} to {}.{}", names.farm(farm), names.yard(yard), in_table(cells.haul(yard, farm)))
    }

    /// Question 13.
    pub fn distances(&self) -> Option<Fault> {
        let last_end = self.bands.as_ref()?.last()?.end;
        let at = (self.m..self.records.len()).find(|&at| amount(self.records[at]) > last_end.into())?;
        let distance = amount(self.records[at]);
        let words = format!("Its distance is {distance}. Asked: at most {last_end}, the last end of the tariff.");
        at_record(13, self.records, at, words + &self.whose(at))
    }

    /// Question 5.
    pub fn bounds(&self) -> Option<Fault> {
        let bound = |at: usize| match self.records[at][0] {
            YARD => ("fee", HIGHEST_FEE),
            _ => ("haul", HIGHEST_HAUL),
        };
        let at = (0..self.records.len()).find(|&at| self.cents(at) > bound(at).1.into())?;
        let (word, most) = bound(at);
        let words = format!("Its {word} is {}{}. Asked: at most {most}.", self.cents(at), self.source(at));
        at_record(5, self.records, at, words + &self.whose(at))
    }

    /// Question 6: of all choices that break the rule, the first of those that break it by most; and the haul that is in most of them.
    pub fn four_points(&self) -> Option<Fault> {
        let hauls: Vec<i64> = (self.m..self.records.len()).map(|at| self.cents(at) as i64).collect();
        let broken = Broken::of(&hauls, self.m, self.n);
        let [a, b, p, q] = broken.worst?;
        let record = |place: usize| self.m + place;
        let line = |pair: &str, place: usize| {
            let at = record(place);
            format!("haul({pair}) is {}{}, record {at} at byte {}.", hauls[place], self.source(at), at * RECORD)
        };
        let places = places(broken.worst?, self.m);
        let [aq, ap, bp, bq] = places;
        let names = self.names;
        let words = [
            format!("a is {}, b is {}, p is {}, q is {}.", names.yard(a), names.yard(b), names.farm(p), names.farm(q)),
            line("a, q", aq),
            line("a, p", ap),
            line("b, p", bp),
            line("b, q", bq),
            format!("The last three come to {}; the first is more by {}.", hauls[aq] - broken.most, broken.most),
            format!("Choices of a, b, p, q that break the rule: {}.{}", broken.count, self.suspect(&broken, &hauls)),
        ];
        Some(Fault { question: 6, records: places.map(record).to_vec(), words: words.join("\n") })
    }

    /// The one haul that is in more broken choices than any other, where there is one: the first to look at, since the haul that is
    /// more than the three others may well be right and one of these too low.
    fn suspect(&self, broken: &Broken, hauls: &[i64]) -> String {
        let most = broken.with.iter().copied().max().unwrap_or(0);
        let mut places = (0..hauls.len()).filter(|&place| broken.with[place] == most);
        let (Some(place), None) = (places.next(), places.next()) else {
            return " No haul is in more of them than every other.".into();
        };
        let at = self.m + place;
        let haul = format!("{}{}, record {at}", hauls[place], self.source(at));
        format!("\nOne haul is in {most} of them, more than any other: {haul}. Look at it first.{}", self.whose(at))
    }
}

/// The choices of yards a, b and farms p, q that break the four-point rule.
struct Broken {
    count: usize,
    /// By how much the rule is broken at most, and the first choice that breaks it by so much.
    most: i64,
    worst: Option<[usize; 4]>,
    /// In how many of them each haul is.
    with: Vec<usize>,
}

impl Broken {
    fn of(hauls: &[i64], m: usize, n: usize) -> Broken {
        let mut broken = Broken { count: 0, most: 0, worst: None, with: vec![0; hauls.len()] };
        let choices = pairs(m).flat_map(|(a, b)| pairs(n).map(move |(p, q)| [a, b, p, q]));
        for choice in choices {
            let [aq, ap, bp, bq] = places(choice, m);
            let excess = hauls[aq] - hauls[ap] - hauls[bp] - hauls[bq];
            if excess > 0 {
                broken.add(choice, excess, m);
            }
        }
        broken
    }

    fn add(&mut self, choice: [usize; 4], excess: i64, m: usize) {
        self.count += 1;
        places(choice, m).into_iter().for_each(|place| self.with[place] += 1);
        if excess > self.most {
            self.most = excess;
            self.worst = Some(choice);
        }
    }
}

/// The places of haul(a, q), haul(a, p), haul(b, p) and haul(b, q) among the hauls of m yards.
fn places([a, b, p, q]: [usize; 4], m: usize) -> [usize; 4] {
    [q * m + a, p * m + a, p * m + b, q * m + b]
}

/// All pairs of numbers below a count, in order.
fn pairs(count: usize) -> impl Iterator<Item = (usize, usize)> {
    (0..count).flat_map(move |one| (0..count).map(move |other| (one, other)))
}
