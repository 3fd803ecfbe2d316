//! Tariffs (paper 3 of document 02): accepted ones by the way their bands are drawn, and ones whose rates rise. `breaks` has broken
//! ones.
use super::below;
use crate::random::Random;
use planner::format::{amount, band, HAUL, HIGHEST_HAUL, HOUSE, MOST_BANDS, RECORD};
use planner::{Answer, Tariff};

/// The highest end and the highest rate that two bytes hold.
const HIGHEST: u32 = u16::MAX as u32;
/// Rates that the highest haul is a multiple of, and at which it is at most the highest end away.
const DIVISORS: [u32; 8] = [16, 20, 25, 100, 1_000, 15_625, 40_000, 62_500];

/// A band by its end and its rate; it starts where the one before it ends.
pub type EndAndRate = (u32, u32);

/// A tariff under the name that a failed comparison prints.
#[derive(Clone, Debug)]
pub struct TariffSample {
    pub name: String,
    /// The bands as they were before anything was broken.
    pub bands: Vec<EndAndRate>,
    /// Without bytes it is the house tariff.
    pub bytes: Option<Vec<u8>>,
    /// What 11 and 12 answer, where the way the tariff was made settles it.
    pub asked: Option<Answer<()>>,
}

impl TariffSample {
    /// A tariff of these bands, none of which is broken.
    fn of_bands(name: &str, bands: Vec<EndAndRate>, refused: Option<u8>) -> TariffSample {
        let name = format!("tariff of {name}, {} bands", bands.len());
        let bytes = Some(records(&bands).concat());
        TariffSample { name, bands, bytes, asked: Some(refused.map_or(Ok(()), Err)) }
    }

    pub fn tariff(&self) -> Tariff<'_> {
        self.bytes.as_deref().map_or(Tariff::House, Tariff::Given)
    }

    /// Ends and rates as the whole records have them, broken or not.
    pub fn as_written(&self) -> Vec<EndAndRate> {
        let two = |low, high| u32::from(u16::from_le_bytes([low, high]));
        let read = |&[_, _, _, _, a, b, c, d]: &[u8; RECORD]| (two(a, b), two(c, d));
        self.bytes.as_ref().map_or(self.bands.clone(), |bytes| bytes.as_chunks().0.iter().map(read).collect())
    }

    /// The sheet, of good form, with hauls for its distances, none of which is past the last end.
    pub fn priced(&self, sheet: &[u8]) -> Vec<u8> {
        let mut sheet = sheet.to_vec();
        for record in sheet.chunks_mut(RECORD).filter(|record| record[0] == HAUL) {
            let haul = self.haul(amount(record)) as u32;
            record[4..].copy_from_slice(&haul.to_le_bytes());
        }
        sheet
    }

    pub fn last_end(&self) -> u32 {
        self.bands.last().map_or(0, |&(end, _)| end)
    }

    /// The sum over bands of the distance inside the band times its rate.
    pub fn haul(&self, distance: u32) -> u64 {
        let mut start = 0;
        let mut sum = 0;
        for &(end, rate) in &self.bands {
            sum += u64::from(distance.clamp(start, end) - start) * u64::from(rate);
            start = end;
        }
        sum
    }

    /// The farthest distance up to the last end whose haul question 5 accepts.
    pub fn farthest(&self) -> u32 {
        let (mut accepted, mut above) = (0, self.last_end() + 1);
        while above - accepted > 1 {
            let middle = accepted + (above - accepted) / 2;
            *(if self.haul(middle) <= HIGHEST_HAUL.into() { &mut accepted } else { &mut above }) = middle;
        }
        accepted
    }
}

/// The records of bands; a number above two bytes loses its high part.
pub fn records(bands: &[EndAndRate]) -> Vec<[u8; RECORD]> {
    let starts = [0].into_iter().chain(bands.iter().map(|&(end, _)| end));
    let record = |(number, (start, &(end, rate))): (usize, (u32, &EndAndRate))| {
        band(number, start as u16, end as u16, rate as u16)
    };
    starts.zip(bands).enumerate().map(record).collect()
}

pub fn house_tariff() -> TariffSample {
    let bands = HOUSE.map(|(end, rate)| (end.into(), rate.into())).to_vec();
    TariffSample { name: "house tariff".to_string(), bands, bytes: None, asked: Some(Ok(())) }
}

/// A tariff that is accepted, of one to sixteen bands and of a kind drawn at random.
pub fn tariff(random: &mut Random) -> TariffSample {
    let count = if random.one_in(6) { MOST_BANDS } else { random.between(1, MOST_BANDS as u64) as usize };
    let longest = HIGHEST / MOST_BANDS as u32;
    let (name, bands) = match random.between(0, 7) {
        0 => ("short bands", falling(random, count, 3, 4)),
        1 | 2 => ("lifelike bands", falling(random, count, 1_000, 60)),
        3 => ("cheap bands", falling(random, count, longest, 3)),
        4 => ("dear bands", falling(random, count, longest, HIGHEST)),
        5 => ("far bands", far(random, count)),
        6 => ("a steep first band", steep(random, count)),
        _ => ("one rate and nothing from some band on", free(random, count)),
    };
    TariffSample::of_bands(name, bands, None)
}

/// Bands up to so long, none with a rate above the band before it, now and then with the same.
pub fn falling(random: &mut Random, count: usize, longest: u32, highest_rate: u32) -> Vec<EndAndRate> {
    let mut rates: Vec<u32> = (0..count).map(|_| random.between(0, highest_rate.into()) as u32).collect();
    rates.sort_by(|one, other| other.cmp(one));
    let mut end = 0;
    let mut bands = Vec::new();
    for at in 0..count {
        if at > 0 && random.one_in(5) {
            rates[at] = rates[at - 1];
        }
        end += random.between(1, longest.into()) as u32;
        bands.push((end, rates[at]));
    }
    bands
}

/// Up to the highest end, at rates at which question 5 accepts it.
fn far(random: &mut Random, count: usize) -> Vec<EndAndRate> {
    let mut bands = falling(random, count, HIGHEST / MOST_BANDS as u32, HIGHEST_HAUL / HIGHEST);
    bands[count - 1].0 = HIGHEST;
    bands
}

/// A first band of some hundreds of metres at up to the highest rate, then bands as hauliers quote them.
fn steep(random: &mut Random, count: usize) -> Vec<EndAndRate> {
    let mut bands = falling(random, count, 1_000, 60);
    let width = random.between(1, 12) as u32;
    bands.iter_mut().for_each(|(end, _)| *end += width);
    bands[0] = (width, random.between(60, HIGHEST.into()) as u32);
    bands
}

/// The same rate in some bands, and 0 in all others.
fn free(random: &mut Random, count: usize) -> Vec<EndAndRate> {
    let mut bands = falling(random, count, 40, 0);
    let (rate, from) = (random.between(1, 500) as u32, 1 + below(random, count));
    bands[..from.min(count)].iter_mut().for_each(|(_, of_band)| *of_band = rate);
    bands
}

/// One to sixteen bands of one rate, up to the highest end.
pub fn one_rate(random: &mut Random, rate: u32) -> TariffSample {
    let count = random.between(1, MOST_BANDS as u64) as usize;
    let mut bands = falling(random, count, HIGHEST / MOST_BANDS as u32, 0);
    bands.iter_mut().for_each(|(_, of_band)| *of_band = rate);
    bands[count - 1].0 = HIGHEST;
    TariffSample::of_bands("one rate", bands, None)
}

/// A tariff by which some distance costs just the highest haul, and that distance. Farther ones are in its bands too.
pub fn tariff_to_the_cent(random: &mut Random) -> (TariffSample, u32) {
    let rate = DIVISORS[below(random, DIVISORS.len())];
    let distance = HIGHEST_HAUL / rate;
    let cuts = random.between(0, 5);
    let mut ends: Vec<u32> = (0..cuts).map(|_| random.between(1, distance.into()) as u32).collect();
    ends.push(distance + 1);
    ends.sort();
    ends.dedup();
    let mut bands: Vec<EndAndRate> = ends.into_iter().map(|end| (end, rate)).collect();
    if random.one_in(2) {
        bands.push((distance + 1 + random.between(1, 900) as u32, random.between(0, rate.into()) as u32));
    }
    (TariffSample::of_bands("one haul to the cent", bands, None), distance)
}

/// A tariff of at least two bands of which one has a rate above the band before it, often by one cent.
pub fn rising_tariff(random: &mut Random) -> TariffSample {
    let count = random.between(2, MOST_BANDS as u64) as usize;
    let mut bands = falling(random, count, 400, 50);
    let at = 1 + below(random, count - 1);
    let above = match random.between(0, 2) {
        0 => random.between(1, u64::from(HIGHEST - 50)) as u32,
        1 => 256,
        _ => 1,
    };
    bands[at].1 = bands[at - 1].1 + above;
    TariffSample::of_bands("a rate above the band before it", bands, Some(12))
}
