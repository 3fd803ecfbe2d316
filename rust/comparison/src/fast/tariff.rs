//! Distances priced by a tariff (paper 3 of document 02): all go through the same instructions, whatever their bands are.
use super::sheet::Amounts;
use planner::format::{BAND, HIGHEST_HAUL, HOUSE, MOST_BANDS, MOST_YARDS, RECORD};
use planner::{Answer, Tariff};
use std::array::from_fn;

/// The bands of an accepted tariff. Behind the last band there are no starts, and its rate goes on.
pub struct Bands {
    starts: [u16; MOST_BANDS],
    rates: [u16; MOST_BANDS],
    /// The haul at each band's start.
    costs: [u32; MOST_BANDS],
    pub last_end: u32,
    /// The farthest distance up to the last end whose haul question 5 accepts.
    pub farthest: u32,
}

/// How distances are priced.
#[derive(Clone, Copy, PartialEq, Eq)]
pub enum Pricing {
    /// Each by the line through its band, as the library has it.
    Lines,
    /// By the first band's rate, less what rates fall by at later starts, in numbers of 16 bits where the tariff has no others.
    Falls,
}

/// Where there is no band: no band starts here, and no distance lies beyond it.
const NO_START: u16 = u16::MAX;

/// Every x86-64 processor has an instruction that multiplies eight signed numbers of 16 bits by eight others and adds up each two
/// products; two bands go into it at a time.
const LANES: usize = 8;
const PAIRS: usize = MOST_BANDS / 2;

impl Bands {
    /// Asks 11 and 12 of a given tariff.
    pub fn of(tariff: Tariff) -> Answer<Option<Bands>> {
        match tariff {
            Tariff::None => Ok(None),
            Tariff::House => Ok(Some(Bands::new(HOUSE.into_iter()))),
            Tariff::Given(bytes) => given(bytes).map(Some),
        }
    }

    /// From the end and the rate of each band. No haul within the bands is above 65,535 times 65,535, which 32 bits hold.
    fn new(list: impl Iterator<Item = (u16, u16)>) -> Bands {
        let (starts, rates, costs) = ([NO_START; MOST_BANDS], [0; MOST_BANDS], [0; MOST_BANDS]);
        let mut bands = Bands { starts, rates, costs, last_end: 0, farthest: 0 };
        let mut cost = 0;
        for (band, (end, rate)) in list.enumerate() {
            let start = bands.last_end;
            (bands.starts[band], bands.costs[band]) = (start as u16, cost);
            bands.rates[band..].fill(rate);
            let (end, rate) = (u32::from(end), u32::from(rate));
            let cost_at_end = cost + (end - start) * rate;
            if cost_at_end <= HIGHEST_HAUL {
                bands.farthest = end;
            } else if cost <= HIGHEST_HAUL {
                bands.farthest = start + (HIGHEST_HAUL - cost) / rate;
            }
            (bands.last_end, cost) = (end, cost_at_end);
        }
        bands
    }

    /// Makes hauls of distances, none of which is above the farthest; what other places hold afterwards means nothing.
    pub fn price(&self, rows: &mut [Amounts], pricing: Pricing) {
        let falls: [u16; MOST_BANDS] = from_fn(|band| self.rates[band.saturating_sub(1)] - self.rates[band]);
        let most_beyond = self.farthest.saturating_sub(self.starts[1].into());
        let narrow = most_beyond <= i16::MAX as u32 && falls.iter().all(|&fall| fall <= i16::MAX as u16);
        if pricing == Pricing::Falls && narrow {
            self.price_by_falls(rows, &falls);
        } else {
            self.price_by_lines(rows);
        }
    }

    /// A haul is the first band's rate for the whole distance, less, for each later band, what the rate falls by there times what
    /// of the distance lies beyond the band's start. Both are signed numbers of 16 bits here.
    fn price_by_falls(&self, rows: &mut [Amounts], falls: &[u16; MOST_BANDS]) {
        // Each number once for each lane, by pairs of later bands; the last pair has one band only.
        let start = |band: usize| [self.starts.get(band).copied().unwrap_or(NO_START); LANES];
        let fall = |band: usize| [falls.get(band).map_or(0, |&fall| fall as i16); LANES];
        let starts: [[[u16; LANES]; 2]; PAIRS] = from_fn(|pair| [start(2 * pair + 1), start(2 * pair + 2)]);
        let falls: [[[i16; LANES]; 2]; PAIRS] = from_fn(|pair| [fall(2 * pair + 1), fall(2 * pair + 2)]);
        for distances in rows.as_flattened_mut().as_chunks_mut::<LANES>().0 {
            let distance = distances.map(|distance| distance as u16);
            let mut hauls = distance.map(|distance| (u32::from(distance) * u32::from(self.rates[0])) as i32);
            for (starts, falls) in starts.iter().zip(&falls) {
                // Known to the compiler as a count of pairs, the loop would be made for four pairs at a time, and be slow.
                if starts[0][0] == NO_START {
                    break;
                }
                for lane in 0..LANES {
                    let beyond = [0, 1].map(|of| i32::from(distance[lane].saturating_sub(starts[of][lane]) as i16));
                    let less = beyond[0] * i32::from(falls[0][lane]) + beyond[1] * i32::from(falls[1][lane]);
                    hauls[lane] = hauls[lane].wrapping_sub(less);
                }
            }
            *distances = hauls.map(|haul| haul as u32);
        }
    }

    /// The band of a distance is the count of later starts below it. Its haul lies on the line through the band: what the line
    /// has at 0, and the distance at the band's rate.
    fn price_by_lines(&self, rows: &mut [Amounts]) {
        let rates = self.rates.map(u32::from);
        let at_zero: [u32; MOST_BANDS] =
            from_fn(|band| self.costs[band].wrapping_sub(rates[band].wrapping_mul(self.starts[band].into())));
        let later: [i32; MOST_BANDS - 1] = from_fn(|band| self.starts[band + 1].into());
        for row in rows {
            let mut bands = [0_u32; MOST_YARDS];
            for start in later {
                for (band, &distance) in bands.iter_mut().zip(&*row) {
                    *band += u32::from(start < distance as i32);
                }
            }
            for (distance, band) in row.iter_mut().zip(bands) {
                let band = band as usize % MOST_BANDS;
                *distance = at_zero[band].wrapping_add(distance.wrapping_mul(rates[band]));
            }
        }
    }
}

/// 11 is asked of all records, then 12.
fn given(bytes: &[u8]) -> Answer<Bands> {
    let (records, rest) = bytes.as_chunks::<RECORD>();
    if !rest.is_empty() || !(1..=MOST_BANDS).contains(&records.len()) {
        return Err(11);
    }
    let mut last_end = 0;
    for (number, &[kind, byte_1, a, b, c, d, ..]) in records.iter().enumerate() {
        let (start, end) = (u16::from_le_bytes([a, b]), u16::from_le_bytes([c, d]));
        if kind != BAND || usize::from(byte_1) != number || start != last_end || end <= start {
            return Err(11);
        }
        last_end = end;
    }
    let end_and_rate =
        |&[_, _, _, _, c, d, e, f]: &[u8; RECORD]| (u16::from_le_bytes([c, d]), u16::from_le_bytes([e, f]));
    let list = records.iter().map(end_and_rate);
    if !list.clone().is_sorted_by(|(_, before), (_, rate)| before >= rate) {
        return Err(12);
    }
    Ok(Bands::new(list))
}
