//! A tariff as its bands (paper 3 of document 02), for the tool.
use crate::format::{self, HOUSE, RECORD};
use crate::Tariff;

/// Start and end in hundreds of metres, the rate in cents for each of them.
#[derive(Clone, Copy, Debug, PartialEq, Eq)]
pub struct Band {
    pub start: u16,
    pub end: u16,
    pub rate: u16,
}

/// The bands of these ends and rates: the first starts at 0, each other one at its predecessor's end.
pub fn following(ends_and_rates: &[(u16, u16)]) -> Vec<Band> {
    let mut start = 0;
    let mut bands = Vec::new();
    for &(end, rate) in ends_and_rates {
        bands.push(Band { start, end, rate });
        start = end;
    }
    bands
}

pub fn house() -> Vec<Band> {
    following(&HOUSE)
}

/// The bands that haul amounts are priced by, none where they are hauls already.
pub fn of(tariff: Tariff) -> Option<Vec<Band>> {
    match tariff {
        Tariff::None => None,
        Tariff::House => Some(house()),
        Tariff::Given(bytes) => Some(bytes.chunks_exact(RECORD).map(Band::at).collect()),
    }
}

/// The records of a tariff, numbered by their places.
pub fn bytes(bands: &[Band]) -> Vec<u8> {
    let record = |(number, band): (usize, &Band)| format::band(number, band.start, band.end, band.rate);
    bands.iter().enumerate().flat_map(record).collect()
}

/// The sum over bands of the distance inside the band times its rate. Nothing is added for what lies past the last end.
pub fn haul(bands: &[Band], distance: u32) -> u64 {
    let inside = |band: &Band| distance.min(band.end.into()).saturating_sub(band.start.into());
    bands.iter().map(|band| u64::from(inside(band)) * u64::from(band.rate)).sum()
}

impl Band {
    /// The band of a record, which has all its bytes.
    pub fn at(record: &[u8]) -> Band {
        let number = |at: usize| u16::from_le_bytes([record[at], record[at + 1]]);
        Band { start: number(2), end: number(4), rate: number(6) }
    }
}
