//! Paper 3 of document 02: hauls from a tariff.
use super::haul_sheet::{HaulSheet, RECORD_BYTES};
use super::questions::ask;
use planner::{Answer, Tariff};

/// A tariff is 1 to 16 records of kind 42 hex.
const BAND: u8 = 0x42;
const MOST_BANDS: usize = 16;

/// Start and end in hundreds of metres, the rate in cents per hundred metres.
#[derive(Clone, Copy)]
pub struct Band {
    pub start: u64,
    pub end: u64,
    pub rate: u64,
}

/// The house tariff is built in: ends 100, 250, 500, 1000, 2000, 4000 at rates 40, 34, 28, 22, 18, 15.
pub const HOUSE: [Band; 6] = [
    Band { start: 0, end: 100, rate: 40 },
    Band { start: 100, end: 250, rate: 34 },
    Band { start: 250, end: 500, rate: 28 },
    Band { start: 500, end: 1000, rate: 22 },
    Band { start: 1000, end: 2000, rate: 18 },
    Band { start: 2000, end: 4000, rate: 15 },
];

/// A record of a tariff: byte 1 the band number, bytes 2 and 3 its start, 4 and 5 its end, 6 and 7 its rate, each lowest byte
/// first.
struct BandRecord {
    kind: u8,
    number: u8,
    band: Band,
}

impl BandRecord {
    fn from_bytes(bytes: [u8; RECORD_BYTES]) -> BandRecord {
        let [kind, number, a, b, c, d, e, f] = bytes;
        let two = |low, high| u64::from(u16::from_le_bytes([low, high]));
        BandRecord { kind, number, band: Band { start: two(a, b), end: two(c, d), rate: two(e, f) } }
    }
}

/// The bands by which a sheet of distances is priced; none for a sheet of hauls. 11 is asked of all records, and then 12. The
/// house tariff is built in and asked neither.
pub fn ask_11_and_12(tariff: Tariff) -> Answer<Option<Vec<Band>>> {
    match tariff {
        Tariff::None => Ok(None),
        Tariff::House => Ok(Some(HOUSE.to_vec())),
        Tariff::Given(bytes) => {
            ask(11, length_is_right(bytes))?;
            let records: Vec<BandRecord> =
                bytes.as_chunks().0.iter().map(|&bytes| BandRecord::from_bytes(bytes)).collect();
            ask(11, question_11(&records))?;
            let bands: Vec<Band> = records.iter().map(|record| record.band).collect();
            ask(12, question_12(&bands))?;
            Ok(Some(bands))
        }
    }
}

/// 1 to 16 records.
fn length_is_right(bytes: &[u8]) -> bool {
    bytes.len().is_multiple_of(RECORD_BYTES) && (1..=MOST_BANDS).contains(&(bytes.len() / RECORD_BYTES))
}

/// 11 for a gap, an overlap, an empty band or another broken record or length: band 0 starts at 0 and each band at its
/// predecessor's end.
fn question_11(records: &[BandRecord]) -> bool {
    records.iter().enumerate().all(|(place, record)| {
        let start = if place == 0 { 0 } else { records[place - 1].band.end };
        let record_is_whole = record.kind == BAND && usize::from(record.number) == place;
        record_is_whole && record.band.start == start && record.band.start < record.band.end
    })
}

/// 12 for a rate above the band before it.
fn question_12(bands: &[Band]) -> bool {
    (1..bands.len()).all(|place| bands[place].rate <= bands[place - 1].rate)
}

/// 13 for a distance past the last end. The sheet still has its distances.
pub fn question_13(sheet: &HaulSheet, bands: &[Band]) -> bool {
    let last_end = bands[bands.len() - 1].end;
    sheet.hauls.iter().flatten().all(|&distance| distance <= last_end)
}

/// A sheet of distances has distances as haul amounts; questions 5 and 6, and the records of a plan, hold the priced hauls.
pub fn priced(sheet: HaulSheet, bands: &[Band]) -> HaulSheet {
    let price = |farm: &Vec<u64>| farm.iter().map(|&distance| haul(bands, distance)).collect();
    HaulSheet { hauls: sheet.hauls.iter().map(price).collect(), ..sheet }
}

/// A haul is the sum over bands of the distance inside the band times its rate.
pub fn haul(bands: &[Band], distance: u64) -> u64 {
    bands.iter().map(|band| distance_inside(band, distance) * band.rate).sum()
}

fn distance_inside(band: &Band, distance: u64) -> u64 {
    distance.min(band.end) - distance.min(band.start)
}
