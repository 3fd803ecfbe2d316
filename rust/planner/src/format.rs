//! The records of sheets, plans, tariffs and offers, and the bounds of document 01 and of papers 2 and 3 of document 02. `literal`
//! has its own, and so have the tests of document 01's examples.

/// The bytes of a record.
pub const RECORD: usize = 8;

/// The kinds of a sheet's records.
pub const YARD: u8 = 0x59;
pub const HAUL: u8 = 0x48;

/// The kinds of a plan's records.
pub const OPEN: u8 = 0x4F;
pub const FARM: u8 = 0x41;
pub const TOTAL: u8 = 0x54;
pub const MOVES: u8 = 0x4D;

/// The kind of a tariff's records, and how many there are at most.
pub const BAND: u8 = 0x42;
pub const MOST_BANDS: usize = 16;

/// The kind of an offer's record.
pub const OFFER: u8 = 0x56;

/// The house tariff: the end and the rate of each band.
pub const HOUSE: [(u16, u16); 6] = [(100, 40), (250, 34), (500, 28), (1_000, 22), (2_000, 18), (4_000, 15)];

/// The bounds of questions 1, 3, 4, 5 and 10.
pub const SHORTEST_SHEET: usize = 16;
pub const LONGEST_SHEET: usize = 33_024;
pub const MOST_YARDS: usize = 32;
pub const MOST_FARMS: usize = 128;
pub const HIGHEST_FEE: u32 = 50_000_000;
pub const HIGHEST_HAUL: u32 = 1_000_000;
pub const MOST_LOADS: u8 = 20;

/// What question 9 asks of the area.
pub const fn least_area(yards: usize, farms: usize) -> usize {
    RECORD * (yards + farms + 2)
}

/// An area for the plan of every sheet.
pub const MOST_AREA: usize = least_area(MOST_YARDS, MOST_FARMS);

/// One record, its byte 3 zero. Numbers above 255 lose their high part, as faulty sheets may have it.
pub fn record(kind: u8, yard: usize, farm: usize, amount: u32) -> [u8; RECORD] {
    record_with_loads(kind, yard, farm, 0, amount)
}

/// The same with the byte of a farm's loads, as hauls and the farms of a plan have it.
pub fn record_with_loads(kind: u8, yard: usize, farm: usize, loads: u8, amount: u32) -> [u8; RECORD] {
    let [a, b, c, d] = amount.to_le_bytes();
    [kind, yard as u8, farm as u8, loads, a, b, c, d]
}

/// One record of a tariff. A number above 255 loses its high part, as faulty tariffs may have it.
pub fn band(number: usize, start: u16, end: u16, rate: u16) -> [u8; RECORD] {
    let [[a, b], [c, d], [e, f]] = [start, end, rate].map(u16::to_le_bytes);
    [BAND, number as u8, a, b, c, d, e, f]
}

/// The offers of these amounts, one per farm from farm 0 on.
pub fn offers(amounts: &[u32]) -> Vec<u8> {
    amounts.iter().enumerate().flat_map(|(farm, &amount)| record(OFFER, 0, farm, amount)).collect()
}

/// The amount of a record, which has all its bytes.
pub fn amount(record: &[u8]) -> u32 {
    u32::from_le_bytes([record[4], record[5], record[6], record[7]])
}
