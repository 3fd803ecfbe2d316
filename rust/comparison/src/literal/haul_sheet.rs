//! Document 01, "The haul sheet", and the loads of paper 2 of document 02.

/// Every record, of whatever kind, is eight bytes.
pub const RECORD_BYTES: usize = 8;

/// A yard: byte 2 is zero, the amount is its fee for the season.
pub const YARD: u8 = 0x59;

/// A haul: the amount is the price of one load from that farm to that yard. Byte 3 holds the farm's loads (paper 2).
pub const HAUL: u8 = 0x48;

/// Byte 0 the kind, byte 1 a yard number, byte 2 a farm number, byte 3 zero but for loads, bytes 4 to 7 an amount, lowest
/// byte first.
#[derive(Clone, Copy)]
pub struct Record {
    pub kind: u8,
    pub yard: u8,
    pub farm: u8,
    pub byte_3: u8,
    pub amount: u32,
}

impl Record {
    fn from_bytes(bytes: [u8; RECORD_BYTES]) -> Record {
        let [kind, yard, farm, byte_3, a, b, c, d] = bytes;
        Record { kind, yard, farm, byte_3, amount: u32::from_le_bytes([a, b, c, d]) }
    }

    pub fn to_bytes(self) -> [u8; RECORD_BYTES] {
        let [a, b, c, d] = self.amount.to_le_bytes();
        [self.kind, self.yard, self.farm, self.byte_3, a, b, c, d]
    }
}

/// The records of a sheet. There is no header.
pub fn records(sheet: &[u8]) -> Vec<Record> {
    let (whole, _) = sheet.as_chunks::<RECORD_BYTES>();
    whole.iter().map(|&bytes| Record::from_bytes(bytes)).collect()
}

/// The amounts of a sheet whose form questions 1 to 4 accept.
pub struct HaulSheet {
    /// The fee of each yard.
    pub fees: Vec<u64>,
    /// For each farm, its hauls in yard order.
    pub hauls: Vec<Vec<u64>>,
    /// For each farm, byte 3 of its hauls in yard order.
    pub loads_bytes: Vec<Vec<u8>>,
}

impl HaulSheet {
    /// First come the m yards, then for each farm its m hauls. There is at least one yard.
    pub fn new(records: &[Record]) -> HaulSheet {
        let m = records.iter().filter(|record| record.kind == YARD).count();
        let (yards, hauls) = records.split_at(m);
        let farms = || hauls.chunks(m);
        HaulSheet {
            fees: amounts(yards),
            hauls: farms().map(amounts).collect(),
            loads_bytes: farms().map(bytes_3).collect(),
        }
    }

    pub fn m(&self) -> usize {
        self.fees.len()
    }

    pub fn n(&self) -> usize {
        self.hauls.len()
    }

    pub fn haul(&self, yard: usize, farm: usize) -> u64 {
        self.hauls[farm][yard]
    }

    /// The byte that question 10 finds in all of a farm's records.
    pub fn loads_byte(&self, farm: usize) -> u8 {
        self.loads_bytes[farm][0]
    }

    /// The farm's loads, 1 to 20, with 0 read as 1.
    pub fn loads(&self, farm: usize) -> u64 {
        match self.loads_byte(farm) {
            0 => 1,
            loads => loads.into(),
        }
    }
}

fn amounts(records: &[Record]) -> Vec<u64> {
    records.iter().map(|record| u64::from(record.amount)).collect()
}

fn bytes_3(records: &[Record]) -> Vec<u8> {
    records.iter().map(|record| record.byte_3).collect()
}

/// The stretch of the sheet with the m hauls of a farm below n: it stands after the m yards and the hauls of the farms before.
pub fn stretch(sheet: &[u8], m: usize, farm: usize) -> &[u8] {
    let start = RECORD_BYTES * (m + farm * m);
    &sheet[start..start + RECORD_BYTES * m]
}
