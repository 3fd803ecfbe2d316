//! Sheets damaged by chance: what reading answers is left to the implementations compared.
use super::good_form::accepted;
use super::loads::allowed_byte;
use super::{below, Sample};
use crate::random::Random;
use planner::format::{record, record_with_loads, HAUL, MOST_LOADS, RECORD, YARD};

/// A sheet that was accepted, after one to four random damages.
pub fn damaged(random: &mut Random, yards: usize, farms: usize) -> Sample {
    let Sample { name, mut sheet, .. } = accepted(random, yards, farms);
    let damages = random.between(1, 4);
    for _ in 0..damages {
        damage(random, &mut sheet);
    }
    Sample { name: format!("{damages} damages to: {name}"), sheet, reading: None }
}

fn damage(random: &mut Random, sheet: &mut Vec<u8>) {
    if sheet.len() < 2 * RECORD {
        return sheet.push(random.draw() as u8);
    }
    let records = sheet.len() / RECORD;
    let (at, other) = (below(random, records) * RECORD, below(random, records) * RECORD);
    let byte = below(random, sheet.len());
    match random.between(0, 9) {
        0 | 1 => sheet[byte] ^= 1 << random.between(0, 7),
        2 => sheet[byte] = random.draw() as u8,
        3 => (0..RECORD).for_each(|i| sheet.swap(at + i, other + i)),
        4 => sheet.copy_within(at..at + RECORD, other),
        5 => sheet.truncate(at),
        6 if random.one_in(3) => sheet.truncate(byte),
        7 => sheet.extend_from_within(at..),
        8 => drop(sheet.drain(at..at + RECORD)),
        9 => sheet[at + 3] = random.between(0, u64::from(MOST_LOADS) + 3) as u8,
        _ => sheet[at + 4] = sheet[at + 4].wrapping_add(1),
    }
}

/// Bytes of any value, most often whole records, half of them numbered as a sheet's are.
pub fn random_bytes(random: &mut Random) -> Sample {
    if random.one_in(2) {
        return numbered_bytes(random);
    }
    let count = random.between(0, 40) as usize * RECORD;
    let extra = if random.one_in(4) { below(random, RECORD) } else { 0 };
    let sheet = (0..count + extra).map(|_| random.draw() as u8).collect();
    Sample { name: format!("{} random bytes", count + extra), sheet, reading: None }
}

/// Every record has the kind and the numbers of its place; byte 3 of hauls and the low half of the amounts are random.
fn numbered_bytes(random: &mut Random) -> Sample {
    let (yards, farms) = (random.between(1, 3) as usize, random.between(1, 4) as usize);
    let mut sheet = Vec::new();
    for yard in 0..yards {
        sheet.extend(record(YARD, yard, 0, u32::from(random.draw() as u16)));
    }
    for haul in 0..yards * farms {
        let (yard, farm) = place(haul, yards);
        sheet.extend(record_with_loads(HAUL, yard, farm, random.draw() as u8, u32::from(random.draw() as u16)));
    }
    Sample { name: format!("{yards} yards and {farms} farms of random bytes"), sheet, reading: None }
}

/// Records of the right kinds with small numbers, mostly out of place.
pub fn loose_records(random: &mut Random) -> Sample {
    let yards = random.between(0, 3) as usize;
    let hauls = random.between(0, 6) as usize;
    let mut sheet = Vec::new();
    for yard in 0..yards {
        let number = if random.one_in(6) { below(random, 4) } else { yard };
        sheet.extend(record(YARD, number, 0, random.between(0, 3) as u32));
    }
    for haul in 0..hauls {
        let (yard, farm) = if random.one_in(6) { (below(random, 3), below(random, 3)) } else { place(haul, yards) };
        let kind = if random.one_in(12) { YARD } else { HAUL };
        let loads = if random.one_in(12) { allowed_byte(random) } else { 0 };
        sheet.extend(record_with_loads(kind, yard, farm, loads, random.between(0, 3) as u32));
    }
    Sample { name: format!("{yards} and {hauls} loose records"), sheet, reading: None }
}

/// The yard and the farm of a haul by its place.
fn place(haul: usize, yards: usize) -> (usize, usize) {
    (haul % yards.max(1), haul / yards.max(1))
}
