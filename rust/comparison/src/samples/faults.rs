//! Sheets with faults made on purpose, one function for each of questions 1 to 5 and 10. Each takes a sheet whose first "no"
//! comes later than its own and makes its own question the first "no". So of faults put in from the last question to the
//! first, the first in `ORDER` is the first "no".
use super::good_form::{accepted, broken_by_one_cent};
use super::loads::byte_above;
use super::{below, Sample};
use crate::random::Random;
use planner::format::{
    record, HAUL, HIGHEST_FEE, HIGHEST_HAUL, LONGEST_SHEET, MOST_FARMS, MOST_LOADS, MOST_YARDS, RECORD, YARD,
};

/// The questions of reading as they are asked.
const ORDER: [u8; 7] = [1, 2, 3, 4, 10, 5, 6];
const MOST_RECORDS: usize = LONGEST_SHEET / RECORD;
/// Kinds near the right ones, those of a plan, and others.
const OTHER_KINDS: [u8; 12] = [0x00, 0x47, 0x49, 0x58, 0x5A, 0x4F, 0x41, 0x54, 0x4D, 0xC8, 0xD9, 0xFF];

/// The records of a sheet of which the first `yards` are its yards.
struct Records {
    yards: usize,
    list: Vec<[u8; RECORD]>,
}

type Fault = fn(&mut Random, &mut Records);

/// A sheet with faults of two questions or more.
pub fn several_faults(random: &mut Random, yards: usize, farms: usize) -> Sample {
    let possible = if yards >= 2 && farms >= 2 { &ORDER[..] } else { &ORDER[..ORDER.len() - 1] };
    loop {
        let questions: Vec<u8> = possible.iter().copied().filter(|_| random.one_in(2)).collect();
        if questions.len() >= 2 {
            return faulty(random, &questions, yards, farms);
        }
    }
}

/// A sheet with a fault of each of these questions, in any order. Question 6 needs two yards and two farms at least.
pub fn faulty(random: &mut Random, questions: &[u8], yards: usize, farms: usize) -> Sample {
    let asked = |question: u8| questions.contains(&question);
    let a_below_b = random.one_in(2);
    let base =
        if asked(6) { broken_by_one_cent(random, yards, farms, a_below_b) } else { accepted(random, yards, farms) };
    let list = base.sheet.chunks(RECORD).map(|bytes| bytes.try_into().expect("a whole record")).collect();
    let mut records = Records { yards, list };
    let faults: [(u8, Fault); 5] = [(5, amount), (10, loads), (4, place), (3, yard), (2, kind)];
    for (question, fault) in faults {
        if asked(question) {
            fault(random, &mut records);
        }
    }
    let mut sheet = records.list.concat();
    if asked(1) {
        length(random, &mut sheet);
    }
    let in_order: Vec<u8> = ORDER.into_iter().filter(|&question| asked(question)).collect();
    let name = format!("faults of questions {in_order:?} in: {}", base.name);
    Sample { name, sheet, reading: Some(Err(in_order[0])) }
}

/// Question 1: a length that is no multiple of 8, or too short, or too long.
fn length(random: &mut Random, sheet: &mut Vec<u8>) {
    let odd = random.between(1, RECORD as u64 - 1) as usize;
    match random.between(0, 5) {
        0 => sheet.truncate(sheet.len() - odd),
        1 => sheet.clear(),
        2 => sheet.truncate(RECORD),
        3 => repeat_last_record(sheet, LONGEST_SHEET + RECORD),
        4 => repeat_last_record(sheet, LONGEST_SHEET + RECORD * random.between(2, 900) as usize),
        _ => sheet.extend((0..odd).map(|_| random.draw() as u8)),
    }
}

fn repeat_last_record(sheet: &mut Vec<u8>, length: usize) {
    while sheet.len() < length {
        sheet.extend_from_within(sheet.len() - RECORD..);
    }
}

/// Question 2: another kind, or byte 2 or byte 3 of a yard not zero.
fn kind(random: &mut Random, records: &mut Records) {
    let not_zero = random.between(1, 255) as u8;
    let any = below(random, records.list.len());
    let yards: Vec<usize> = (0..records.list.len()).filter(|&at| records.list[at][0] == YARD).collect();
    let other_kind = OTHER_KINDS[below(random, OTHER_KINDS.len())];
    match random.between(0, 3) {
        0 => records.list.last_mut().expect("a record")[0] = other_kind,
        1 if !yards.is_empty() => records.list[yards[below(random, yards.len())]][2] = not_zero,
        2 if !yards.is_empty() => records.list[yards[below(random, yards.len())]][3] = not_zero,
        _ => records.list[any][0] = other_kind,
    }
}

/// Question 3: yards out of number or order, after the hauls, too many, or none.
fn yard(random: &mut Random, records: &mut Records) {
    let Records { yards, list } = records;
    let (yards, hauls) = (*yards, list.len() - *yards);
    let too_many = if random.one_in(4) { 258 } else { MOST_YARDS + 1 };
    match random.between(0, 7) {
        0 if yards >= 2 => list.swap(yards - 1, below(random, yards - 1)),
        1 if hauls >= 1 && list.len() < MOST_RECORDS => {
            let at = yards + 1 + below(random, hauls);
            list.insert(at, record(YARD, yards, 0, 1));
        }
        2 if hauls >= 2 => *list.last_mut().expect("a haul") = record(YARD, yards, 0, 1),
        3 if hauls >= 2 => drop(list.drain(..yards)),
        4 if list.len() - yards + too_many <= MOST_RECORDS => {
            list.splice(yards..yards, (yards..too_many).map(|number| record(YARD, number, 0, 1)));
        }
        5 => list[..yards].iter_mut().for_each(|yard| yard[1] += 1),
        6 if hauls >= 1 => list.swap(yards - 1, yards),
        _ => list[below(random, yards)][1] ^= random.between(1, 255) as u8,
    }
}

/// Question 4: hauls out of place, missing, too many, or none; too many farms.
fn place(random: &mut Random, records: &mut Records) {
    let Records { yards, list } = records;
    let (yards, hauls) = (*yards, list.len() - *yards);
    let any = yards + below(random, hauls);
    match random.between(0, 7) {
        0 if yards >= 2 => drop(list.remove(any)),
        1 if list.len() < MOST_RECORDS => list.push(list[any]),
        2 | 3 if yards * (MOST_FARMS + 2) <= MOST_RECORDS => too_many_farms(random, yards, list),
        4 if hauls >= 2 => list.swap(yards + hauls - 1, yards + below(random, hauls - 1)),
        5 if yards >= 2 => list.truncate(yards),
        6 if yards >= 2 && hauls > yards => list[yards..].sort_by_key(|haul| (haul[1], haul[2])),
        7 => list[any][1] ^= random.between(1, 255) as u8,
        _ => list[any][2] ^= random.between(1, 255) as u8,
    }
}

/// Most often one farm too many, else as many as may be.
fn too_many_farms(random: &mut Random, yards: usize, list: &mut Vec<[u8; RECORD]>) {
    let most = MOST_RECORDS / yards - 1;
    let farms = if random.one_in(4) { most } else { MOST_FARMS + 1 };
    let present = list.len() / yards - 1;
    for farm in present..farms {
        list.extend((0..yards).map(|yard| record(HAUL, yard, farm, 1)));
    }
}

/// Question 10: in a farm's records a byte above 20, or one record's unlike the others', first, last or any, 0 beside 1 too.
fn loads(random: &mut Random, records: &mut Records) {
    let Records { yards, list } = records;
    let farms: Vec<&mut [[u8; RECORD]]> = list.chunks_mut(*yards).skip(1).collect();
    let any_farm = below(random, farms.len());
    let farm = farms.into_iter().nth(any_farm).expect("a farm");
    let any = below(random, farm.len());
    let byte = farm[any][3];
    let (above, other) = (byte_above(random), (byte + random.between(1, MOST_LOADS.into()) as u8) % (MOST_LOADS + 1));
    match random.between(0, 6) {
        0 if farm.len() >= 2 => farm[0][3] = other,
        1 if farm.len() >= 2 => farm[farm.len() - 1][3] = other,
        2 if farm.len() >= 2 => farm[any][3] = other,
        3 if farm.len() >= 2 => {
            let rest = random.between(0, 1) as u8;
            farm.iter_mut().for_each(|haul| haul[3] = rest);
            farm[any][3] = 1 - rest;
        }
        4 => farm[any][3] = above,
        _ => farm.iter_mut().for_each(|haul| haul[3] = above),
    }
}

/// Question 5: one fee or haul above its bound.
fn amount(random: &mut Random, records: &mut Records) {
    let at = if random.one_in(2) { below(random, records.yards) } else { below(random, records.list.len()) };
    let bound = if at < records.yards { HIGHEST_FEE } else { HIGHEST_HAUL };
    let above = match random.between(0, 3) {
        0 => u32::MAX,
        1 => bound | 1 << 31,
        2 => random.between(u64::from(bound) + 1, u32::MAX.into()) as u32,
        _ => bound + 1,
    };
    records.list[at][4..].copy_from_slice(&above.to_le_bytes());
}
