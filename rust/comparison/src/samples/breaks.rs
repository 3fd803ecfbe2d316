//! Broken tariffs (paper 3 of document 02): one function for each way that 11 names, and damage by chance.
use super::below;
use super::tariffs::{falling, records, rising_tariff, tariff, EndAndRate, TariffSample};
use crate::random::Random;
use planner::format::{BAND, MOST_BANDS, RECORD};

/// Breaks the records of a tariff, or gives bytes that are no whole records.
type Break = fn(&mut Random, &[EndAndRate]) -> Vec<u8>;

/// Every way to break a tariff, by name.
const BREAKS: [(&str, Break); 10] = [
    ("no record", |_, _| Vec::new()),
    ("too many records", too_many),
    ("a part of a record", part_of_a_record),
    ("another kind", other_kind),
    ("a number out of place", other_number),
    ("a gap", |random, bands| moved_start(random, bands, u16::wrapping_add)),
    ("an overlap", |random, bands| moved_start(random, bands, u16::wrapping_sub)),
    ("an empty band", |random, bands| moved_end(random, bands, 0)),
    ("an end below the start", |random, bands| moved_end(random, bands, 1)),
    ("a first band that does not start at 0", late_start),
];

/// Tariffs broken in every way, each once with rates that fall and once with rates that rise too, and as many that only rise. So
/// 11 refuses two thirds of them, and 12 the others.
pub fn refused_tariffs(random: &mut Random) -> Vec<TariffSample> {
    let mut list = Vec::new();
    for way in BREAKS {
        let (falls, rises, only_rises) = (longer(random), rising_tariff(random), rising_tariff(random));
        list.extend([broken(random, way, falls), broken(random, way, rises), only_rises]);
    }
    list
}

fn broken(random: &mut Random, (name, way): (&str, Break), made: TariffSample) -> TariffSample {
    let bytes = way(random, &made.bands);
    TariffSample { name: format!("{name} in: {}", made.name), bytes: Some(bytes), asked: Some(Err(11)), ..made }
}

/// An accepted tariff of two bands or more.
fn longer(random: &mut Random) -> TariffSample {
    loop {
        let made = tariff(random);
        if made.bands.len() >= 2 {
            return made;
        }
    }
}

/// Most often one too many, now and then so many that numbers run over.
fn too_many(random: &mut Random, _: &[EndAndRate]) -> Vec<u8> {
    let count = [MOST_BANDS + 1, MOST_BANDS + 1, MOST_BANDS + 2, 40, 257][below(random, 5)];
    records(&falling(random, count, 200, 60)).concat()
}

/// Some bytes less, or some more.
fn part_of_a_record(random: &mut Random, bands: &[EndAndRate]) -> Vec<u8> {
    let mut bytes = records(bands).concat();
    let odd = random.between(1, RECORD as u64 - 1) as usize;
    if random.one_in(2) {
        bytes.truncate(bytes.len() - odd);
    } else {
        bytes.extend((0..odd).map(|_| random.draw() as u8));
    }
    bytes
}

fn other_kind(random: &mut Random, bands: &[EndAndRate]) -> Vec<u8> {
    let mut list = records(bands);
    list[below(random, bands.len())][0] = [0x00, 0x41, 0x43, 0x48, 0x59, BAND | 1 << 7, 0xFF][below(random, 7)];
    list.concat()
}

/// Two numbers exchanged, all one too high, or any other number.
fn other_number(random: &mut Random, bands: &[EndAndRate]) -> Vec<u8> {
    let mut list = records(bands);
    let any = below(random, list.len());
    match random.between(0, 2) {
        0 => (list[0][1], list[1][1]) = (1, 0),
        1 => list.iter_mut().for_each(|record| record[1] += 1),
        _ => list[any][1] ^= random.between(1, 255) as u8,
    }
    list.concat()
}

/// Another start of a band after the first, by one or by the high byte.
fn moved_start(random: &mut Random, bands: &[EndAndRate], moved: fn(u16, u16) -> u16) -> Vec<u8> {
    let mut list = records(bands);
    let at = 1 + below(random, bands.len() - 1);
    let by = if random.one_in(4) { 256 } else { 1 };
    let start = moved(number(&list[at], 2), by);
    put(&mut list[at], 2, start);
    list.concat()
}

/// A band that ends where it starts, or so far before; the next one starts there.
fn moved_end(random: &mut Random, bands: &[EndAndRate], before: u16) -> Vec<u8> {
    let mut list = records(bands);
    let at = usize::from(before).max(below(random, bands.len()));
    let end = number(&list[at], 2) - before;
    put(&mut list[at], 4, end);
    if at + 1 < list.len() {
        put(&mut list[at + 1], 2, end);
    }
    list.concat()
}

fn late_start(random: &mut Random, bands: &[EndAndRate]) -> Vec<u8> {
    let mut list = records(bands);
    let start = if random.one_in(4) { 256 } else { random.between(1, 2) as u16 };
    put(&mut list[0], 2, start);
    list.concat()
}

/// Two bytes of a record, lowest first.
fn number(record: &[u8; RECORD], at: usize) -> u16 {
    u16::from_le_bytes([record[at], record[at + 1]])
}

fn put(record: &mut [u8; RECORD], at: usize, number: u16) {
    record[at..at + 2].copy_from_slice(&number.to_le_bytes());
}

/// A tariff that was accepted, after one to three random damages: what is answered is left to the implementations compared.
pub fn damaged_tariff(random: &mut Random) -> TariffSample {
    let made = tariff(random);
    let mut bytes = made.bytes.unwrap_or_default();
    let damages = random.between(1, 3);
    for _ in 0..damages {
        damage(random, &mut bytes);
    }
    TariffSample { name: format!("{damages} damages to: {}", made.name), bytes: Some(bytes), asked: None, ..made }
}

fn damage(random: &mut Random, bytes: &mut Vec<u8>) {
    if bytes.is_empty() {
        return bytes.push(random.draw() as u8);
    }
    let at = below(random, bytes.len());
    let record = at / RECORD * RECORD;
    match random.between(0, 6) {
        0 => bytes.truncate(record),
        1 => bytes.extend_from_within(record..),
        2 => bytes[at] = random.draw() as u8,
        3 => bytes[at] = bytes[at].wrapping_add(1),
        4 => bytes[at] = bytes[at].wrapping_sub(1),
        // A rate, of which another one is often accepted.
        5 if record + RECORD <= bytes.len() => bytes[record + 6] = bytes[record + 6].wrapping_sub(1),
        _ => bytes[at] ^= 1 << random.between(0, 7),
    }
}
