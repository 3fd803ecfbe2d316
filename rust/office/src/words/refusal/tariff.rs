//! Questions 11 and 12, which are about a given tariff: 11 is asked of its length and of all its records before 12 of any.
use super::{hex, without_record, Fault};
use planner::bands::Band;
use planner::format::{BAND, MOST_BANDS, RECORD};
use planner::Tariff;
use std::cmp::Ordering;

/// The first fault of a given tariff. The house tariff is a constant and is not asked.
pub fn fault(tariff: Tariff) -> Option<Fault> {
    let Tariff::Given(bytes) = tariff else {
        return None;
    };
    let records: Vec<&[u8]> = bytes.chunks_exact(RECORD).collect();
    length(bytes).or_else(|| form(&records)).or_else(|| rates(&records))
}

fn length(tariff: &[u8]) -> Option<Fault> {
    let (records, over) = (tariff.len() / RECORD, tariff.len() % RECORD);
    if over == 0 && (1..=MOST_BANDS).contains(&records) {
        return None;
    }
    let found =
        format!("The length of the tariff is {} bytes: whole records {records}, bytes left over {over}.", tariff.len());
    without_record(11, format!("{found} Asked: 1 to {MOST_BANDS} records of {RECORD} bytes, none left over."))
}

/// Question 11, record by record.
fn form(records: &[&[u8]]) -> Option<Fault> {
    let (at, words) = (0..records.len()).find_map(|at| Some((at, broken(records, at)?)))?;
    at_band(11, records, at, words)
}

/// What is wrong with a record by itself or behind its predecessor.
fn broken(records: &[&[u8]], at: usize) -> Option<String> {
    let (kind, number, band) = (records[at][0], records[at][1], Band::at(records[at]));
    if kind != BAND {
        return Some(format!("Its kind is {kind:02X} hex. Asked: {BAND:02X} for a band."));
    }
    if usize::from(number) != at {
        return Some(format!("Its number is {number}. Asked here: {at}."));
    }
    let before = if at == 0 { 0 } else { Band::at(records[at - 1]).end };
    let asked = if at == 0 { "0 for band 0".into() } else { format!("its predecessor's end, {before}") };
    match band.start.cmp(&before) {
        Ordering::Greater => return Some(format!("It starts at {}, which leaves a gap. Asked: {asked}.", band.start)),
        Ordering::Less => return Some(format!("It starts at {}, which is an overlap. Asked: {asked}.", band.start)),
        Ordering::Equal => {}
    }
    let empty = if band.end == band.start { ", so the band is empty" } else { "" };
    let words = format!("It ends at {} and starts at {}{empty}. Asked: an end above the start.", band.end, band.start);
    (band.end <= band.start).then_some(words)
}

/// Question 12.
fn rates(records: &[&[u8]]) -> Option<Fault> {
    let rate = |at: usize| Band::at(records[at]).rate;
    let at = (1..records.len()).find(|&at| rate(at) > rate(at - 1))?;
    let found =
        format!("Its rate is {}; that of the band before it, record {}, is {}.", rate(at), at - 1, rate(at - 1));
    at_band(12, records, at, format!("{found} Asked: no rate above the band before it."))
}

fn at_band(question: u8, records: &[&[u8]], at: usize, words: String) -> Option<Fault> {
    let words = format!("{}\n{words}", described(records[at], at));
    Some(Fault { question, records: vec![at], words })
}

/// A record's place in the tariff, its bytes in hex and what they mean.
fn described(record: &[u8], at: usize) -> String {
    let Band { start, end, rate } = Band::at(record);
    let meaning = match record[0] {
        BAND => format!("a band, number {}, from {start} to {end}, rate {rate}", record[1]),
        _ => "no band".into(),
    };
    format!("Record {at} of the tariff (counted from 0), at byte {}: {} hex: {meaning}.", at * RECORD, hex(record))
}
