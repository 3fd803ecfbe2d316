//! Offers of one amount per farm (paper 10 of document 02), at the prices of a table whose sheet of hauls is accepted: accepted ones,
//! ones that overbid a yard, and ones whose records are broken.
use super::below;
use crate::random::Random;
use planner::format::{record, OFFER, RECORD};
use planner::table::Table;

/// Breaks the records of offers, or gives bytes that are no whole records.
type Break = fn(&mut Random, &[u8]) -> Vec<u8>;

/// Every way to break offers, by name. Records can be out of order only where there are two.
pub const BREAKS: [(&str, Break); 12] = [
    ("offers without a record", |_, _| Vec::new()),
    ("offers a record short", |_, offers| offers[..offers.len() - RECORD].to_vec()),
    ("offers of too many records", too_many),
    ("offers with a part of a record", part_of_a_record),
    ("offers of another kind", |random, offers| other_byte(random, offers, 0)),
    ("offers with byte 1 not zero", |random, offers| other_byte(random, offers, 1)),
    ("offers with another farm", |random, offers| other_byte(random, offers, 2)),
    ("offers with byte 3 not zero", |random, offers| other_byte(random, offers, 3)),
    ("offers with two farms exchanged", exchanged),
    ("offers with all farms in another order", moved_on),
    ("offers with a farm twice and another not at all", twice),
    ("offers with a farm twice beside all others", one_more),
];

/// Offers that are accepted: each farm takes any part of what is left to it, often all or nothing.
pub fn accepted_offers(random: &mut Random, prices: &Table) -> Vec<u32> {
    drawn(random, prices, |random, highest, _| part(random, highest))
}

/// Offers that are accepted, of which none can be raised by a cent.
pub fn tight_offers(random: &mut Random, prices: &Table) -> Vec<u32> {
    drawn(random, prices, |_, highest, _| highest)
}

/// Offers that would be accepted if one farm's amount were one cent lower.
pub fn one_cent_over(random: &mut Random, prices: &Table) -> Vec<u32> {
    let tight = random.one_in(2);
    drawn(random, prices, |random, highest, is_last| match (is_last, tight) {
        (true, _) => highest + 1,
        (_, true) => highest,
        _ => part(random, highest),
    })
}

/// Offers that overbid every yard by far more than its fee: all as high as can be written, one, some, or so that sums of 32 bits
/// come to those of tight offers again.
pub fn huge_offers(random: &mut Random, prices: &Table) -> Vec<u32> {
    let mut amounts = tight_offers(random, prices);
    let farms = amounts.len();
    match random.between(0, 3) {
        0 => amounts.fill(u32::MAX),
        1 => amounts[below(random, farms)] = u32::MAX,
        2 => amounts[below(random, farms)..].fill_with(|| random.between(1 << 26, u32::MAX.into()) as u32),
        _ => {
            // 2 to the power of 31 times even loads, or those of two farms with odd ones, is a multiple of 2 to the power of 32.
            let even = (0..farms).find(|&farm| prices.loads_of(farm).is_multiple_of(2));
            let raised = even.map_or(0..farms.min(2), |farm| farm..farm + 1);
            amounts[raised].iter_mut().for_each(|amount| *amount += 1 << 31);
        }
    }
    amounts
}

/// Amounts of any size, often too high.
pub fn any_offers(random: &mut Random, farms: usize) -> Vec<u32> {
    let highest = [3, 60, 2_000_000, u32::MAX][below(random, 4)];
    (0..farms).map(|_| random.between(0, highest.into()) as u32).collect()
}

/// A yard for which something is bid, and the fee that is just what is bid for it.
pub fn fee_just_met(random: &mut Random, prices: &Table, amounts: &[u32]) -> Option<(usize, u32)> {
    let yards = prices.fees.len();
    let first = below(random, yards);
    let bids = |yard: usize| (0..amounts.len()).map(|farm| bid(prices, farm, yard, amounts[farm])).sum::<u64>();
    let fee = |yard: usize| (yard, bids(yard) as u32);
    (first..yards).chain(0..first).map(fee).find(|&(_, fee)| fee > 0)
}

/// The offers broken in every way, each with its place in `BREAKS`.
pub fn broken_offers(random: &mut Random, offers: &[u8]) -> Vec<(usize, Vec<u8>)> {
    let broken = BREAKS.iter().map(|(_, way)| way(random, offers)).enumerate();
    broken.filter(|(_, broken)| broken != offers).collect()
}

/// One amount per farm, drawn farm after farm in any order: each from the highest one at which no yard is overbid yet, and from
/// whether it is the last.
fn drawn(random: &mut Random, prices: &Table, mut draw: impl FnMut(&mut Random, u32, bool) -> u32) -> Vec<u32> {
    let farms = prices.hauls.len();
    let mut amounts = vec![0; farms];
    let mut left: Vec<u64> = prices.fees.iter().map(|&fee| fee.into()).collect();
    for (place, farm) in any_order(random, farms).into_iter().enumerate() {
        let most = |(&left, &haul): (&u64, &u32)| haul + (left / prices.loads_of(farm)) as u32;
        let highest = left.iter().zip(&prices.hauls[farm]).map(most).min().expect("a yard");
        amounts[farm] = draw(random, highest, place + 1 == farms);
        for (yard, left) in left.iter_mut().enumerate() {
            *left = left.saturating_sub(bid(prices, farm, yard, amounts[farm]));
        }
    }
    amounts
}

/// What a farm bids for a yard by this amount: loads times the excess over its haul.
fn bid(prices: &Table, farm: usize, yard: usize, amount: u32) -> u64 {
    prices.loads_of(farm) * u64::from(amount.saturating_sub(prices.hauls[farm][yard]))
}

fn part(random: &mut Random, highest: u32) -> u32 {
    match random.between(0, 3) {
        0 => highest,
        1 => 0,
        _ => random.between(0, highest.into()) as u32,
    }
}

fn any_order(random: &mut Random, count: usize) -> Vec<usize> {
    let mut order: Vec<usize> = (0..count).collect();
    (1..count).for_each(|at| order.swap(at, below(random, at + 1)));
    order
}

/// Most often one too many, now and then so many that the number of farms or its low part comes again.
fn too_many(random: &mut Random, offers: &[u8]) -> Vec<u8> {
    let farms = offers.len() / RECORD;
    let count = farms + [1, 1, 2, farms, 256][below(random, 5)];
    let more = (farms..count).flat_map(|farm| record(OFFER, 0, farm, 0));
    offers.iter().copied().chain(more).collect()
}

/// Some bytes less, or some more.
fn part_of_a_record(random: &mut Random, offers: &[u8]) -> Vec<u8> {
    let odd = random.between(1, RECORD as u64 - 1) as usize;
    let more = (0..odd).map(|_| if random.one_in(2) { 0 } else { random.draw() as u8 }).collect::<Vec<u8>>();
    if random.one_in(2) {
        return offers[..offers.len() - odd].to_vec();
    }
    [offers, &more].concat()
}

/// Another value of one byte in any record.
fn other_byte(random: &mut Random, offers: &[u8], byte: usize) -> Vec<u8> {
    let mut offers = offers.to_vec();
    let at = RECORD * below(random, offers.len() / RECORD);
    offers[at + byte] ^= if random.one_in(2) { 1 << random.between(0, 7) } else { random.between(1, 255) as u8 };
    offers
}

fn exchanged(random: &mut Random, offers: &[u8]) -> Vec<u8> {
    let mut list: Vec<&[u8]> = offers.chunks(RECORD).collect();
    let (one, other) = (below(random, list.len()), below(random, list.len()));
    let other = if one == other { (one + 1) % list.len() } else { other };
    list.swap(one, other);
    list.concat()
}

fn moved_on(random: &mut Random, offers: &[u8]) -> Vec<u8> {
    let mut offers = offers.to_vec();
    let by = 1 + below(random, (offers.len() / RECORD - 1).max(1));
    offers.rotate_left(RECORD * by);
    offers
}

/// A record in the place of another.
fn twice(random: &mut Random, offers: &[u8]) -> Vec<u8> {
    let mut list: Vec<&[u8]> = offers.chunks(RECORD).collect();
    let at = below(random, list.len());
    list[at] = list[(at + 1) % list.len()];
    list.concat()
}

/// A record once more, right behind itself.
fn one_more(random: &mut Random, offers: &[u8]) -> Vec<u8> {
    let mut list: Vec<&[u8]> = offers.chunks(RECORD).collect();
    let at = below(random, list.len());
    list.insert(at, list[at]);
    list.concat()
}
