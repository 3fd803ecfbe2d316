//! A refusal by its number, with the question that is answered no, in the words of document 01 and, for loads, tariffs, a yard that
//! shuts and offers, of papers 2, 3, 5 and 10 of document 02.
use std::error::Error;
use std::fmt;

/// The number of the first question that is answered no. Where a program ends with it, it is told in words: `Debug` is `Display`.
#[derive(Clone, Copy, PartialEq, Eq, Hash)]
pub struct Refusal(pub u8);

impl Refusal {
    /// The question, where it is one that calls ask.
    pub fn question(self) -> Option<&'static str> {
        let place = usize::from(self.0).checked_sub(1)?;
        QUESTIONS.get(place).copied()
    }
}

impl fmt::Display for Refusal {
    fn fmt(&self, to: &mut fmt::Formatter) -> fmt::Result {
        match self.question() {
            Some(question) => write!(to, "refused {}: {question} No.", self.0),
            None => write!(to, "refused {}, which is no question's number", self.0),
        }
    }
}

impl fmt::Debug for Refusal {
    fn fmt(&self, to: &mut fmt::Formatter) -> fmt::Result {
        fmt::Display::fmt(self, to)
    }
}

impl Error for Refusal {}

const QUESTIONS: [&str; 16] = [
    "Is the length a multiple of 8, from 16 to 33,024 bytes?",
    "Is every kind 59 or 48 hex, every byte 3 zero (since paper 2 in yard records alone), and byte 2 zero in every yard \
     record?",
    "Do 1 to 32 yard records stand first, numbered from 0 in order, with none after them?",
    "Is the count of haul records m times n with n from 1 to 128, each with the yard and farm number of its place?",
    "Is every fee at most 50,000,000 and every haul at most 1,000,000?",
    "Four-point rule: for all yards a, b and all farms p, q, is haul(a, q) at most haul(a, p) + haul(b, p) + haul(b, q)?",
    "Limited plan only: is k from 1 to m?",
    "Pricing only: does the set, a 32-bit number whose bit i marks yard i (bit 0 lowest), mark at least one yard and none \
     numbered m or above?",
    "Is the lent plan area at least 8 × (m + n + 2) bytes?",
    "Loads (paper 2): is byte 3 of every haul record at most 20, and the same in all of a farm's records?",
    "Tariff (paper 3): is it 1 to 16 records of kind 42 hex, numbered from 0 in order, band 0 starting at 0 and each band at \
     its predecessor's end, without a gap, an overlap or an empty band?",
    "Tariff (paper 3): is no rate above the band before it?",
    "Distances (paper 3): is no distance past the last end?",
    "Shutting a yard (paper 5): is the named yard in the set, and not its only yard?",
    "Offers (paper 10): are they n records of kind 56 hex, one per farm in order, with bytes 1 and 3 zero?",
    "Offers (paper 10): at every yard, do the loads times the excess of amount over haul, where positive, sum to at most the \
     fee?",
];
