//! The header of a journal.
use crate::answer::Refusal;
use crate::calendar::Calendar;
use crate::damage::is_business_day_of_span;
use crate::tables::{MOST_HOLIDAYS, MOST_LIMIT, MOST_MEMBERS};

const LETTERS: &[u8] = b"VJR\x00\x01";

#[derive(Clone, Debug, PartialEq, Eq)]
pub struct Header {
    pub first_year: u64,
    pub start_day: u64,
    pub holidays: Vec<u64>,
    /// one position limit per member
    pub limits: Vec<u64>,
}

/// Takes big-endian numbers from the front of some bytes.
pub struct Bytes<'a>(pub &'a [u8]);

impl Bytes<'_> {
    pub fn take(&mut self, width: usize) -> Option<u64> {
        let (number, rest) = self.0.split_at_checked(width)?;
        self.0 = rest;
        Some(number.iter().fold(0, |sum, &byte| 256 * sum + byte as u64))
    }
}

/// Puts a number at the end of some bytes, big-endian.
pub fn put(bytes: &mut Vec<u8>, width: usize, number: u64) {
    bytes.extend(&number.to_be_bytes()[8 - width..]);
}

impl Header {
    pub fn is_sound(&self) -> bool {
        let calendar = Calendar { first_year: self.first_year, holidays: &self.holidays };
        (1..=MOST_MEMBERS).contains(&(self.limits.len() as u64))
            && self.holidays.len() as u64 <= MOST_HOLIDAYS
            && self.limits.iter().all(|&limit| limit <= MOST_LIMIT)
            && calendar.is_sound()
            && is_business_day_of_span(&calendar, self.start_day)
    }

    /// The header at the front of some bytes, and the bytes past it.
    pub fn read(bytes: &[u8]) -> Result<(Header, &[u8]), Refusal> {
        match Header::fields(bytes) {
            Some((header, rest)) if header.is_sound() => Ok((header, rest)),
            _ => Err(Refusal::Header),
        }
    }

    fn fields(bytes: &[u8]) -> Option<(Header, &[u8])> {
        let mut bytes = Bytes(bytes.strip_prefix(LETTERS)?);
        let first_year = bytes.take(2)?;
        let start_day = bytes.take(2)?;
        let members = bytes.take(1)?;
        let holidays = bytes.take(1)?;
        let holidays = (0..holidays).map(|_| bytes.take(2)).collect::<Option<Vec<_>>>()?;
        let limits = (0..members).map(|_| bytes.take(4)).collect::<Option<Vec<_>>>()?;
        Some((Header { first_year, start_day, holidays, limits }, bytes.0))
    }

    pub fn bytes(&self) -> Vec<u8> {
        let mut bytes = LETTERS.to_vec();
        put(&mut bytes, 2, self.first_year);
        put(&mut bytes, 2, self.start_day);
        put(&mut bytes, 1, self.limits.len() as u64);
        put(&mut bytes, 1, self.holidays.len() as u64);
        self.holidays.iter().for_each(|&holiday| put(&mut bytes, 2, holiday));
        self.limits.iter().for_each(|&limit| put(&mut bytes, 4, limit));
        bytes
    }
}
