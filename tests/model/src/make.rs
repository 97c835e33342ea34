//! Making a ledger from a header.
use crate::answer::{refuse_if, Answer, Refusal};
use crate::contract::CONTRACTS;
use crate::damage::is_short;
use crate::header::Header;
use crate::tables::*;

/// The fresh ledger of the header at the front of `bytes`. Surplus places stay as they were; the book is empty by its count.
pub fn make(tables: &mut Tables, bytes: &[u8]) -> Answer {
    refuse_if(is_short(tables), Refusal::Damaged)?;
    let (header, _) = Header::read(bytes)?;
    let members = header.limits.len();
    let holidays = header.holidays.len();
    tables.head[FIRST_YEAR] = header.first_year;
    tables.head[MEMBERS] = members as u64;
    tables.head[HOLIDAY_COUNT] = holidays as u64;
    tables.head[DAY] = header.start_day;
    tables.head[TIME..HOLIDAYS].fill(0);
    tables.head[HOLIDAYS..HOLIDAYS + holidays].copy_from_slice(&header.holidays);
    tables.head[LIMITS..LIMITS + members].copy_from_slice(&header.limits);
    tables.head[MARKS..MARKS + members].fill(0);
    tables.head[SUBMITS..SUBMITS + members].fill(0);
    for contract in 0..CONTRACTS as usize {
        tables.prices[PRICE_WIDTH * contract..PRICE_WIDTH * (contract + 1)].copy_from_slice(&[0, 1, MOST_PRICE, 0, 0]);
        tables.lots[ROW_WIDTH * contract..ROW_WIDTH * contract + members].fill(0);
        tables.value[ROW_WIDTH * contract..ROW_WIDTH * contract + members].fill(0);
    }
    Ok(0)
}
