//! A journal applied record by record, and what the journal program prints.
use crate::answer::{Answer, Refusal};
use crate::apply::apply;
use crate::header::Header;
use crate::make::make;
use crate::record;
use crate::tables::*;
use std::fmt::Write;

/// Makes the journal's ledger and applies its records in turn, up to the first that is number 3. `each` gets the count of
/// the record, from 1, or 0 for the making, its answer, and the tables after it.
pub fn replay(tables: &mut Tables, bytes: &[u8], mut each: impl FnMut(u64, Answer, &Tables)) {
    each(0, make(tables, bytes), tables);
    let Ok((_, mut rest)) = Header::read(bytes) else {
        return;
    };
    let mut count = 0;
    while !rest.is_empty() {
        let length = record::length(rest).unwrap_or(rest.len()).min(rest.len());
        let (record, after) = rest.split_at(length);
        rest = after;
        count += 1;
        let answer = apply(tables, record);
        each(count, answer, tables);
        if answer == Err(Refusal::Record) {
            return;
        }
    }
}

pub fn printed(bytes: &[u8]) -> String {
    let mut out = String::new();
    let (mut accepted, mut refused) = (0, 0);
    let mut tables = Tables::empty();
    replay(&mut tables, bytes, |record, answer, tables| match (record, answer) {
        (0, Ok(_)) => {
            let (year, day, members) = (tables.head[FIRST_YEAR], tables.day(), tables.members());
            writeln!(out, "H {year} {day} {members}").expect("a string grows");
        }
        (_, Ok(lines)) => {
            accepted += 1;
            print_lines(&mut out, tables, lines as usize);
        }
        (record, Err(refusal)) => {
            refused += 1;
            writeln!(out, "R {record} {}", refusal.number()).expect("a string grows");
        }
    });
    if out.starts_with('H') {
        writeln!(out, "E {accepted} {refused} {}", tables.run()).expect("a string grows");
    }
    out
}

fn print_lines(out: &mut String, tables: &Tables, lines: usize) {
    for Line { member, contract, lots, price } in (0..lines).map(|place| tables.line(place)) {
        writeln!(out, "D {member} {contract} {lots} {price}").expect("a string grows");
    }
}
