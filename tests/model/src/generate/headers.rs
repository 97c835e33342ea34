//! Headers: runs of holidays before the first days of years and quarters, start days near closing days.
use super::random::Random;
use crate::calendar::Calendar;
use crate::contract::{Contract, Kind, CONTRACTS, YEARS};
use crate::header::Header;
use crate::tables::*;
use std::collections::BTreeSet;

pub fn header(random: &mut Random) -> Header {
    let first_year = match random.below(8) {
        0 => 2020,
        1 => 2094,
        _ => random.between(2020, 2094),
    };
    let any = random.between(1, MOST_MEMBERS);
    let members = random.pick(&[1, 2, 2, 3, 3, 4, 5, 8, 16, MOST_MEMBERS, MOST_MEMBERS, any]);
    let limits = (0..members).map(|_| limit(random)).collect();
    let holidays: Vec<u64> = holidays(random, first_year).into_iter().collect();
    let start_day = business_day(random, &Calendar { first_year, holidays: &holidays });
    Header { first_year, start_day, holidays, limits }
}

fn limit(random: &mut Random) -> u64 {
    match random.below(12) {
        0 => 0,
        1 => random.between(1, 50),
        2 => MOST_LIMIT,
        3 | 4 => random.between(50, 500),
        _ => random.between(1000, MOST_LIMIT),
    }
}

fn holidays(random: &mut Random, first_year: u64) -> BTreeSet<u64> {
    let calendar = Calendar { first_year, holidays: &[] };
    let span = calendar.span();
    let mut days = BTreeSet::new();
    match random.below(4) {
        0 => {}
        1 => {
            let any = |_| random.between(span.start as u64, span.end as u64 - 1);
            days.extend((0..MOST_HOLIDAYS).map(any));
        }
        _ => (0..random.between(1, 3)).for_each(|_| run(random, &calendar, &mut days)),
    }
    while days.len() as u64 > MOST_HOLIDAYS {
        days.pop_last();
    }
    days
}

/// The business days of some months up to the first day of a year, quarter or month, a few of them left out: what would
/// close in these months closes before them, on one evening or a few.
fn run(random: &mut Random, calendar: &Calendar, days: &mut BTreeSet<u64>) {
    let every = random.pick(&[1, 3, 12, 12]);
    let end = random.between(1, 12 * YEARS / every - 1) * every;
    let months = random.pick(&[1, 2, 3, 3, 5, 5]);
    let start = |month: u64| calendar.delivery(Contract { kind: Kind::Month, index: month }).start;
    let covered = start(end.saturating_sub(months))..start(end) + random.below(4) as i64;
    let mut run: Vec<i64> = covered.filter(|&day| calendar.is_business_day(day)).collect();
    for _ in 0..random.pick(&[0, 0, 1, 2, 2, 3]) {
        run.remove(random.below(run.len() as u64) as usize);
    }
    days.extend(run.into_iter().map(|day| day as u64));
}

/// A business day of the span, often one on which contracts close, the one on which most do, or the last one.
pub fn business_day(random: &mut Random, calendar: &Calendar) -> u64 {
    let span = calendar.span();
    let near = match random.below(10) {
        0 => span.start,
        1 => span.end - random.between(1, 5) as i64,
        8 | 9 => busiest_evening(calendar),
        2 | 3 => random.between(span.start as u64, span.end as u64 - 1) as i64,
        _ => {
            let kind = random.pick(&Kind::ALL);
            let index = random.below(YEARS * kind.in_a_year());
            calendar.closing_day(Contract { kind, index }) - random.pick(&[0, 0, 0, 1, 4])
        }
    };
    let near = near.clamp(span.start, span.end - 1);
    let earlier = || (span.start..=near).rev().find(|&day| calendar.is_business_day(day));
    let later = || (near..span.end).find(|&day| calendar.is_business_day(day));
    earlier().or_else(later).expect("a span has more business days than holidays") as u64
}

/// The day of the span on which most contracts close, the first of them.
fn busiest_evening(calendar: &Calendar) -> i64 {
    let mut days: Vec<i64> = (0..CONTRACTS).map(|number| calendar.closing_day(Contract::numbered(number))).collect();
    days.retain(|day| calendar.span().contains(day));
    days.sort_unstable();
    let closing = |day: &i64| days.iter().filter(|other| *other == day).count();
    days.iter().copied().rev().max_by_key(closing).expect("contracts close in the span")
}

/// A header with one field at or past an end of its range.
pub fn wrong(random: &mut Random, header: &Header) -> Header {
    let mut wrong = header.clone();
    let span = Calendar { first_year: header.first_year, holidays: &[] }.span();
    let ends = [span.start as u64 - (span.start > 0) as u64, span.start as u64, span.end as u64 - 1, span.end as u64];
    match random.below(7) {
        0 => wrong.first_year = random.pick(&[0, 2019, 2020, 2094, 2095, 65_535]),
        1 => wrong.start_day = random.pick(&ends) + random.below(3),
        2 => wrong.start_day = header.holidays.first().copied().unwrap_or(0),
        3 => wrong.limits.push(random.pick(&[MOST_LIMIT, MOST_LIMIT + 1, u32::MAX as u64])),
        4 => wrong.limits.resize(random.pick(&[0, 32, 33, 200]), 0),
        5 => wrong.holidays.push(random.pick(&ends)),
        _ => wrong.holidays.insert(0, random.pick(&ends)),
    }
    wrong
}
