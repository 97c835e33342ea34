//! Days, business days, closing days, open contracts. Day 0 is 1 January 2020, a Wednesday.
use crate::contract::{Contract, Kind, YEARS};
use std::ops::Range;

pub const FIRST_YEARS: std::ops::RangeInclusive<u64> = 2020..=2094;
const MONTH_STARTS: usize = 961;

const fn month_length(month: usize) -> i64 {
    let year = 2020 + month / 12;
    match month % 12 {
        3 | 5 | 8 | 10 => 30,
        1 if year.is_multiple_of(4) => 29,
        1 => 28,
        _ => 31,
    }
}

/// The first days of the months from January 2020 to January 2100; every fourth year among them is a leap year.
static STARTS: [i64; MONTH_STARTS] = {
    let mut starts = [0; MONTH_STARTS];
    let mut month = 1;
    while month < MONTH_STARTS {
        starts[month] = starts[month - 1] + month_length(month - 1);
        month += 1;
    }
    starts
};

pub struct Calendar<'a> {
    pub first_year: u64,
    /// strictly rising days of the span
    pub holidays: &'a [u64],
}

impl Calendar<'_> {
    /// First day of a month counted from January of the first year.
    fn month_start(&self, month: u64) -> i64 {
        STARTS[((self.first_year - 2020) * 12 + month) as usize]
    }

    /// The days of the six years.
    pub fn span(&self) -> Range<i64> {
        self.month_start(0)..self.month_start(12 * YEARS)
    }

    pub fn delivery(&self, contract: Contract) -> Range<i64> {
        let first = contract.first_month();
        self.month_start(first)..self.month_start(first + contract.kind.months())
    }

    pub fn days(&self, contract: Contract) -> u64 {
        let delivery = self.delivery(contract);
        (delivery.end - delivery.start) as u64
    }

    /// The list has no holiday before or after the six years: there, Monday to Friday are all business days.
    pub fn is_business_day(&self, day: i64) -> bool {
        let weekday = day.rem_euclid(7);
        let weekend = weekday == 3 || weekday == 4;
        !weekend && (day < 0 || self.holidays.binary_search(&(day as u64)).is_err())
    }

    pub fn next_business_day(&self, day: i64) -> Option<i64> {
        (day + 1..self.span().end).find(|&later| self.is_business_day(later))
    }

    pub fn closing_day(&self, contract: Contract) -> i64 {
        let mut day = self.delivery(contract).start;
        for _ in 0..contract.kind.closing_distance() {
            day -= 1;
            while !self.is_business_day(day) {
                day -= 1;
            }
        }
        day
    }

    /// Within a kind nothing closes before what delivers earlier. So a contract that is still to close is among the
    /// first of those exactly if the one `open_count` places ahead of it has closed.
    pub fn is_open(&self, contract: Contract, day: i64) -> bool {
        let Contract { kind, index } = contract;
        let ahead = index.checked_sub(kind.open_count());
        self.closing_day(contract) >= day && ahead.is_none_or(|index| self.closing_day(Contract { kind, index }) < day)
    }

    pub fn open_contracts(&self, day: i64) -> Vec<Contract> {
        let open = |kind: Kind| {
            let not_closed = Contract::all_of(kind).filter(|&contract| self.closing_day(contract) >= day);
            not_closed.take(kind.open_count() as usize).collect::<Vec<_>>()
        };
        Kind::ALL.into_iter().flat_map(open).collect()
    }

    /// Years before quarters before months, each by delivery.
    pub fn closing_contracts(&self, day: i64) -> Vec<Contract> {
        let closing = |kind| Contract::all_of(kind).filter(|&contract| self.closing_day(contract) == day);
        Kind::ALL.into_iter().flat_map(closing).collect()
    }

    /// Whether the first year is in range and the holidays rise within the span.
    pub fn is_sound(&self) -> bool {
        FIRST_YEARS.contains(&self.first_year) && {
            let span = self.span();
            let in_span = |&day: &u64| day < span.end as u64 && day >= span.start as u64;
            self.holidays.iter().all(in_span) && self.holidays.windows(2).all(|pair| pair[0] < pair[1])
        }
    }
}

#[cfg(test)]
mod tests {
    use super::*;

    fn closing(first_year: u64, number: u64) -> i64 {
        Calendar { first_year, holidays: &[] }.closing_day(Contract::numbered(number))
    }

    #[test]
    fn month_starts() {
        assert_eq!(STARTS[12], 366);
        assert_eq!(STARTS[960], 29220);
    }

    #[test]
    fn closing_days_of_the_paper() {
        assert_eq!(closing(2020, 17), 359);
        assert_eq!(closing(2020, 18), 363);
        assert_eq!(closing(2020, 22), 363);
        assert_eq!(closing(2020, 19), 453);
        assert!(closing(2020, 0) < 0);
    }

    #[test]
    fn open_is_the_first_of_those_not_closed() {
        let holidays: Vec<u64> = (1000..1030).chain(1440..1470).collect();
        let calendar = Calendar { first_year: 2021, holidays: &holidays };
        for day in calendar.span() {
            let open = calendar.open_contracts(day);
            for number in 0..crate::contract::CONTRACTS {
                let contract = Contract::numbered(number);
                assert_eq!(calendar.is_open(contract, day), open.contains(&contract), "contract {number} on day {day}");
            }
        }
    }
}
