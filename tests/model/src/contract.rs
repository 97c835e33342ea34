//! Contracts: a kind and a place by delivery among those of the kind.

pub const CONTRACTS: u64 = 102;
pub const YEARS: u64 = 6;
const PER_YEAR: u64 = 17;

#[derive(Clone, Copy, Debug, PartialEq, Eq)]
pub enum Kind {
    Year,
    Quarter,
    Month,
}

impl Kind {
    pub const ALL: [Kind; 3] = [Kind::Year, Kind::Quarter, Kind::Month];

    /// Lots from which a day's deals, or an order, count for the reference price.
    pub fn threshold(self) -> u64 {
        match self {
            Kind::Year => 10,
            Kind::Quarter => 20,
            Kind::Month => 50,
        }
    }

    pub fn open_count(self) -> u64 {
        match self {
            Kind::Year => 4,
            Kind::Quarter => 8,
            Kind::Month => 15,
        }
    }

    /// Business days from the closing day to the first delivery day.
    pub fn closing_distance(self) -> u64 {
        match self {
            Kind::Year => 5,
            Kind::Quarter | Kind::Month => 3,
        }
    }

    pub fn months(self) -> u64 {
        match self {
            Kind::Year => 12,
            Kind::Quarter => 3,
            Kind::Month => 1,
        }
    }

    pub fn in_a_year(self) -> u64 {
        12 / self.months()
    }

    /// The first of the kind's numbers within a year.
    fn first_number(self) -> u64 {
        match self {
            Kind::Year => 0,
            Kind::Quarter => 1,
            Kind::Month => 5,
        }
    }
}

#[derive(Clone, Copy, Debug, PartialEq, Eq)]
pub struct Contract {
    pub kind: Kind,
    /// counted within the kind, earliest delivery first, from 0
    pub index: u64,
}

impl Contract {
    pub fn numbered(number: u64) -> Contract {
        let (year, k) = (number / PER_YEAR, number % PER_YEAR);
        let kind = match k {
            0 => Kind::Year,
            1..=4 => Kind::Quarter,
            _ => Kind::Month,
        };
        Contract { kind, index: year * kind.in_a_year() + k - kind.first_number() }
    }

    pub fn number(self) -> u64 {
        let (year, place) = (self.index / self.kind.in_a_year(), self.index % self.kind.in_a_year());
        PER_YEAR * year + self.kind.first_number() + place
    }

    pub fn all_of(kind: Kind) -> impl Iterator<Item = Contract> {
        (0..YEARS * kind.in_a_year()).map(move |index| Contract { kind, index })
    }

    /// The first month of delivery, counted from January of the first year.
    pub fn first_month(self) -> u64 {
        self.index * self.kind.months()
    }

    pub fn delivers_in(self, month: u64) -> bool {
        month / self.kind.months() == self.index
    }

    /// What the contract's rows are added to when it closes: a year's quarters, a quarter's months, nothing for a month.
    pub fn parts(self) -> Vec<Contract> {
        let (kind, count) = match self.kind {
            Kind::Year => (Kind::Quarter, 4),
            Kind::Quarter => (Kind::Month, 3),
            Kind::Month => return Vec::new(),
        };
        (0..count).map(|i| Contract { kind, index: self.index * count + i }).collect()
    }
}

#[cfg(test)]
mod tests {
    use super::*;

    #[test]
    fn numbers_and_kinds() {
        for number in 0..CONTRACTS {
            assert_eq!(Contract::numbered(number).number(), number);
        }
        let parts = |number| Contract::numbered(number).parts().iter().map(|part| part.number()).collect::<Vec<_>>();
        assert_eq!(parts(17), [18, 19, 20, 21]);
        assert_eq!(parts(18), [22, 23, 24]);
        assert_eq!(parts(21), [31, 32, 33]);
        assert!(parts(22).is_empty());
    }
}
