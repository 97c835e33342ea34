//! The seven kinds of record: reader and writer.
use crate::answer::Refusal;
use crate::contract::CONTRACTS;
use crate::header::{put, Bytes};
use crate::tables::{Side, LAST_SECOND, MOST_LOTS, MOST_MEMBERS, MOST_PRICE};

#[derive(Clone, Copy, Debug, PartialEq, Eq)]
pub enum OrderKind {
    Resting,
    /// match what is there and drop the rest
    Oeye,
    /// match all or nothing
    Teye,
}

impl OrderKind {
    fn numbered(number: u64) -> Option<OrderKind> {
        match number {
            0 => Some(OrderKind::Resting),
            1 => Some(OrderKind::Oeye),
            2 => Some(OrderKind::Teye),
            _ => None,
        }
    }
}

#[derive(Clone, Copy, Debug, PartialEq, Eq)]
pub struct Submit {
    pub time: u64,
    pub member: u64,
    pub contract: u64,
    pub side: Side,
    pub kind: OrderKind,
    pub price: u64,
    pub lots: u64,
}

#[derive(Clone, Copy, Debug, PartialEq, Eq)]
pub struct Leg {
    pub number: u64,
    pub lots: u64,
    pub price: u64,
}

#[derive(Clone, Debug, PartialEq, Eq)]
pub enum Record {
    Submit(Submit),
    Cancel { time: u64, member: u64, number: u64 },
    DayLimits { contract: u64, low: u64, high: u64 },
    Proposal { legs: Vec<Leg> },
    Default { member: u64 },
    CloseOut { contract: u64, ratio: u64 },
    CloseOfDay { time: u64 },
}

/// A record's length, by its first byte and for a proposal its second; none where they do not say.
pub fn length(bytes: &[u8]) -> Option<usize> {
    match bytes.first()? {
        1 => Some(15),
        2 | 3 => Some(10),
        4 => Some(2 + 10 * *bytes.get(1)? as usize),
        5 => Some(2),
        6 => Some(4),
        7 => Some(5),
        _ => None,
    }
}

impl Record {
    /// The record that is exactly these bytes, every field in its range.
    pub fn read(members: u64, bytes: &[u8]) -> Result<Record, Refusal> {
        let mut bytes = Bytes(bytes);
        let record = Record::fields(&mut bytes).ok_or(Refusal::Record)?;
        if bytes.0.is_empty() && record.is_sound(members) {
            Ok(record)
        } else {
            Err(Refusal::Record)
        }
    }

    fn fields(bytes: &mut Bytes) -> Option<Record> {
        Some(match bytes.take(1)? {
            1 => Record::Submit(Submit {
                time: bytes.take(4)?,
                member: bytes.take(1)?,
                contract: bytes.take(1)?,
                side: Side::numbered(bytes.take(1)?)?,
                kind: OrderKind::numbered(bytes.take(1)?)?,
                price: bytes.take(4)?,
                lots: bytes.take(2)?,
            }),
            2 => Record::Cancel { time: bytes.take(4)?, member: bytes.take(1)?, number: bytes.take(4)? },
            3 => Record::DayLimits { contract: bytes.take(1)?, low: bytes.take(4)?, high: bytes.take(4)? },
            4 => Record::Proposal { legs: Record::legs(bytes)? },
            5 => Record::Default { member: bytes.take(1)? },
            6 => Record::CloseOut { contract: bytes.take(1)?, ratio: bytes.take(2)? },
            7 => Record::CloseOfDay { time: bytes.take(4)? },
            _ => return None,
        })
    }

    fn legs(bytes: &mut Bytes) -> Option<Vec<Leg>> {
        let count = bytes.take(1)?;
        let leg = |_| Some(Leg { number: bytes.take(4)?, lots: bytes.take(2)?, price: bytes.take(4)? });
        (0..count).map(leg).collect()
    }

    /// Whether every field is in its range, in a ledger of so many members.
    pub fn is_sound(&self, members: u64) -> bool {
        let time_sound = |time: u64| time <= LAST_SECOND;
        let price_sound = |price: u64| (1..=MOST_PRICE).contains(&price);
        let lots_sound = |lots: u64| (1..=MOST_LOTS).contains(&lots);
        let contract_sound = |contract: u64| contract < CONTRACTS;
        let fields = match *self {
            Record::Submit(submit) => {
                time_sound(submit.time)
                    && submit.member < members
                    && contract_sound(submit.contract)
                    && price_sound(submit.price)
                    && lots_sound(submit.lots)
            }
            Record::Cancel { time, member, number } => {
                time_sound(time) && member < members && number <= u32::MAX as u64
            }
            Record::DayLimits { contract, low, high } => {
                contract_sound(contract) && price_sound(low) && price_sound(high) && low <= high
            }
            Record::Proposal { ref legs } => {
                let leg_sound =
                    |leg: &Leg| leg.number <= u32::MAX as u64 && lots_sound(leg.lots) && price_sound(leg.price);
                (2..=12).contains(&legs.len()) && legs.iter().all(leg_sound)
            }
            Record::Default { member } => member < members,
            Record::CloseOut { contract, ratio } => contract_sound(contract) && (1..=1000).contains(&ratio),
            Record::CloseOfDay { time } => time_sound(time),
        };
        (1..=MOST_MEMBERS).contains(&members) && fields
    }

    /// The record's bytes, whether or not its fields are in range; a field too wide for its place is cut.
    pub fn bytes(&self) -> Vec<u8> {
        let mut bytes = Vec::with_capacity(16);
        let mut row =
            |fields: &[(usize, u64)]| fields.iter().for_each(|&(width, number)| put(&mut bytes, width, number));
        match self {
            Record::Submit(s) => {
                row(&[(1, 1), (4, s.time), (1, s.member), (1, s.contract), (1, s.side.number()), (1, s.kind as u64)]);
                row(&[(4, s.price), (2, s.lots)]);
            }
            Record::Cancel { time, member, number } => row(&[(1, 2), (4, *time), (1, *member), (4, *number)]),
            Record::DayLimits { contract, low, high } => row(&[(1, 3), (1, *contract), (4, *low), (4, *high)]),
            Record::Proposal { legs } => {
                row(&[(1, 4), (1, legs.len() as u64)]);
                legs.iter().for_each(|leg| row(&[(4, leg.number), (2, leg.lots), (4, leg.price)]));
            }
            Record::Default { member } => row(&[(1, 5), (1, *member)]),
            Record::CloseOut { contract, ratio } => row(&[(1, 6), (1, *contract), (2, *ratio)]),
            Record::CloseOfDay { time } => row(&[(1, 7), (4, *time)]),
        }
        bytes
    }

    /// Writes the record at the front of `output` and answers its length; nothing is written where it is turned back.
    pub fn write(&self, members: u64, output: &mut [u8]) -> Result<usize, Refusal> {
        if !self.is_sound(members) {
            return Err(Refusal::Record);
        }
        let bytes = self.bytes();
        let place = output.get_mut(..bytes.len()).ok_or(Refusal::Damaged)?;
        place.copy_from_slice(&bytes);
        Ok(bytes.len())
    }
}
