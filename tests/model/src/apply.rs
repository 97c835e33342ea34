//! One record applied.
use crate::answer::{refuse_if, Answer, Refusal};
use crate::close_of_day::close_of_day;
use crate::close_out::close_out;
use crate::contract::Contract;
use crate::damage::is_damaged;
use crate::proposal::proposal;
use crate::record::Record;
use crate::submit::submit;
use crate::tables::*;

pub fn apply(tables: &mut Tables, bytes: &[u8]) -> Answer {
    refuse_if(is_damaged(tables), Refusal::Damaged)?;
    match Record::read(tables.members(), bytes)? {
        Record::Submit(order) => submit(tables, &order),
        Record::Cancel { time, member, number } => cancel(tables, time, member, number),
        Record::DayLimits { contract, low, high } => day_limits(tables, contract, low, high),
        Record::Proposal { legs } => proposal(tables, &legs),
        Record::Default { member } => default(tables, member),
        Record::CloseOut { contract, ratio } => close_out(tables, contract, ratio),
        Record::CloseOfDay { time } => close_of_day(tables, time),
    }
}

pub fn time_not_below(tables: &Tables, time: u64) -> Result<(), Refusal> {
    refuse_if(time < tables.time(), Refusal::TimeBelow)
}

pub fn not_defaulted(tables: &Tables, member: u64) -> Result<(), Refusal> {
    refuse_if(tables.is_defaulted(member), Refusal::Defaulted(member))
}

pub fn is_open(tables: &Tables, contract: u64) -> Result<(), Refusal> {
    let open = tables.calendar().is_open(Contract::numbered(contract), tables.day() as i64);
    refuse_if(!open, Refusal::NotOpen(contract))
}

fn cancel(tables: &mut Tables, time: u64, member: u64, number: u64) -> Answer {
    time_not_below(tables, time)?;
    let named = |order: &Order| order.number == number && order.member == member;
    let rests = tables.orders().any(|order| named(&order));
    refuse_if(!rests, Refusal::NoSuchOrder)?;
    tables.remove_orders(named);
    tables.set_time(time);
    Ok(0)
}

fn day_limits(tables: &mut Tables, contract: u64, low: u64, high: u64) -> Answer {
    is_open(tables, contract)?;
    *tables.price_mut(contract, LOW) = low;
    *tables.price_mut(contract, HIGH) = high;
    Ok(0)
}

fn default(tables: &mut Tables, member: u64) -> Answer {
    not_defaulted(tables, member)?;
    tables.head[MARKS + member as usize] = 1;
    tables.remove_orders(|order| order.member == member);
    Ok(0)
}
