//! The load of Change 14, and ledgers for measuring one record of each kind.
use crate::answer::Refusal;
use crate::contract::{Contract, Kind, CONTRACTS};
use crate::generate::random::Random;
use crate::header::Header;
use crate::make::make;
use crate::record::{Leg, OrderKind, Record, Submit};
use crate::tables::*;

/// Each draw first turns the number into the next.
struct Draws(u64);

impl Draws {
    fn field(&mut self, least: u64, most: u64) -> u64 {
        self.0 ^= self.0 << 13;
        self.0 ^= self.0 >> 7;
        self.0 ^= self.0 << 17;
        self.0 % (most - least + 1) + least
    }
}

/// So many submits, one a second from 0, all resting; after the last second of a day a close of day.
pub fn submits(members: u64, count: u64, start: u64) -> Vec<Vec<u8>> {
    let mut draws = Draws(start);
    let mut records = Vec::new();
    for nth in 0..count {
        let time = nth % (LAST_SECOND + 1);
        let member = draws.field(0, members - 1);
        let contract = draws.field(0, CONTRACTS - 1);
        let side = Side::numbered(draws.field(0, 1)).expect("0 or 1");
        let price = draws.field(1, MOST_PRICE);
        let lots = draws.field(1, MOST_LOTS);
        let kind = OrderKind::Resting;
        records.push(Record::Submit(Submit { time, member, contract, side, kind, price, lots }).bytes());
        if time == LAST_SECOND {
            records.push(Record::CloseOfDay { time }.bytes());
        }
    }
    records
}

/// First year 2021, from its first business day, every limit the largest.
pub fn fresh(members: u64) -> Tables {
    let mut tables = Tables::empty();
    let limits = vec![MOST_LIMIT; members as usize];
    let header = Header { first_year: 2021, start_day: 369, holidays: Vec::new(), limits };
    make(&mut tables, &header.bytes()).expect("a sound header");
    tables
}

/// One record to measure, the tables it is applied to, and why it is turned back, if it is.
pub struct Call {
    pub name: String,
    pub tables: Tables,
    pub bytes: Vec<u8>,
    pub refusal: Option<Refusal>,
}

fn call(name: impl Into<String>, tables: Tables, record: Record) -> Call {
    Call { name: name.into(), tables, bytes: record.bytes(), refusal: None }
}

const PRICE: u64 = 27_500;
const QUARTER: u64 = 2;

/// A ledger with orders in all of the book's places, `met` of them sells of one lot in the second quarter at `PRICE`.
fn full_book(members: u64, met: u64) -> Tables {
    let mut tables = fresh(members);
    let mut random = Random::new(1);
    let open = tables.calendar().open_contracts(tables.day() as i64);
    tables.head[ACCEPTED] = MOST_ORDERS;
    tables.head[RUN] = 1000;
    for number in 0..MOST_ORDERS {
        let is_met = number % 2 == 0 && number < 2 * met;
        let side = if is_met { Side::Sell } else { random.pick(&[Side::Buy, Side::Sell]) };
        let contract = if is_met { QUARTER } else { random.pick(&open).number() };
        let away = 1000 + random.below(1000);
        let price = if is_met { PRICE } else { (PRICE as i64 - side.signed(away)) as u64 };
        let lots = if is_met { 1 } else { random.between(1, MOST_LOTS) };
        let (member, day) = (random.below(members), tables.day());
        tables.add_order(&Order { number, member, contract, side, price, lots, day, time: 0 });
    }
    tables
}

fn rows(tables: &mut Tables, lots: impl Fn(u64, u64) -> i64) {
    for (contract, member) in (0..CONTRACTS).flat_map(|contract| (0..32).map(move |member| (contract, member))) {
        if member < tables.members() {
            let row = ROW_WIDTH * contract as usize + member as usize;
            tables.lots[row] = lots(contract, member);
            tables.value[row] = lots(contract, member) * PRICE as i64;
        }
    }
}

fn buy(kind: OrderKind, lots: u64) -> Record {
    Record::Submit(Submit { time: 0, member: 0, contract: QUARTER, side: Side::Buy, kind, price: PRICE, lots })
}

fn submit_calls(members: u64) -> Vec<Call> {
    let meeting = |met: u64| {
        let submit = buy(OrderKind::Oeye, met.max(1));
        call(format!("submit, {met} deals"), full_book(members, met), submit)
    };
    [0, 1, 10, 100].into_iter().map(meeting).collect()
}

/// Where the time of a submit goes: the first is damage test and reading alone, the second has all causes up to 11 too.
fn refused_calls(members: u64) -> Vec<Call> {
    let unsound = call("submit, unsound", full_book(members, 0), buy(OrderKind::Resting, MOST_LOTS + 1));
    let book_full = call("submit, book full", full_book(members, 0), buy(OrderKind::Resting, 1));
    vec![Call { refusal: Some(Refusal::Record), ..unsound }, Call { refusal: Some(Refusal::BookFull), ..book_full }]
}

fn close_calls(members: u64) -> Vec<Call> {
    let ordinary = full_book(members, 0);
    let mut year_end = full_book(members, 0);
    let calendar = year_end.calendar();
    let day = calendar.closing_day(Contract { kind: Kind::Year, index: 1 }) as u64;
    year_end.head[DAY] = day;
    rows(&mut year_end, |contract, member| (contract + member) as i64);
    let close = Record::CloseOfDay { time: 1000 };
    vec![call("close of day", ordinary, close.clone()), call("close of day that closes a year", year_end, close)]
}

/// Of 8 members one is defaulted, and the lots run is twice what one of them holds. Deals in a fresh ledger would leave
/// 2L and the close-out adds 2L, so L is at most 1,250,000 there; the 2,000,000 are in lent rows that no deals made.
fn close_out_calls(members: u64) -> Vec<Call> {
    let defaulted = (members as i64 / 8).max(1);
    let most = if members == 32 { 2_000_000 } else { 1_250_000 };
    let with = |lots: i64| {
        let mut tables = full_book(members, 0);
        let held = |member: i64| lots / defaulted + i64::from(member < lots % defaulted);
        tables.head[RUN] = (2 * held(0)).max(1000) as u64;
        rows(&mut tables, |contract, member| match contract {
            QUARTER if (member as i64) < defaulted => held(member as i64),
            QUARTER => -lots / (members as i64 - defaulted),
            _ => (contract + member) as i64,
        });
        tables.head[MARKS..MARKS + defaulted as usize].fill(1);
        *tables.price_mut(QUARTER, GGF) = PRICE;
        call(format!("close-out, L = {lots}"), tables, Record::CloseOut { contract: QUARTER, ratio: 500 })
    };
    [10, 10_000, most].into_iter().map(with).collect()
}

/// Three quarters, each against its months, in a full book.
fn proposal_call(members: u64) -> Call {
    let mut tables = full_book(members, 0);
    let quarters = (1..4).map(|index| Contract { kind: Kind::Quarter, index });
    let mut wanted: Vec<(Contract, Side)> = Vec::new();
    for quarter in quarters {
        wanted.push((quarter, Side::Buy));
        wanted.extend(quarter.parts().into_iter().map(|month| (month, Side::Sell)));
    }
    let mut legs = Vec::new();
    for (place, &(contract, side)) in (0..).step_by(20).zip(&wanted) {
        let former = tables.order(place);
        let order = Order { contract: contract.number(), side, price: PRICE, lots: 5, ..former };
        tables.put_order(place, &order);
        legs.push(Leg { number: order.number, lots: 5, price: PRICE });
    }
    call("proposal, 12 legs", tables, Record::Proposal { legs })
}

/// Records of each kind with a full book.
pub fn calls(members: u64) -> Vec<Call> {
    let mut calls = submit_calls(members);
    calls.extend(refused_calls(members));
    let cancelled = full_book(members, 0);
    let Order { member, number, .. } = cancelled.order(100);
    calls.push(call("cancel", cancelled, Record::Cancel { time: 0, member, number }));
    calls.push(call("default", full_book(members, 0), Record::Default { member: 0 }));
    let limits = Record::DayLimits { contract: QUARTER, low: 1, high: MOST_PRICE };
    calls.push(call("day limits", full_book(members, 0), limits));
    calls.extend(close_calls(members));
    calls.extend(close_out_calls(members));
    calls.push(proposal_call(members));
    calls
}

#[cfg(test)]
mod tests {
    use super::*;
    use crate::apply::apply;

    /// The number that a name has between these words.
    fn named(name: &str, before: &str, after: &str) -> Option<u64> {
        name.strip_prefix(before)?.strip_suffix(after)?.parse().ok()
    }

    #[test]
    fn each_measured_call_is_accepted_or_refused_as_it_says() {
        for members in [2, 8, 32] {
            for Call { name, mut tables, bytes, refusal } in calls(members) {
                let answer = apply(&mut tables, &bytes);
                assert_eq!(answer.err(), refusal, "{name} at {members} members");
                let lines = answer.unwrap_or(0);
                let lots = (0..lines).map(|place| tables.line(place as usize).lots.unsigned_abs()).sum::<u64>();
                let (deals, left) = (named(&name, "submit, ", " deals"), named(&name, "close-out, L = ", ""));
                assert!(deals.is_none_or(|deals| lines == 2 * deals), "{name} at {members} members: {lines} lines");
                assert!(left.is_none_or(|left| lots == 2 * left), "{name} at {members} members: {lots} lots");
            }
        }
    }
}
