//! The test before every record: the length of each table, then the range of each number in it.
use crate::calendar::Calendar;
use crate::contract::CONTRACTS;
use crate::tables::*;

/// The tables of the ledger itself; a ledger is made without lines.
pub fn is_short(tables: &Tables) -> bool {
    tables.head.len() < HEAD
        || tables.prices.len() < PRICES
        || tables.lots.len() < ROWS
        || tables.value.len() < ROWS
        || tables.book.len() < BOOK
}

pub fn is_damaged(tables: &Tables) -> bool {
    is_short(tables)
        || tables.lines.len() < LINES
        || !head_is_sound(&tables.head)
        || !prices_are_sound(tables)
        || !rows_are_sound(tables)
        || !book_is_sound(tables)
}

fn head_is_sound(head: &[u64]) -> bool {
    let counts = head[MEMBERS] >= 1
        && head[MEMBERS] <= MOST_MEMBERS
        && head[HOLIDAY_COUNT] <= MOST_HOLIDAYS
        && head[TIME] <= LAST_SECOND
        && head[ACCEPTED] <= MOST_ACCEPTED
        && head[RUN] <= MOST_RUN
        && head[ORDER_COUNT] <= MOST_ORDERS;
    counts && days_are_sound(head) && members_are_sound(head)
}

fn days_are_sound(head: &[u64]) -> bool {
    let holidays = &head[HOLIDAYS..HOLIDAYS + head[HOLIDAY_COUNT] as usize];
    let calendar = Calendar { first_year: head[FIRST_YEAR], holidays };
    calendar.is_sound() && is_business_day_of_span(&calendar, head[DAY])
}

pub fn is_business_day_of_span(calendar: &Calendar, day: u64) -> bool {
    let span = calendar.span();
    day < span.end as u64 && day >= span.start as u64 && calendar.is_business_day(day as i64)
}

fn members_are_sound(head: &[u64]) -> bool {
    let members = head[MEMBERS] as usize;
    let at_most = |first: usize, most: u64| head[first..first + members].iter().all(|&number| number <= most);
    at_most(LIMITS, MOST_LIMIT) && at_most(MARKS, 1) && at_most(SUBMITS, MOST_SUBMITS)
}

fn prices_are_sound(tables: &Tables) -> bool {
    let run = tables.run();
    tables.prices[..PRICES].chunks_exact(PRICE_WIDTH).all(|prices| {
        let (low, high, day_lots, day_value) = (prices[LOW], prices[HIGH], prices[DAY_LOTS], prices[DAY_VALUE]);
        prices[GGF] <= MOST_PRICE
            && low >= 1
            && low <= high
            && high <= MOST_PRICE
            && day_lots <= run
            && day_value >= day_lots
            && day_value <= MOST_PRICE * day_lots
    })
}

fn rows_are_sound(tables: &Tables) -> bool {
    let (members, run) = (tables.members() as usize, tables.run());
    (0..CONTRACTS as usize).all(|contract| {
        let rows = ROW_WIDTH * contract..ROW_WIDTH * contract + members;
        tables.lots[rows.clone()].iter().all(|lots| lots.unsigned_abs() <= run)
            && tables.value[rows].iter().all(|value| value.unsigned_abs() <= MOST_PRICE * run)
    })
}

fn book_is_sound(tables: &Tables) -> bool {
    let (members, accepted, span) = (tables.members(), tables.head[ACCEPTED], tables.calendar().span());
    let orders = &tables.book[..ORDER_WIDTH * tables.order_count()];
    let each = orders.chunks_exact(ORDER_WIDTH).all(|order| {
        order[0] < accepted
            && order[1] < members
            && order[2] < CONTRACTS
            && order[3] <= 1
            && (1..=MOST_PRICE).contains(&order[4])
            && (1..=MOST_LOTS).contains(&order[5])
            && (span.start as u64..span.end as u64).contains(&order[6])
            && order[7] <= LAST_SECOND
    });
    each && numbers_differ(orders)
}

/// A ledger that began fresh has its orders in rising number; only a lent book may have others.
fn numbers_differ(orders: &[u64]) -> bool {
    let numbers = || orders.iter().step_by(ORDER_WIDTH).copied();
    numbers().is_sorted_by(|a, b| a < b) || {
        let mut sorted: Vec<u64> = numbers().collect();
        sorted.sort_unstable();
        sorted.windows(2).all(|pair| pair[0] != pair[1])
    }
}
