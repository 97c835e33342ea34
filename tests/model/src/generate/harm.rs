//! One place of sound tables changed: most changes damage them, some do not.
use super::random::Random;
use crate::contract::CONTRACTS;
use crate::tables::*;

pub fn harm(random: &mut Random, tables: &mut Tables) {
    match random.below(8) {
        0 => shorten(random, tables),
        1 => harm_head(random, tables),
        2 => harm_days(random, tables),
        3 => harm_member(random, tables),
        4 => harm_prices(random, tables),
        5 => harm_row(random, tables),
        6 => harm_order(random, tables),
        _ => harm_any(random, tables),
    }
}

/// One table below its least length.
pub fn shorten(random: &mut Random, tables: &mut Tables) {
    let by = random.pick(&[1, 1, 2, 100]);
    match random.below(6) {
        0 => tables.head.truncate(HEAD - by),
        1 => tables.prices.truncate(PRICES - by),
        2 => tables.lots.truncate(ROWS - by),
        3 => tables.value.truncate(ROWS - by),
        4 => tables.book.truncate(BOOK - by),
        _ => tables.lines.truncate(LINES - by),
    }
}

/// A number at the end of a range or past it.
fn about(random: &mut Random, most: u64) -> u64 {
    random.pick(&[most, most + 1, most.saturating_sub(1), 0, u64::MAX, 1 << 63, 1 << 32])
}

fn harm_head(random: &mut Random, tables: &mut Tables) {
    let (place, most) = random.pick(&[
        (FIRST_YEAR, 2094),
        (FIRST_YEAR, 2019),
        (MEMBERS, MOST_MEMBERS),
        (HOLIDAY_COUNT, MOST_HOLIDAYS),
        (TIME, LAST_SECOND),
        (ACCEPTED, MOST_ACCEPTED),
        (RUN, MOST_RUN),
        (ORDER_COUNT, MOST_ORDERS),
    ]);
    tables.head[place] = about(random, most);
}

fn harm_days(random: &mut Random, tables: &mut Tables) {
    let span = tables.calendar().span();
    let count = tables.head[HOLIDAY_COUNT] as usize;
    let ends = [span.start as u64, span.end as u64 - 1, span.end as u64, (span.start as u64).wrapping_sub(1), u64::MAX];
    let holiday = HOLIDAYS + random.below(count.max(1) as u64) as usize;
    match random.below(4) {
        0 => tables.head[DAY] = random.pick(&ends),
        1 => tables.head[DAY] = tables.head[DAY].wrapping_add(random.pick(&[1, 2, 3, u64::MAX])),
        2 => tables.head[DAY] = tables.head[holiday],
        _ => tables.head[holiday] = random.pick(&[ends[0], ends[1], ends[2], ends[3], tables.head[holiday + 1]]),
    }
}

fn harm_member(random: &mut Random, tables: &mut Tables) {
    let (first, most) = random.pick(&[(LIMITS, MOST_LIMIT), (MARKS, 1), (SUBMITS, MOST_SUBMITS)]);
    let member = random.below(MOST_MEMBERS) as usize;
    tables.head[first + member] = about(random, most);
}

fn harm_prices(random: &mut Random, tables: &mut Tables) {
    let contract = random.below(CONTRACTS);
    let day_lots = tables.price(contract, DAY_LOTS);
    let which = random.pick(&[GGF, LOW, HIGH, DAY_LOTS, DAY_VALUE, DAY_VALUE]);
    let most = match which {
        GGF => MOST_PRICE,
        LOW => tables.price(contract, HIGH),
        HIGH => random.pick(&[MOST_PRICE, tables.price(contract, LOW)]),
        DAY_LOTS => tables.run(),
        _ => random.pick(&[day_lots, MOST_PRICE * day_lots]),
    };
    *tables.price_mut(contract, which) = about(random, most);
}

fn harm_row(random: &mut Random, tables: &mut Tables) {
    let run = tables.run() as i64;
    let row = ROW_WIDTH as u64 * random.below(CONTRACTS) + random.below(tables.members());
    let most = MOST_PRICE as i64 * run;
    match random.below(3) {
        0 => tables.lots[row as usize] = random.pick(&[run, -run, run + 1, -run - 1, i64::MIN, i64::MAX]),
        1 => tables.value[row as usize] = random.pick(&[most, -most, most + 1, -most - 1, i64::MIN, i64::MAX]),
        _ => tables.head[RUN] = tables.lots[row as usize].unsigned_abs().saturating_sub(random.below(2)),
    }
}

fn harm_order(random: &mut Random, tables: &mut Tables) {
    if tables.order_count() == 0 {
        return;
    }
    let span = tables.calendar().span();
    let place = ORDER_WIDTH * random.below(tables.order_count() as u64) as usize;
    let other = ORDER_WIDTH * random.below(tables.order_count() as u64) as usize;
    let field = random.below(ORDER_WIDTH as u64) as usize;
    let most =
        [tables.head[ACCEPTED], tables.members(), CONTRACTS, 1, MOST_PRICE, MOST_LOTS, span.end as u64, LAST_SECOND];
    tables.book[place + field] = match field {
        0 if random.percent(60) => tables.book[other],
        6 if random.percent(40) => (span.start as u64).wrapping_sub(random.below(2)),
        _ => about(random, most[field]),
    };
}

/// Any place of any table, surplus places among them.
fn harm_any(random: &mut Random, tables: &mut Tables) {
    let number = random.pick(&[0, 1, u64::MAX, 1 << 40]);
    let mut place = |length: usize| random.below(length as u64) as usize;
    let head = place(tables.head.len());
    let prices = place(tables.prices.len());
    let (lots, value) = (place(tables.lots.len()), place(tables.value.len()));
    let book = place(tables.book.len());
    match random.below(5) {
        0 => tables.head[head] = number,
        1 => tables.prices[prices] = number,
        2 => tables.lots[lots] = number as i64,
        3 => tables.value[value] = number as i64,
        _ => tables.book[book] = number,
    }
}
