//! Sound but odd content for lent tables: books in any order of places, orders of closed contracts and of defaulted
//! members, rows that do not sum to zero, counts near their ends.
use super::headers::business_day;
use super::market::{Market, Step};
use super::plans::{plan, PlannedLeg};
use super::random::Random;
use crate::contract::{Contract, CONTRACTS};
use crate::record::{OrderKind, Record, Submit};
use crate::tables::*;

pub fn fill(random: &mut Random, tables: &mut Tables, market: &mut Market) {
    fill_head(random, tables);
    fill_prices(random, tables, market.price);
    fill_rows(random, tables);
    fill_book(random, tables, market);
    match random.below(100) {
        0..=24 => one_close_out(random, tables, market),
        25..=29 => one_ladder(random, tables, market),
        _ => {}
    }
}

fn fill_head(random: &mut Random, tables: &mut Tables) {
    let day = business_day(random, &tables.calendar());
    let (second, few, many) = (random.below(LAST_SECOND), random.between(256, 3000), random.below(MOST_ACCEPTED));
    let (last, run) = (MOST_ACCEPTED - random.below(4), random.below(MOST_RUN + 1));
    tables.head[DAY] = day;
    tables.head[TIME] = random.pick(&[0, second, second, LAST_SECOND - 1, LAST_SECOND]);
    tables.head[ACCEPTED] = random.pick(&[few, few, many.max(256), last]);
    tables.head[RUN] = match random.below(7) {
        0 => MOST_RUN - random.below(400),
        6 => MOST_RUN - 2 * random.below(40),
        1 => random.below(300),
        2 => MOST_RUN / 3,
        _ => run,
    };
    let marks = random.pick(&[0, 20, 50, 95]);
    for member in 0..tables.members() as usize {
        tables.head[MARKS + member] = random.percent(marks) as u64;
        tables.head[SUBMITS + member] = random.pick(&[0, 0, 1, 4, 5]);
    }
}

fn fill_prices(random: &mut Random, tables: &mut Tables, price: u64) {
    for contract in 0..CONTRACTS {
        let threshold = Contract::numbered(contract).kind.threshold();
        let any = random.between(1, MOST_PRICE);
        *tables.price_mut(contract, GGF) = random.pick(&[0, 1, price, price, MOST_PRICE, any]);
        let near = (price.saturating_sub(random.below(30)).max(1), (price + random.below(30)).min(MOST_PRICE));
        let (low, high) = random.pick(&[(1, MOST_PRICE), (1, MOST_PRICE), near, (any, MOST_PRICE), (1, any)]);
        *tables.price_mut(contract, LOW) = low;
        *tables.price_mut(contract, HIGH) = high;
        let most = tables.run();
        let lots = random.pick(&[0, 0, 1, 2, threshold - 1, threshold, threshold + 1, most]).min(most);
        let (least, half) = (lots, MOST_PRICE * lots / 2);
        let near = lots * price.min(MOST_PRICE - 1) + random.below(lots + 1);
        *tables.price_mut(contract, DAY_LOTS) = lots;
        *tables.price_mut(contract, DAY_VALUE) = random.pick(&[least, half.max(least), near, near, MOST_PRICE * lots]);
    }
}

/// Rows of small lots, so that many are equal, or of any size up to the lots run.
fn fill_rows(random: &mut Random, tables: &mut Tables) {
    let run = tables.run() as i64;
    let most = random.pick(&[3, 40, 1000, run / 8, run]).min(run);
    let zeros = random.pick(&[20, 60, 90]);
    for contract in 0..CONTRACTS as usize {
        for member in 0..tables.members() as usize {
            let row = ROW_WIDTH * contract + member;
            let drawn = random.below(2 * most as u64 + 1) as i64 - most;
            let bound = MOST_PRICE as i64 * run;
            let worth = random.below(2 * bound as u64 + 1) as i64 - bound;
            tables.lots[row] = if random.percent(zeros) { 0 } else { drawn };
            tables.value[row] = if random.percent(60) { tables.lots[row] * 27_500 } else { worth };
        }
    }
}

fn fill_book(random: &mut Random, tables: &mut Tables, market: &mut Market) {
    let most = MOST_ORDERS.min(tables.head[ACCEPTED]) as usize;
    let any = random.below(most as u64 + 1) as usize;
    let mut orders = planned_orders(random, tables, market);
    let count = random.pick(&[0, 3, 20, 100, any, most - 1, most, most]).max(orders.len());
    let open: Vec<u64> =
        tables.calendar().open_contracts(tables.day() as i64).into_iter().map(Contract::number).collect();
    let few: Vec<u64> =
        (0..random.between(1, 3)).map(|_| if open.is_empty() { 5 } else { random.pick(&open) }).collect();
    let most_lots = random.pick(&[1, 1, 60, MOST_LOTS]);
    while orders.len() < count {
        orders.push(order(random, tables, market, &few, most_lots));
    }
    number_orders(random, tables, &mut orders);
    if random.percent(60) {
        random.shuffle(&mut orders);
    }
    orders.iter().enumerate().for_each(|(place, order)| tables.put_order(place, order));
    tables.head[ORDER_COUNT] = orders.len() as u64;
}

fn order(random: &mut Random, tables: &Tables, market: &Market, few: &[u64], most_lots: u64) -> Order {
    let any = random.below(CONTRACTS);
    let contract = if random.percent(80) { random.pick(few) } else { any };
    let (day, time) = entry(random, tables);
    Order {
        number: 0,
        member: random.below(tables.members()),
        contract,
        side: random.pick(&[Side::Buy, Side::Sell]),
        price: market.near_price(random),
        lots: random.between(1, most_lots),
        day,
        time,
    }
}

/// A day and time of entry: any day of the span, the day before the ledger's, or about 300 s before its time.
fn entry(random: &mut Random, tables: &Tables) -> (u64, u64) {
    let (span, time) = (tables.calendar().span(), tables.time());
    let any = random.between(span.start as u64, span.end as u64 - 1);
    let earlier = tables.day().saturating_sub(1).max(span.start as u64);
    let day = random.pick(&[tables.day(), tables.day(), tables.day(), earlier, any]);
    let second = random.below(LAST_SECOND + 1);
    (day, random.pick(&[time, time.saturating_sub(299), time.saturating_sub(300), 0, second]))
}

/// The orders of an acceptable proposal, which is then the first record; prices go to where its legs may lie.
fn planned_orders(random: &mut Random, tables: &mut Tables, market: &mut Market) -> Vec<Order> {
    if random.percent(45) {
        return Vec::new();
    }
    let legs = plan(random, tables, market.price, &|_| true);
    let mut orders = Vec::new();
    for PlannedLeg { contract, side, member, order_price, order_lots, price, .. } in legs.iter().copied() {
        let (day, time) = entry(random, tables);
        orders.push(Order { number: 0, member, contract, side, price: order_price, lots: order_lots, day, time });
        let (low, high) = match random.below(60) {
            0 => (price, MOST_PRICE),
            1 => (price + 1, MOST_PRICE),
            2 => (1, price),
            3 => (1, price - 1),
            4 | 5 => (tables.price(contract, LOW), tables.price(contract, HIGH)),
            _ => (1, MOST_PRICE),
        };
        *tables.price_mut(contract, LOW) = low;
        *tables.price_mut(contract, HIGH) = high;
    }
    let end = MOST_RUN - legs.iter().map(|leg| leg.lots).sum::<u64>() + random.below(2);
    if random.percent(25) && tables.run() < end {
        tables.head[RUN] = end;
    }
    if !legs.is_empty() {
        market.plan_step(Step::Propose(legs));
    }
    orders
}

/// Different numbers below the count of accepted submits, rising with the place.
fn number_orders(random: &mut Random, tables: &Tables, orders: &mut [Order]) {
    let accepted = tables.head[ACCEPTED];
    let gap = (accepted / orders.len().max(1) as u64).min(random.pick(&[1, 2, u64::MAX]));
    let mut end = accepted - gap * orders.len() as u64;
    for order in orders {
        order.number = end + random.below(gap);
        end += gap;
    }
}

/// A hundred orders of one lot or a few more, at any places of the book, and a submit that meets them all or all but one.
fn one_ladder(random: &mut Random, tables: &mut Tables, market: &mut Market) {
    let open = tables.calendar().open_contracts(tables.day() as i64);
    let count = random.between(MOST_LOTS, MOST_LOTS + 2) as usize;
    if open.is_empty() || tables.order_count() < count {
        return;
    }
    let (contract, side) = (random.pick(&open).number(), random.pick(&[Side::Buy, Side::Sell]));
    for place in 0..count {
        let price = market.near_price(random);
        tables.put_order(place, &Order { contract, side, price, lots: 1, ..tables.order(place) });
    }
    *tables.price_mut(contract, LOW) = 1;
    *tables.price_mut(contract, HIGH) = MOST_PRICE;
    let member = random.below(tables.members());
    tables.head[MARKS + member as usize] = 0;
    tables.head[LIMITS + member as usize] = MOST_LIMIT;
    let (time, lots) = (tables.time(), MOST_LOTS - random.below(2));
    let price = if side == Side::Buy { 1 } else { MOST_PRICE };
    let kind = random.pick(&[OrderKind::Resting, OrderKind::Oeye, OrderKind::Teye]);
    let submit = Submit { time, member, contract, side: side.other(), kind, price, lots };
    market.plan_step(Step::Record(Record::Submit(submit)));
}

/// One defaulted holder, and others whose lots stand to its lots exactly in the ratio, or one off it.
fn one_close_out(random: &mut Random, tables: &mut Tables, market: &mut Market) {
    let open = tables.calendar().open_contracts(tables.day() as i64);
    if open.is_empty() || tables.members() < 2 {
        return;
    }
    let contract = random.pick(&open).number();
    let any = random.between(1, 1000);
    let ratio = random.pick(&[1, 10, 125, 500, 1000, any]);
    let run = tables.run();
    let most = (run * ratio / 1000).min((MOST_RUN - run) / 2).max(1);
    let lots = random.pick(&[1, 10, most / 2, most, most + 1]).clamp(1, most + 1).min(run) as i64;
    let others = (1000 * lots / ratio as i64 + random.pick(&[0, 0, 1, -1])).clamp(0, run as i64);
    let sign = random.pick(&[1, -1]);
    let members = tables.members() as usize;
    let holders = random.between(1, members as u64 - 1) as usize;
    for member in 0..members {
        let row = ROW_WIDTH * contract as usize + member;
        tables.head[MARKS + member] = (member == 0) as u64;
        tables.lots[row] = match member {
            0 => sign * lots,
            _ if member == holders => -sign * (others - others / holders as i64 * (holders as i64 - 1)),
            _ if member < holders => -sign * (others / holders as i64),
            _ => 0,
        };
    }
    *tables.price_mut(contract, GGF) = market.price;
    market.plan_step(Step::Record(Record::CloseOut { contract, ratio }));
}
