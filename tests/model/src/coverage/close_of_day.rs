//! Edges of a close of day.
use super::{Coverage, Seen};
use crate::close_of_day::{is_quote, quotes};
use crate::contract::{Contract, Kind};
use crate::damage::is_damaged;
use crate::tables::*;

/// The same edge of a year, a quarter or a month.
fn of_kind(kind: Kind, edges: [&'static str; 3]) -> &'static str {
    match kind {
        Kind::Year => edges[0],
        Kind::Quarter => edges[1],
        Kind::Month => edges[2],
    }
}

impl Coverage {
    pub(super) fn close_of_day(&mut self, time: u64, seen: &Seen) {
        let &Seen { before, after, number, .. } = seen;
        self.met("close: the last business day of the span (18)", number == 18);
        if number != 0 {
            return;
        }
        let (calendar, day) = (before.calendar(), before.day() as i64);
        for contract in calendar.open_contracts(day) {
            self.reference_price(contract, time, seen);
        }
        self.closing(&calendar.closing_contracts(day), seen);
        let january = before.head[FIRST_YEAR] == 2020 && day < 31;
        self.met("close: first year 2020, whose first contracts closed before day 0", january);
        let is_last = calendar.next_business_day(after.day() as i64).is_none();
        self.met("close: to the last business day of the span", is_last);
        self.met("close: leaves a lent table damaged", is_damaged(after));
    }

    fn reference_price(&mut self, contract: Contract, time: u64, seen: &Seen) {
        let before = seen.before;
        let (number, kind, threshold) = (contract.number(), contract.kind, contract.kind.threshold());
        let (lots, value) = (before.price(number, DAY_LOTS), before.price(number, DAY_VALUE));
        let price = seen.after.price(number, GGF);
        let is_half = |dividend: u64, divisor: u64| 2 * (dividend % divisor) == divisor;
        let at = [
            "close: M at the threshold, year",
            "close: M at the threshold, quarter",
            "close: M at the threshold, month",
        ];
        self.met(of_kind(kind, at), lots == threshold);
        if lots >= threshold {
            self.met("close: exactly a half, deals", is_half(value, lots));
            self.found(price);
            return;
        }
        let below = [
            "close: M one below the threshold with quotes, year",
            "close: M one below the threshold with quotes, quarter",
            "close: M one below the threshold with quotes, month",
        ];
        let orders: Vec<Order> = before.orders().filter(|order| order.contract == number).collect();
        let aged =
            |age: u64| orders.iter().any(|o| o.lots >= threshold && o.day == before.day() && o.time + age == time);
        self.met("close: a quote of 299 s", aged(299));
        let Some((buy, sell)) = quotes(before, contract, time) else {
            self.met("close: former reference price", price != 0);
            return;
        };
        self.found(price);
        self.met(of_kind(kind, below), lots + 1 == threshold);
        self.met("close: M = 0 with quotes", lots == 0);
        let half = "close: exactly a half, deals and quotes";
        self.met(half, lots > 0 && is_half(6 * value + lots * (buy + sell), 8 * lots.max(1)));
        self.met("close: exactly a half, quotes", lots == 0 && is_half(buy + sell, 2));
        self.met("close: a quote of exactly 300 s", aged(300));
        let later_in_clock = |o: &Order| o.lots >= threshold && o.day < before.day() && o.time > time;
        self.met("close: a quote from an earlier day, later in the clock", orders.iter().any(later_in_clock));
        let is_best = |o: &Order| o.price == if o.side == Side::Buy { buy } else { sell };
        let just_quotes = |o: &Order| o.lots == threshold && is_quote(before, o, time) && is_best(o);
        self.met("close: a quote of the threshold's lots", orders.iter().any(just_quotes));
        let is_better = |o: &Order| o.side.better(o.price, if o.side == Side::Buy { buy } else { sell });
        let too_small = |o: &Order| o.lots + 1 == threshold && is_quote(before, o, time) && is_better(o);
        self.met("close: one lot below the threshold is no quote", orders.iter().any(too_small));
    }

    /// A reference price that the day gave.
    fn found(&mut self, price: u64) {
        self.met("close: a GGF of 1", price == 1);
        self.met("close: a GGF of 1,000,000", price == MOST_PRICE);
    }

    fn closing(&mut self, closing: &[Contract], seen: &Seen) {
        let &Seen { before, after, .. } = seen;
        let held = |c: &&Contract| (0..before.members()).any(|member| before.lots(c.number(), member) != 0);
        let indexes = |kind| closing.iter().filter(move |c| c.kind == kind).filter(held).map(|c| c.index);
        let quarters: Vec<u64> = indexes(Kind::Quarter).collect();
        let months = indexes(Kind::Month).count();
        self.met("close: a year", indexes(Kind::Year).count() > 0);
        let former = |year: u64| quarters.iter().any(|quarter| quarter / 4 + 1 == year);
        let year_and_quarter = indexes(Kind::Year).any(former) && months > 0;
        self.met("close: a year, a quarter of the year before it and a month on one evening", year_and_quarter);
        self.met("close: two quarters with six months on one evening", quarters.len() >= 2 && months >= 6);
        let cascading = closing.iter().filter(|c| c.kind != Kind::Month);
        let rows = cascading.flat_map(|c| (0..before.members()).map(move |member| (c.number(), member)));
        let dropped = rows.into_iter().any(|(c, m)| before.lots(c, m) == 0 && before.value(c, m) != 0);
        self.met("close: lots that net to zero and value that does not", dropped);
        let has_order = |contract: &&Contract| before.orders().any(|order| order.contract == contract.number());
        let several = closing.iter().filter(has_order).count() > 1 && after.order_count() < before.order_count();
        self.met("close: orders of several contracts go", several);
    }
}
