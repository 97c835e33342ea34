//! Close of day: reference prices, closing contracts, the new day.
use crate::answer::{Answer, Refusal};
use crate::apply::time_not_below;
use crate::contract::{Contract, CONTRACTS};
use crate::tables::*;

/// Seconds that an order must have rested to count as a quote.
const QUOTE_AGE: u64 = 300;

pub fn close_of_day(tables: &mut Tables, time: u64) -> Answer {
    time_not_below(tables, time)?;
    let day = tables.day() as i64;
    let next = tables.calendar().next_business_day(day).ok_or(Refusal::NoLaterDay)?;
    let open = tables.calendar().open_contracts(day);
    let closing = tables.calendar().closing_contracts(day);

    for contract in open {
        *tables.price_mut(contract.number(), GGF) = reference_price(tables, contract, time);
    }
    if !closing.is_empty() {
        tables.remove_orders(|order| closing.contains(&Contract::numbered(order.contract)));
    }
    for contract in closing {
        let parts: Vec<u64> = contract.parts().iter().map(|part| part.number()).collect();
        if !parts.is_empty() {
            tables.cascade(contract.number(), &parts);
        }
    }
    for contract in 0..CONTRACTS {
        *tables.price_mut(contract, DAY_LOTS) = 0;
        *tables.price_mut(contract, DAY_VALUE) = 0;
    }
    tables.clear_submits();
    tables.head[TIME] = 0;
    tables.head[DAY] = next as u64;
    Ok(0)
}

fn reference_price(tables: &Tables, contract: Contract, time: u64) -> u64 {
    let number = contract.number();
    let (day_lots, day_value) = (tables.price(number, DAY_LOTS), tables.price(number, DAY_VALUE));
    if day_lots >= contract.kind.threshold() {
        return half_up(day_value, day_lots);
    }
    match quotes(tables, contract, time) {
        Some((buy, sell)) if day_lots > 0 => half_up(6 * day_value + day_lots * (buy + sell), 8 * day_lots),
        Some((buy, sell)) => half_up(buy + sell, 2),
        None => tables.price(number, GGF),
    }
}

fn half_up(dividend: u64, divisor: u64) -> u64 {
    (2 * dividend + divisor) / (2 * divisor)
}

/// Whether an order has rested long enough at a time of the ledger's day.
pub fn is_quote(tables: &Tables, order: &Order, time: u64) -> bool {
    order.day < tables.day() || order.day == tables.day() && order.time + QUOTE_AGE <= time
}

/// The best buy and the best sell among the orders that are old enough and still have the threshold's lots.
pub fn quotes(tables: &Tables, contract: Contract, time: u64) -> Option<(u64, u64)> {
    let (number, threshold) = (contract.number(), contract.kind.threshold());
    let counts = |order: &Order| order.contract == number && order.lots >= threshold && is_quote(tables, order, time);
    let (mut buy, mut sell) = (None, None);
    for order in tables.orders().filter(counts) {
        let best = match order.side {
            Side::Buy => &mut buy,
            Side::Sell => &mut sell,
        };
        if best.is_none_or(|price| order.side.better(order.price, price)) {
            *best = Some(order.price);
        }
    }
    buy.zip(sell)
}

#[cfg(test)]
mod tests {
    use super::half_up;

    #[test]
    fn prices_of_the_paper() {
        let value = 10 * 27500 + 15 * 27700 + 5 * 27600 + 20 * 27900;
        assert_eq!(half_up(value, 50), 27730);
        assert_eq!(half_up(6 * 20 * 27900 + 20 * (27500 + 27600), 8 * 20), 27813);
        assert_eq!(half_up(3, 2), 2);
    }
}
