//! Synthetic proposals.
use crate::answer::{refuse_if, Answer, Refusal};
use crate::contract::{Contract, YEARS};
use crate::record::Leg;
use crate::tables::*;

pub fn proposal(tables: &mut Tables, legs: &[Leg]) -> Answer {
    let orders = named_orders(tables, legs).ok_or(Refusal::Proposal)?;
    refuse_if(!is_acceptable(tables, legs, &orders), Refusal::Proposal)?;
    let lots = legs.iter().map(|leg| leg.lots).sum();
    refuse_if(passes_run(tables, lots), Refusal::CountsPassed)?;

    let line = |(leg, order): (&Leg, &Order)| Line {
        member: order.member,
        contract: order.contract,
        lots: order.side.signed(leg.lots),
        price: leg.price,
    };
    let lines: Vec<Line> = legs.iter().zip(&orders).map(line).collect();
    tables.keep_orders(|_, order| {
        let taken = legs.iter().find(|leg| leg.number == order.number).map_or(0, |leg| leg.lots);
        order.lots - taken
    });
    Ok(tables.book_lines(&lines))
}

/// The resting order of each leg, where all rest.
fn named_orders(tables: &Tables, legs: &[Leg]) -> Option<Vec<Order>> {
    legs.iter().map(|leg| tables.orders().find(|order| order.number == leg.number)).collect()
}

fn is_acceptable(tables: &Tables, legs: &[Leg], orders: &[Order]) -> bool {
    let pairs = || legs.iter().zip(orders);
    legs.windows(2).all(|pair| pair[0].number < pair[1].number)
        && pairs().all(|(leg, order)| leg.lots <= order.lots)
        && orders.iter().any(|order| order.member != orders[0].member)
        && orders.iter().any(|order| order.contract != orders[0].contract)
        && pairs().all(|(leg, order)| price_is_allowed(tables, leg, order))
        && (0..12 * YEARS).all(|month| net_in_month(legs, orders, month) == (0, 0))
        && orders.iter().all(|order| better_orders_are_legs(tables, legs, order))
}

pub fn price_is_allowed(tables: &Tables, leg: &Leg, order: &Order) -> bool {
    let allowed = match order.side {
        Side::Sell => order.price..=tables.price(order.contract, HIGH),
        Side::Buy => tables.price(order.contract, LOW)..=order.price,
    };
    allowed.contains(&leg.price)
}

/// In the hours of a month: bought lots less sold ones, and the same of lots times price.
pub fn net_in_month(legs: &[Leg], orders: &[Order], month: u64) -> (i64, i64) {
    let delivering = legs.iter().zip(orders).filter(|(_, order)| Contract::numbered(order.contract).delivers_in(month));
    delivering.fold((0, 0), |(lots, value), (leg, order)| {
        let signed = order.side.signed(leg.lots);
        (lots + signed, value + signed * leg.price as i64)
    })
}

/// Every resting order with better priority is a leg in full.
fn better_orders_are_legs(tables: &Tables, legs: &[Leg], order: &Order) -> bool {
    let in_full = |better: &Order| legs.iter().any(|leg| leg.number == better.number && leg.lots == better.lots);
    tables.orders().filter(|other| other.has_priority_over(order)).all(|better| in_full(&better))
}
