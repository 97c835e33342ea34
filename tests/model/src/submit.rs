//! Submit: matching of an incoming order.
use crate::answer::{refuse_if, Answer, Refusal};
use crate::apply::{is_open, not_defaulted, time_not_below};
use crate::record::{OrderKind, Submit};
use crate::tables::*;

/// Lots taken from the resting order at a place of the book.
struct Deal {
    place: usize,
    order: Order,
    lots: u64,
}

pub fn submit(tables: &mut Tables, incoming: &Submit) -> Answer {
    time_not_below(tables, incoming.time)?;
    not_defaulted(tables, incoming.member)?;
    is_open(tables, incoming.contract)?;
    let (low, high) = (tables.price(incoming.contract, LOW), tables.price(incoming.contract, HIGH));
    refuse_if(incoming.price < low || incoming.price > high, Refusal::PriceOutside)?;
    let second_is_new = incoming.time > tables.time();
    let is_sixth = !second_is_new && tables.submits(incoming.member) >= MOST_SUBMITS;
    refuse_if(is_sixth, Refusal::SixthSubmit)?;
    refuse_if(is_above_limit(tables, incoming), Refusal::AboveLimit)?;

    let deals = deals(tables, incoming);
    let matched: u64 = deals.iter().map(|deal| deal.lots).sum();
    let rest = incoming.lots - matched;
    refuse_if(incoming.kind == OrderKind::Teye && rest > 0, Refusal::TeyeUnmatched)?;
    let rests = incoming.kind == OrderKind::Resting && rest > 0;
    let used_up = deals.iter().filter(|deal| deal.lots == deal.order.lots).count();
    let others = (tables.order_count() - used_up) as u64;
    refuse_if(rests && others >= MOST_ORDERS, Refusal::BookFull)?;
    let counts_passed = passes_run(tables, 2 * matched) || tables.head[ACCEPTED] + 1 > MOST_ACCEPTED;
    refuse_if(counts_passed, Refusal::CountsPassed)?;

    let lines = book_deals(tables, incoming, &deals);
    let number = tables.head[ACCEPTED];
    tables.head[ACCEPTED] += 1;
    tables.set_time(incoming.time);
    tables.head[SUBMITS + incoming.member as usize] += 1;
    if rests {
        let Submit { time, member, contract, side, price, .. } = *incoming;
        let order = Order { number, member, contract, side, price, lots: rest, day: tables.day(), time };
        tables.add_order(&order);
    }
    Ok(lines)
}

/// Net lots, own resting orders and the new one, on the new one's side of the contract, against the member's limit.
fn is_above_limit(tables: &Tables, incoming: &Submit) -> bool {
    let net = tables.lots(incoming.contract, incoming.member);
    let is_own = |order: &Order| {
        order.member == incoming.member && order.contract == incoming.contract && order.side == incoming.side
    };
    let resting: u64 = tables.orders().filter(is_own).map(|order| order.lots).sum();
    let towards = match incoming.side {
        Side::Buy => net,
        Side::Sell => -net,
    };
    towards + (resting + incoming.lots) as i64 > tables.limit(incoming.member) as i64
}

/// The deals in turn: best price first, then lower number, until the lots are gone or a price does not meet.
fn deals(tables: &Tables, incoming: &Submit) -> Vec<Deal> {
    let side = incoming.side.other();
    let meets = |order: &Order| {
        order.contract == incoming.contract && order.side == side && !side.better(incoming.price, order.price)
    };
    let mut crossing: Vec<(usize, Order)> = tables.orders().enumerate().filter(|(_, order)| meets(order)).collect();
    crossing.sort_unstable_by_key(|(_, order)| (-order.side.signed(order.price), order.number));
    let mut deals = Vec::new();
    let mut rest = incoming.lots;
    for (place, order) in crossing {
        if rest == 0 {
            break;
        }
        let lots = rest.min(order.lots);
        rest -= lots;
        deals.push(Deal { place, order, lots });
    }
    deals
}

/// Two lines a deal at the resting price, the incoming member's first; the day's figures; what is left of the orders met.
fn book_deals(tables: &mut Tables, incoming: &Submit, deals: &[Deal]) -> u64 {
    if deals.is_empty() {
        return 0;
    }
    let mut lines = Vec::with_capacity(2 * deals.len());
    let mut left: Vec<u64> = tables.orders().map(|order| order.lots).collect();
    for Deal { place, order, lots } in deals {
        let line = |member, side: Side| Line {
            member,
            contract: incoming.contract,
            lots: side.signed(*lots),
            price: order.price,
        };
        lines.push(line(incoming.member, incoming.side));
        lines.push(line(order.member, order.side));
        *tables.price_mut(incoming.contract, DAY_LOTS) += lots;
        *tables.price_mut(incoming.contract, DAY_VALUE) += lots * order.price;
        left[*place] -= lots;
    }
    tables.keep_orders(|place, _| left[place]);
    tables.book_lines(&lines)
}
