//! Proposals that are acceptable by construction, and near misses of them: one condition of document 01 does not hold.
use super::random::Random;
use crate::contract::{Contract, Kind, YEARS};
use crate::record::{Leg, Record};
use crate::tables::*;

/// A leg and the resting order that it needs; with 0 lots an order that is no leg.
#[derive(Clone, Copy, Debug)]
pub struct PlannedLeg {
    pub contract: u64,
    pub side: Side,
    pub member: u64,
    pub order_price: u64,
    pub order_lots: u64,
    pub lots: u64,
    pub price: u64,
}

/// What hours a planned proposal is about, and at which lots and price.
struct Frame {
    side: Side,
    lots: u64,
    price: u64,
}

/// One to three contracts, each against its parts, in at most 12 legs, in contracts that are `usable`; at times with one
/// thing wrong that the orders have to show.
pub fn plan(random: &mut Random, tables: &Tables, price: u64, usable: &impl Fn(Contract) -> bool) -> Vec<PlannedLeg> {
    let mut legs = Vec::new();
    let most = if random.percent(20) { 12 } else { random.between(4, 12) as usize };
    for _ in 0..20 {
        let kind = random.pick(&[Kind::Year, Kind::Quarter, Kind::Quarter]);
        let whole = Contract { kind, index: random.below(YEARS * kind.in_a_year()) };
        let price = (price + random.below(40)).clamp(100, MOST_PRICE - 100);
        let side = random.pick(&[Side::Buy, Side::Sell]);
        let frame = Frame { side, lots: random.between(1, 12), price };
        let tree = tree(random, tables, whole, &frame, usable);
        let is_new = |leg: &PlannedLeg| legs.iter().all(|other: &PlannedLeg| other.contract != leg.contract);
        if !tree.is_empty() && legs.len() + tree.len() <= most && tree.iter().all(is_new) {
            legs.extend(tree);
        }
    }
    while legs.len() < most && !legs.is_empty() && random.percent(70) {
        split(random, tables, &mut legs);
    }
    if random.percent(40) {
        random.shuffle(&mut legs);
    }
    if random.percent(30) && !legs.is_empty() {
        bend(random, tables, &mut legs, usable);
    }
    legs
}

/// One thing wrong with the orders.
fn bend(random: &mut Random, tables: &Tables, legs: &mut Vec<PlannedLeg>, usable: &impl Fn(Contract) -> bool) {
    match random.below(6) {
        0 => {
            let member = legs[0].member;
            legs.iter_mut().for_each(|leg| leg.member = member);
        }
        1 => sell_twice_for_half(legs),
        2 | 3 => better_order(random, legs),
        4 => keep_one_contract(random, tables, legs),
        _ => {
            let year = Contract { kind: Kind::Year, index: random.below(YEARS) };
            let months: Vec<Contract> = year.parts().into_iter().flat_map(Contract::parts).collect();
            if usable(year) && months.iter().all(|&month| usable(month)) {
                let frame = Frame { side: Side::Buy, lots: legs[0].lots, price: legs[0].price };
                legs.clear();
                legs.push(leg(random, tables, year, Side::Buy, &frame));
                legs.extend(months.into_iter().map(|month| leg(random, tables, month, Side::Sell, &frame)));
            }
        }
    }
}

/// Value stays balanced in every hour, lots do not.
fn sell_twice_for_half(legs: &mut [PlannedLeg]) {
    let can_be_halved = |leg: &PlannedLeg| leg.price.is_multiple_of(2) && 2 * leg.lots <= MOST_LOTS;
    if legs.iter().all(can_be_halved) {
        for leg in legs.iter_mut().filter(|leg| leg.side == Side::Sell) {
            leg.lots *= 2;
            leg.order_lots = leg.lots;
            leg.price /= 2;
            leg.order_price = leg.price;
        }
    }
}

/// An order of better priority than a leg's, by price or by number, that is no leg, or a leg of all its lots but one.
fn better_order(random: &mut Random, legs: &mut Vec<PlannedLeg>) {
    let at = random.below(legs.len() as u64) as usize;
    let mut better = PlannedLeg { lots: 0, order_lots: 1, ..legs[at] };
    if random.percent(75) && legs[at].lots > 1 {
        better.lots = random.between(1, legs[at].lots - 1);
        better.order_lots = better.lots + 1;
        legs[at].lots -= better.lots;
    }
    if random.percent(50) {
        better.order_price = improved(random, better.side, better.order_price);
    }
    legs.insert(at, better);
}

/// A better price of an order on a side.
fn improved(random: &mut Random, side: Side, price: u64) -> u64 {
    (price as i64 + side.signed(random.between(1, 20))).clamp(1, MOST_PRICE as i64) as u64
}

/// A buy and a sell of one contract.
fn keep_one_contract(random: &mut Random, tables: &Tables, legs: &mut Vec<PlannedLeg>) {
    let buy = PlannedLeg { side: Side::Buy, member: 0, order_price: legs[0].price, ..legs[0] };
    let sell = PlannedLeg { side: Side::Sell, member: random.below(tables.members()), ..buy };
    *legs = vec![buy, sell];
}

/// A contract on one side and its parts, or the parts of some of these, on the other; at times the contract itself, whose
/// orders then cross, as only a lent book's can.
fn tree(
    random: &mut Random,
    tables: &Tables,
    whole: Contract,
    frame: &Frame,
    usable: &impl Fn(Contract) -> bool,
) -> Vec<PlannedLeg> {
    let mut parts = whole.parts();
    if random.percent(10) {
        parts = vec![whole];
    } else if whole.kind == Kind::Year {
        for _ in 0..random.below(4) {
            let at = random.below(parts.len() as u64) as usize;
            let months = parts[at].parts();
            if months.len() == 3 && months.iter().all(|&month| usable(month)) {
                parts.splice(at..=at, months);
            }
        }
    }
    if !usable(whole) || !parts.iter().all(|&part| usable(part)) {
        return Vec::new();
    }
    let mut legs = vec![leg(random, tables, whole, frame.side, frame)];
    legs.extend(parts.into_iter().map(|part| leg(random, tables, part, frame.side.other(), frame)));
    legs
}

fn leg(random: &mut Random, tables: &Tables, contract: Contract, side: Side, frame: &Frame) -> PlannedLeg {
    let slack = if random.percent(50) { 0 } else { random.below(50) };
    let order_lots = frame.lots + if random.percent(60) { 0 } else { random.below(20) };
    PlannedLeg {
        contract: contract.number(),
        side,
        member: random.below(tables.members()),
        order_price: (frame.price as i64 + side.signed(slack)) as u64,
        order_lots,
        lots: frame.lots,
        price: frame.price,
    }
}

/// One leg made two of the same lots and value; the first is of its order in full, so that the second may follow it.
fn split(random: &mut Random, tables: &Tables, legs: &mut Vec<PlannedLeg>) {
    let at = random.below(legs.len() as u64) as usize;
    let whole = legs[at];
    if whole.lots < 2 {
        return;
    }
    let mut first = PlannedLeg { member: random.below(tables.members()), ..whole };
    let mut second = whole;
    first.lots = random.between(1, whole.lots - 1);
    second.lots = whole.lots - first.lots;
    if first.lots == second.lots && random.percent(50) {
        let apart = random.between(1, 20);
        first.price += apart;
        second.price -= apart;
        let furthest = if whole.side == Side::Buy { first.price } else { second.price };
        if whole.side.better(furthest, whole.order_price) {
            first.order_price = furthest;
            second.order_price = furthest;
        }
    }
    if random.percent(40) {
        first.order_price = improved(random, whole.side, first.order_price);
    }
    first.order_lots = first.lots;
    second.order_lots = second.lots + (whole.order_lots - whole.lots);
    legs.splice(at..=at, [first, second]);
}

/// The proposal of a plan, each leg by the number of its order in the book; half of them with one thing wrong.
pub fn propose(random: &mut Random, tables: &Tables, plan: &[PlannedLeg]) -> Record {
    let mut legs: Vec<Leg> = Vec::new();
    for planned in plan.iter().filter(|planned| planned.lots > 0) {
        let matches = |order: &Order| {
            (order.contract, order.side, order.member, order.price)
                == (planned.contract, planned.side, planned.member, planned.order_price)
                && legs.iter().all(|leg| leg.number != order.number)
        };
        let number = tables.orders().find(matches).map_or(random.below(1 << 32), |order| order.number);
        legs.push(Leg { number, lots: planned.lots, price: planned.price });
    }
    legs.sort_by_key(|leg| leg.number);
    if random.percent(45) {
        spoil(random, tables, &mut legs);
    }
    Record::Proposal { legs }
}

fn spoil(random: &mut Random, tables: &Tables, legs: &mut Vec<Leg>) {
    let at = random.below(legs.len() as u64) as usize;
    let another = random.below(tables.order_count().max(1) as u64) as usize;
    match random.below(12) {
        0 => legs[at].price += 1,
        1 => legs[at].price = legs[at].price.saturating_sub(1),
        2 => legs[at].lots += 1,
        3 => legs[at].lots -= 1,
        4 => legs.iter_mut().for_each(|leg| leg.price += 1),
        5 => legs.iter_mut().for_each(|leg| leg.lots = (2 * leg.lots).min(MOST_LOTS)),
        6 => drop(legs.remove(at)),
        7 => legs.insert(at, legs[at]),
        8 => legs[at].number = tables.order(another).number,
        9 => legs.iter_mut().for_each(|leg| leg.price -= 1),
        10 if legs[at].lots > 1 => {
            let part = random.between(1, legs[at].lots - 1);
            legs[at].lots -= part;
            legs.insert(at, Leg { lots: part, ..legs[at] });
        }
        _ => legs.swap(0, at),
    }
}
