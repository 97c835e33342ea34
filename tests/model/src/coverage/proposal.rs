//! Edges of a proposal.
use super::{Coverage, Seen, EDGES};
use crate::contract::{Contract, Kind, YEARS};
use crate::header::Bytes;
use crate::proposal::{net_in_month, price_is_allowed};
use crate::record::Leg;
use crate::tables::*;
use std::collections::BTreeSet;

/// A leg and the resting order that it names.
type Pair = (Leg, Order);

/// The conditions of document 01, each by itself.
struct Conditions {
    rising: bool,
    lots: bool,
    members: bool,
    contracts: bool,
    prices: bool,
    lots_balanced: bool,
    value_balanced: bool,
    priority: bool,
}

impl Conditions {
    fn of(before: &Tables, pairs: &[Pair]) -> Conditions {
        let (legs, orders): (Vec<Leg>, Vec<Order>) = pairs.iter().copied().unzip();
        let nets: Vec<(i64, i64)> = (0..12 * YEARS).map(|month| net_in_month(&legs, &orders, month)).collect();
        Conditions {
            rising: legs.windows(2).all(|pair| pair[0].number < pair[1].number),
            lots: pairs.iter().all(|(leg, order)| leg.lots <= order.lots),
            members: orders.iter().any(|order| order.member != orders[0].member),
            contracts: orders.iter().any(|order| order.contract != orders[0].contract),
            prices: pairs.iter().all(|(leg, order)| price_is_allowed(before, leg, order)),
            lots_balanced: nets.iter().all(|net| net.0 == 0),
            value_balanced: nets.iter().all(|net| net.1 == 0),
            priority: passed_over(before, pairs).is_empty(),
        }
    }

    /// Whether one condition alone does not hold.
    fn only(&self, condition: bool) -> bool {
        let Conditions { rising, lots, members, contracts, prices, lots_balanced, value_balanced, priority } = *self;
        let all = [rising, lots, members, contracts, prices, lots_balanced, value_balanced, priority];
        !condition && all.iter().filter(|holds| !**holds).count() == 1
    }
}

/// Better orders, and the order of a leg that they come before.
fn better<'a>(before: &'a Tables, pairs: &'a [Pair]) -> impl Iterator<Item = (Order, Order)> + 'a {
    let before_leg = move |&(_, order): &Pair| {
        before.orders().filter(move |other| other.has_priority_over(&order)).map(move |other| (other, order))
    };
    pairs.iter().flat_map(before_leg)
}

/// The better orders that are no leg in full.
fn passed_over(before: &Tables, pairs: &[Pair]) -> Vec<(Order, Order)> {
    let in_full = |order: &Order| pairs.iter().any(|(leg, _)| leg.number == order.number && leg.lots == order.lots);
    better(before, pairs).filter(|(order, _)| !in_full(order)).collect()
}

impl Coverage {
    pub(super) fn proposal(&mut self, legs: &[Leg], seen: &Seen) {
        let Seen { before, number, .. } = *seen;
        let named = |leg: &Leg| before.orders().find(|order| order.number == leg.number).map(|order| (*leg, order));
        let pairs: Vec<Pair> = legs.iter().filter_map(named).collect();
        self.met("proposal: 2 legs (13)", number == 13 && legs.len() == 2);
        self.met("proposal: 3 legs (13)", number == 13 && legs.len() == 3);
        let run_after = before.run() + legs.iter().map(|leg| leg.lots).sum::<u64>();
        self.met("proposal: lots run one past 5,000,000 (17)", number == 17 && run_after == MOST_RUN + 1);
        match number {
            0 => self.accepted(&pairs, seen),
            13 if pairs.len() == legs.len() => self.near_miss(&pairs, before),
            _ => self.met("proposal: an order that does not rest (13)", number == 13 && pairs.len() + 1 == legs.len()),
        }
    }

    /// A proposal of 1 or 13 legs with all its bytes is no record.
    pub(super) fn legs_out_of_range(&mut self, record: &[u8], seen: &Seen) {
        let &[4, count, ref rest @ ..] = record else {
            return;
        };
        if rest.len() != 10 * count as usize {
            return;
        }
        let numbers = rest.chunks_exact(10).filter_map(|leg| Bytes(leg).take(4));
        let contract = |number| seen.before.orders().find(|order| order.number == number).map(|order| order.contract);
        let contracts: BTreeSet<u64> = numbers.filter_map(contract).collect();
        let contracts: Vec<Contract> = contracts.into_iter().map(Contract::numbered).collect();
        let is_part = |year: Contract, c: &Contract| c.kind == Kind::Month && c.index / 12 == year.index;
        let year_and_months = contracts
            .iter()
            .any(|&whole| whole.kind == Kind::Year && contracts.iter().filter(|c| is_part(whole, c)).count() == 12);
        self.met("proposal: 1 leg (3)", count == 1);
        self.met("proposal: 13 legs (3)", count == 13);
        self.met("proposal: a year against twelve months, 13 legs (3)", count == 13 && year_and_months);
    }

    fn accepted(&mut self, pairs: &[Pair], seen: &Seen) {
        let before = seen.before;
        let orders: Vec<Order> = pairs.iter().map(|pair| pair.1).collect();
        let legs = format!("proposal: {} legs", pairs.len());
        self.met(EDGES.iter().find(|edge| **edge == legs).expect("4 to 12 legs"), true);
        self.shapes(&orders);
        self.met("proposal: a leg of the whole order", pairs.iter().any(|(leg, order)| leg.lots == order.lots));
        self.met("proposal: a leg of part of an order", pairs.iter().any(|(leg, order)| leg.lots < order.lots));
        let by_price = better(before, pairs).any(|(better, order)| better.price != order.price);
        self.met("proposal: better priority by price, in full", by_price);
        let by_number = better(before, pairs).any(|(better, order)| better.price == order.price);
        self.met("proposal: better priority by number, in full", by_number);
        let at = |side, which| move |(leg, o): &Pair| o.side == side && leg.price == before.price(o.contract, which);
        self.met("proposal: a buy at the low", pairs.iter().any(at(Side::Buy, LOW)));
        self.met("proposal: a sell at the high", pairs.iter().any(at(Side::Sell, HIGH)));
        let apart = |(leg, order): &Pair| {
            pairs.iter().any(|(other, theirs)| theirs.contract == order.contract && other.price != leg.price)
        };
        self.met("proposal: legs at different prices in a contract", pairs.iter().any(apart));
        let crosses = |o: &Order| orders.iter().any(|other| other.contract == o.contract && other.side != o.side);
        self.met("proposal: orders of a contract that cross", orders.iter().any(crosses));
        let calendar = before.calendar();
        let is_open = |order: &Order| calendar.is_open(Contract::numbered(order.contract), before.day() as i64);
        self.met("proposal: an order of a contract that is not open", !orders.iter().all(is_open));
        self.met("proposal: lots run ends at 5,000,000", seen.after.run() == MOST_RUN);
    }

    /// What stands against what, where every leg of a contract is on one side.
    fn shapes(&mut self, orders: &[Order]) {
        let mut sides: Vec<(Contract, Side)> =
            orders.iter().map(|order| (Contract::numbered(order.contract), order.side)).collect();
        sides.sort_by_key(|(contract, side)| (contract.number(), side.number()));
        sides.dedup();
        let of = |kind| sides.iter().filter(move |(contract, _)| contract.kind == kind);
        let count = |kind| of(kind).count();
        let counts = (count(Kind::Year), count(Kind::Quarter), count(Kind::Month));
        self.met("proposal: a year against four quarters", counts == (1, 4, 0));
        self.met("proposal: a quarter against three months", counts == (0, 1, 3));
        let mixed = counts.0 == 1 && counts.1 > 0 && counts.1 < 4 && 3 * counts.1 + counts.2 == 12;
        self.met("proposal: a year against quarters and months", mixed);
        let both_sides = |side| of(Kind::Quarter).any(|&(_, its)| its == side);
        let crossed = counts == (0, 2, 6) && both_sides(Side::Buy) && both_sides(Side::Sell);
        self.met("proposal: two quarters crossed through months", crossed);
    }

    fn near_miss(&mut self, pairs: &[Pair], before: &Tables) {
        let c = Conditions::of(before, pairs);
        self.met("proposal: lots balanced and value not, only (13)", c.only(c.value_balanced));
        self.met("proposal: value balanced and lots not, only (13)", c.only(c.lots_balanced));
        let twice = pairs.windows(2).any(|pair| pair[0].0.number == pair[1].0.number);
        self.met("proposal: the same order twice, only (13)", c.only(c.rising) && twice);
        self.met("proposal: numbers that fall, only (13)", c.only(c.rising) && !twice);
        self.met("proposal: more lots than its order, only (13)", c.only(c.lots));
        self.met("proposal: orders of one member only (13)", c.only(c.members));
        self.met("proposal: one contract only (13)", c.only(c.contracts));
        if c.only(c.prices) {
            let side_of = |wanted| pairs.iter().filter(move |(_, order)| order.side == wanted);
            let buys = |past: fn(&Tables, &Pair) -> bool| side_of(Side::Buy).any(|pair| past(before, pair));
            let sells = |past: fn(&Tables, &Pair) -> bool| side_of(Side::Sell).any(|pair| past(before, pair));
            self.met("proposal: a buy above its order's price, only (13)", buys(|_, (leg, o)| leg.price > o.price));
            self.met("proposal: a sell below its order's price, only (13)", sells(|_, (leg, o)| leg.price < o.price));
            let below = buys(|before, (leg, o)| leg.price < before.price(o.contract, LOW));
            self.met("proposal: a buy below the low, only (13)", below);
            let above = sells(|before, (leg, o)| leg.price > before.price(o.contract, HIGH));
            self.met("proposal: a sell above the high, only (13)", above);
        }
        if c.only(c.priority) {
            let leg_lots =
                |order: &Order| pairs.iter().find(|(leg, _)| leg.number == order.number).map(|pair| pair.0.lots);
            let passed = passed_over(before, pairs);
            let short = |(better, order): &(Order, Order), by_price: bool| {
                leg_lots(better) == Some(better.lots - 1) && (better.price != order.price) == by_price
            };
            let by_price = passed.iter().any(|pair| short(pair, true));
            self.met("proposal: better priority by price, one lot short, only (13)", by_price);
            let by_number = passed.iter().any(|pair| short(pair, false));
            self.met("proposal: better priority by number, one lot short, only (13)", by_number);
            let no_leg = passed.iter().any(|(better, _)| leg_lots(better).is_none());
            self.met("proposal: better priority and no leg, only (13)", no_leg);
        }
    }
}
