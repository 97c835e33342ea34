//! Records drawn for what a ledger holds.
use super::plans::{plan, propose, PlannedLeg};
use super::random::Random;
use crate::contract::{Contract, Kind, CONTRACTS};
use crate::record::{Leg, OrderKind, Record, Submit};
use crate::tables::*;
use std::collections::VecDeque;

/// How likely an episode draws each thing.
#[derive(Clone, Copy)]
struct Weights {
    submit: u64,
    cancel: u64,
    limits: u64,
    proposal: u64,
    default: u64,
    close_out: u64,
    close: u64,
    junk: u64,
    ladder: u64,
}

const ORDINARY: Weights = Weights {
    submit: 700,
    cancel: 60,
    limits: 12,
    proposal: 12,
    default: 6,
    close_out: 20,
    close: 25,
    junk: 10,
    ladder: 1,
};
const CROWDED: Weights =
    Weights { submit: 950, cancel: 40, limits: 2, proposal: 4, default: 0, close_out: 0, close: 1, junk: 2, ladder: 6 };
const CLOSES: Weights = Weights {
    submit: 450,
    cancel: 20,
    limits: 20,
    proposal: 20,
    default: 5,
    close_out: 20,
    close: 450,
    junk: 5,
    ladder: 0,
};
const DEFAULTS: Weights = Weights {
    submit: 500,
    cancel: 10,
    limits: 5,
    proposal: 30,
    default: 60,
    close_out: 300,
    close: 60,
    junk: 5,
    ladder: 0,
};
const PROPOSALS: Weights = Weights {
    submit: 200,
    cancel: 20,
    limits: 10,
    proposal: 300,
    default: 2,
    close_out: 5,
    close: 10,
    junk: 5,
    ladder: 0,
};

/// A record to come: as it stands, or a proposal whose orders are looked up when its turn comes.
pub enum Step {
    Record(Record),
    Propose(Vec<PlannedLeg>),
}

pub struct Market {
    weights: Weights,
    /// how many of the open contracts most submits go to
    contracts: u64,
    first: u64,
    pub price: u64,
    spread: u64,
    lots: u64,
    /// most seconds between two submits
    seconds: u64,
    steps: VecDeque<Step>,
    /// the open contracts and the day they are open on
    open: (u64, Vec<u64>),
}

impl Market {
    pub fn draw(random: &mut Random) -> Market {
        let any = random.between(1, MOST_PRICE);
        Market {
            weights: random.pick(&[ORDINARY, ORDINARY, CROWDED, CLOSES, DEFAULTS, PROPOSALS]),
            contracts: random.pick(&[1, 2, 3, 6, 27]),
            first: random.below(27),
            price: random.pick(&[27_500, 27_500, 300, 999_900, any]),
            spread: random.pick(&[1, 3, 20, 300]),
            lots: random.pick(&[1, 3, 12, 50, 50, 100]),
            seconds: random.pick(&[1, 1, 5, 400]),
            steps: VecDeque::new(),
            open: (u64::MAX, Vec::new()),
        }
    }

    pub fn plan_step(&mut self, step: Step) {
        self.steps.push_back(step);
    }

    pub fn record(&mut self, random: &mut Random, tables: &Tables) -> Vec<u8> {
        if self.open.0 != tables.day() {
            let open = tables.calendar().open_contracts(tables.day() as i64);
            self.open = (tables.day(), open.into_iter().map(Contract::number).collect());
        }
        let record = match self.steps.pop_front() {
            Some(Step::Record(record)) => record,
            Some(Step::Propose(plan)) => propose(random, tables, &plan),
            None if tables.time() == LAST_SECOND && random.percent(30) => self.close(random, tables),
            None => return self.drawn(random, tables),
        };
        record.bytes()
    }

    fn drawn(&mut self, random: &mut Random, tables: &Tables) -> Vec<u8> {
        let w = self.weights;
        let each = [w.submit, w.cancel, w.limits, w.proposal, w.default, w.close_out, w.close, w.junk, w.ladder];
        let mut draw = random.below(each.iter().sum());
        let mut which = 0;
        while draw >= each[which] {
            draw -= each[which];
            which += 1;
        }
        let record = match which {
            0 => self.submit(random, tables),
            1 => self.cancel(random, tables),
            2 => self.day_limits(random, tables),
            3 => self.proposal(random, tables),
            4 => self.default(random, tables),
            5 => self.close_out(random, tables),
            6 => self.close(random, tables),
            7 => return self.junk(random, tables),
            _ => {
                self.plan_ladder(random, tables);
                return self.record(random, tables);
            }
        };
        record.bytes()
    }

    pub fn contract(&self, random: &mut Random) -> u64 {
        let open = &self.open.1;
        match random.below(100) {
            0..=87 if !open.is_empty() => {
                let place = self.first + 7 * random.below(self.contracts);
                open[place as usize % open.len()]
            }
            88..=96 if !open.is_empty() => random.pick(open),
            _ => random.below(CONTRACTS),
        }
    }

    fn time(&self, random: &mut Random, tables: &Tables) -> u64 {
        let time = tables.time();
        let drawn = match random.below(1000) {
            0..=449 => time,
            450..=899 => time + random.between(1, self.seconds),
            900..=949 => time.saturating_sub(random.between(1, 2)),
            950 => LAST_SECOND,
            951..=960 => time + 300,
            _ => time + 1,
        };
        drawn.min(LAST_SECOND)
    }

    fn member(&self, random: &mut Random, tables: &Tables) -> u64 {
        let drawn = random.below(tables.members());
        let again = tables.is_defaulted(drawn) && random.percent(85);
        if again {
            (drawn..drawn + tables.members())
                .map(|member| member % tables.members())
                .find(|&member| !tables.is_defaulted(member))
                .unwrap_or(drawn)
        } else {
            drawn
        }
    }

    pub fn near_price(&self, random: &mut Random) -> u64 {
        (self.price + random.below(2 * self.spread + 1)).saturating_sub(self.spread).clamp(1, MOST_PRICE)
    }

    fn submit(&self, random: &mut Random, tables: &Tables) -> Record {
        let contract = self.contract(random);
        let side = random.pick(&[Side::Buy, Side::Sell]);
        let crowding = self.weights.submit == CROWDED.submit && random.percent(90);
        let price = match random.below(100) {
            _ if crowding => {
                (self.near_price(random) as i64 - side.signed(3 * self.spread)).clamp(1, MOST_PRICE as i64) as u64
            }
            0..=24 => {
                let here: Vec<u64> =
                    tables.orders().filter(|order| order.contract == contract).map(|order| order.price).collect();
                if here.is_empty() {
                    self.near_price(random)
                } else {
                    random.pick(&here)
                }
            }
            25 | 26 => (tables.price(contract, LOW) + random.below(3)).saturating_sub(1).clamp(1, MOST_PRICE),
            27 | 28 => (tables.price(contract, HIGH) + random.below(3)).saturating_sub(1).clamp(1, MOST_PRICE),
            29 | 30 => random.pick(&[1, MOST_PRICE]),
            31 => random.between(1, MOST_PRICE),
            _ => self.near_price(random),
        };
        let kind = random.pick(&[OrderKind::Resting, OrderKind::Resting, OrderKind::Oeye, OrderKind::Teye]);
        let kind = if crowding { OrderKind::Resting } else { kind };
        let mut submit = Submit {
            time: self.time(random, tables),
            member: self.member(random, tables),
            contract,
            side,
            kind,
            price,
            lots: random.between(1, self.lots),
        };
        submit.lots = self.telling_lots(random, tables, &submit).clamp(1, MOST_LOTS);
        Record::Submit(submit)
    }

    /// At times exactly the lots that cross, or that the limit or the lots run leaves, or one more.
    fn telling_lots(&self, random: &mut Random, tables: &Tables, submit: &Submit) -> u64 {
        match random.below(100) {
            0..=24 => {
                let side = submit.side.other();
                let meets = |order: &Order| {
                    order.contract == submit.contract && order.side == side && !side.better(submit.price, order.price)
                };
                tables.orders().filter(meets).map(|order| order.lots).sum::<u64>() + random.pick(&[0, 0, 1])
            }
            25..=34 => {
                let is_own = |order: &Order| {
                    (order.member, order.contract, order.side) == (submit.member, submit.contract, submit.side)
                };
                let resting: u64 = tables.orders().filter(is_own).map(|order| order.lots).sum();
                let towards = submit.side.signed(1) * tables.lots(submit.contract, submit.member) + resting as i64;
                (tables.limit(submit.member) as i64 - towards + random.pick(&[0, 1])).clamp(1, MOST_LOTS as i64) as u64
            }
            35..=38 => MOST_LOTS,
            39..=70 if MOST_RUN - tables.run() < 2 * MOST_LOTS => (MOST_RUN - tables.run()) / 2 + random.below(2),
            _ => submit.lots,
        }
    }

    fn cancel(&self, random: &mut Random, tables: &Tables) -> Record {
        let time = self.time(random, tables);
        let (mut member, mut number) = (random.below(tables.members()), random.below(1 << 32));
        if tables.order_count() > 0 && random.percent(90) {
            let order = tables.order(random.below(tables.order_count() as u64) as usize);
            number = order.number;
            if random.percent(85) {
                member = order.member;
            }
        }
        Record::Cancel { time, member, number }
    }

    fn day_limits(&self, random: &mut Random, tables: &Tables) -> Record {
        let contract = self.contract(random);
        let (a, b) = match random.below(10) {
            0..=4 => (1, MOST_PRICE),
            5..=7 => (self.near_price(random), self.near_price(random)),
            8 => (tables.price(contract, LOW), self.near_price(random)),
            _ => (random.between(1, MOST_PRICE), random.between(1, MOST_PRICE)),
        };
        let (low, high) = if random.percent(97) { (a.min(b), a.max(b)) } else { (a.max(b), a.min(b)) };
        Record::DayLimits { contract, low, high }
    }

    /// A planned proposal whose orders are first submitted, or any orders of the book.
    fn proposal(&mut self, random: &mut Random, tables: &Tables) -> Record {
        if random.percent(25) {
            return self.any_proposal(random, tables);
        }
        let open = &self.open.1;
        let quiet = |contract: u64| tables.orders().all(|order| order.contract != contract);
        let usable = |contract: Contract| open.contains(&contract.number()) && quiet(contract.number());
        let legs = plan(random, tables, self.price, &usable);
        if legs.is_empty() {
            return self.any_proposal(random, tables);
        }
        let mut time = tables.time();
        for leg in &legs {
            time = (time + random.below(2)).min(LAST_SECOND);
            let PlannedLeg { contract, side, member, order_price, order_lots, .. } = *leg;
            let kind = OrderKind::Resting;
            let submit = Submit { time, member, contract, side, kind, price: order_price, lots: order_lots };
            self.steps.push_back(Step::Record(Record::Submit(submit)));
        }
        self.steps.push_back(Step::Propose(legs));
        self.submit(random, tables)
    }

    fn any_proposal(&self, random: &mut Random, tables: &Tables) -> Record {
        let count = random.pick(&[2, 3, 4, 5, 12, 1, 13]);
        let mut legs: Vec<Leg> = (0..count)
            .map(|_| match tables.order_count() as u64 {
                0 => Leg { number: random.below(3), lots: 1, price: self.price },
                orders => {
                    let order = tables.order(random.below(orders) as usize);
                    Leg { number: order.number, lots: random.between(1, order.lots), price: order.price }
                }
            })
            .collect();
        legs.sort_by_key(|leg| leg.number);
        Record::Proposal { legs }
    }

    fn default(&self, random: &mut Random, tables: &Tables) -> Record {
        let member = random.below(tables.members());
        let marked = (0..tables.members()).filter(|&member| tables.is_defaulted(member)).count() as u64;
        if !tables.is_defaulted(member) && 2 * marked >= tables.members() && random.percent(90) {
            return self.submit(random, tables);
        }
        Record::Default { member }
    }

    fn close_out(&self, random: &mut Random, tables: &Tables) -> Record {
        let open = &self.open.1;
        let is_telling = |&contract: &u64| {
            tables.price(contract, GGF) != 0
                && (0..tables.members()).any(|member| tables.is_defaulted(member) && tables.lots(contract, member) != 0)
        };
        let telling: Vec<u64> = open.iter().copied().filter(is_telling).collect();
        let contract =
            if !telling.is_empty() && random.percent(85) { random.pick(&telling) } else { self.contract(random) };
        let any = random.between(1, 1000);
        Record::CloseOut { contract, ratio: random.pick(&[1, 1000, any, any]) }
    }

    fn close(&self, random: &mut Random, tables: &Tables) -> Record {
        let (time, later) = (tables.time(), random.between(0, 700));
        let quoted = match tables.order_count() as u64 {
            0 => time,
            orders => tables.order(random.below(orders) as usize).time + random.pick(&[299, 300]),
        };
        let below = time.saturating_sub(1);
        let time = random.pick(&[time, time + later, time + 300, quoted, quoted.max(time), LAST_SECOND, below]);
        Record::CloseOfDay { time: time.min(LAST_SECOND) }
    }

    /// A close of day at the ledger's time: the evening on which the ledger begins is often one on which contracts close.
    pub fn plan_close(&mut self, tables: &Tables) {
        self.plan_step(Step::Record(Record::CloseOfDay { time: tables.time() }));
    }

    /// A default that nobody can take over, in a fresh ledger: a member gives a quarter its reference price by meeting its
    /// own order, buys it from another who sells the months, and both default.
    pub fn plan_no_taker(&mut self, random: &mut Random, tables: &Tables) {
        let open = tables.calendar().open_contracts(tables.day() as i64);
        let is_whole = |c: &Contract| c.kind == Kind::Quarter && c.parts().iter().all(|month| open.contains(month));
        let Some(quarter) = open.iter().copied().find(is_whole) else {
            return;
        };
        let (time, price, members) = (tables.time(), self.price, tables.members());
        let (buyer, seller) = (random.below(members), random.below(members));
        let threshold = quarter.kind.threshold();
        let order = |contract: Contract, side, member, lots| {
            let (contract, kind) = (contract.number(), OrderKind::Resting);
            Step::Record(Record::Submit(Submit { time, member, contract, side, kind, price, lots }))
        };
        let leg = |contract: Contract, side, member| {
            let (contract, order_price, order_lots, lots) = (contract.number(), price, 1, 1);
            PlannedLeg { contract, side, member, order_price, order_lots, lots, price }
        };
        let mut legs = vec![leg(quarter, Side::Buy, buyer)];
        legs.extend(quarter.parts().into_iter().map(|month| leg(month, Side::Sell, seller)));
        self.plan_step(order(quarter, Side::Sell, buyer, threshold));
        self.plan_step(order(quarter, Side::Buy, buyer, threshold));
        self.plan_step(order(quarter, Side::Buy, buyer, 1));
        quarter.parts().into_iter().for_each(|month| self.plan_step(order(month, Side::Sell, seller, 1)));
        self.plan_step(Step::Propose(legs));
        self.plan_step(Step::Record(Record::CloseOfDay { time }));
        self.plan_step(Step::Record(Record::Default { member: buyer }));
        self.plan_step(Step::Record(Record::Default { member: seller }));
        self.plan_step(Step::Record(Record::CloseOut { contract: quarter.number(), ratio: random.between(1, 1000) }));
    }

    /// Many small orders on one side, then one that meets them all, one fewer or one more.
    fn plan_ladder(&mut self, random: &mut Random, tables: &Tables) {
        let contract = self.contract(random);
        let side = random.pick(&[Side::Buy, Side::Sell]);
        let count = random.pick(&[3, 10, 100, 100, 101]);
        let mut time = tables.time();
        for _ in 0..count {
            time = (time + random.below(2)).min(LAST_SECOND);
            let member = self.member(random, tables);
            let (price, kind) = (self.near_price(random), OrderKind::Resting);
            self.plan_step(Step::Record(Record::Submit(Submit { time, member, contract, side, kind, price, lots: 1 })));
        }
        let price = (self.price as i64 - side.signed(self.spread)).clamp(1, MOST_PRICE as i64) as u64;
        let kind = random.pick(&[OrderKind::Resting, OrderKind::Oeye, OrderKind::Teye]);
        let lots = (count + random.below(3)).clamp(2, MOST_LOTS + 1) - 1;
        let (member, side) = (self.member(random, tables), side.other());
        let time = (time + 1).min(LAST_SECOND);
        self.plan_step(Step::Record(Record::Submit(Submit { time, member, contract, side, kind, price, lots })));
    }

    /// Any bytes, or a record with its bytes altered.
    fn junk(&self, random: &mut Random, tables: &Tables) -> Vec<u8> {
        if random.percent(40) {
            let length = random.pick(&[0, 1, 2, 4, 5, 10, 15, 22, 130]);
            let mut bytes: Vec<u8> = (0..length).map(|_| random.draw() as u8).collect();
            if let Some(kind) = bytes.first_mut() {
                *kind %= 10;
            }
            return bytes;
        }
        let record = match random.below(6) {
            0 => self.cancel(random, tables),
            1 => self.day_limits(random, tables),
            2 => self.any_proposal(random, tables),
            3 => self.close_out(random, tables),
            4 => self.close(random, tables),
            _ => self.submit(random, tables),
        };
        let mut bytes = record.bytes();
        alter(random, &mut bytes);
        bytes
    }
}

/// Cuts, lengthens or changes some bytes.
pub fn alter(random: &mut Random, bytes: &mut Vec<u8>) {
    let at = random.below(bytes.len() as u64) as usize;
    match random.below(6) {
        0 => bytes.truncate(at),
        1 => drop(bytes.pop()),
        2 => bytes.push(random.draw() as u8),
        3 => bytes[at] = bytes[at].wrapping_add(random.pick(&[1, 255])),
        4 => bytes[at] = random.pick(&[0, 255]),
        _ => bytes[at] = random.draw() as u8,
    }
}
