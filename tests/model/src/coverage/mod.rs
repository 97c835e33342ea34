//! Which refusals and which edges a run has met, found from the tables before and after each call.
mod close_of_day;
mod close_out;
mod proposal;
mod submit;

use crate::answer::{told, Answer};
use crate::generate::Call;
use crate::record::Record;
use crate::tables::*;
use std::collections::BTreeMap;

/// Records from which on a run has to meet every refusal and every edge.
pub const LONG_RUN: u64 = 400_000;

#[derive(Default)]
pub struct Coverage {
    /// by number; 0 is accepted
    pub answers: [u64; 19],
    edges: BTreeMap<&'static str, u64>,
}

/// Every edge that a long run has to meet. A number in brackets is the answer that comes with it; the others come with
/// accepted records. 'Only' stands for a proposal that would be accepted but for that.
pub static EDGES: [&str; 126] = [
    "ledger made",
    // Matching
    "submit: a limit met exactly, buy",
    "submit: a limit met exactly, sell",
    "submit: one more than the limit, buy (9)",
    "submit: one more than the limit, sell (9)",
    "submit: the last of 256 places",
    "submit: rests in a full book after its deals",
    "submit: one deal",
    "submit: 10 deals or more",
    "submit: 100 deals (200 lines)",
    "submit: TEYE that just fills",
    "submit: TEYE that misses by one lot (10)",
    "submit: OEYE that meets nothing",
    "submit: OEYE that drops a rest",
    "submit: own order met",
    "submit: equal prices, lower number at an earlier place",
    "submit: equal prices, lower number at a later place",
    "submit: a sell against buys",
    "submit: a buy against sells",
    "submit: remainder behind orders that go",
    "submit: lots run ends at 5,000,000",
    "submit: lots run one past 5,000,000 (17)",
    "submit: count ends at 4,000,000,000",
    "submit: count past 4,000,000,000 (17)",
    "submit: fifth in a second",
    "submit: a later second after five",
    "submit: a book with orders of closed contracts",
    "submit: meets an order of a defaulted member",
    // cancel, day limits, default
    "cancel: first of several orders",
    "cancel: of a defaulted member's order",
    "day limits: an order rests outside them",
    "default: several orders go",
    // Synthetic matching
    "proposal: 1 leg (3)",
    "proposal: 2 legs (13)",
    "proposal: 3 legs (13)",
    "proposal: 4 legs",
    "proposal: 5 legs",
    "proposal: 6 legs",
    "proposal: 7 legs",
    "proposal: 8 legs",
    "proposal: 9 legs",
    "proposal: 10 legs",
    "proposal: 11 legs",
    "proposal: 12 legs",
    "proposal: 13 legs (3)",
    "proposal: a year against four quarters",
    "proposal: a quarter against three months",
    "proposal: a year against quarters and months",
    "proposal: a year against twelve months, 13 legs (3)",
    "proposal: two quarters crossed through months",
    "proposal: lots balanced and value not, only (13)",
    "proposal: value balanced and lots not, only (13)",
    "proposal: the same order twice, only (13)",
    "proposal: numbers that fall, only (13)",
    "proposal: an order that does not rest (13)",
    "proposal: more lots than its order, only (13)",
    "proposal: better priority by price, in full",
    "proposal: better priority by number, in full",
    "proposal: better priority by price, one lot short, only (13)",
    "proposal: better priority by number, one lot short, only (13)",
    "proposal: better priority and no leg, only (13)",
    "proposal: a leg of the whole order",
    "proposal: a leg of part of an order",
    "proposal: orders of one member only (13)",
    "proposal: one contract only (13)",
    "proposal: a buy above its order's price, only (13)",
    "proposal: a sell below its order's price, only (13)",
    "proposal: a buy below the low, only (13)",
    "proposal: a sell above the high, only (13)",
    "proposal: a buy at the low",
    "proposal: a sell at the high",
    "proposal: legs at different prices in a contract",
    "proposal: orders of a contract that cross",
    "proposal: an order of a contract that is not open",
    "proposal: lots run ends at 5,000,000",
    "proposal: lots run one past 5,000,000 (17)",
    // Default
    "close-out: L = 0 after netting",
    "close-out: netting and takers",
    "close-out: a member takes part in both steps",
    "close-out: longs remain",
    "close-out: shorts remain",
    "close-out: 16 in a ledger that began fresh",
    "close-out: by days",
    "close-out: by lots here",
    "close-out: 1000 L exactly ratio times t",
    "close-out: ratio 1",
    "close-out: ratio 1,000",
    "close-out: ties in minimum and weight",
    "close-out: a tie in minimum, weights apart",
    "close-out: a taker whose minimum is 0",
    "close-out: a minimum that is not reached",
    "close-out: a minimum above 0 and no lot",
    "close-out: one taker",
    "close-out: 31 takers",
    "close-out: weights by days where a member holds nothing here",
    "close-out: L of 100,000 or more",
    "close-out: rows do not sum to zero",
    "close-out: lots run ends at 5,000,000",
    "close-out: lots run one past 5,000,000 (17)",
    // Close of day
    "close: M at the threshold, year",
    "close: M at the threshold, quarter",
    "close: M at the threshold, month",
    "close: M one below the threshold with quotes, year",
    "close: M one below the threshold with quotes, quarter",
    "close: M one below the threshold with quotes, month",
    "close: M = 0 with quotes",
    "close: former reference price",
    "close: exactly a half, deals",
    "close: exactly a half, deals and quotes",
    "close: exactly a half, quotes",
    "close: a GGF of 1",
    "close: a GGF of 1,000,000",
    "close: a quote of exactly 300 s",
    "close: a quote of 299 s",
    "close: a quote from an earlier day, later in the clock",
    "close: a quote of the threshold's lots",
    "close: one lot below the threshold is no quote",
    "close: a year",
    "close: a year, a quarter of the year before it and a month on one evening",
    "close: two quarters with six months on one evening",
    "close: lots that net to zero and value that does not",
    "close: orders of several contracts go",
    "close: first year 2020, whose first contracts closed before day 0",
    "close: to the last business day of the span",
    "close: the last business day of the span (18)",
    "close: leaves a lent table damaged",
];

/// A call that answered, with the tables before and after it.
struct Seen<'a> {
    before: &'a Tables,
    after: &'a Tables,
    number: u64,
    /// lines, member or contract
    detail: u64,
    began_fresh: bool,
}

impl Seen<'_> {
    fn lines(&self) -> impl Iterator<Item = Line> + '_ {
        let count = if self.number == 0 { self.detail as usize } else { 0 };
        (0..count).map(|place| self.after.line(place))
    }
}

impl Coverage {
    pub fn observe(&mut self, before: &Tables, call: &Call, answer: Answer, after: &Tables) {
        let (number, detail) = told(answer);
        self.answers[number as usize] += 1;
        match *call {
            Call::Make(_) => self.met("ledger made", number == 0),
            Call::Apply { .. } if number == 1 => {}
            Call::Apply { record, began_fresh } => {
                let seen = Seen { before, after, number, detail, began_fresh };
                match Record::read(before.members(), record) {
                    Ok(record) => self.observe_record(&record, &seen),
                    Err(_) => self.legs_out_of_range(record, &seen),
                }
            }
        }
    }

    pub fn count(&self, edge: &str) -> u64 {
        self.edges.get(edge).copied().unwrap_or(0)
    }

    /// The answers and edges that were not met, in words.
    pub fn unmet(&self) -> Vec<String> {
        let answers =
            (0..).zip(&self.answers).filter(|(_, count)| **count == 0).map(|(n, _): (u64, _)| format!("answer {n}"));
        let edges = EDGES.iter().filter(|edge| self.count(edge) == 0).map(|edge| edge.to_string());
        answers.chain(edges).collect()
    }

    fn met(&mut self, edge: &'static str, holds: bool) {
        debug_assert!(EDGES.contains(&edge), "{edge}");
        if holds {
            *self.edges.entry(edge).or_default() += 1;
        }
    }

    fn observe_record(&mut self, record: &Record, seen: &Seen) {
        let accepted = seen.number == 0;
        match record {
            Record::Submit(submit) => self.submit(submit, seen),
            Record::Cancel { member, number, .. } if accepted => self.cancel(*member, *number, seen.before),
            Record::DayLimits { contract, low, high } if accepted => {
                let outside = |order: Order| order.contract == *contract && !(low..=high).contains(&&order.price);
                self.met("day limits: an order rests outside them", seen.before.orders().any(outside));
            }
            Record::Proposal { legs } => self.proposal(legs, seen),
            Record::Default { .. } if accepted => {
                let gone = seen.before.order_count() - seen.after.order_count();
                self.met("default: several orders go", gone > 1);
            }
            Record::CloseOut { contract, ratio } => self.close_out(*contract, *ratio, seen),
            Record::CloseOfDay { time } => self.close_of_day(*time, seen),
            _ => {}
        }
    }

    fn cancel(&mut self, member: u64, number: u64, before: &Tables) {
        let is_first = before.order_count() > 1 && before.order(0).number == number;
        self.met("cancel: first of several orders", is_first);
        self.met("cancel: of a defaulted member's order", before.is_defaulted(member));
    }
}
