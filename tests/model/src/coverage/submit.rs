//! Edges of a submit.
use super::{Coverage, Seen};
use crate::contract::Contract;
use crate::record::{OrderKind, Submit};
use crate::tables::*;

impl Coverage {
    pub(super) fn submit(&mut self, submit: &Submit, seen: &Seen) {
        let &Seen { before, after, number, .. } = seen;
        let is_own = |o: &Order| (o.member, o.contract, o.side) == (submit.member, submit.contract, submit.side);
        let resting: u64 = before.orders().filter(is_own).map(|order| order.lots).sum();
        let towards = submit.side.signed(1) * before.lots(submit.contract, submit.member);
        let past = towards + (resting + submit.lots) as i64 - before.limit(submit.member) as i64;
        let side = submit.side.other();
        let meets = |o: &Order| o.contract == submit.contract && o.side == side && !side.better(submit.price, o.price);
        let crossing: u64 = before.orders().filter(meets).map(|order| order.lots).sum();
        let run_after = before.run() + 2 * crossing.min(submit.lots);
        let count_is_full = before.head[ACCEPTED] == MOST_ACCEPTED;
        let is_buy = submit.side == Side::Buy;
        self.met("submit: one more than the limit, buy (9)", number == 9 && past == 1 && is_buy);
        self.met("submit: one more than the limit, sell (9)", number == 9 && past == 1 && !is_buy);
        self.met("submit: TEYE that misses by one lot (10)", number == 10 && crossing + 1 == submit.lots);
        self.met("submit: lots run one past 5,000,000 (17)", number == 17 && run_after == MOST_RUN + 1);
        self.met("submit: count past 4,000,000,000 (17)", number == 17 && count_is_full);
        if number != 0 {
            return;
        }
        self.met("submit: a limit met exactly, buy", past == 0 && is_buy);
        self.met("submit: a limit met exactly, sell", past == 0 && !is_buy);
        self.met("submit: TEYE that just fills", submit.kind == OrderKind::Teye && crossing == submit.lots);
        self.met("submit: OEYE that meets nothing", submit.kind == OrderKind::Oeye && crossing == 0);
        let drops = submit.kind == OrderKind::Oeye && crossing > 0 && crossing < submit.lots;
        self.met("submit: OEYE that drops a rest", drops);
        self.met("submit: fifth in a second", after.submits(submit.member) == MOST_SUBMITS);
        let was_fifth = before.submits(submit.member) == MOST_SUBMITS;
        self.met("submit: a later second after five", was_fifth && submit.time > before.time());
        self.met("submit: count ends at 4,000,000,000", after.head[ACCEPTED] == MOST_ACCEPTED);
        let rests = after.orders().any(|order| order.number == before.head[ACCEPTED]);
        self.met("submit: the last of 256 places", rests && after.head[ORDER_COUNT] == MOST_ORDERS);
        self.met("submit: rests in a full book after its deals", rests && before.head[ORDER_COUNT] == MOST_ORDERS);
        if seen.detail > 0 {
            self.deals(submit, seen);
        }
    }

    fn deals(&mut self, submit: &Submit, seen: &Seen) {
        let &Seen { before, after, detail: lines, .. } = seen;
        self.met("submit: one deal", lines == 2);
        self.met("submit: 10 deals or more", lines >= 20);
        self.met("submit: 100 deals (200 lines)", lines == 200);
        self.met("submit: a sell against buys", submit.side == Side::Sell);
        self.met("submit: a buy against sells", submit.side == Side::Buy);
        self.met("submit: lots run ends at 5,000,000", after.run() == MOST_RUN);
        let others: Vec<u64> = seen.lines().skip(1).step_by(2).map(|line| line.member).collect();
        self.met("submit: own order met", others.contains(&submit.member));
        let defaulted = others.iter().any(|&member| before.is_defaulted(member));
        self.met("submit: meets an order of a defaulted member", defaulted);
        let calendar = before.calendar();
        let is_closed = |o: Order| calendar.closing_day(Contract::numbered(o.contract)) < before.day() as i64;
        self.met("submit: a book with orders of closed contracts", before.orders().any(is_closed));
        let cut = |place: usize| {
            let order = after.order(place);
            before.orders().position(|former| former.number == order.number && former.lots != order.lots)
        };
        let moved = (0..after.order_count()).any(|place| cut(place).is_some_and(|former| former > place));
        self.met("submit: remainder behind orders that go", moved);
        let gone: Vec<Order> = before.orders().filter(|o| after.orders().all(|kept| kept.number != o.number)).collect();
        let pairs = || gone.windows(2).filter(|pair| pair[0].price == pair[1].price);
        let in_turn = pairs().any(|pair| pair[0].number < pair[1].number);
        self.met("submit: equal prices, lower number at an earlier place", in_turn);
        let inverted = pairs().any(|pair| pair[0].number > pair[1].number);
        self.met("submit: equal prices, lower number at a later place", inverted);
    }
}
