//! Edges of a close-out.
use super::{Coverage, Seen};
use crate::close_out::{minimums, weights, Share};
use crate::tables::*;

impl Coverage {
    pub(super) fn close_out(&mut self, contract: u64, ratio: u64, seen: &Seen) {
        let &Seen { before, after, number, .. } = seen;
        let members = 0..before.members();
        let held = |member| before.lots(contract, member);
        self.met("close-out: 16 in a ledger that began fresh", number == 16 && seen.began_fresh);
        let remaining: i64 = members.clone().filter(|&m| before.is_defaulted(m)).map(held).sum();
        let all: i64 = members.clone().filter(|&m| before.is_defaulted(m)).map(|m| held(m).abs()).sum();
        let lots = remaining.unsigned_abs();
        // Step 1's lines have the netted lots of both sides, step 2's the lots given up and those taken.
        let run_after = before.run() + (all as u64 - lots) + 2 * lots;
        self.met("close-out: lots run one past 5,000,000 (17)", number == 17 && run_after == MOST_RUN + 1);
        if number != 0 {
            return;
        }
        self.met("close-out: L = 0 after netting", lots == 0);
        self.met("close-out: rows do not sum to zero", members.clone().map(held).sum::<i64>() != 0);
        self.met("close-out: lots run ends at 5,000,000", after.run() == MOST_RUN);
        if lots == 0 {
            return;
        }
        let defaulted = || members.clone().filter(|&m| before.is_defaulted(m));
        let netting = defaulted().any(|m| held(m) > 0) && defaulted().any(|m| held(m) < 0);
        let lines_of = |member| seen.lines().filter(|line| line.member == member).count();
        self.met("close-out: netting and takers", netting);
        self.met("close-out: a member takes part in both steps", defaulted().any(|m| lines_of(m) == 2));
        self.met("close-out: longs remain", remaining > 0);
        self.met("close-out: shorts remain", remaining < 0);
        self.met("close-out: ratio 1", ratio == 1);
        self.met("close-out: ratio 1,000", ratio == 1000);
        self.met("close-out: L of 100,000 or more", lots >= 100_000);
        let total: u64 = members.filter(|&m| !before.is_defaulted(m)).map(|m| held(m).unsigned_abs()).sum();
        let by_days = 1000 * lots >= ratio * total;
        self.met("close-out: by days", by_days);
        self.met("close-out: by lots here", !by_days);
        self.met("close-out: 1000 L exactly ratio times t", 1000 * lots == ratio * total);
        self.takers(contract, lots, by_days, &weights(before, contract, lots, ratio), seen);
    }

    fn takers(&mut self, contract: u64, lots: u64, by_days: bool, weights: &[Share], seen: &Seen) {
        struct Taker {
            weight: u64,
            minimum: u64,
            received: u64,
            held: i64,
        }
        let received =
            |member| seen.lines().find(|line| line.member == member).map_or(0, |line| line.lots.unsigned_abs());
        let taker = |(share, minimum): (&Share, u64)| {
            let (received, held) = (received(share.member), seen.before.lots(contract, share.member));
            Taker { weight: share.lots, minimum, received, held }
        };
        let takers: Vec<Taker> = weights.iter().zip(minimums(weights, lots)).map(taker).collect();
        let pairs = || takers.iter().enumerate().flat_map(|(place, a)| takers[..place].iter().map(move |b| (a, b)));
        let tied = |a: &Taker, b: &Taker| a.minimum == b.minimum && a.minimum > 0;
        self.met("close-out: ties in minimum and weight", pairs().any(|(a, b)| tied(a, b) && a.weight == b.weight));
        self.met(
            "close-out: a tie in minimum, weights apart",
            pairs().any(|(a, b)| tied(a, b) && a.weight != b.weight),
        );
        self.met("close-out: a taker whose minimum is 0", takers.iter().any(|taker| taker.minimum == 0));
        let unreached = |taker: &&Taker| taker.received < taker.minimum;
        self.met("close-out: a minimum that is not reached", takers.iter().any(|taker| unreached(&taker)));
        self.met("close-out: a minimum above 0 and no lot", takers.iter().filter(unreached).any(|t| t.received == 0));
        let count = takers.iter().filter(|taker| taker.received > 0).count();
        self.met("close-out: one taker", count == 1);
        self.met("close-out: 31 takers", count == 31);
        let from_elsewhere = by_days && takers.iter().any(|taker| taker.held == 0 && taker.received > 0);
        self.met("close-out: weights by days where a member holds nothing here", from_elsewhere);
    }
}
