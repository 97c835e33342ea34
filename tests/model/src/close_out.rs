//! Close-out of defaulted positions at the reference price.
use crate::answer::{refuse_if, Answer, Refusal};
use crate::apply::is_open;
use crate::tables::*;

/// Lots of a member, without sign.
#[derive(Clone, Copy, Debug, PartialEq, Eq)]
pub struct Share {
    pub member: u64,
    pub lots: u64,
}

fn total(shares: &[Share]) -> u64 {
    shares.iter().map(|share| share.lots).sum()
}

pub fn close_out(tables: &mut Tables, contract: u64, ratio: u64) -> Answer {
    is_open(tables, contract)?;
    let price = tables.price(contract, GGF);
    refuse_if(price == 0, Refusal::NoReferencePrice)?;
    let longs = defaulted(tables, contract, Side::Buy);
    let shorts = defaulted(tables, contract, Side::Sell);
    refuse_if(longs.is_empty() && shorts.is_empty(), Refusal::NoDefaultedLots)?;

    let netted = total(&longs).min(total(&shorts));
    let (netted_longs, longs) = taken_lowest_first(&longs, netted);
    let (netted_shorts, shorts) = taken_lowest_first(&shorts, netted);
    let (remaining, side) = if longs.is_empty() { (shorts, Side::Sell) } else { (longs, Side::Buy) };
    let lots = total(&remaining);
    let weights = weights(tables, contract, lots, ratio);
    let total_weight: u64 = weights.iter().map(|share| share.lots).sum();
    refuse_if(lots > 0 && total_weight == 0, Refusal::NoWeight)?;
    refuse_if(passes_run(tables, 2 * netted + 2 * lots), Refusal::CountsPassed)?;

    let line =
        |side: Side| move |&Share { member, lots }: &Share| Line { member, contract, lots: side.signed(lots), price };
    let mut lines: Vec<Line> = netted_longs.iter().map(line(Side::Sell)).collect();
    lines.extend(netted_shorts.iter().map(line(Side::Buy)));
    lines.sort_by_key(|line| line.member);
    lines.extend(remaining.iter().map(line(side.other())));
    if lots > 0 {
        lines.extend(received(&weights, lots).iter().map(line(side)));
    }
    Ok(tables.book_lines(&lines))
}

/// The defaulted members that are long, or short, with their lots.
fn defaulted(tables: &Tables, contract: u64, side: Side) -> Vec<Share> {
    let sign = side.signed(1);
    let defaulted = (0..tables.members()).filter(|&member| tables.is_defaulted(member));
    let share = |member| (member, sign * tables.lots(contract, member));
    defaulted
        .map(share)
        .filter(|&(_, lots)| lots > 0)
        .map(|(member, lots)| Share { member, lots: lots as u64 })
        .collect()
}

/// What the members give up of `lots`, lowest first, and what they keep; members with nothing left out of both.
fn taken_lowest_first(shares: &[Share], mut lots: u64) -> (Vec<Share>, Vec<Share>) {
    let (mut taken, mut kept) = (Vec::new(), Vec::new());
    for &Share { member, lots: held } in shares {
        let part = held.min(lots);
        lots -= part;
        taken.push(Share { member, lots: part });
        kept.push(Share { member, lots: held - part });
    }
    taken.retain(|share| share.lots > 0);
    kept.retain(|share| share.lots > 0);
    (taken, kept)
}

/// The other members' weights: by days over all open contracts where the remaining lots are many, else by lots here.
pub fn weights(tables: &Tables, contract: u64, lots: u64, ratio: u64) -> Vec<Share> {
    let others = || (0..tables.members()).filter(|&member| !tables.is_defaulted(member));
    let here: Vec<Share> =
        others().map(|member| Share { member, lots: tables.lots(contract, member).unsigned_abs() }).collect();
    if 1000 * lots < ratio * total(&here) {
        return here;
    }
    let calendar = tables.calendar();
    let open: Vec<(u64, u64)> = calendar
        .open_contracts(tables.day() as i64)
        .into_iter()
        .map(|contract| (contract.number(), calendar.days(contract)))
        .collect();
    let weight = |member| open.iter().map(|&(open, days)| days * tables.lots(open, member).unsigned_abs()).sum();
    others().map(|member| Share { member, lots: weight(member) }).collect()
}

/// The least lots of each weight: its part of `lots`, rounded up.
pub fn minimums(weights: &[Share], lots: u64) -> Vec<u64> {
    let all: u64 = total(weights);
    weights.iter().map(|share| (lots as u128 * share.lots as u128).div_ceil(all as u128) as u64).collect()
}

/// What each member receives of `lots`, by member; members that receive nothing are left out.
fn received(weights: &[Share], lots: u64) -> Vec<Share> {
    let mut takers: Vec<(u64, &Share)> = minimums(weights, lots).into_iter().zip(weights).collect();
    takers.sort_by_key(|&(minimum, share)| (u64::MAX - minimum, u64::MAX - share.lots, share.member));
    let minimums: Vec<u64> = takers.iter().map(|&(minimum, _)| minimum).collect();
    let turns = lots_in_turns(&minimums, lots);
    let mut received: Vec<Share> =
        takers.iter().zip(turns).map(|(&(_, share), lots)| Share { member: share.member, lots }).collect();
    received.retain(|share| share.lots > 0);
    received.sort_by_key(|share| share.member);
    received
}

/// One lot each in turn, never past the minimum, until the lots are gone: all rounds that can be given whole, then one
/// lot each to the first of those whose minimum is not reached.
fn lots_in_turns(minimums: &[u64], lots: u64) -> Vec<u64> {
    let after = |rounds: u64| minimums.iter().map(|&minimum| minimum.min(rounds)).sum::<u64>();
    let (mut whole, mut too_many) = (0, lots + 1);
    while too_many - whole > 1 {
        let middle = (whole + too_many) / 2;
        if after(middle) <= lots {
            whole = middle;
        } else {
            too_many = middle;
        }
    }
    let mut rest = lots - after(whole);
    let turn = |&minimum: &u64| {
        let one_more = (minimum > whole && rest > 0) as u64;
        rest -= one_more;
        minimum.min(whole) + one_more
    };
    minimums.iter().map(turn).collect()
}

#[cfg(test)]
mod tests {
    use super::*;

    /// The paper's turns, walked lot by lot.
    fn walked(minimums: &[u64], mut lots: u64) -> Vec<u64> {
        let mut received = vec![0; minimums.len()];
        while lots > 0 {
            for (received, &minimum) in received.iter_mut().zip(minimums) {
                if *received < minimum && lots > 0 {
                    *received += 1;
                    lots -= 1;
                }
            }
        }
        received
    }

    #[test]
    fn case_of_the_paper() {
        let weights: Vec<Share> =
            [890, 435, 580, 310].iter().zip(0..).map(|(&lots, member)| Share { member, lots }).collect();
        let lots: Vec<u64> = received(&weights, 10).iter().map(|share| share.lots).collect();
        assert_eq!(lots, [3, 2, 3, 2]);
    }

    #[test]
    fn whole_rounds_are_the_turns() {
        let mut random = crate::generate::random::Random::new(7);
        for _ in 0..2000 {
            let mut minimums: Vec<u64> = (0..random.between(1, 8)).map(|_| random.between(0, 30)).collect();
            minimums.sort_unstable_by(|a, b| b.cmp(a));
            let lots = random.between(0, minimums.iter().sum());
            assert_eq!(lots_in_turns(&minimums, lots), walked(&minimums, lots), "{minimums:?} {lots}");
        }
    }
}
