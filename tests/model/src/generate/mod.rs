//! Seeded runs of calls that reach every refusal and the edges of every kind of record. A run is a row of episodes: a
//! ledger made from a header, left fresh or filled with sound but odd content, and records drawn for what it holds.
mod harm;
mod headers;
mod lent;
mod market;
mod plans;
pub mod random;

use crate::header::Header;
use crate::tables::*;
use market::Market;
use random::Random;

pub enum Call<'a> {
    Make(&'a [u8]),
    /// `began_fresh`: the tables stand as calls left them since the ledger was made.
    Apply {
        record: &'a [u8],
        began_fresh: bool,
    },
}

/// Drives `call` with about so many records, until it stops the run with an error. A call has to change the tables as
/// the paper says: the next record is drawn for what they hold.
pub fn run<E>(seed: u64, records: u64, mut call: impl FnMut(&mut Tables, Call) -> Result<(), E>) -> Result<(), E> {
    let mut random = Random::new(seed);
    let mut applied = 0;
    while applied < records {
        let mut tables = soiled(&mut random);
        let header = headers::header(&mut random);
        make_calls(&mut random, &mut tables, &header, &mut call)?;
        let mut market = Market::draw(&mut random);
        let is_lent = random.percent(75);
        if is_lent {
            lent::fill(&mut random, &mut tables, &mut market);
        } else if random.percent(15) {
            market.plan_no_taker(&mut random, &tables);
        }
        if random.percent(15) {
            market.plan_close(&tables);
        }
        let most = if is_lent { 60 } else { random.pick(&[100, 300, 700]) };
        let length = random.between(1, most);
        for _ in 0..length {
            let bytes = market.record(&mut random, &tables);
            if random.percent(3) {
                let mut harmed = tables.clone();
                harm::harm(&mut random, &mut harmed);
                call(&mut harmed, Call::Apply { record: &bytes, began_fresh: false })?;
                applied += 1;
            }
            if random.percent(5) {
                tables.lines.iter_mut().for_each(|place| *place = random.draw() as i64);
            }
            call(&mut tables, Call::Apply { record: &bytes, began_fresh: !is_lent })?;
            applied += 1;
        }
    }
    Ok(())
}

/// Making the ledger, at times after calls with an unsound header or a short table.
fn make_calls<E>(
    random: &mut Random,
    tables: &mut Tables,
    header: &Header,
    call: &mut impl FnMut(&mut Tables, Call) -> Result<(), E>,
) -> Result<(), E> {
    let mut bytes = header.bytes();
    if random.percent(20) {
        let mut wrong = if random.percent(50) { headers::wrong(random, header).bytes() } else { bytes.clone() };
        if random.percent(50) {
            market::alter(random, &mut wrong);
        }
        call(&mut tables.clone(), Call::Make(&wrong))?;
    }
    if random.percent(5) {
        let mut short = tables.clone();
        harm::shorten(random, &mut short);
        call(&mut short, Call::Make(&bytes))?;
    }
    if random.percent(30) {
        bytes.extend((0..random.below(9)).map(|_| random.draw() as u8));
    }
    call(tables, Call::Make(&bytes))
}

/// Tables of the least length or a little longer, with any content.
fn soiled(random: &mut Random) -> Tables {
    let mut length = |least: usize| least + if random.percent(70) { 0 } else { random.below(9) as usize };
    let [head, prices, lots, value, book, lines] = [HEAD, PRICES, ROWS, ROWS, BOOK, LINES].map(&mut length);
    let mut signed = |length| (0..length).map(|_| random.draw() as i64).collect::<Vec<_>>();
    let [lots, value, lines] = [lots, value, lines].map(&mut signed);
    let mut plain = |length| (0..length).map(|_| random.draw()).collect::<Vec<_>>();
    let [head, prices, book] = [head, prices, book].map(&mut plain);
    Tables { head, prices, lots, value, book, lines }
}
