//! load [SUBMITS]: the time of Change 14's load at 2, 8 and 32 members and of single records, in the model and, with
//! the feature `c_engine`, in the proved library: both in this process, in turn, the least of many rounds.
use model::apply::apply;
use model::damage::is_damaged;
use model::load::{calls, fresh, submits, Call};
use model::tables::Tables;
use std::hint::black_box;
use std::time::{Duration, Instant};

/// Submits to one fresh ledger.
const RUN: u64 = 10_000;
const ROUNDS: usize = 5;
/// How often a single record is applied.
const REPEATS: usize = 2000;

type Side = fn(&mut Tables, &[u8]);

const APPLY: &[Side] = &[
    |tables, record| _ = black_box(apply(tables, record)),
    #[cfg(feature = "c_engine")]
    |tables, record| _ = black_box(model::engine_c::apply(tables, record)),
];
const IS_DAMAGED: &[Side] = &[
    |tables, _| _ = black_box(is_damaged(tables)),
    #[cfg(feature = "c_engine")]
    |tables, _| _ = black_box(model::engine_c::is_damaged(tables)),
];

/// The least time of each side.
type Least = Vec<Duration>;

fn least(sides: &[Side], rounds: usize, timed: impl Fn(Side) -> Duration) -> Least {
    let mut least = vec![Duration::MAX; sides.len()];
    for _ in 0..rounds {
        for (least, &side) in least.iter_mut().zip(sides) {
            *least = timed(side).min(*least);
        }
    }
    least
}

fn timed_run(start: &Tables, records: &[Vec<u8>], side: Side) -> Duration {
    let mut tables = start.clone();
    let before = Instant::now();
    records.iter().for_each(|record| side(&mut tables, record));
    before.elapsed()
}

fn print(name: &str, calls: u64, least: &Least) {
    let each: Vec<f64> = least.iter().map(|time| time.as_nanos() as f64 / calls as f64).collect();
    print!("{name}: model {:.0} ns", each[0]);
    match each.get(1) {
        Some(library) => println!(", library {library:.0} ns, ratio {:.2}", library / each[0]),
        None => println!(),
    }
}

fn print_load(members: u64, count: u64) {
    let start = fresh(members);
    let mut sum = vec![Duration::ZERO; APPLY.len()];
    for run in 1..=count.div_ceil(RUN) {
        let records = submits(members, RUN, run * 0x9e37_79b9);
        let least = least(APPLY, ROUNDS, |side| timed_run(&start, &records, side));
        sum.iter_mut().zip(least).for_each(|(sum, time)| *sum += time);
    }
    print(&format!("{members} members, a submit of the load"), count.div_ceil(RUN) * RUN, &sum);
}

fn least_of_call(sides: &[Side], tables: &Tables, record: &[u8]) -> Least {
    let records = [record.to_vec()];
    least(sides, REPEATS, |side| timed_run(tables, &records, side))
}

/// The whole call, and what it takes beyond the damage test of the same tables.
fn print_call(members: u64, Call { name, tables, bytes, refusal }: &Call) {
    let whole = least_of_call(APPLY, tables, bytes);
    let damage = least_of_call(IS_DAMAGED, tables, bytes);
    let beyond = whole.iter().zip(&damage).map(|(whole, damage)| whole.saturating_sub(*damage)).collect();
    let refused = refusal.map_or(String::new(), |refusal| format!(" (refused {})", refusal.number()));
    print(&format!("{members} members, full book, {name}{refused}"), 1, &whole);
    print("  beyond the damage test", 1, &beyond);
}

fn main() {
    let count = std::env::args().nth(1).and_then(|count| count.parse().ok()).unwrap_or(1_000_000);
    for members in [2, 8, 32] {
        print_load(members, count);
        let calls = calls(members);
        for (book, tables) in [("empty", &fresh(members)), ("full", &calls[0].tables)] {
            let damage = least_of_call(IS_DAMAGED, tables, &[]);
            print(&format!("{members} members, {book} book, damage test alone"), 1, &damage);
        }
        calls.iter().for_each(|call| print_call(members, call));
    }
}
