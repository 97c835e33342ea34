//! compare SEED RECORDS: applies generated records and prints how often each answer and each edge came. With the
//! feature `c_engine` the proved library gets the same calls; the run stops at the first difference. It fails where the
//! library was not called as often as the model, so always without the feature. A run of 400,000 records or more fails
//! too where it does not meet every answer and every edge.
use model::answer::{told, Answer};
use model::apply::apply;
use model::coverage::{Coverage, EDGES, LONG_RUN};
use model::damage::is_damaged;
use model::generate::{run, Call};
use model::make::make;
use model::tables::Tables;
use model::text::{ledger, to_hex};
use std::process::ExitCode;

fn modelled(tables: &mut Tables, call: &Call) -> Answer {
    match call {
        Call::Make(bytes) => make(tables, bytes),
        Call::Apply { record, .. } => apply(tables, record),
    }
}

/// The library's answer; its damage test has to agree with it.
#[cfg(feature = "c_engine")]
fn proved(tables: &mut Tables, call: &Call) -> Option<(u64, u64)> {
    use model::engine_c;
    match call {
        Call::Make(bytes) => Some(engine_c::make(tables, bytes)),
        Call::Apply { record, .. } => {
            let is_damaged = engine_c::is_damaged(tables);
            let answer = engine_c::apply(tables, record);
            assert_eq!(is_damaged, answer.0 == 1, "ledger_is_damaged and ledger_apply differ");
            Some(answer)
        }
    }
}

#[cfg(not(feature = "c_engine"))]
fn proved(_: &mut Tables, _: &Call) -> Option<(u64, u64)> {
    None
}

/// How often the library was called.
fn library_calls() -> u64 {
    #[cfg(feature = "c_engine")]
    return model::engine_c::calls();
    #[cfg(not(feature = "c_engine"))]
    0
}

/// The first place of a table on which the two differ.
fn difference(ours: &Tables, theirs: &Tables) -> Option<String> {
    fn first<T: PartialEq + std::fmt::Display>(name: &str, ours: &[T], theirs: &[T]) -> Option<String> {
        let place = ours.iter().zip(theirs).position(|(a, b)| a != b)?;
        Some(format!("{name} place {place}: model {}, library {}", ours[place], theirs[place]))
    }
    first("head", &ours.head, &theirs.head)
        .or_else(|| first("prices", &ours.prices, &theirs.prices))
        .or_else(|| first("lots", &ours.lots, &theirs.lots))
        .or_else(|| first("value", &ours.value, &theirs.value))
        .or_else(|| first("book", &ours.book, &theirs.book))
        .or_else(|| first("lines", &ours.lines, &theirs.lines))
}

/// One call on both sides, from the same tables.
struct Sides {
    before: Tables,
    theirs: Tables,
    coverage: Coverage,
}

impl Sides {
    fn call(&mut self, tables: &mut Tables, call: Call) -> Result<(), String> {
        self.before.clone_from(tables);
        self.theirs.clone_from(tables);
        let answer = modelled(tables, &call);
        self.coverage.observe(&self.before, &call, answer, tables);
        let Some(proved) = proved(&mut self.theirs, &call) else {
            return Ok(());
        };
        let bytes = match call {
            Call::Make(bytes) => format!("header {}", to_hex(bytes)),
            Call::Apply { record, .. } => format!("record {}", to_hex(record)),
        };
        if proved != told(answer) {
            return Err(format!("{bytes}\nanswer: model {:?}, library {proved:?}", told(answer)));
        }
        if let Some(place) = difference(tables, &self.theirs) {
            return Err(format!("{bytes}\nanswer {proved:?}\n{place}"));
        }
        Ok(())
    }
}

fn main() -> ExitCode {
    let numbers: Vec<u64> = std::env::args().skip(1).filter_map(|number| number.parse().ok()).collect();
    let &[seed, records] = numbers.as_slice() else {
        eprintln!("compare SEED RECORDS");
        return ExitCode::FAILURE;
    };
    let mut sides = Sides { before: Tables::empty(), theirs: Tables::empty(), coverage: Coverage::default() };
    let outcome = run(seed, records, |tables, call| sides.call(tables, call));
    let answers = &sides.coverage.answers;
    let calls = answers.iter().sum::<u64>();
    println!("{calls} calls, {} accepted", answers[0]);
    answers.iter().enumerate().skip(1).for_each(|(number, count)| println!("refused {number}: {count}"));
    EDGES.iter().for_each(|edge| println!("{edge}: {}", sides.coverage.count(edge)));
    if let Err(difference) = outcome {
        if !is_damaged(&sides.before) {
            print!("ledger before the call\n{}", ledger(&sides.before));
        }
        println!("DIFFERENT after {calls} calls\n{difference}");
        return ExitCode::FAILURE;
    }
    if library_calls() != calls {
        println!("NOT CALLED: the library {} times, the model {calls} times", library_calls());
        return ExitCode::FAILURE;
    }
    let unmet = sides.coverage.unmet();
    unmet.iter().for_each(|unmet| println!("NOT MET: {unmet}"));
    if records >= LONG_RUN && !unmet.is_empty() {
        return ExitCode::FAILURE;
    }
    ExitCode::SUCCESS
}
