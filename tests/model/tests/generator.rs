//! What the generator reaches, and what holds of every call.
use model::answer::Answer;
use model::apply::apply;
use model::coverage::{Coverage, EDGES, LONG_RUN};
use model::generate::{run, Call};
use model::make::make;
use model::record::Record;
use model::tables::Tables;

fn called(tables: &mut Tables, call: &Call) -> Answer {
    match call {
        Call::Make(bytes) => make(tables, bytes),
        Call::Apply { record, .. } => apply(tables, record),
    }
}

#[test]
fn every_refusal_and_edge_is_reached() {
    let mut coverage = Coverage::default();
    let mut before = Tables::empty();
    let outcome: Result<(), ()> = run(1, LONG_RUN, |tables, call| {
        before.clone_from(tables);
        let answer = called(tables, &call);
        assert!(answer.is_ok() || before == *tables, "a refused call changes nothing");
        coverage.observe(&before, &call, answer, tables);
        Ok(())
    });
    assert_eq!(outcome, Ok(()));
    assert_eq!(coverage.unmet(), Vec::<String>::new());
}

/// The answers and edges that are asked for; a short run must not meet them all, or the long one shows nothing.
#[test]
fn nothing_is_met_before_it_comes() {
    let mut coverage = Coverage::default();
    assert_eq!((coverage.answers.len(), EDGES.len(), coverage.unmet().len()), (19, 126, 19 + 126));
    let mut before = Tables::empty();
    let outcome: Result<(), ()> = run(1, 500, |tables, call| {
        before.clone_from(tables);
        let answer = called(tables, &call);
        coverage.observe(&before, &call, answer, tables);
        Ok(())
    });
    assert_eq!(outcome, Ok(()));
    assert!(coverage.answers[0] > 0);
    for rare in ["submit: 100 deals (200 lines)", "close-out: L of 100,000 or more", "close: a GGF of 1"] {
        assert!(coverage.unmet().iter().any(|unmet| unmet == rare), "{rare}");
    }
}

#[test]
fn a_seed_gives_the_same_calls() {
    let calls = |seed| {
        let mut calls = Vec::new();
        let outcome: Result<(), ()> = run(seed, 2000, |tables, call| {
            let answer = called(tables, &call);
            let (Call::Make(bytes) | Call::Apply { record: bytes, .. }) = call;
            calls.push((bytes.to_vec(), answer));
            Ok(())
        });
        assert_eq!(outcome, Ok(()));
        calls
    };
    assert!(calls(5) == calls(5));
    assert!(calls(5) != calls(6));
}

#[test]
fn records_are_written_as_they_were_read() {
    let outcome: Result<(), ()> = run(9, 20_000, |tables, call| {
        let members = tables.head.get(1).copied().unwrap_or(0);
        if let Call::Apply { record: bytes, .. } = call {
            if let Ok(record) = Record::read(members, bytes) {
                let mut output = [0xAA; 130];
                assert_eq!(record.write(members, &mut output), Ok(bytes.len()));
                assert_eq!(&output[..bytes.len()], bytes);
                assert!(output[bytes.len()..].iter().all(|&byte| byte == 0xAA));
                assert!(record.write(members, &mut output[..bytes.len() - 1]).is_err());
            }
        }
        called(tables, &call).ok();
        Ok(())
    });
    assert_eq!(outcome, Ok(()));
}
