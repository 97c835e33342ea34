//! The cases of document 01.
use model::answer::{told, Refusal};
use model::apply::apply;
use model::header::Header;
use model::journal::printed;
use model::make::make;
use model::record::{Leg, OrderKind, Record, Submit};
use model::tables::*;

fn fresh(first_year: u64, start_day: u64, members: usize) -> Tables {
    let mut tables = Tables::empty();
    let header = Header { first_year, start_day, holidays: Vec::new(), limits: vec![1000; members] };
    make(&mut tables, &header.bytes()).expect("a sound header");
    tables
}

fn submit(time: u64, member: u64, contract: u64, side: Side, price: u64, lots: u64) -> Record {
    Record::Submit(Submit { time, member, contract, side, kind: OrderKind::Resting, price, lots })
}

fn accept(tables: &mut Tables, record: Record) {
    let answer = apply(tables, &record.bytes());
    assert!(answer.is_ok(), "{record:?}: {answer:?}");
}

/// A deal of some lots between two members.
fn deal(tables: &mut Tables, buyer: u64, seller: u64, contract: u64, lots: u64, price: u64) {
    let time = tables.time() + 1;
    accept(tables, submit(time, seller, contract, Side::Sell, price, lots));
    accept(tables, submit(time, buyer, contract, Side::Buy, price, lots));
}

#[test]
fn journal_of_the_paper() {
    let header = Header { first_year: 2021, start_day: 369, holidays: Vec::new(), limits: vec![1000; 2] };
    let oeye = |time| {
        let (side, kind) = (Side::Buy, OrderKind::Oeye);
        Record::Submit(Submit { time, member: 1, contract: 17, side, kind, price: 26100, lots: 3 })
    };
    let mut journal = header.bytes();
    journal.extend(submit(36000, 0, 17, Side::Sell, 26000, 5).bytes());
    journal.extend(oeye(36010).bytes());
    journal.extend(oeye(36005).bytes());
    assert_eq!(printed(&journal), "H 2021 369 2\nD 1 17 3 26000\nD 0 17 -3 26000\nR 3 4\nE 2 1 6\n");
}

#[test]
fn cascade_of_the_paper() {
    let mut tables = fresh(2020, 359, 2);
    deal(&mut tables, 0, 1, 17, 4, 30000);
    deal(&mut tables, 1, 0, 18, 1, 31000);
    let rows = |tables: &Tables, contracts: &[u64]| -> Vec<(i64, i64)> {
        contracts.iter().map(|&contract| (tables.lots(contract, 0), tables.value(contract, 0))).collect()
    };
    accept(&mut tables, Record::CloseOfDay { time: 100 });
    assert_eq!(rows(&tables, &[17, 18, 19, 20, 21]), [(0, 0), (3, 89000), (4, 120000), (4, 120000), (4, 120000)]);
    while tables.day() < 363 {
        accept(&mut tables, Record::CloseOfDay { time: 100 });
    }
    accept(&mut tables, Record::CloseOfDay { time: 100 });
    assert_eq!(rows(&tables, &[18, 22, 23, 24]), [(0, 0), (3, 89000), (3, 89000), (3, 89000)]);
}

/// A quarter bought and its months sold, at 31000 or with one leg at 30900.
#[test]
fn proposal_of_the_paper() {
    let mut tables = fresh(2021, 369, 2);
    accept(&mut tables, submit(0, 0, 2, Side::Buy, 31000, 1));
    for (contract, price) in [(8, 31000), (9, 30500), (10, 30000)] {
        accept(&mut tables, submit(0, 1, contract, Side::Sell, price, 1));
    }
    let legs = |odd: Option<usize>| {
        let price = |leg| if odd == Some(leg) { 30900 } else { 31000 };
        Record::Proposal { legs: (0..4).map(|leg| Leg { number: leg as u64, lots: 1, price: price(leg) }).collect() }
    };
    for odd in 0..4 {
        assert_eq!(apply(&mut tables, &legs(Some(odd)).bytes()), Err(Refusal::Proposal));
    }
    assert_eq!(apply(&mut tables, &legs(None).bytes()), Ok(4));
}

/// A proposal balances hours, not contracts: both its members default, and nobody else holds open lots.
#[test]
fn no_weight_in_a_ledger_that_began_fresh() {
    let mut tables = fresh(2021, 369, 3);
    deal(&mut tables, 2, 2, 2, 20, 31000);
    accept(&mut tables, submit(5, 0, 2, Side::Buy, 31000, 1));
    for contract in [8, 9, 10] {
        accept(&mut tables, submit(5, 1, contract, Side::Sell, 31000, 1));
    }
    let legs = (2..6).map(|number| Leg { number, lots: 1, price: 31000 }).collect();
    accept(&mut tables, Record::Proposal { legs });
    accept(&mut tables, Record::CloseOfDay { time: 10 });
    accept(&mut tables, Record::Default { member: 0 });
    accept(&mut tables, Record::Default { member: 1 });
    let close_out = Record::CloseOut { contract: 2, ratio: 500 };
    assert_eq!(apply(&mut tables, &close_out.bytes()), Err(Refusal::NoWeight));
}

#[test]
fn ends_of_ranges() {
    let mut tables = fresh(2021, 369, 2);
    assert_eq!(apply(&mut tables, &submit(0, 0, 17, Side::Buy, 1, 101).bytes()), Err(Refusal::Record));
    for _ in 0..5 {
        let time = tables.time() + 1;
        accept(&mut tables, submit(time, 0, 17, Side::Buy, 1, 100));
        accept(&mut tables, submit(time, 0, 17, Side::Buy, 1, 100));
    }
    assert_eq!(apply(&mut tables, &submit(9, 0, 17, Side::Buy, 1, 1).bytes()), Err(Refusal::AboveLimit));
    assert_eq!(told(Err(Refusal::NotOpen(3))), (6, 3));
}
