//! print_positions JOURNAL MEMBER ...: what the hosts of examples/hosts print for it.
use model::answer::told;
use model::contract::{Contract, Kind, CONTRACTS, YEARS};
use model::journal::replay;
use model::tables::Tables;
use std::process::ExitCode;

fn name(first_year: u64, Contract { kind, index }: Contract) -> String {
    let (year, place) = (first_year + index / kind.in_a_year(), index % kind.in_a_year() + 1);
    match kind {
        Kind::Year => format!("{year}"),
        Kind::Quarter => format!("{year} Q{place}"),
        Kind::Month => format!("{year}-{place:02}"),
    }
}

/// Lots and value of a member, summed over contracts, printed under a contract's name.
fn print_position(tables: &Tables, member: u64, named: Contract, contracts: impl Iterator<Item = u64>) {
    let rows = contracts.map(|contract| (tables.lots(contract, member), tables.value(contract, member)));
    let (lots, value) = rows.fold((0, 0), |sum, row| (sum.0 + row.0, sum.1 + row.1));
    if (lots, value) != (0, 0) {
        println!("  {}: lots {lots}, value {value}", name(tables.head[0], named));
    }
}

fn print_positions(tables: &Tables, member: u64) {
    println!("member {member} by contract");
    for number in 0..CONTRACTS {
        print_position(tables, member, Contract::numbered(number), std::iter::once(number));
    }
    println!("member {member} by delivery month");
    for index in 0..12 * YEARS {
        let holds = |number: &u64| Contract::numbered(*number).delivers_in(index);
        print_position(tables, member, Contract { kind: Kind::Month, index }, (0..CONTRACTS).filter(holds));
    }
}

fn main() -> ExitCode {
    let words: Vec<String> = std::env::args().collect();
    let [_, path, members @ ..] = words.as_slice() else {
        eprintln!("print_positions JOURNAL MEMBER ...");
        return ExitCode::FAILURE;
    };
    let mut tables = Tables::empty();
    let (mut accepted, mut refused) = (0, 0);
    replay(&mut tables, &std::fs::read(path).expect("a journal"), |count, answer, _| match told(answer) {
        (0, _) => accepted += (count > 0) as u64,
        (number, detail) => {
            refused += 1;
            match number {
                _ if count == 0 => println!("header refused {number}"),
                5 => println!("record {count} refused 5 member {detail}"),
                6 => println!("record {count} refused 6 contract {detail}"),
                _ => println!("record {count} refused {number}"),
            }
        }
    });
    if tables.members() == 0 {
        return ExitCode::FAILURE;
    }
    println!("{accepted} accepted, {refused} refused, day {}", tables.day());
    members.iter().for_each(|member| print_positions(&tables, member.parse().expect("a member")));
    ExitCode::SUCCESS
}
