//! A ledger as the text of tests/lists, as one number or as the places that changed, and numbers in hex.
use crate::contract::CONTRACTS;
use crate::tables::*;
use std::fmt::Write;

pub fn from_hex(hex: &str) -> Vec<u8> {
    let digits = |pair: usize| u8::from_str_radix(&hex[2 * pair..2 * pair + 2], 16).expect("two hex digits");
    (0..hex.len() / 2).map(digits).collect()
}

pub fn to_hex(bytes: &[u8]) -> String {
    bytes.iter().map(|byte| format!("{byte:02x}")).collect()
}

/// Zero rows and contracts that are as when fresh are left out; orders are given by number.
pub fn ledger(tables: &Tables) -> String {
    let members = 0..tables.members();
    let mut out = String::new();
    let (day, time, accepted, run) = (tables.day(), tables.time(), tables.head[ACCEPTED], tables.run());
    let marks: String = members.clone().map(|member| if tables.is_defaulted(member) { '1' } else { '0' }).collect();
    let counts: String = members.clone().map(|member| format!(" {}", tables.submits(member))).collect();
    write!(out, "day {day} time {time} accepted {accepted} run {run}\nmarks {marks}\ncounts{counts}\n").unwrap();
    for contract in 0..CONTRACTS {
        let [ggf, low, high, m, v] = [GGF, LOW, HIGH, DAY_LOTS, DAY_VALUE].map(|which| tables.price(contract, which));
        if [ggf, low, high, m, v] != [0, 1, MOST_PRICE, 0, 0] {
            writeln!(out, "contract {contract} ggf {ggf} low {low} high {high} M {m} V {v}").unwrap();
        }
    }
    for (contract, member) in (0..CONTRACTS).flat_map(|contract| members.clone().map(move |member| (contract, member)))
    {
        let (lots, value) = (tables.lots(contract, member), tables.value(contract, member));
        if (lots, value) != (0, 0) {
            writeln!(out, "row {contract} {member} lots {lots} value {value}").unwrap();
        }
    }
    let mut orders: Vec<Order> = tables.orders().collect();
    orders.sort_by_key(|order| order.number);
    for Order { number, member, contract, side, price, lots, day, time } in orders {
        let side = side.number();
        write!(out, "order {number} member {member} contract {contract} side {side} ").unwrap();
        writeln!(out, "price {price} lots {lots} day {day} time {time}").unwrap();
    }
    out
}

/// The six tables with their names, all as signed numbers.
fn columns(tables: &Tables) -> [(&'static str, Vec<i64>); 6] {
    let Tables { head, prices, lots, value, book, lines } = tables;
    let signed = |column: &[u64]| column.iter().map(|&number| number as i64).collect();
    let (lots, value, lines) = (lots.clone(), value.clone(), lines.clone());
    [
        ("head", signed(head)),
        ("prices", signed(prices)),
        ("lots", lots),
        ("value", value),
        ("book", signed(book)),
        ("lines", lines),
    ]
}

/// A number that changes with every place of every table; tests/host/lent.c has the same.
pub fn digest(tables: &Tables) -> u64 {
    let step = |digest: u64, number: i64| {
        let digest = (digest ^ number as u64).wrapping_mul(0x9e37_79b9_7f4a_7c15);
        digest ^ digest >> 32
    };
    columns(tables).into_iter().flat_map(|(_, column)| column).fold(0, step)
}

/// The places that changed: a line has a table, a place, and the numbers of that place and its neighbours.
pub fn changes(before: &Tables, after: &Tables) -> String {
    let mut out = String::new();
    for ((name, before), (_, after)) in columns(before).into_iter().zip(columns(after)) {
        let changed: Vec<usize> = (0..after.len()).filter(|&place| before[place] != after[place]).collect();
        for neighbours in changed.chunk_by(|&place, &next| next == place + 1 && next % ROW_WIDTH != 0) {
            write!(out, "{name} {}", neighbours[0]).expect("a string grows");
            neighbours.iter().for_each(|&place| write!(out, " {}", after[place]).expect("a string grows"));
            out.push('\n');
        }
    }
    out
}

/// Tables of the least lengths in which every place holds a number that no ledger has there.
pub fn soiled() -> Tables {
    const SOIL: usize = 1_000_000_000_000;
    let plain = |length: usize| (SOIL..SOIL + length).map(|number| number as u64).collect();
    let signed = |length: usize| (SOIL..SOIL + length).map(|number| number as i64).collect();
    Tables {
        head: plain(HEAD),
        prices: plain(PRICES),
        lots: signed(ROWS),
        value: signed(ROWS),
        book: plain(BOOK),
        lines: signed(LINES),
    }
}
