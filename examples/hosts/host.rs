//! host JOURNAL MEMBER ...: applies a journal's records and prints members' positions by contract and by delivery month.
//! Lots are net, buys above 0; value is lots times price, in tenths of a kuruş for each delivery hour.
//!
//! rustc --edition 2021 -O -o host examples/hosts/host.rs -L native=target/staticlib -l static=host
use std::process::ExitCode;

// The constants of include/ledger.h that this host needs.
const HEAD: usize = 224;
const PRICES: usize = 510;
const ROWS: usize = 3264;
const BOOK: usize = 2048;
const LINES: usize = 800;
const FIRST_YEAR: usize = 0;
const MEMBERS: usize = 1;
const HOLIDAY_COUNT: usize = 2;
const DAY: usize = 3;
const CONTRACTS: usize = 102;
const CONTRACTS_A_YEAR: usize = 17;
const FIRST_QUARTER: usize = 1;
const JANUARY: usize = 5;
const ROW_WIDTH: usize = 32;
const HEADER_BYTES: usize = 11;
const HOLIDAY_BYTES: usize = 2;
const LIMIT_BYTES: usize = 4;
const PROPOSAL: u8 = 4;
const PROPOSAL_BYTES: usize = 2;
const LEG_BYTES: usize = 10;
/// By kind of record, from 1; a proposal's without its legs.
const RECORD_BYTES: [usize; 7] = [15, 10, 10, PROPOSAL_BYTES, 2, 4, 5];
const ACCEPTED: u64 = 0;
const RECORD_UNSOUND: u64 = 3;
const MEMBER_DEFAULTED: u64 = 5;
const CONTRACT_NOT_OPEN: u64 = 6;

extern "C" {
    fn ledger_make(
        head: *mut u64, head_len: usize, prices: *mut u64, prices_len: usize, lots: *mut i64, lots_len: usize,
        value: *mut i64, value_len: usize, book: *const u64, book_len: usize, header: *const u8, header_len: usize,
    ) -> u64;
    fn ledger_apply(
        head: *mut u64, head_len: usize, prices: *mut u64, prices_len: usize, lots: *mut i64, lots_len: usize,
        value: *mut i64, value_len: usize, book: *mut u64, book_len: usize, lines: *mut i64, lines_len: usize,
        record: *const u8, record_len: usize, detail: *mut u64,
    ) -> u64;
}

/// Why a header or a record is turned back: the number, and with 5 the member, with 6 the contract.
struct Refusal {
    number: u64,
    detail: u64,
}

/// The tables that the library is lent. Each has its own memory, and a call borrows all of them.
struct Ledger {
    head: Vec<u64>,
    prices: Vec<u64>,
    lots: Vec<i64>,
    value: Vec<i64>,
    book: Vec<u64>,
    lines: Vec<i64>,
}

impl Ledger {
    fn make(header: &[u8]) -> Result<Ledger, Refusal> {
        let (head, prices, book) = (vec![0; HEAD], vec![0; PRICES], vec![0; BOOK]);
        let (lots, value, lines) = (vec![0; ROWS], vec![0; ROWS], vec![0; LINES]);
        let mut l = Ledger { head, prices, lots, value, book, lines };
        // SAFETY: each pointer comes with the length of its table; the tables are separate and live through the call.
        let number = unsafe {
            ledger_make(
                l.head.as_mut_ptr(), HEAD, l.prices.as_mut_ptr(), PRICES, l.lots.as_mut_ptr(), ROWS,
                l.value.as_mut_ptr(), ROWS, l.book.as_ptr(), BOOK, header.as_ptr(), header.len(),
            )
        };
        if number == ACCEPTED { Ok(l) } else { Err(Refusal { number, detail: 0 }) }
    }

    /// The number of deal lines, which stand in front of `lines`.
    fn apply(&mut self, record: &[u8]) -> Result<u64, Refusal> {
        let mut detail = 0;
        // SAFETY: as in `make`; `detail` is a number of its own.
        let number = unsafe {
            ledger_apply(
                self.head.as_mut_ptr(), HEAD, self.prices.as_mut_ptr(), PRICES, self.lots.as_mut_ptr(), ROWS,
                self.value.as_mut_ptr(), ROWS, self.book.as_mut_ptr(), BOOK, self.lines.as_mut_ptr(), LINES,
                record.as_ptr(), record.len(), &mut detail,
            )
        };
        if number == ACCEPTED { Ok(detail) } else { Err(Refusal { number, detail }) }
    }

    fn header_length(&self) -> usize {
        HEADER_BYTES + HOLIDAY_BYTES * self.head[HOLIDAY_COUNT] as usize + LIMIT_BYTES * self.head[MEMBERS] as usize
    }

    /// A contract as 2022, 2022 Q1 or 2022-03.
    fn name(&self, contract: usize) -> String {
        let year = self.head[FIRST_YEAR] as usize + contract / CONTRACTS_A_YEAR;
        match contract % CONTRACTS_A_YEAR {
            0 => format!("{year}"),
            k if k < JANUARY => format!("{year} Q{}", k - FIRST_QUARTER + 1),
            k => format!("{year}-{:02}", k - JANUARY + 1),
        }
    }

    /// Lots and value of a member, summed over some contracts, printed under the name of the last.
    fn print_position(&self, member: usize, contracts: &[usize]) {
        let sum = |column: &[i64]| contracts.iter().map(|c| column[c * ROW_WIDTH + member]).sum::<i64>();
        let (lots, value) = (sum(&self.lots), sum(&self.value));
        if (lots, value) != (0, 0) {
            println!("  {}: lots {lots}, value {value}", self.name(contracts[contracts.len() - 1]));
        }
    }

    fn print_positions(&self, member: usize) {
        println!("member {member} by contract");
        (0..CONTRACTS).for_each(|contract| self.print_position(member, &[contract]));
        println!("member {member} by delivery month");
        for (year, month) in (0..CONTRACTS).step_by(CONTRACTS_A_YEAR).flat_map(|year| (0..12).map(move |m| (year, m))) {
            self.print_position(member, &[year, year + FIRST_QUARTER + month / 3, year + JANUARY + month]);
        }
    }
}

/// The record at the front and what follows it: its kind says how long it is, and the number of legs. A record that is cut
/// or of an unknown kind gets what is left, and the library says what is wrong with it.
fn split(bytes: &[u8]) -> (&[u8], &[u8]) {
    let length = match *bytes {
        [PROPOSAL, legs, ..] => PROPOSAL_BYTES + LEG_BYTES * legs as usize,
        [kind @ 1..=7, ..] => RECORD_BYTES[kind as usize - 1],
        _ => bytes.len(),
    };
    bytes.split_at(length.min(bytes.len()))
}

/// Applies the records up to the end, or to the first that is none.
fn apply_records(ledger: &mut Ledger, mut rest: &[u8]) {
    let (mut accepted, mut refused) = (0, 0);
    while !rest.is_empty() {
        let (record, after) = split(rest);
        rest = after;
        match ledger.apply(record) {
            Ok(_) => accepted += 1,
            Err(Refusal { number, detail }) => {
                refused += 1;
                let with = match number {
                    MEMBER_DEFAULTED => format!(" member {detail}"),
                    CONTRACT_NOT_OPEN => format!(" contract {detail}"),
                    _ => String::new(),
                };
                println!("record {} refused {number}{with}", accepted + refused);
                if number == RECORD_UNSOUND {
                    break;
                }
            }
        }
    }
    println!("{accepted} accepted, {refused} refused, day {}", ledger.head[DAY]);
}

fn stop(what: &str) -> ExitCode {
    eprintln!("{what}");
    ExitCode::from(2)
}

fn main() -> ExitCode {
    let words: Vec<String> = std::env::args().collect();
    let [_, path, members @ ..] = words.as_slice() else {
        return stop("host JOURNAL MEMBER ...");
    };
    let Ok(bytes) = std::fs::read(path) else {
        return stop("the journal cannot be read");
    };
    let mut ledger = match Ledger::make(&bytes) {
        Ok(ledger) => ledger,
        Err(refusal) => {
            println!("header refused {}", refusal.number);
            return ExitCode::FAILURE;
        }
    };
    let records = ledger.header_length();
    apply_records(&mut ledger, &bytes[records..]);
    for member in members {
        match member.parse() {
            Ok(member) if member < ledger.head[MEMBERS] as usize => ledger.print_positions(member),
            _ => return stop("no such member"),
        }
    }
    ExitCode::SUCCESS
}
