//! journal printed: the journal program in plain Rust over the C entries, from standard input to standard output.
//! journal applied: the same records applied from memory without printing; the seconds of processor time that took.
use std::io::{self, BufRead, BufReader, BufWriter, Read, Write};

#[link(name = "host", kind = "static")]
extern "C" {
    fn ledger_make(
        head: *mut u64, head_len: usize, prices: *mut u64, prices_len: usize, lots: *mut i64, lots_len: usize,
        value: *mut i64, value_len: usize, book: *const u64, book_len: usize, header: *const u8, header_len: usize,
    ) -> u64;

    fn ledger_apply(
        head: *mut u64, head_len: usize, prices: *mut u64, prices_len: usize, lots: *mut i64, lots_len: usize,
        value: *mut i64, value_len: usize, book: *mut u64, book_len: usize, lines: *mut i64, lines_len: usize,
        record: *const u8, record_len: usize, detail: *mut u64,
    ) -> u64;
}

#[repr(C)]
struct Time {
    seconds: i64,
    nanoseconds: i64,
}

extern "C" {
    fn clock_gettime(clock: i32, time: *mut Time) -> i32;
}

const PROCESSOR_TIME: i32 = 2;
const DAY: usize = 3;
const LOTS_RUN: usize = 6;
const ACCEPTED: u64 = 0;
const UNSOUND: u64 = 3;
const HEADER: usize = 11;

fn processor_time() -> f64 {
    let mut time = Time { seconds: 0, nanoseconds: 0 };
    unsafe { clock_gettime(PROCESSOR_TIME, &mut time) };
    time.seconds as f64 + time.nanoseconds as f64 / 1e9
}

struct Ledger {
    head: Vec<u64>,
    prices: Vec<u64>,
    lots: Vec<i64>,
    value: Vec<i64>,
    book: Vec<u64>,
    lines: Vec<i64>,
}

impl Ledger {
    fn new() -> Self {
        let (head, prices, book) = (vec![0; 224], vec![0; 510], vec![0; 2048]);
        Ledger { head, prices, lots: vec![0; 3264], value: vec![0; 3264], book, lines: vec![0; 800] }
    }

    fn make(&mut self, header: &[u8]) -> u64 {
        let Ledger { head, prices, lots, value, book, .. } = self;
        unsafe {
            ledger_make(
                head.as_mut_ptr(), head.len(), prices.as_mut_ptr(), prices.len(), lots.as_mut_ptr(), lots.len(),
                value.as_mut_ptr(), value.len(), book.as_ptr(), book.len(), header.as_ptr(), header.len(),
            )
        }
    }

    fn apply(&mut self, record: &[u8]) -> (u64, u64) {
        let Ledger { head, prices, lots, value, book, lines } = self;
        let mut detail = 0;
        let number = unsafe {
            ledger_apply(
                head.as_mut_ptr(), head.len(), prices.as_mut_ptr(), prices.len(), lots.as_mut_ptr(), lots.len(),
                value.as_mut_ptr(), value.len(), book.as_mut_ptr(), book.len(), lines.as_mut_ptr(), lines.len(),
                record.as_ptr(), record.len(), &mut detail,
            )
        };
        (number, detail)
    }
}

/// A record's length by its kind and, of a proposal, its legs.
fn record_length(kind: u8, legs: u8) -> usize {
    match kind {
        1 => 15,
        2 | 3 => 10,
        4 => 2 + 10 * legs as usize,
        5 => 2,
        6 => 4,
        7 => 5,
        _ => 1,
    }
}

/// The bytes of the next record: all that are left where it is cut, none at the end.
fn next_record(input: &mut impl BufRead, record: &mut Vec<u8>) -> io::Result<bool> {
    record.clear();
    let mut take = |record: &mut Vec<u8>, count: usize| input.by_ref().take(count as u64).read_to_end(record);
    if take(record, 1)? == 0 {
        return Ok(false);
    }
    if record[0] == 4 {
        take(record, 1)?;
    }
    let length = record_length(record[0], record.get(1).copied().unwrap_or(0));
    take(record, length.saturating_sub(record.len()))?;
    Ok(true)
}

fn read_header(input: &mut impl BufRead) -> io::Result<Vec<u8>> {
    let mut header = Vec::new();
    input.by_ref().take(HEADER as u64).read_to_end(&mut header)?;
    if header.len() == HEADER {
        let rest = 2 * header[10] as u64 + 4 * header[9] as u64;
        input.by_ref().take(rest).read_to_end(&mut header)?;
    }
    Ok(header)
}

fn printed() -> io::Result<()> {
    let mut input = BufReader::with_capacity(65536, io::stdin().lock());
    let mut output = BufWriter::with_capacity(65536, io::stdout().lock());
    let mut ledger = Ledger::new();
    let header = read_header(&mut input)?;
    let number = ledger.make(&header);
    if number != ACCEPTED {
        writeln!(output, "R 0 {number}")?;
        return output.flush();
    }
    writeln!(output, "H {} {} {}", ledger.head[0], ledger.head[DAY], ledger.head[1])?;
    let (mut accepted, mut counted) = (0u64, 0u64);
    let mut record = Vec::new();
    while next_record(&mut input, &mut record)? {
        counted += 1;
        let (number, detail) = ledger.apply(&record);
        if number == ACCEPTED {
            accepted += 1;
            for line in ledger.lines.chunks_exact(4).take(detail as usize) {
                writeln!(output, "D {} {} {} {}", line[0], line[1], line[2], line[3])?;
            }
        } else {
            writeln!(output, "R {counted} {number}")?;
            if number == UNSOUND {
                break;
            }
        }
    }
    writeln!(output, "E {} {} {}", accepted, counted - accepted, ledger.head[LOTS_RUN])?;
    output.flush()
}

fn applied() -> io::Result<()> {
    let mut bytes = Vec::new();
    io::stdin().read_to_end(&mut bytes)?;
    let mut ledger = Ledger::new();
    let mut at = HEADER + 2 * bytes[10] as usize + 4 * bytes[9] as usize;
    assert_eq!(ledger.make(&bytes[..at]), ACCEPTED);
    let began = processor_time();
    while at < bytes.len() {
        let end = at + record_length(bytes[at], bytes[at + 1]);
        std::hint::black_box(ledger.apply(&bytes[at..end]));
        at = end;
    }
    println!("{}", processor_time() - began);
    Ok(())
}

fn main() -> io::Result<()> {
    match std::env::args().nth(1).as_deref() {
        Some("printed") => printed(),
        Some("applied") => applied(),
        _ => {
            eprintln!("journal printed | journal applied");
            std::process::exit(2)
        }
    }
}
