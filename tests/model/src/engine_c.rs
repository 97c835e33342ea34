//! The C entries of the proved library, as include/ledger.h declares them. Everything about their form is in this file.
use crate::tables::Tables;
use std::sync::atomic::{AtomicU64, Ordering};

static CALLS: AtomicU64 = AtomicU64::new(0);

/// How often `ledger_make` and `ledger_apply` were called.
pub fn calls() -> u64 {
    CALLS.load(Ordering::Relaxed)
}

extern "C" {
    fn ledger_make(
        head: *mut u64,
        head_len: usize,
        prices: *mut u64,
        prices_len: usize,
        lots: *mut i64,
        lots_len: usize,
        value: *mut i64,
        value_len: usize,
        book: *const u64,
        book_len: usize,
        header: *const u8,
        header_len: usize,
    ) -> u64;

    fn ledger_apply(
        head: *mut u64,
        head_len: usize,
        prices: *mut u64,
        prices_len: usize,
        lots: *mut i64,
        lots_len: usize,
        value: *mut i64,
        value_len: usize,
        book: *mut u64,
        book_len: usize,
        lines: *mut i64,
        lines_len: usize,
        record: *const u8,
        record_len: usize,
        value_out: *mut u64,
    ) -> u64;

    fn ledger_is_damaged(
        head: *const u64,
        head_len: usize,
        prices: *const u64,
        prices_len: usize,
        lots: *const i64,
        lots_len: usize,
        value: *const i64,
        value_len: usize,
        book: *const u64,
        book_len: usize,
        lines: *const i64,
        lines_len: usize,
    ) -> u64;
}

/// The answer's number and the value that goes with it.
pub fn make(tables: &mut Tables, header: &[u8]) -> (u64, u64) {
    let Tables { head, prices, lots, value, book, .. } = tables;
    CALLS.fetch_add(1, Ordering::Relaxed);
    // SAFETY: each pointer is given with the length of the table that it points to; the tables do not overlap.
    let number = unsafe {
        ledger_make(
            head.as_mut_ptr(),
            head.len(),
            prices.as_mut_ptr(),
            prices.len(),
            lots.as_mut_ptr(),
            lots.len(),
            value.as_mut_ptr(),
            value.len(),
            book.as_ptr(),
            book.len(),
            header.as_ptr(),
            header.len(),
        )
    };
    (number, 0)
}

/// The answer's number and the value that goes with it: lines, member or contract.
pub fn apply(tables: &mut Tables, record: &[u8]) -> (u64, u64) {
    let Tables { head, prices, lots, value, book, lines } = tables;
    let mut value_out = 0;
    CALLS.fetch_add(1, Ordering::Relaxed);
    // SAFETY: as for `make`; `value_out` is one number.
    let number = unsafe {
        ledger_apply(
            head.as_mut_ptr(),
            head.len(),
            prices.as_mut_ptr(),
            prices.len(),
            lots.as_mut_ptr(),
            lots.len(),
            value.as_mut_ptr(),
            value.len(),
            book.as_mut_ptr(),
            book.len(),
            lines.as_mut_ptr(),
            lines.len(),
            record.as_ptr(),
            record.len(),
            &mut value_out,
        )
    };
    (number, value_out)
}

pub fn is_damaged(tables: &Tables) -> bool {
    let Tables { head, prices, lots, value, book, lines } = tables;
    // SAFETY: as for `make`.
    let answer = unsafe {
        ledger_is_damaged(
            head.as_ptr(),
            head.len(),
            prices.as_ptr(),
            prices.len(),
            lots.as_ptr(),
            lots.len(),
            value.as_ptr(),
            value.len(),
            book.as_ptr(),
            book.len(),
            lines.as_ptr(),
            lines.len(),
        )
    };
    answer == 1
}
