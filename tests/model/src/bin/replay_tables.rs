//! replay_tables places|digests JOURNAL: what tests/host/replay.c compares the proved library with. The first line
//! names the journal; then a line a call, the making of the ledger first: count, answer and what goes with it. It has a
//! digest of all six tables too, or is followed by the places that the call changed. The tables begin with a number in
//! every place that no ledger has there, so surplus places are compared too.
use model::answer::told;
use model::journal::replay;
use model::tables::Tables;
use model::text::{changes, digest, soiled};
use std::process::ExitCode;

fn usage() -> ExitCode {
    eprintln!("replay_tables places|digests JOURNAL");
    ExitCode::FAILURE
}

fn main() -> ExitCode {
    let words: Vec<String> = std::env::args().collect();
    let [_, form, path] = words.as_slice() else {
        return usage();
    };
    let of_tables: fn(&Tables, &Tables) -> String = match form.as_str() {
        "places" => |before, after| format!("\n{}", changes(before, after)),
        "digests" => |_, after| format!(" {:016x}\n", digest(after)),
        _ => return usage(),
    };
    let journal = std::fs::read(path).expect("a journal");
    println!("journal {path}");
    let mut before = soiled();
    replay(&mut soiled(), &journal, |count, answer, tables| {
        let (number, detail) = told(answer);
        print!("{count} {number} {detail}{}", of_tables(&before, tables));
        before = tables.clone();
    });
    ExitCode::SUCCESS
}
