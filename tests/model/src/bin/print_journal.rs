//! print_journal JOURNAL: what the journal program prints for it.
use std::process::ExitCode;

fn main() -> ExitCode {
    let Some(path) = std::env::args().nth(1) else {
        eprintln!("print_journal JOURNAL");
        return ExitCode::FAILURE;
    };
    print!("{}", model::journal::printed(&std::fs::read(path).expect("a journal")));
    ExitCode::SUCCESS
}
