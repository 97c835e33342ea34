//! The stored lists and journals, which another model made, and the stories, whose output this model wrote and people read.
use model::answer::{told, Answer};
use model::apply::apply;
use model::make::make;
use model::tables::Tables;
use model::text::{from_hex, ledger};
use std::fs;
use std::path::{Path, PathBuf};

fn files(folder: &str, extension: &str) -> Vec<PathBuf> {
    let folder = Path::new(env!("CARGO_MANIFEST_DIR")).join("..").join(folder);
    let entries = fs::read_dir(folder).expect("the folder of stored data");
    let mut files: Vec<PathBuf> = entries.map(|entry| entry.expect("an entry").path()).collect();
    files.retain(|path| path.extension().is_some_and(|found| found == extension));
    files.sort();
    files
}

fn answer_text(answer: Answer) -> String {
    match told(answer) {
        (0, lines) => format!("accepted {lines}"),
        (5, member) => format!("refused 5 member {member}"),
        (6, contract) => format!("refused 6 contract {contract}"),
        (number, _) => format!("refused {number}"),
    }
}

/// The list with every answer, line and ledger as the model gives them.
fn replayed(list: &str) -> String {
    let mut tables = Tables::empty();
    let mut out = String::new();
    for call in list.lines() {
        match call.split_once(' ') {
            Some(("header", hex)) => {
                make(&mut tables, &from_hex(hex)).expect("a sound header");
                out += &format!("{call}\n{}", ledger(&tables));
            }
            Some(("record", hex)) => {
                let answer = apply(&mut tables, &from_hex(hex));
                out += &format!("{call}\nanswer {}\n", answer_text(answer));
                for line in (0..answer.unwrap_or(0)).map(|place| tables.line(place as usize)) {
                    out += &format!("line {} {} {} {}\n", line.member, line.contract, line.lots, line.price);
                }
            }
            _ => {}
        }
    }
    out + &ledger(&tables)
}

#[test]
fn stored_lists() {
    let files = files("lists", "txt");
    assert_eq!(files.len(), 36);
    let mut records = 0;
    for file in files {
        let list = fs::read_to_string(&file).expect("a list");
        assert_eq!(replayed(&list).trim(), list.trim(), "{}", file.display());
        records += list.lines().filter(|line| line.starts_with("record ")).count();
    }
    assert_eq!(records, 896);
}

#[test]
fn stored_journals() {
    let (journals, stories) = (files("journals", "vjr"), files("../examples", "vjr"));
    assert_eq!((journals.len(), stories.len()), (60, 6));
    let mut bytes = 0;
    for file in journals.into_iter().chain(stories) {
        let journal = fs::read(&file).expect("a journal");
        let expected = fs::read_to_string(file.with_extension("out")).expect("what it prints");
        assert_eq!(model::journal::printed(&journal), expected, "{}", file.display());
        bytes += journal.len();
    }
    assert_eq!(bytes, 100_111);
}
