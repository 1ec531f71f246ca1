//! Rows that begin with a status file, of which `|` stands for the beginning of a stanza of version 1 up to its state. It is read as it
//! is by the program: its records are those of the checkers of plans.
use crate::texts::columns;
use plancheck_state::{Records, parse_packages, view};
use rules::Rule;
use status_text::StatusFile;
use std::alloc::Global;
use std::test::Fail;

/// The architecture of all rows.
pub(crate) const ARCH: &[u8] = b"amd64";

const HEAD: &str = "\n\nArchitecture: all\nVersion: 1\nStatus: install ok ";

/// Whether the records of the status file have the answer to the question: both stand behind the first arrow, with another one between
/// them.
pub(crate) fn answer(
    alloc: Global,
    row: &str,
    asks: impl Fn(Global, &Records<'_, '_>, &str, &str) -> Result<bool, Fail>,
) -> Result<bool, Fail> {
    let (status, rest) = columns(row);
    let (asked, wanted) = columns(rest);
    let status = status.replace(alloc, "|", HEAD)?;
    let file = StatusFile::read(alloc, status.as_bytes(), ARCH)?;
    let records = file.records(alloc)?;
    let packages = parse_packages(alloc, records.as_slice())?;
    let db = view(alloc, records.as_slice(), packages.as_slice())?;
    asks(alloc, &db, asked, wanted)
}

/// The rule that a step fails, by its code.
pub(crate) fn word_of(rule: Option<Rule>) -> &'static str {
    match rule {
        None => "allowed",
        Some(Rule::PreDepends) => "F1",
        Some(Rule::Conflict) => "F2",
        Some(Rule::Breaks) => "F3",
        Some(Rule::Depends) => "F4",
        Some(Rule::Group) => "F5",
        Some(Rule::WrongState) => "F9",
        Some(Rule::NotAdmitted) => "F10",
        Some(_) => "another rule",
    }
}
