//! The command lines of tests, and the texts round a plan.
use super::memory::Memory;
use std::alloc::Global;
use std::test::Fail;

/// The command line of `check-plan`.
pub(crate) const CHECK_PLAN: &str =
    "debplan check-plan --arch amd64 --status status --sources sources --request request plan";

/// The command line of `candidate`, without the name.
pub(crate) const CANDIDATE: &str =
    "debplan candidate --arch amd64 --status status --sources sources";

/// The command line of `solve`.
pub(crate) const SOLVE: &str =
    "debplan solve --arch amd64 --status status --sources sources --request request";

/// The next column of a row that has more behind it.
pub(crate) fn next_column<'a>(row: &mut &'a str) -> Result<&'a str, Fail> {
    let Some((column, rest)) = row.split_once('→') else {
        return Err("a column is missing".into());
    };
    *row = rest;
    Ok(column)
}

/// Adds a plan, in which `$` stands for a newline, beside an empty status file, no sources and an empty request.
pub(crate) fn add_plan(alloc: Global, host: &mut Memory<'_>, plan: &str) -> Result<(), Fail> {
    for path in ["status", "sources", "request"] {
        host.add(alloc, path, "")?;
    }
    host.add(alloc, "plan", plan)
}
