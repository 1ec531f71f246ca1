//! In which order files are opened, also where one is missing or refused, and which refusal is printed then.
use super::memory::{Memory, run_line};
use super::scenario::{CANDIDATE, CHECK_PLAN, SOLVE, next_column};
use std::alloc::{AllocError, Global};
use std::test::Fail;

// The files of every run, but for one that may be missing, and one whose text may be refused at its first line.
const FILES: &str = "\
status→
sources→File: index1$$File: index2$
index1→Package: a$Version: 1$Architecture: all$
index2→Package: b$Version: 1$Architecture: all$
preferences→Package: a$Pin: version 1$Pin-Priority: 5$
request→install a$
plan→plan 1$unpack a 1$configure a$
";

// The file that is missing, the one that is refused, the files that are opened, and what is printed: each is opened once, and
// none behind one that is missing or refused, which is named. docs/FORMATS.md, sections 13 and 14.
const RUNS: &str = "\
→→status sources index1 index2 request plan→0 yes$|
status→→status→5 |debplan: status: E5 Read$
sources→→status sources→5 |debplan: sources: E5 Read$
index1→→status sources index1→5 |debplan: index 1: E5 Read$
index2→→status sources index1 index2→5 |debplan: index 2: E5 Read$
request→→status sources index1 index2 request→5 |debplan: request: E5 Read$
plan→→status sources index1 index2 request plan→5 |debplan: plan: E5 Read$
→plan→status sources index1 index2 request plan→3 |debplan: plan: E18 BadPlan 1$
sources→status→status→3 |debplan: status: E2 BadLine 1$
index1→sources→status sources→3 |debplan: sources: E2 BadLine 1$
index2→index1→status sources index1→3 |debplan: index 1: E2 BadLine 1$
request→index1→status sources index1→3 |debplan: index 1: E2 BadLine 1$
request→index2→status sources index1 index2→3 |debplan: index 2: E2 BadLine 1$
plan→index2→status sources index1 index2→3 |debplan: index 2: E2 BadLine 1$
index1→index2→status sources index1→5 |debplan: index 1: E5 Read$
plan→request→status sources index1 index2 request→3 |debplan: request: E16 BadRequest 1$
";

// The same with preferences.
const PREFERRED_RUNS: &str = "\
→→status sources index1 index2 preferences request plan→0 yes$|
preferences→→status sources index1 index2 preferences→5 |debplan: preferences: E5 Read$
index2→preferences→status sources index1 index2→5 |debplan: index 2: E5 Read$
preferences→index2→status sources index1 index2→3 |debplan: index 2: E2 BadLine 1$
preferences→request→status sources index1 index2 preferences→5 |debplan: preferences: E5 Read$
request→preferences→status sources index1 index2 preferences→3 |debplan: preferences: E2 BadLine 1$
plan→preferences→status sources index1 index2 preferences→3 |debplan: preferences: E2 BadLine 1$
";

// The same where the candidate of `a` is asked for, which needs neither a request nor a plan.
const CANDIDATE_RUNS: &str = "\
→→status sources index1 index2 preferences→0 a 1 5$|
plan→request→status sources index1 index2 preferences→0 a 1 5$|
status→→status→5 |debplan: status: E5 Read$
sources→→status sources→5 |debplan: sources: E5 Read$
index2→→status sources index1 index2→5 |debplan: index 2: E5 Read$
preferences→→status sources index1 index2 preferences→5 |debplan: preferences: E5 Read$
index1→sources→status sources→3 |debplan: sources: E2 BadLine 1$
preferences→status→status→3 |debplan: status: E2 BadLine 1$
preferences→index2→status sources index1 index2→3 |debplan: index 2: E2 BadLine 1$
index2→preferences→status sources index1 index2→5 |debplan: index 2: E5 Read$
";

// The same where a request is solved, which needs no plan.
const SOLVE_RUNS: &str = "\
plan→→status sources index1 index2 request→0 plan 1$unpack a 1$configure a$|
request→plan→status sources index1 index2 request→5 |debplan: request: E5 Read$
request→index1→status sources index1→3 |debplan: index 1: E2 BadLine 1$
";

// Adds a file, if it's not the missing one.
fn add_file<'a>(
    alloc: Global,
    host: &mut Memory<'a>,
    file: &'a str,
    missing: &str,
    refused: &str,
) -> Result<(), Fail> {
    let mut text = file;
    let path = next_column(&mut text)?;
    if path == refused {
        host.add(alloc, path, "x$")
    } else if path == missing {
        Ok(())
    } else {
        host.add(alloc, path, text)
    }
}

// Adds the files without the missing one, and with the refused one.
fn add_files(
    alloc: Global,
    host: &mut Memory<'_>,
    missing: &str,
    refused: &str,
) -> Result<(), Fail> {
    for file in FILES.lines() {
        add_file(alloc, host, file, missing, refused)?;
    }
    Ok(())
}

// Whether the command line opens these files and prints this.
fn prints(
    alloc: Global,
    host: &mut Memory<'_>,
    line: &str,
    opened: &str,
    printed: &str,
) -> Result<bool, AllocError> {
    let is_printed = run_line(alloc, line, host)?.is(alloc, printed)?;
    Ok(is_printed && host.opened().strip_suffix(b" ") == Some(opened.as_bytes()))
}

// Whether a row holds of this command line.
fn holds(alloc: Global, line: &str, row: &str) -> Result<bool, Fail> {
    let mut rest = row;
    let missing = next_column(&mut rest)?;
    let refused = next_column(&mut rest)?;
    let opened = next_column(&mut rest)?;
    let mut host = Memory::new(alloc);
    add_files(alloc, &mut host, missing, refused)?;
    Ok(prints(alloc, &mut host, line, opened, rest)?)
}

// Fails with the first row that doesn't hold of the command with this behind it.
fn all_hold(alloc: Global, command: &str, rest_of_line: &str, rows: &str) -> Result<(), Fail> {
    let line = format!(in alloc; "{command}{rest_of_line}")?;
    for row in rows.lines() {
        if !holds(alloc, line.as_str(), row)? {
            return Err(Fail::new(row));
        }
    }
    Ok(())
}

// The words behind those of `check-plan` or `candidate` that ask for preferences.
const PREFERENCES: &str = " --preferences preferences";

#[test]
fn files_are_opened_once_and_none_behind_a_refusal(rt: HostRuntime) -> Result<(), Fail> {
    all_hold(rt.alloc(), CHECK_PLAN, "", RUNS)?;
    all_hold(rt.alloc(), CHECK_PLAN, PREFERENCES, PREFERRED_RUNS)
}

#[test]
fn a_candidate_and_a_request_need_no_files_behind_theirs(rt: HostRuntime) -> Result<(), Fail> {
    let behind = format!(in rt.alloc(); "{PREFERENCES} a")?;
    all_hold(rt.alloc(), CANDIDATE, behind.as_str(), CANDIDATE_RUNS)?;
    all_hold(rt.alloc(), SOLVE, "", SOLVE_RUNS)
}
