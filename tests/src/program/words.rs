//! Words of the command line that are empty or no text.
use super::memory::{Memory, Printed, run_line, run_on};
use super::scenario::CANDIDATE;
use std::alloc::{AllocError, Global};
use std::test::Fail;

// A text on standard error alone, and the status of a usage fault.
fn is_fault(printed: &Printed) -> bool {
    printed.status == 4 && printed.out.is_empty() && !printed.err.is_empty()
}

fn is_fault_on(alloc: Global, words: &[Vec<u8>]) -> Result<bool, AllocError> {
    let printed = run_on(alloc, words, &mut Memory::new(alloc))?;
    Ok(is_fault(&printed))
}

// No words at all, and a word that isn't UTF-8.
#[test]
fn words_that_are_no_text_are_usage_faults(rt: HostRuntime) -> Result<(), Fail> {
    let alloc = rt.alloc();
    let mut words = Vec::new(alloc);
    assert!(rt; is_fault_on(alloc, words.as_slice())?);
    for word in &[b"debplan".as_slice(), b"compare", b"1", b"lt", b"\xff"] {
        words.push(word.to_vec(alloc)?)?;
    }
    assert!(rt; is_fault_on(alloc, words.as_slice())?);
    Ok(())
}

fn is_line_without_a_command(alloc: Global) -> Result<bool, AllocError> {
    let printed = run_line(alloc, "", &mut Memory::new(alloc))?;
    Ok(is_fault(&printed))
}

// An empty word in the place of the program's name, and nothing behind it.
#[test]
fn an_empty_line_is_a_usage_fault(rt: HostRuntime) -> Result<(), Fail> {
    assert!(rt; is_line_without_a_command(rt.alloc())?);
    Ok(())
}

fn add_sources(alloc: Global, host: &mut Memory<'_>) -> Result<(), Fail> {
    host.add(alloc, "status", "")?;
    host.add(alloc, "sources", "")
}

fn is_none_of_empty_name(alloc: Global, host: &mut Memory<'_>) -> Result<bool, AllocError> {
    let line = format!(in alloc; "{CANDIDATE} ")?;
    run_line(alloc, line.as_str(), host)?.is(alloc, "1  none$|")
}

#[test]
fn an_empty_name_has_no_candidate(rt: HostRuntime) -> Result<(), Fail> {
    let mut host = Memory::new(rt.alloc());
    add_sources(rt.alloc(), &mut host)?;
    assert!(rt; is_none_of_empty_name(rt.alloc(), &mut host)?);
    Ok(())
}
