//! Two versions compared, by the calls below the command line.
use cli_engine::{Comparison, compare};
use outcomes::{Exit, Outcome, comparison_line, exit_of_comparison, outcome_of_comparison};
use std::alloc::{AllocError, Global};
use std::cmp::Ordering;
use std::test::Fail;

#[test]
fn a_relation_is_that_of_the_order(rt: HostRuntime) {
    assert!(rt; matches!(compare(b"1", Comparison::Later, b"0"), Ok(true)));
    assert!(rt; Comparison::NotEqual.holds(Ordering::Less));
    assert!(rt; exit_of_comparison(false) == Exit::No);
}

fn is_line_of_yes(alloc: Global) -> Result<bool, AllocError> {
    Ok(comparison_line(alloc, true)?.as_slice() == b"yes\n".as_slice())
}

fn is_answer_of_yes(alloc: Global) -> Result<bool, AllocError> {
    let outcome = outcome_of_comparison(alloc, &Ok(true))?;
    Ok(matches!(&outcome, Outcome::Answer(_, Exit::Success)))
}

#[test]
fn a_comparison_is_printed_as_the_line_of_an_answer(rt: HostRuntime) -> Result<(), Fail> {
    assert!(rt; is_line_of_yes(rt.alloc())? && is_answer_of_yes(rt.alloc())?);
    Ok(())
}
