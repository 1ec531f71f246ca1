//! A checker of refutations that shares nothing with the search: with a line's literals false, each hint's clause in turn
//! has at most one literal that isn't false, whose negation is false from then on, and the last one has none.
use clauses::{Clauses, Lists};
use search::{Derivation, DerivedClause};
use std::alloc::{AllocError, Global};

// The literals of a clause that aren't false.
fn open_in(alloc: Global, clause: &[i32], false_ones: &Vec<i32>) -> Result<Vec<i32>, AllocError> {
    clause
        .iter()
        .copied()
        .filter(|literal| !false_ones.contains(literal))
        .collect(alloc)
}

// Takes a hint's clause; whether it could be taken, and whether all its literals are false already.
fn take(
    alloc: Global,
    clause: &[i32],
    false_ones: &mut Vec<i32>,
) -> Result<(bool, bool), AllocError> {
    let open = open_in(alloc, clause, false_ones)?;
    match open.as_slice() {
        [] => Ok((true, true)),
        [only, others @ ..] if others.iter().all(|other| *other == *only) => {
            false_ones.push(only.wrapping_neg())?;
            Ok((true, false))
        }
        _ => Ok((false, false)),
    }
}

// Whether a line follows from the clauses before it.
fn follows(alloc: Global, lists: &Lists<i32>, line: &DerivedClause) -> Result<bool, AllocError> {
    let mut false_ones = line.literals.as_slice().to_vec(alloc)?;
    let mut is_false = false;
    for hint in &line.hints {
        if *hint == 0 || *hint as usize > lists.len() {
            return Ok(false);
        }
        let (taken, all_false) = take(
            alloc,
            lists.at((*hint as usize).wrapping_sub(1)),
            &mut false_ones,
        )?;
        if !taken {
            return Ok(false);
        }
        is_false = all_false;
    }
    Ok(is_false)
}

fn add(lists: &mut Lists<i32>, clause: &[i32]) -> Result<(), AllocError> {
    for literal in clause {
        lists.push(*literal)?;
    }
    lists.end()
}

fn are_lines(
    alloc: Global,
    lists: &mut Lists<i32>,
    lines: &[DerivedClause],
) -> Result<bool, AllocError> {
    for line in lines {
        if !follows(alloc, lists, line)? {
            return Ok(false);
        }
        add(lists, line.literals.as_slice())?;
    }
    Ok(true)
}

// Whether the last clause is there and empty.
fn ends_empty(lists: &Lists<i32>) -> bool {
    match lists.len().checked_sub(1) {
        Some(last) => lists.at(last).is_empty(),
        None => false,
    }
}

/// Whether the premises are clauses given, and what is derived follows up to the empty clause.
pub(crate) fn is_accepted(
    alloc: Global,
    given: &Clauses,
    refutation: &Derivation,
) -> Result<bool, AllocError> {
    let mut lists = Lists::new(alloc);
    for place in &refutation.premises {
        if *place >= given.len() {
            return Ok(false);
        }
        add(&mut lists, given.clause(*place))?;
    }
    Ok(are_lines(alloc, &mut lists, refutation.lines.as_slice())? && ends_empty(&lists))
}
