//! Puzzles that need many conflicts: pigeons in too few holes, and clauses of three literals by a fixed rule.
use super::replay::is_accepted;
use clauses::Clauses;
use search::{SearchAnswer, search};
use std::alloc::{AllocError, Global};

// The number that says that a pigeon sits in a hole.
fn sits(pigeon: u32, hole: u32, holes: u32) -> i32 {
    let number = pigeon
        .wrapping_mul(holes)
        .wrapping_add(hole)
        .wrapping_add(1);
    i32::try_from(number).unwrap_or(0)
}

fn add_pair(given: &mut Clauses, first: i32, second: i32) -> Result<(), AllocError> {
    given.push(first.wrapping_neg())?;
    given.push(second.wrapping_neg())?;
    given.end_clause()
}

// The pigeon sits in some hole.
fn add_pigeon(given: &mut Clauses, pigeon: u32, holes: u32) -> Result<(), AllocError> {
    for hole in 0..holes {
        given.push(sits(pigeon, hole, holes))?;
    }
    given.end_clause()
}

// No two pigeons sit in the hole.
fn add_hole(given: &mut Clauses, hole: u32, pigeons: u32, holes: u32) -> Result<(), AllocError> {
    for second in 0..pigeons {
        for first in 0..second {
            add_pair(given, sits(first, hole, holes), sits(second, hole, holes))?;
        }
    }
    Ok(())
}

fn pigeons_in(alloc: Global, pigeons: u32, holes: u32) -> Result<Clauses, AllocError> {
    let mut given = Clauses::new(alloc, pigeons.saturating_mul(holes));
    for pigeon in 0..pigeons {
        add_pigeon(&mut given, pigeon, holes)?;
    }
    for hole in 0..holes {
        add_hole(&mut given, hole, pigeons, holes)?;
    }
    given.end_unowned();
    Ok(given)
}

fn is_refuted(alloc: Global, given: &Clauses) -> Result<bool, AllocError> {
    match search(alloc, given, 100_000)? {
        SearchAnswer::Refutation(refutation) => is_accepted(alloc, given, &refutation),
        _ => Ok(false),
    }
}

#[test]
fn one_pigeon_too_many_is_refuted(rt: HostRuntime) -> Result<(), AllocError> {
    for holes in 1..7 {
        let given = pigeons_in(rt.alloc(), holes + 1, holes)?;
        assert!(rt; is_refuted(rt.alloc(), &given)?, "{holes} holes");
    }
    Ok(())
}

#[test]
fn as_many_pigeons_as_holes_have_room(rt: HostRuntime) -> Result<(), AllocError> {
    for holes in 1..7 {
        let given = pigeons_in(rt.alloc(), holes, holes)?;
        let SearchAnswer::Selection(numbers) = search(rt.alloc(), &given, 100_000)? else {
            return Err(AllocError);
        };
        assert!(rt; numbers.len() >= holes as usize, "{holes} holes");
    }
    Ok(())
}

// The number behind this one, by a rule that spreads well.
fn spread(number: u64) -> u64 {
    number
        .wrapping_mul(6_364_136_223_846_793_005)
        .wrapping_add(1_442_695_040_888_963_407)
}

// One of the numbers of a third, negated or not.
fn literal_from(number: u64, third: u32, size: u32) -> i32 {
    let place = (number >> 33) % u64::from(size.max(1));
    let first = third.wrapping_mul(size).wrapping_add(1);
    let literal = i32::try_from(place.wrapping_add(u64::from(first))).unwrap_or(0);
    if (number >> 32) % 2 == 0 {
        literal
    } else {
        literal.wrapping_neg()
    }
}

// Clauses of a literal from each third of the numbers.
fn threes(alloc: Global, size: u32, clauses: u32, seed: u64) -> Result<Clauses, AllocError> {
    let mut given = Clauses::new(alloc, size.saturating_mul(3));
    let mut number = spread(seed);
    for _ in 0..clauses {
        for third in 0..3 {
            number = spread(number);
            given.push(literal_from(number, third, size))?;
        }
        given.end_clause()?;
    }
    given.end_unowned();
    Ok(given)
}

// Whether a clause has a literal that is true of the numbers.
fn is_true(numbers: &Vec<u32>, clause: &[i32]) -> bool {
    clause.iter().any(|literal| numbers.contains(&literal.unsigned_abs()) == (*literal > 0))
}

fn is_decided(alloc: Global, given: &Clauses) -> Result<bool, AllocError> {
    match search(alloc, given, 100_000)? {
        SearchAnswer::Selection(numbers) => {
            Ok((0..given.len()).all(|place| is_true(&numbers, given.clause(place))))
        }
        SearchAnswer::Refutation(refutation) => is_accepted(alloc, given, &refutation),
        SearchAnswer::Limit(_) => Ok(false),
    }
}

#[test]
fn clauses_of_three_are_decided(rt: HostRuntime) -> Result<(), AllocError> {
    for seed in 0..60 {
        let given = threes(rt.alloc(), 20, 258, seed)?;
        assert!(rt; is_decided(rt.alloc(), &given)?, "seed {seed}");
    }
    Ok(())
}
