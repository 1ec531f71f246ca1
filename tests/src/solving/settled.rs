//! Selections of all pairs of small universes that are settled. What is wanted is worked by hand: a pair of a name that
//! wasn't present stays only where a goal asks for it or a pair that stays needs it.
use super::texts::{are_numbers, stanzas_in};
use clauses::Clauses;
use encode::encode;
use index::{Index, KeptIndex};
use pins::Prefs;
use reach::Part;
use rules::{Release, Text};
use search_settle::settle;
use std::alloc::{AllocError, Global};
use std::test::Fail;
use universe::Universe;
use universe_build::build;
use universe_request::Request;

const ARCH: &[u8] = b"amd64";

// The index, of which `a` is asked for; the numbers to which all are settled; and why.
const ROWS: &str = "\
a, b→1→what nothing asks for is left out
a, b; Depends: c, c; Depends: b→1→a ring that nothing asks for is left out
a; Depends: c, b, c→1 3→what is needed stays
";

// All numbers from 1 to the greatest.
fn all_numbers(alloc: Global, greatest: u32) -> Result<Vec<u32>, AllocError> {
    (1..greatest + 1).collect(alloc)
}

// Whether all numbers together make each clause true.
fn are_true(given: &Clauses) -> bool {
    (0..given.len()).all(|place| given.clause(place).iter().any(|literal| *literal > 0))
}

// What all pairs are settled to.
fn settled_all(alloc: Global, universe: &Universe<'_, '_>) -> Result<Vec<u32>, Fail> {
    let encoding = encode(alloc, universe)?;
    if !are_true(encoding.clauses()) {
        return Err(Fail::new("all pairs make some clause false"));
    }
    let numbers = all_numbers(alloc, encoding.clauses().numbers())?;
    let part = Part::whole(alloc, universe)?;
    Ok(settle(alloc, &part, &encoding, numbers.as_slice())?)
}

// What all pairs of a row are settled to, over an empty status file.
fn settled_in(alloc: Global, index: &str) -> Result<Vec<u32>, Fail> {
    let text = stanzas_in(alloc, index)?;
    let release = Release::without_keys(Text::copied_from(alloc, b"")?);
    let prefs = Prefs::without_records(alloc, None)?;
    let request = Request::read(alloc, b"install a\n", ARCH)?;
    let mut source = text.as_bytes();
    let kept = KeptIndex::read_from(alloc, &mut source, ARCH, 1, 0)?;
    let indices = [Index::of(alloc, &kept, release)?];
    match build(alloc, &[], &indices, &prefs, request.into_vec(), false) {
        Ok(universe) => settled_all(alloc, &universe),
        Err(_) => Err(Fail::new("no universe")),
    }
}

fn is_settled(alloc: Global, row: &str) -> Result<bool, Fail> {
    let mut columns = row.split('→');
    let settled = settled_in(alloc, columns.next().unwrap_or(""))?;
    Ok(are_numbers(settled.as_slice(), columns.next().unwrap_or("")))
}

#[test]
fn pairs_are_settled_as_worked_by_hand(rt: HostRuntime) -> Result<(), Fail> {
    for row in ROWS.lines() {
        assert!(rt; is_settled(rt.alloc(), row)?, "{row}");
    }
    Ok(())
}
