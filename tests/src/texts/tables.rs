//! Values that the tables of an `Acceptor` accept, and values that only the exact test does, by hand from Policy 5.6.12 and 7.1.
use super::shown::{all_hold, columns};
use relation_text::{Acceptor, RelationForm};
use std::alloc::Global;
use std::test::Fail;

// Whether the value isn't refused, and the tables accept it where that is said.
fn is_accepted(alloc: Global, row: &str) -> Result<bool, Fail> {
    let (value, by) = columns(row);
    let acceptor = Acceptor::new(alloc)?;
    let accepted = acceptor.accepts(RelationForm::Clauses, value.as_bytes());
    let answer = acceptor.check_by(RelationForm::Clauses, value.as_bytes());
    Ok(accepted == (by == "tables") && answer.is_ok())
}

const VALUES: &str = "\
→tables
libc6 (>= 2.36), libgcc-s1 (>= 3.0) | a:any (<< 1:0.9.8-2+b1)→tables
python3:any (>= 3.5), a | b (<< 2), c (> 1)→tables
a (= 1:2.0~rc1+b-3~)→tables
a (= 1.0-1-2) , b (= 0)→tables
a (>= 12:1.0)→
a (= 1:2:3)→
a (= --1)→
";

#[test]
fn usual_values_are_accepted_by_tables_and_rare_ones_exactly(rt: HostRuntime) -> Result<(), Fail> {
    all_hold(rt.alloc(), VALUES, is_accepted)
}
