//! Each public call once, and the example of the README.
use clauses::Clauses;
use search::{SearchAnswer, search};
use std::alloc::AllocError;

#[test]
fn the_readme_example(rt: HostRuntime) -> Result<(), AllocError> {
    let mut given = Clauses::new(rt.alloc(), 2);
    given.push(1)?;
    given.end_clause()?;
    given.end_unowned();
    given.push(-1)?;
    given.push(2)?;
    given.end_clause()?;
    given.end_depends(1)?;
    given.push_wish(2)?;
    given.end_wish()?;
    let SearchAnswer::Selection(numbers) = search(rt.alloc(), &given, 0)? else {
        return Err(AllocError);
    };
    assert_eq!(rt; numbers.as_slice(), [1, 2].as_slice());
    Ok(())
}

#[test]
fn what_was_put_in_is_there(rt: HostRuntime) -> Result<(), AllocError> {
    let mut given = Clauses::new(rt.alloc(), 7);
    assert!(rt; given.is_empty());
    given.push(-4)?;
    given.push(5)?;
    given.end_clause()?;
    given.end_depends(0)?;
    given.push_wish(3)?;
    given.end_wish()?;
    assert_eq!(rt; given.numbers(), 7);
    assert_eq!(rt; given.len(), 1);
    assert_eq!(rt; given.clause(0), [-4, 5].as_slice());
    assert_eq!(rt; given.clause(1), [].as_slice());
    assert_eq!(rt; given.unowned_count(), 0);
    assert_eq!(rt; given.depends_of(1).until, 1);
    assert_eq!(rt; given.depends_of(2).until, 0);
    assert_eq!(rt; given.wishes(), 1);
    assert_eq!(rt; given.wish(0), [3].as_slice());
    Ok(())
}
