//! Errors as they are printed that no small text has, or that a scenario shows with the place before them.
use super::shown::assert_printed;
use pins::{PrefsError, PrefsFault};
use plantext::{PlanError, PlanFault};
use relation::{PkgError, PkgFault, RelationError};
use std::test::Fail;
use universe_build::UniverseError;
use universe_request::{RequestError, RequestFault};

#[test]
fn want_of_memory_is_printed_by_its_code(rt: HostRuntime) -> Result<(), Fail> {
    let alloc = rt.alloc();
    assert_printed(alloc, &RelationError::OutOfMemory, "E1 OutOfMemory")?;
    assert_printed(alloc, &PkgError::OutOfMemory, "E1 OutOfMemory")?;
    assert_printed(alloc, &PlanError::OutOfMemory, "E1 OutOfMemory")?;
    assert_printed(alloc, &RequestError::OutOfMemory, "E1 OutOfMemory")?;
    assert_printed(alloc, &PrefsError::OutOfMemory, "E1 OutOfMemory")?;
    assert_printed(alloc, &UniverseError::OutOfMemory, "E1 OutOfMemory")
}

#[test]
fn what_is_too_large_is_printed_by_its_code(rt: HostRuntime) -> Result<(), Fail> {
    let alloc = rt.alloc();
    assert_printed(
        alloc,
        &PkgError::Refused(PkgFault::TooLarge),
        "E10 TooLarge",
    )?;
    assert_printed(alloc, &PlanFault::TooLarge, "E10 TooLarge")?;
    assert_printed(alloc, &PlanError::from(PlanFault::TooLarge), "E10 TooLarge")?;
    assert_printed(alloc, &RequestFault::TooLarge, "E10 TooLarge")?;
    assert_printed(
        alloc,
        &RequestError::from(RequestFault::TooLarge),
        "E10 TooLarge",
    )?;
    assert_printed(
        alloc,
        &PrefsError::from(PrefsFault::TooLarge),
        "E10 TooLarge",
    )?;
    assert_printed(alloc, &UniverseError::TooLarge, "E10 TooLarge")
}
