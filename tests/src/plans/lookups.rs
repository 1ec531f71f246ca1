//! What a universe is asked by name and by number. Who provides a name is counted by hand from Policy 7.5.
use super::offered::{Offered, answer};
use debversion::Version;
use relation::Pkg;
use stanza::Stanzas;
use std::alloc::{AllocError, Global};
use std::test::Fail;
use universe::{Pair, Pairs, Universe};
use universe_build::build;

const STATUS: &str = "\
Package: a\nStatus: install ok installed\nVersion: 1.5\nArchitecture: all\nProvides: web\n\n\
Package: s\nStatus: install ok unpacked\nVersion: 2\nArchitecture: all\n→asked";

/// The first `a` is a downgrade, so the pairs are a 1.5, a 2, b 3, c 1, mail 1 and s 2.
pub(crate) const INDEX: &[u8] = b"\
Package: mail\nVersion: 1\nArchitecture: all\nProvides: mail\n\n\
Package: b\nVersion: 3\nArchitecture: amd64\nProvides: sh (= 1)\n\n\
Package: a\nVersion: 1.0\nArchitecture: all\nProvides: old\n\n\
Package: a\nVersion: 2\nArchitecture: all\nProvides: mail (= 7), sh, sh (= 2)\n\n\
Package: c\nVersion: 1\nArchitecture: all\nProvides: mail:i386\n";

// Whether this holds of the universe of these records and this index.
fn holds(
    alloc: Global,
    asks: impl Fn(Global, &Universe<'_, '_>) -> Result<bool, AllocError>,
) -> Result<bool, Fail> {
    answer(alloc, STATUS, |alloc, given: &Offered<'_, '_>, _, _| {
        let goals = Vec::new(alloc);
        let universe = build(
            alloc,
            given.records,
            given.indices,
            given.prefs,
            goals,
            false,
        )?;
        Ok(asks(alloc, &universe)?)
    })
}

// Who has the name provides it, and so does each item of Provides that isn't foreign, in whatever version; a package that
// provides a name twice has one place.
fn are_provided(alloc: Global, universe: &Universe<'_, '_>) -> Result<bool, AllocError> {
    let providers = universe.providers();
    Ok(
        providers.of(alloc, b"mail")?.as_slice() == [1, 4].as_slice()
            && providers.of(alloc, b"sh")?.as_slice() == [1, 2].as_slice()
            && providers.of(alloc, b"a")?.as_slice() == [0, 1].as_slice()
            && providers.of(alloc, b"old")?.is_empty(),
    )
}

#[test]
fn a_name_is_provided_by_these_pairs(rt: HostRuntime) -> Result<(), Fail> {
    assert!(rt; holds(rt.alloc(), are_provided)?);
    Ok(())
}

fn is_stanza(universe: &Universe<'_, '_>, number: u32, name: &[u8], version: &[u8]) -> bool {
    matches!(universe.stanza(number), Some(entry) if entry.name() == name && entry.version().text() == version)
}

// No pair has the number 0, the first and the last pair stand and are in no index, and there is no seventh.
fn have_stanzas(_alloc: Global, universe: &Universe<'_, '_>) -> Result<bool, AllocError> {
    Ok(
        is_stanza(universe, 2, b"a", b"2")
            && is_stanza(universe, 5, b"mail", b"1")
            && [0, 1, 6, 7, u32::MAX]
                .into_iter()
                .all(|number| universe.stanza(number).is_none()),
    )
}

fn stands_in(universe: &Universe<'_, '_>, name: &[u8], wanted: &[u8]) -> bool {
    match universe.start(name) {
        Some(start) => {
            start.name() == name
                && matches!(start.standing(), Some(version) if version.text() == wanted)
        }
        None => false,
    }
}

fn is_candidate(universe: &Universe<'_, '_>, name: &[u8], wanted: &[u8]) -> bool {
    matches!(universe.candidate(name), Some(version) if version.text() == wanted)
}

// The start knows the two names of the status file alone.
fn are_named(_alloc: Global, universe: &Universe<'_, '_>) -> Result<bool, AllocError> {
    Ok(
        stands_in(universe, b"a", b"1.5")
            && stands_in(universe, b"s", b"2")
            && universe.start(b"b").is_none()
            && is_candidate(universe, b"a", b"2")
            && is_candidate(universe, b"s", b"2")
            && universe.candidate(b"ab").is_none()
            && universe.candidate(b"").is_none(),
    )
}

#[test]
fn a_number_has_this_stanza_and_a_name_this_candidate(rt: HostRuntime) -> Result<(), Fail> {
    assert!(rt; holds(rt.alloc(), have_stanzas)?);
    assert!(rt; holds(rt.alloc(), are_named)?);
    Ok(())
}

fn number_of(universe: &Universe<'_, '_>, name: &[u8], version: &[u8]) -> Option<usize> {
    universe.number_of(name, &Version::parse(version).ok()?)
}

// The first `a` isn't admitted, and 1.50 is no spelling of 1.5.
fn are_numbered(_alloc: Global, universe: &Universe<'_, '_>) -> Result<bool, AllocError> {
    Ok(
        number_of(universe, b"a", b"0:1.5") == Some(1)
            && number_of(universe, b"mail", b"1") == Some(5)
            && number_of(universe, b"s", b"2-0") == Some(6)
            && number_of(universe, b"a", b"1.0").is_none()
            && number_of(universe, b"a", b"1.50").is_none()
            && number_of(universe, b"ab", b"1").is_none(),
    )
}

#[test]
fn a_pair_has_this_number_and_a_name_this_start(rt: HostRuntime) -> Result<(), Fail> {
    assert!(rt; holds(rt.alloc(), are_numbered)?);
    Ok(())
}

// The calls of the README of `universe_parts`, with those of `ends`.
#[test]
fn pairs_have_a_name_in_a_version(rt: HostRuntime) -> Result<(), Fail> {
    let Some(Ok(stanza)) = Stanzas::new(b"Package: mail\nVersion: 1\n").next() else {
        return Err(Fail::new("no stanza"));
    };
    let pkg = Pkg::from_stanza(rt.alloc(), &stanza, b"amd64")?;
    let mut ordered = Vec::new(rt.alloc());
    ordered.push(Pair::standing(rt.alloc(), pkg, None)?)?;
    let pairs = Pairs::new(ordered);
    assert!(rt; pairs.has(b"mail", &Version::parse(b"0:1-0")?));
    assert!(rt; !pairs.has(b"mail", &Version::parse(b"2")?));
    assert!(rt; !pairs.has(b"web", &Version::parse(b"1")?));
    Ok(())
}
