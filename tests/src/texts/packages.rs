//! Packages of stanzas, their refusals, and a package that matches an atom.
use super::fields::{write_atoms, write_clauses, write_items};
use super::shown::{Shown, all_hold, columns};
use relation::{
    Pkg, PkgError, PkgFields, RelationError, parse_atoms, parse_clauses, parse_provides,
};
use relation_text::RelationFault;
use stanza::Stanzas;
use std::alloc::{AllocError, Global};
use std::test::Fail;

const ARCH: &[u8] = b"amd64";

fn write_pkg(shown: &mut Shown, pkg: &Pkg<'_>) -> Result<(), AllocError> {
    shown.add_bytes(pkg.name())?;
    shown.add_behind(" ", pkg.version().text())?;
    shown.add(" pre ")?;
    write_clauses(shown, pkg.pre_depends())?;
    shown.add(" depends ")?;
    write_clauses(shown, pkg.depends())?;
    shown.add(" conflicts ")?;
    write_atoms(shown, pkg.conflicts())?;
    shown.add("breaks ")?;
    write_atoms(shown, pkg.breaks())?;
    shown.add("provides ")?;
    write_items(shown, pkg.provides())
}

// The package or its refusal, and what the test of its relation fields alone says.
fn is_pkg(alloc: Global, row: &str) -> Result<bool, Fail> {
    let (text, wanted) = columns(row);
    let Some(Ok(stanza)) = Stanzas::new(text.as_bytes()).next() else {
        return Ok(false);
    };
    let mut shown = Shown::new(alloc);
    match Pkg::from_stanza(alloc, &stanza, ARCH) {
        Ok(pkg) => write_pkg(&mut shown, &pkg)?,
        Err(error) => shown.add(error)?,
    }
    match PkgFields::in_stanza(&stanza).check_relations() {
        Ok(()) => shown.add("→")?,
        Err(fault) => {
            shown.add("→")?;
            shown.add(fault)?;
        }
    }
    Ok(shown.is(wanted))
}

const PACKAGES: &str = "\
VERSION: 1:2-3$provides: p (= 1), q:i386$Breaks: r (<< 2)$Conflicts: s$Depends:$ t | u,$ v:i386$Pre-Depends: w$package: A$→A 1:2-3 pre [w; ] depends [t; u; ][v foreign; ] conflicts s; breaks r << 2; provides p = 1; q foreign; →
Package: a$→E9 MissingField 1 Version→
Package: a$Version: 1_0$Depends: b_$→E6 BadVersion 2 BadByte→E7 BadRelation 3 1
Package: a$Version: 1$Pre-Depends: b |$→E8 BadName 3 3→E8 BadName 3 3
";

#[test]
fn a_package_is_read_from_its_fields(rt: HostRuntime) -> Result<(), Fail> {
    all_hold(rt.alloc(), PACKAGES, is_pkg)
}

const PYTHON: &[u8] = b"Package: python3\nVersion: 3.11\n";

#[test]
fn the_readme_example_of_relation(rt: HostRuntime) -> Result<(), Fail> {
    let value = b"python3:any (>= 3.5), a | b (<< 2), c (> 1)";
    let clauses = parse_clauses(rt.alloc(), value, ARCH)?;
    let Some(Ok(stanza)) = Stanzas::new(PYTHON).next() else {
        return Err(Fail::new("no stanza"));
    };
    let pkg = Pkg::from_stanza(rt.alloc(), &stanza, ARCH)?;
    assert!(rt; clauses[0].as_slice()[0].matched_by(&pkg));
    assert!(rt; !clauses[1].as_slice()[0].matched_by(&pkg));
    Ok(())
}

fn are_clauses_or_no_memory(alloc: Global) -> bool {
    match parse_clauses(alloc, b"a | b (<< 2), c, d:i386", ARCH) {
        Ok(clauses) => clauses.len() == 3,
        Err(error) => error == RelationError::OutOfMemory,
    }
}

fn are_items_or_no_memory(alloc: Global) -> bool {
    match parse_provides(alloc, b"a, b (= 2)", ARCH) {
        Ok(items) => items.len() == 2,
        Err(error) => error == RelationError::OutOfMemory,
    }
}

// A refused value takes no memory.
fn is_refused_alone(alloc: Global) -> bool {
    let refused = RelationError::Refused(RelationFault::BadRelation(11));
    matches!(parse_atoms(alloc, b"a, b, c (= )", ARCH), Err(error) if error == refused)
}

fn is_pkg_or_no_memory(alloc: Global) -> bool {
    let text = b"Package: a\nVersion: 1\nDepends: b, c | d\nConflicts: e\nProvides: f, g (= 1)\n";
    let Some(Ok(stanza)) = Stanzas::new(text).next() else {
        return false;
    };
    match Pkg::from_stanza(alloc, &stanza, ARCH) {
        Ok(pkg) => pkg.provides().len() == 2,
        Err(error) => error == PkgError::OutOfMemory,
    }
}

/// Run with each allocation refused in turn: the answer is the same or want of memory.
#[test]
fn a_refused_growth_of_relations_is_want_of_memory(rt: HostRuntime) {
    assert!(rt; are_clauses_or_no_memory(rt.alloc()));
    assert!(rt; are_items_or_no_memory(rt.alloc()));
    assert!(rt; is_refused_alone(rt.alloc()));
    assert!(rt; is_pkg_or_no_memory(rt.alloc()));
}
