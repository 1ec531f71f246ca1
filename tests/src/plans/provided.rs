//! Who has or provides a name, and which packages match an atom, by the rules of Policy 7.1 and 7.5. Positions were counted in the
//! text of the packages.
use crate::texts::{Shown, all_hold, columns};
use providers::{Providers, Ticks};
use relation::{Pkg, parse_atoms};
use stanza::Stanzas;
use std::alloc::{AllocError, Global};
use std::test::Fail;

const ARCH: &[u8] = b"amd64";

const SIX_STANZAS: &[u8] =
    b"Package: v\nVersion: 1\n\nPackage: v\nVersion: 2\n\nPackage: v\nVersion: 3\n\n\
Package: w\nVersion: 1\nProvides: v (= 2), v\n\nPackage: u\nVersion: 1\nProvides: v\n\nPackage: t\nVersion: 1\nProvides: v:i386\n";

fn write_places(shown: &mut Shown, places: &[usize]) -> Result<(), AllocError> {
    for place in places {
        shown.add(" ")?;
        shown.add(*place)?;
    }
    Ok(())
}

// The places of the packages that have or provide the name, or that match the atom, by a few comparisons.
fn are_found(
    alloc: Global,
    providers: &Providers<'_>,
    asked: &str,
    wanted: &str,
) -> Result<bool, Fail> {
    let mut shown = Shown::new(alloc);
    let mut ticks = Ticks::new();
    if let Some(name) = asked.strip_prefix("name ") {
        write_places(&mut shown, providers.of(alloc, name.as_bytes())?.as_slice())?;
    }
    if let Some(atom) = asked.strip_prefix("atom ") {
        for atom in parse_atoms(alloc, atom.as_bytes(), ARCH)?.as_slice() {
            let places = providers.matching(alloc, atom, &mut ticks)?;
            write_places(&mut shown, places.as_slice())?;
        }
    }
    Ok(shown.is(wanted) && ticks.count() <= 6)
}

const FOUND: &str = "\
name v→ 0 1 2 3 4
name w→ 3
name no→
atom v→ 0 1 2 3 4
atom v (>= 2)→ 1 2 3
atom v (= 2)→ 1 3
atom v (<< 1)→
";

#[test]
fn a_name_is_provided_and_an_atom_matched_by_these_packages(rt: HostRuntime) -> Result<(), Fail> {
    let mut pkgs = Vec::new(rt.alloc());
    for item in Stanzas::new(SIX_STANZAS) {
        pkgs.push(Pkg::from_stanza(rt.alloc(), &item?, ARCH)?)?;
    }
    let mut lent = Vec::new(rt.alloc());
    for pkg in pkgs.as_slice() {
        lent.push(pkg)?;
    }
    let providers = Providers::of_packages(rt.alloc(), lent.as_slice())?;
    all_hold(rt.alloc(), FOUND, |alloc, row| {
        let (asked, wanted) = columns(row);
        are_found(alloc, &providers, asked, wanted)
    })
}
