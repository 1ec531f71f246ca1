//! Packages files for the architecture amd64, whole and piece by piece, and texts that are one stanza. Most of what is read and
//! refused is shown by the scenarios.
use super::devices::{Broken, Few};
use crate::texts::{Shown, all_hold, columns};
use index::{Index, IndexEntry, KeptIndex, StreamError, read_alone};
use rules::{IndexPlace, Release, Text};
use std::alloc::{AllocError, Global};
use std::test::Fail;

const ARCH: &[u8] = b"amd64";

fn release_of(alloc: Global, host: &[u8]) -> Result<Release, AllocError> {
    Ok(Release::without_keys(Text::copied_from(alloc, host)?))
}

// The name, the version, the numbers of clauses, atoms and items of the relation fields, and whether it is essential.
fn write_entry(alloc: Global, shown: &mut Shown, entry: &IndexEntry<'_>) -> Result<(), AllocError> {
    shown.add_bytes(entry.name())?;
    shown.add_behind(" ", entry.version().text())?;
    shown.add(" ")?;
    let pkg = entry.pkg(alloc)?;
    shown.add(pkg.pre_depends().len())?;
    shown.add(pkg.depends().len())?;
    shown.add(pkg.conflicts().len())?;
    shown.add(pkg.breaks().len())?;
    shown.add(pkg.provides().len())?;
    shown.add(if entry.is_essential() {
        " essential, "
    } else {
        ", "
    })
}

// What the text is read as behind so many packages, where no reading gives more than so many bytes.
fn read_by(alloc: Global, text: &[u8], most: usize, before: usize) -> Result<Shown, AllocError> {
    let mut shown = Shown::new(alloc);
    match KeptIndex::read_from(alloc, &mut Few { bytes: text, most }, ARCH, 1, before) {
        Ok(kept) => {
            let index = Index::of(alloc, &kept, release_of(alloc, b"h")?)?;
            for entry in index.packages() {
                write_entry(alloc, &mut shown, entry)?;
            }
            shown.add("skipped ")?;
            shown.add(index.skipped_count())?;
        }
        Err(error) => shown.add(error)?,
    }
    Ok(shown)
}

// However many bytes a reading gives.
fn is_read(alloc: Global, row: &str) -> Result<bool, Fail> {
    let (before, rest) = columns(row);
    let (text, wanted) = columns(rest);
    let before = before.parse::<usize>().unwrap_or(0);
    for most in [1, 2, 3, 4, 5, 6, 7, 8, usize::MAX] {
        if !read_by(alloc, text.as_bytes(), most, before)?.is(wanted) {
            return Ok(false);
        }
    }
    Ok(true)
}

// The number of packages before, the text, and what is shown of it. That Protected says the same as Essential is this project's
// own.
const READ: &str = "\
4000000→→skipped 0
3999999→Package: a$Version: 1$Architecture: all$→a 1 00000, skipped 0
3999998→Package: a$Version: 2$Architecture: all$$Package: b$Version: 1_$Architecture: i386$Depends: _$Provides: p (<< 1)$$Package: a$Version: 1$Architecture: amd64$Pre-Depends: b$Depends: c, d$Conflicts: e, f, g$Breaks: h, i, j, k$Provides: l, m, n, o, p (= 1)$→a 2 00000, a 1 12345, skipped 1
4000000→Package: a$Architecture: any$→skipped 1
0→Package: a$Version: 1$Architecture: all$PROTECTED:yes\t$→a 1 00000 essential, skipped 0
0→Package: a$Version: 1$Architecture: all$Essential: Yes$Protected: true$→a 1 00000, skipped 0
0→Package: a$Version: 1$Architecture: all$Maintainer: b$maintainer: c$→E4 DuplicateField 5
3999999→Package: a$Version: 1$Architecture: all$$Package: b$Architecture: i386$Provides: _$$Package: c$Version: 1$Architecture: amd64$Provides: p, q (<< 1)$→E7 BadRelation 12 6
4000000→Package: a$Architecture: i386$$Package: b$Version: 1$Architecture: all$$x$→E10 TooLarge
";

#[test]
fn stanzas_of_the_architecture_are_read_up_to_the_first_refusal(
    rt: HostRuntime,
) -> Result<(), Fail> {
    all_hold(rt.alloc(), READ, is_read)
}

const FOUR_STANZAS: &[u8] =
    b"Package: b\nVersion: 1\nArchitecture: all\n\nPackage: a\nVersion: 1\nArchitecture: all\n\nPackage: c\nArchitecture: i386\n\nPackage: b\nVersion: 2\nArchitecture: amd64\nX: y\n";

// The numbers of the packages' stanzas: the one of another architecture is counted too.
const STANZAS: [usize; 3] = [1, 2, 4];

fn is_at(alloc: Global, entry: &IndexEntry<'_>, place: IndexPlace) -> Result<bool, AllocError> {
    let package = entry.package(alloc)?;
    Ok(entry.place() == place && package.place() == place && package.pkg().name() == entry.name())
}

#[test]
fn an_index_has_its_names_once_and_its_release(rt: HostRuntime) -> Result<(), Fail> {
    let mut text = FOUR_STANZAS;
    let kept = KeptIndex::read_from(rt.alloc(), &mut text, ARCH, 7, 0)?;
    let index = Index::of(rt.alloc(), &kept, release_of(rt.alloc(), b"h")?)?;
    assert!(rt; index.release().host.as_bytes() == b"h".as_slice());
    let names = index.names(rt.alloc())?;
    assert!(rt; names.len() == 2 && names[0] == b"b".as_slice() && names[1] == b"a".as_slice());
    assert_eq!(rt; index.packages().len(), 3);
    for (entry, stanza) in index.packages().iter().zip(STANZAS) {
        assert!(rt; is_at(rt.alloc(), entry, IndexPlace { index: 7, stanza })?);
    }
    Ok(())
}

const TWO_STANZAS: &[u8] =
    b"Package: a\nVersion: 1\nArchitecture: all\nDepends: b, c | d\n\nPackage: b\nVersion: 1\nArchitecture: amd64\n";

fn are_two(alloc: Global, kept: &KeptIndex) -> Result<bool, AllocError> {
    Ok(
        Index::of(alloc, kept, release_of(alloc, b"")?)?
            .packages()
            .len()
            == 2,
    )
}

/// Run with each allocation refused in turn: the answer is the same or want of memory.
#[test]
fn a_refused_growth_is_want_of_memory_in_pieces_too(rt: HostRuntime) {
    let mut source = TWO_STANZAS;
    match KeptIndex::read_from(rt.alloc(), &mut source, ARCH, 1, 0) {
        Ok(kept) => assert!(rt; are_two(rt.alloc(), &kept).unwrap_or(true)),
        Err(error) => assert!(rt; error == StreamError::OutOfMemory),
    }
}

#[test]
fn a_device_that_fails_is_no_fault_of_the_index(rt: HostRuntime) {
    let error = KeptIndex::read_from(rt.alloc(), &mut Broken { failures: 0 }, ARCH, 1, 0).err();
    assert!(rt; error == Some(StreamError::Read));
}

fn is_named(_alloc: Global, row: &str) -> Result<bool, Fail> {
    let (text, wanted) = columns(row);
    match read_alone(text.as_bytes(), ARCH) {
        Some(indexed) => Ok(indexed.name() == wanted.as_bytes()),
        None => Ok(wanted == "-"),
    }
}

// A text, and the name of its package, or `-`.
const ALONE: &str = "\
Package: x$Version: 1$Architecture: all$→x
$ $Package: x$Version: 1$Architecture: amd64→x
Package: x$Version: 1$Architecture: all$$Package: y$Version: 1$Architecture: all$→-
Package: x$Version: 1$Architecture: i386$→-
Package: x$Version: 1$→-
Package: x$Version: 1$Architecture: all$$y$→-
→-
";

#[test]
fn one_stanza_that_counts_is_a_package(rt: HostRuntime) -> Result<(), Fail> {
    all_hold(rt.alloc(), ALONE, is_named)
}
