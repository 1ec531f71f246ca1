//! What is fetched in a second reading, row by row: the text that an index is read as, the text at the second reading, the
//! numbers of the stanzas that are wanted, and the texts that are fetched one behind the other. Where
//! the index has changed, `-` stands.
use crate::inputs::{Broken, Few};
use crate::texts::{Shown, all_hold, columns};
use index::{Index, IndexEntry, KeptIndex};
use rules::{Release, Text};
use std::alloc::{AllocError, Global};
use std::test::Fail;
use unpack_texts::{FetchError, fetch, in_order};

const ARCH: &[u8] = b"amd64";

const ROWS: &str = "\
Package: a$Version: 1$Architecture: all$→Package: a$Version: 1$Architecture: all$→1→Package: a$Version: 1$Architecture: all$
Package: a$Version: 1$Architecture: all$→$$Package: a$Version: 1$Architecture: all→1→Package: a$Version: 1$Architecture: all
Package: a$Version: 1$Architecture: all$→Package: a$Version: 1$Architecture: all$Size: 7$$ x$→1→Package: a$Version: 1$Architecture: all$Size: 7$
Package: a$Version: 1$Architecture: all$→Package: a$Version: 1$Architecture: all$$x$→1→Package: a$Version: 1$Architecture: all$
Package: a$Version: 1$Architecture: all$→x$$Package: a$Version: 1$Architecture: all$→1→-
Package: a$Version: 1$Architecture: all$→Package: a$Version: 1$Architecture: all$x$→1→-
Package: a$Version: 1$Architecture: all$→Package: a$Version: 1$Architecture: all$→→
Package: a$Version: 1$Architecture: all$→x$→→
Package: a$Version: 1$Architecture: all$$Package: b$Version: 1$Architecture: all$→Package: a$Version: 1$Architecture: all$$Package: b$Version: 1$Architecture: all$→1 2→Package: a$Version: 1$Architecture: all$Package: b$Version: 1$Architecture: all$
Package: a$Version: 1$Architecture: all$$Package: b$Version: 1$Architecture: all$→Package: c$$Package: b$Version: 1$Architecture: all$→2→Package: b$Version: 1$Architecture: all$
Package: a$Version: 1$Architecture: all$$Package: b$Version: 1$Architecture: all$→Package: b$Version: 1$Architecture: all$→2→-
Package: a$Version: 1$Architecture: all$$Package: b$Version: 1$Architecture: all$→Package: b$Version: 1$Architecture: all$$Package: a$Version: 1$Architecture: all$→1→-
Package: a$Version: 1$Architecture: all$→→1→-
Package: a$Version: 1$Architecture: all$→Package: a$Version: 1.0$Architecture: all$→1→-
Package: a$Version: 1$Architecture: all$→Package: a$Version: 1$Architecture: i386$→1→-
Package: a$Version: 1$Architecture: all$→Package: a$Version: 1$Architecture: all$Essential: yes$→1→-
Package: a$Version: 1$Architecture: all$Depends: b$→Package: a$Version: 1$Architecture: all$→1→-
Package: a$Version: 1$Architecture: all$Pre-Depends: b$→Package: a$Version: 1$Architecture: all$Depends: b$→1→-
Package: a$Version: 1$Architecture: all$Conflicts: b (<< 2)$→Package: a$Version: 1$Architecture: all$Conflicts: b (<= 2)$→1→-
Package: a$Version: 1$Architecture: all$Breaks: b:i386$→Package: a$Version: 1$Architecture: all$Breaks: b$→1→-
Package: a$Version: 1$Architecture: all$Provides: b, c$→Package: a$Version: 1$Architecture: all$Provides: c, b$→1→-
Package: a$Version: 1$Architecture: all$Depends: b|c$→Package: a$Version: 1$Architecture: all$Depends: b | c$→1→Package: a$Version: 1$Architecture: all$Depends: b | c$";

// Those of the packages whose stanzas have these numbers, which spaces part, in order. They are handed in the last first.
fn picked<'p, 'a>(
    alloc: Global,
    index: &'p Index<'a>,
    numbers: &str,
) -> Result<Vec<&'p IndexEntry<'a>>, AllocError> {
    let mut found = Vec::new(alloc);
    for entry in index.packages() {
        let number = entry.place().stanza;
        if numbers.split(' ').any(|word| word.parse::<usize>().is_ok_and(|found| found == number)) {
            found.push(entry)?;
        }
    }
    found.reverse();
    in_order(found)
}

// The texts that are fetched one behind the other, where readings give so many bytes at most.
fn fetched(
    alloc: Global,
    wanted: &[&IndexEntry<'_>],
    text: &str,
    most: usize,
) -> Result<Shown, AllocError> {
    let mut shown = Shown::new(alloc);
    let mut source = Few {
        bytes: text.as_bytes(),
        most,
    };
    match fetch(alloc, &mut source, ARCH, wanted) {
        Ok(texts) => {
            for text in texts.as_slice() {
                shown.add_bytes(text.as_slice())?;
            }
        }
        Err(FetchError::Changed) => shown.add("-")?,
        Err(_) => shown.add("refused")?,
    }
    Ok(shown)
}

// What the first reading keeps of the text.
fn kept_of(alloc: Global, text: &str) -> Result<KeptIndex, Fail> {
    let mut source = text.as_bytes();
    Ok(KeptIndex::read_from(alloc, &mut source, ARCH, 1, 0)?)
}

fn lent(alloc: Global, kept: &KeptIndex) -> Result<Index<'_>, AllocError> {
    Index::of(
        alloc,
        kept,
        Release::without_keys(Text::copied_from(alloc, b"")?),
    )
}

// Whether this is fetched, however many bytes a reading gives.
fn is_fetched(alloc: Global, row: &str) -> Result<bool, Fail> {
    let (first, rest) = columns(row);
    let (second, rest) = columns(rest);
    let (numbers, wanted) = columns(rest);
    let kept = kept_of(alloc, first)?;
    let index = lent(alloc, &kept)?;
    let entries = picked(alloc, &index, numbers)?;
    for most in [1, 2, 3, 4, 5, 6, 7, 8, usize::MAX] {
        if !fetched(alloc, entries.as_slice(), second, most)?.is(wanted) {
            return Ok(false);
        }
    }
    Ok(true)
}

#[test]
fn a_stanza_is_fetched_where_it_is_of_the_same_package(rt: HostRuntime) -> Result<(), Fail> {
    all_hold(rt.alloc(), ROWS, is_fetched)
}

#[test]
fn a_device_that_fails_is_no_change(rt: HostRuntime) -> Result<(), Fail> {
    let kept = kept_of(rt.alloc(), "Package: a\nVersion: 1\nArchitecture: all\n")?;
    let index = lent(rt.alloc(), &kept)?;
    let entries = picked(rt.alloc(), &index, "1")?;
    let mut device = Broken { failures: 0 };
    let error = fetch(rt.alloc(), &mut device, ARCH, entries.as_slice()).err();
    assert!(rt; error == Some(FetchError::Read));
    Ok(())
}
