//! The stanzas of a universe's pairs, fetched index by index: row by row the number of the index, the text at its second reading,
//! what comes of it, and what is there after it: of each pair the bytes of its stanza, or `-`, with `|` behind each, and `whole`
//! where those of all were fetched. The rows act on one value, one after the other.
use crate::inputs::{Broken, Few};
use crate::texts::{Shown, columns};
use index::{Index, KeptIndex};
use pins::Prefs;
use rules::{Release, Text};
use std::alloc::{AllocError, Global};
use std::test::Fail;
use universe_build::build;
use unpack_texts::{FetchError, FetchedStanzas};

const ARCH: &[u8] = b"amd64";

// The texts of the two indices at the first reading: the pairs are those of `a 1`, `b 1`, `b 2` and `c 1`.
const FIRST: &[u8] = b"\
Package: b\nVersion: 2\nArchitecture: all\n\n\
Package: x\nVersion: 1\nArchitecture: i386\n\n\
Package: a\nVersion: 1\nArchitecture: all\n";

const SECOND: &[u8] = b"\
Package: a\nVersion: 1\nArchitecture: all\n\n\
Package: c\nVersion: 1\nArchitecture: all\n\n\
Package: b\nVersion: 1\nArchitecture: all\n";

const ROWS: &str = "\
3→x→fetched→-|-|-|-|
2→Package: x$$Package: c$Version: 1$Architecture: all$Size: 1$$Package: b$Version: 1$Architecture: all$Size: 2$$ x$→fetched→-|Package: b$Version: 1$Architecture: all$Size: 2$|-|Package: c$Version: 1$Architecture: all$Size: 1$|
1→Package: b$Version: 2$Architecture: all$$Package: x$→changed→-|Package: b$Version: 1$Architecture: all$Size: 2$|-|Package: c$Version: 1$Architecture: all$Size: 1$|
1→Package: b$Version: 2$Architecture: all$$Package: x$$Package: a$Version: 1$Architecture: all$Depends: b$→changed→-|Package: b$Version: 1$Architecture: all$Size: 2$|-|Package: c$Version: 1$Architecture: all$Size: 1$|
1→→unread→-|Package: b$Version: 1$Architecture: all$Size: 2$|-|Package: c$Version: 1$Architecture: all$Size: 1$|
1→Package: b$Version: 2$Architecture: all$$Package: x$$Package: a$Version: 1$Architecture: all$→fetched→Package: a$Version: 1$Architecture: all$|Package: b$Version: 1$Architecture: all$Size: 2$|Package: b$Version: 2$Architecture: all$|Package: c$Version: 1$Architecture: all$Size: 1$|whole
2→$$Package: x$$Package: c$Version: 1$Architecture: all$$Package: b$Version: 1$Architecture: all→fetched→Package: a$Version: 1$Architecture: all$|Package: b$Version: 1$Architecture: all|Package: b$Version: 2$Architecture: all$|Package: c$Version: 1$Architecture: all$|whole
2→Package: x$$Package: c$Version: 2$Architecture: all$→changed→Package: a$Version: 1$Architecture: all$|Package: b$Version: 1$Architecture: all|Package: b$Version: 2$Architecture: all$|Package: c$Version: 1$Architecture: all$|whole";

// What is there of the four pairs.
fn shown_of(alloc: Global, stanzas: &FetchedStanzas<'_, '_>) -> Result<Shown, AllocError> {
    let mut shown = Shown::new(alloc);
    for number in 1..5u32 {
        shown.add_bytes(stanzas.stanza(number).unwrap_or(b"-".as_slice()))?;
        shown.add("|")?;
    }
    shown.add(if stanzas.is_fetched() { "whole" } else { "" })?;
    Ok(shown)
}

fn word_of(outcome: Result<(), FetchError>) -> &'static str {
    match outcome {
        Ok(()) => "fetched",
        Err(FetchError::Changed) => "changed",
        Err(FetchError::Read) => "unread",
        Err(FetchError::OutOfMemory) => "refused",
    }
}

// Fetches from a text of which no reading gives more than so many bytes, or from a device that fails.
fn holds(
    alloc: Global,
    stanzas: &mut FetchedStanzas<'_, '_>,
    row: &str,
    most: usize,
) -> Result<bool, AllocError> {
    let (number, rest) = columns(row);
    let (text, rest) = columns(rest);
    let (word, wanted) = columns(rest);
    let number = number.parse::<usize>().unwrap_or(0);
    let bytes = text.as_bytes();
    let outcome = if word == "unread" {
        stanzas.fetch(alloc, number, &mut Broken { failures: 0 }, ARCH)
    } else {
        stanzas.fetch(alloc, number, &mut Few { bytes, most }, ARCH)
    };
    Ok(word_of(outcome) == word && shown_of(alloc, stanzas)?.is(wanted))
}

// What is kept of the text, as the index of this number.
fn kept_of(alloc: Global, text: &[u8], number: usize) -> Result<KeptIndex, Fail> {
    let mut source = text;
    Ok(KeptIndex::read_from(alloc, &mut source, ARCH, number, 0)?)
}

fn lent(alloc: Global, kept: &KeptIndex) -> Result<Index<'_>, AllocError> {
    Index::of(
        alloc,
        kept,
        Release::without_keys(Text::copied_from(alloc, b"")?),
    )
}

#[test]
fn stanzas_are_fetched_index_by_index(rt: HostRuntime) -> Result<(), Fail> {
    let alloc = rt.alloc();
    let (first, second) = (kept_of(alloc, FIRST, 1)?, kept_of(alloc, SECOND, 2)?);
    let indices = [lent(alloc, &first)?, lent(alloc, &second)?];
    let prefs = Prefs::without_records(alloc, None)?;
    let universe = build(alloc, &[], &indices, &prefs, Vec::new(alloc), true)?;
    for most in 1..4 {
        let mut stanzas = FetchedStanzas::new(alloc, &universe)?;
        for row in ROWS.lines() {
            let row = row.replace(alloc, "$", "\n")?;
            assert!(rt;
                holds(alloc, &mut stanzas, row.as_str(), most)?,
                "{most} {row}"
            );
        }
        assert!(rt; stanzas.stanza(0).is_none() && stanzas.stanza(5).is_none());
    }
    Ok(())
}
