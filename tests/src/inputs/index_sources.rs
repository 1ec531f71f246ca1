//! Sources texts: this project's own format, by texts worked by hand. Most of what is refused is shown by the scenarios.
use crate::texts::{Shown, all_hold, columns};
use index::{IndexSource, SourcesError, read_sources};
use rules::Text;
use std::alloc::{AllocError, Global};
use std::test::Fail;

fn write_key(shown: &mut Shown, letter: &str, value: &Option<Text>) -> Result<(), AllocError> {
    if let Some(text) = value {
        shown.add(letter)?;
        shown.add_behind("=", text.as_bytes())?;
        shown.add(" ")?;
    }
    Ok(())
}

// The file in brackets, and the keys that are there.
fn write_source(shown: &mut Shown, source: &IndexSource<'_>) -> Result<(), AllocError> {
    let release = source.release();
    shown.add_behind("[", source.file())?;
    shown.add("] ")?;
    write_key(shown, "archive", &release.archive)?;
    write_key(shown, "suite", &release.suite)?;
    write_key(shown, "codename", &release.codename)?;
    write_key(shown, "version", &release.version)?;
    write_key(shown, "component", &release.component)?;
    write_key(shown, "origin", &release.origin)?;
    write_key(shown, "label", &release.label)?;
    shown.add_behind("host=", release.host.as_bytes())?;
    shown.add(if release.not_automatic {
        " not automatic"
    } else {
        ""
    })?;
    shown.add(if release.but_automatic_upgrades {
        " but upgrades; "
    } else {
        "; "
    })
}

fn is_read(alloc: Global, row: &str) -> Result<bool, Fail> {
    let (text, wanted) = columns(row);
    let mut shown = Shown::new(alloc);
    let sources = read_sources(alloc, text.as_bytes())?;
    for source in sources.as_slice() {
        write_source(&mut shown, source)?;
    }
    Ok(shown.is(wanted))
}

// All keys; an empty suite, no host, and a word that isn't `yes`.
const SOURCES: &str = "\
# one$$Suite: s$FILE: p/q r$Archive: t$Codename: n$Version: 12.1$Component: main$# two$origin: Debian$Explanation: x$Label: l$explanation: y$Host: deb.debian.org$NotAutomatic: yes$ButAutomaticUpgrades: \tyes $$File:$NotAutomatic: true$Suite:→[p/q r] archive=t suite=s codename=n version=12.1 component=main origin=Debian label=l host=deb.debian.org not automatic but upgrades; [] suite= host=; 
";

#[test]
fn each_stanza_is_an_index_with_its_keys(rt: HostRuntime) -> Result<(), Fail> {
    all_hold(rt.alloc(), SOURCES, is_read)
}

fn is_counted(alloc: Global, row: &str) -> Result<bool, Fail> {
    let (last, wanted) = columns(row);
    let mut text = Vec::new(alloc);
    for _ in 0..1000 {
        text.extend_from_slice(b"File: a\n\n")?;
    }
    text.extend_from_slice(last.as_bytes())?;
    let mut shown = Shown::new(alloc);
    match read_sources(alloc, text.as_slice()) {
        Ok(sources) => shown.add(sources.len())?,
        Err(error) => shown.add(error)?,
    }
    Ok(shown.is(wanted))
}

// What stands behind a thousand stanzas. Each has two lines, so the thousand and first begins on line 2001.
const BEHIND_A_THOUSAND: &str = "\
→1000
File: b$→E10 TooLarge
File: b$$x$→E10 TooLarge
Label: l$→E9 MissingField 2001 File
File: b$x$→E2 BadLine 2002
";

#[test]
fn a_thousand_indices_are_read(rt: HostRuntime) -> Result<(), Fail> {
    all_hold(rt.alloc(), BEHIND_A_THOUSAND, is_counted)
}

#[test]
fn the_keys_are_given_away(rt: HostRuntime) -> Result<(), Fail> {
    for source in read_sources(rt.alloc(), b"File: a\nHost: h\n")? {
        assert!(rt; source.into_release().host.as_bytes() == b"h".as_slice());
    }
    Ok(())
}

/// Run with each allocation refused in turn: the answer is the same or want of memory.
#[test]
fn a_refused_growth_of_sources_is_want_of_memory(rt: HostRuntime) {
    let text = b"File: a\nSuite: s\nHost: h\n\nFile: b\nArchive: t\n";
    match read_sources(rt.alloc(), text) {
        Ok(sources) => assert!(rt; sources.len() == 2),
        Err(error) => assert!(rt; error == SourcesError::OutOfMemory),
    }
}
