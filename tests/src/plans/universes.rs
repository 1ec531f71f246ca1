//! Universes of small status files and indices, with the pairs, candidates and refusals that are wanted counted by hand
//! (deb-version(7) for the order of versions, apt_preferences(5) for the priorities).
use super::offered::{Offered, answer};
use super::records::ARCH;
use crate::texts::{Shown, all_hold};
use index::{Index, KeptIndex};
use pins::Prefs;
use rules::{Release, Text};
use status_text::StatusFile;
use std::alloc::{AllocError, Global};
use std::test::Fail;
use universe::Universe;
use universe_build::{UniverseError, build};
use universe_request::Request;

// The pairs, and behind a bar the candidates.
fn write_universe(shown: &mut Shown, universe: &Universe<'_, '_>) -> Result<(), AllocError> {
    for pair in universe.pairs() {
        shown.add_bytes(pair.name())?;
        shown.add_behind("=", pair.version().text())?;
        shown.add(" ")?;
    }
    shown.add("|")?;
    for candidate in universe.candidates() {
        shown.add_behind(" ", candidate.name())?;
        shown.add_behind("=", candidate.version().text())?;
    }
    Ok(())
}

fn is_built(
    alloc: Global,
    given: &Offered<'_, '_>,
    request: &str,
    wanted: &str,
) -> Result<bool, Fail> {
    let request = Request::read(alloc, request.as_bytes(), ARCH)?;
    let asks_all = request.asks_all_versions();
    let goals = request.into_vec();
    let mut shown = Shown::new(alloc);
    match build(
        alloc,
        given.records,
        given.indices,
        given.prefs,
        goals,
        asks_all,
    ) {
        Ok(universe) => write_universe(&mut shown, &universe)?,
        Err(error) => shown.add(error)?,
    }
    Ok(shown.is(wanted))
}

// The text of a status file, two indices, the preferences, a request with its goal on the third line, and the universe. The
// candidate has the greatest priority, and of equal priorities the greatest version; what is asked for by its version is admitted;
// of equal versions the one that stands counts, or else the earlier one. A name that is held keeps its version.
const UNIVERSES: &str = "\
→no no;;→|
→two- equal--;;→a=1.00 b=3 | a=1.00 b=3
→one two-;;$$install a (= 2)→a=1.0 a=2 b=3 | a=1.0 b=3
→one two-;;$$install c (= 2)→E17 UnknownName 3
Package: a$Status: install ok installed$Version: 1.5$Architecture: all$→one two;;$$install a (= 1.0)→a=1.0 a=1.5 a=2 b=3 | a=2 b=3
Package: a$Status: install ok installed$Version: 1.5$Architecture: all$→one two-;;install a (= 2)→a=1.5 a=2 b=3 | a=1.5 b=3
Package: a$Status: hold ok installed$Version: 1.5$Architecture: all$→one two;;→a=1.5 b=3 | a=2 b=3
Package: a$Status: deinstall ok half-configured$Version: 1.00$Architecture: all$→one no;;→a=1.00 | a=1.00
Package: c$Status: deinstall ok config-files$Config-Version: 1$→one no;;$$install c (= 2)→a=1.0 | a=1.0
Package: a$Status: install ok installed$Version: 1.5$Architecture: all→one two;Package: a$Pin: version 1.0$Pin-Priority: 1000$;→a=1.0 a=1.5 b=3 | a=1.0 b=3
";

#[test]
fn what_stands_is_admitted_and_kept_from_downgrades(rt: HostRuntime) -> Result<(), Fail> {
    all_hold(
        rt.alloc(),
        UNIVERSES,
        |alloc, row| answer(alloc, row, is_built),
    )
}

// The same where a request may ask for all versions: then each one that may be chosen is admitted, for names that aren't held;
// the candidates stay the same.
const ALL_VERSIONS: &str = "\
→stable testing;;install foo→foo=1 libx=2 | foo=1 libx=2
→testing stable;;install foo$all-versions→foo=1 libx=1 libx=2 | foo=1 libx=2
→one two;Package: *$Pin: version 2$Pin-Priority: -1$;all-versions→a=1.0 b=3 | a=1.0 b=3
Package: a$Status: install ok installed$Version: 1.5$Architecture: all→one two;;all-versions→a=1.5 a=2 b=3 | a=2 b=3
Package: a$Status: hold ok installed$Version: 1.5$Architecture: all→one two;;all-versions→a=1.5 b=3 | a=2 b=3
";

#[test]
fn all_versions_that_may_be_chosen_are_admitted(rt: HostRuntime) -> Result<(), Fail> {
    all_hold(
        rt.alloc(),
        ALL_VERSIONS,
        |alloc, row| answer(alloc, row, is_built),
    )
}

const STATUS: &[u8] =
    b"Package: a\nStatus: install ok installed\nVersion: 1.5\nArchitecture: all\n";

const PACKAGES: &[u8] =
    b"Package: b\nVersion: 3\nArchitecture: amd64\n\nPackage: a\nVersion: 2\nArchitecture: all\n";

// Whether the universe has its pairs, or memory is refused for it. Where memory is refused before, nothing is asked.
fn is_built_or_no_memory(alloc: Global) -> Option<bool> {
    let file = StatusFile::read(alloc, STATUS, ARCH).ok()?;
    let records = file.records(alloc).ok()?;
    let prefs = Prefs::without_records(alloc, None).ok()?;
    let mut text = PACKAGES;
    let kept = KeptIndex::read_from(alloc, &mut text, ARCH, 1, 0).ok()?;
    let host = Text::copied_from(alloc, b"").ok()?;
    let indices = [Index::of(alloc, &kept, Release::without_keys(host)).ok()?];
    let goals = Request::read(alloc, b"install a (= 2)", ARCH)
        .ok()?
        .into_vec();
    match build(alloc, records.as_slice(), &indices, &prefs, goals, false) {
        Ok(universe) => Some(universe.pairs().len() == 3),
        Err(error) => Some(error == UniverseError::OutOfMemory),
    }
}

/// Run with each allocation refused in turn: the answer is the same or want of memory.
#[test]
fn a_refused_growth_of_a_universe_is_want_of_memory(rt: HostRuntime) {
    assert!(rt; is_built_or_no_memory(rt.alloc()).unwrap_or(true));
}
