//! The versions of a name that may be chosen by themselves, and the priority of one, counted by hand (apt_preferences(5) for the
//! priorities, deb-version(7) for the order of versions). Candidates stand in the scenarios.
use super::offered::{Offered, answer};
use crate::texts::{Shown, all_hold};
use candidates::{candidate, eligible, priority};
use debversion::Version;
use std::alloc::Global;
use std::test::Fail;

// Whether these are the versions of the name that may be chosen, with their priorities, and behind the bar the candidate.
fn are_eligible(
    alloc: Global,
    given: &Offered<'_, '_>,
    name: &str,
    wanted: &str,
) -> Result<bool, Fail> {
    let name = name.as_bytes();
    let mut shown = Shown::new(alloc);
    let offers = eligible(alloc, given.records, given.indices, given.prefs, name)?;
    for offer in offers.as_slice() {
        shown.add_bytes(offer.version().text())?;
        shown.add("@")?;
        shown.add(offer.priority())?;
        shown.add(" ")?;
    }
    shown.add("|")?;
    if let Some(offer) = candidate(alloc, given.records, given.indices, given.prefs, name)? {
        shown.add_behind(" ", offer.version().text())?;
        shown.add("@")?;
        shown.add(offer.priority())?;
    }
    Ok(shown.is(wanted) && offers.as_slice().iter().all(|offer| offer.name() == name))
}

// The text of a status file, two indices, the preferences and a name, and its versions with their priorities. Those of 0 and less
// are left out; of equal versions the earlier counts; what is lower than what stands needs 1000. The candidate is the version with the
// greatest priority, of several such the highest, and none below the one that stands unless it has 1000.
const VERSIONS: &str = "\
→two one;;a→1.0@500 2@500 | 2@500
→one two-;;a→1.0@500 2@1 | 1.0@500
→one-- two-;;a→1.0@100 2@1 | 1.0@100
→equal- one;;a→1.00@500 | 1.00@500
→one two;Package: *$Pin: version 2$Pin-Priority: -1$;a→1.0@500 | 1.0@500
→no no;;a→|
→one two;;c→|
Package: a$Status: install ok installed$Version: 1.5$Architecture: all→one two-;;a→1.5@100 2@1 | 1.5@100
Package: a$Status: install ok installed$Version: 1.5$Architecture: all→one two;Package: a$Pin: version 1.0$Pin-Priority: 999$;a→1.5@100 2@500 | 2@500
Package: a$Status: hold ok installed$Version: 1.5$Architecture: all→one two;Package: a$Pin: version 1.0$Pin-Priority: 1000$;a→1.0@1000 1.5@100 2@500 | 1.0@1000
Package: a$Status: install ok installed$Version: 1.5$Architecture: all→one two-;Package: a$Pin: version 1.0$Pin-Priority: 1000$;a→1.0@1000 1.5@100 2@1 | 1.0@1000
Package: a$Status: install ok installed$Version: 1.5$Architecture: all→one two;Package: a$Pin: version 1.5$Pin-Priority: -1$;a→2@500 | 2@500
";

#[test]
fn versions_that_may_be_chosen_ascend_with_their_priorities(rt: HostRuntime) -> Result<(), Fail> {
    all_hold(
        rt.alloc(),
        VERSIONS,
        |alloc, row| answer(alloc, row, are_eligible),
    )
}

// Whether this is the priority of the version of the name.
fn is_priority(
    alloc: Global,
    given: &Offered<'_, '_>,
    pair: &str,
    wanted: &str,
) -> Result<bool, Fail> {
    let (name, text) = pair.split_once(' ').unwrap_or((pair, ""));
    let version = Version::parse(text.as_bytes())?;
    let name = name.as_bytes();
    let mut shown = Shown::new(alloc);
    match priority(
        alloc,
        given.records,
        given.indices,
        given.prefs,
        name,
        &version,
    )? {
        None => shown.add("none")?,
        Some(priority) => shown.add(priority)?,
    }
    Ok(shown.is(wanted))
}

// The same with a version of the name, and its priority: also where it is 0 or less, or where the version is lower than what
// stands. A pin looks at the text of the earlier of equal versions, or of the one that stands. What is in no index and doesn't
// stand has none.
const PRIORITIES: &str = "\
→one two--;;a 0:2→100
→one two;;a 3→none
→one two;Package: a$Pin: version 1.0$Pin-Priority: -1$;a 1.0→-1
→equal one;Package: a$Pin: version 1.00*$Pin-Priority: 7$;a 1.0→7
→one equal;Package: a$Pin: version 1.00*$Pin-Priority: 7$;a 1.0→500
Package: a$Status: install ok installed$Version: 1.00$Architecture: all→one equal;Package: a$Pin: version 1.00*$Pin-Priority: 7$;a 1.0→7
Package: a$Status: install ok installed$Version: 1.5$Architecture: all→one two;;a 1.0→500
Package: a$Status: install ok half-installed$Version: 1.5$Architecture: all→one two;;a 1.5→none
";

#[test]
fn a_version_has_this_priority_where_it_is_available(rt: HostRuntime) -> Result<(), Fail> {
    all_hold(
        rt.alloc(),
        PRIORITIES,
        |alloc, row| answer(alloc, row, is_priority),
    )
}
