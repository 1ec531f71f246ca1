//! What is against small ends, over packages read from stanzas. The answers are counted by hand from Policy 7 and
//! from what apt-get(8) says of its commands.
use super::records::{ARCH, answer};
use crate::texts::{Shown, all_hold};
use debversion::Version;
use plancheck_end::first_against;
use plancheck_state::Records;
use rules::{Goal, Reason};
use std::alloc::Global;
use std::rc::Rc;
use std::test::Fail;
use universe::{Admitted, Candidate, Candidates, Pairs, Start, Starts, Universe};
use universe_request::Request;

/// A universe of these goals, in which `a` and `h`, which is held, stood in 1 and have the candidate 2.
pub(crate) fn universe_of<'p, 'a>(
    alloc: Global,
    goals: Vec<Goal>,
) -> Result<Universe<'p, 'a>, Fail> {
    let one = Version::parse(b"1")?;
    let two = Version::parse(b"2")?;
    let mut candidates = Vec::new(alloc);
    candidates.push(Candidate::new(b"a", two.again()))?;
    candidates.push(Candidate::new(b"h", two))?;
    let mut starts = Vec::new(alloc);
    starts.push(Start::new(b"a", true, Some(one.again()), false, false))?;
    starts.push(Start::new(b"h", true, Some(one), true, false))?;
    let starts = Starts::new(alloc, starts)?;
    let pairs = Pairs::new(Vec::new(alloc));
    let admitted = Admitted::new(alloc, pairs, starts, Candidates::new(candidates))?;
    Ok(Universe::new(Rc::new(alloc, admitted)?, goals))
}

// What is against the end of the records with the goals of the request.
fn is_against(
    alloc: Global,
    db: &Records<'_, '_>,
    request: &str,
    wanted: &str,
) -> Result<bool, Fail> {
    let mut goals = Vec::new(alloc);
    for asked in Request::read(alloc, request.as_bytes(), ARCH)?.into_vec() {
        goals.push(asked.goal)?;
    }
    let universe = universe_of(alloc, goals)?;
    let mut shown = Shown::new(alloc);
    match first_against(alloc, &universe, db)? {
        None => shown.add("nothing")?,
        Some(Reason::Unfinished(name)) => shown.add_behind("Unfinished ", name.as_bytes())?,
        Some(Reason::Relation(name)) => shown.add_behind("Relation ", name.as_bytes())?,
        Some(Reason::Essential(name)) => shown.add_behind("Essential ", name.as_bytes())?,
        Some(Reason::Goal(number)) => {
            shown.add("Goal ")?;
            shown.add(number)?;
        }
    }
    Ok(shown.is(wanted))
}

// The states of `lib 1` and of `app 1; Depends: lib`, and what is against them with `install lib` and `install app`: the table of
// the README.
const ENDS: &str = "\
|unpacked$Package: lib|half-configured$Package: app$Depends: lib→install lib$install app→Unfinished app
|config-files$Package: lib|installed$Package: app$Depends: lib→install lib$install app→Relation app
|installed$Package: lib|config-files$Package: app$Depends: lib→install lib$install app→Goal 2
|installed$Package: lib|installed$Package: app$Depends: lib→install lib$install app→nothing
";

#[test]
fn an_end_has_its_first_reason(rt: HostRuntime) -> Result<(), Fail> {
    all_hold(
        rt.alloc(),
        ENDS,
        |alloc, row| answer(alloc, row, is_against),
    )
}

// A goal, and what is against the end at which `a` was upgraded to 2 and `h`, which is held, left its configuration files alone:
// no legal plan ends so. Both have the candidate 2, `b` has none.
const GOALS: &str = "\
install h→Goal 1
install a (>= 2)→nothing
install a (<< 2)→Goal 1
remove h→nothing
purge h→Goal 1
purge b→nothing
upgrade a→nothing
upgrade b→Goal 1
upgrade-all→nothing
no-remove→Goal 1
";

const LOST: &str = "\
Package: a\nStatus: install ok installed\nVersion: 2\nArchitecture: all\n\n\
Package: h\nStatus: deinstall ok config-files\n";

#[test]
fn goals_are_fulfilled_as_apt_get_does_them(rt: HostRuntime) -> Result<(), Fail> {
    all_hold(rt.alloc(), GOALS, |alloc, goal| {
        let row = format!(in alloc; "{LOST}→{goal}")?;
        answer(alloc, row.as_str(), is_against)
    })
}
