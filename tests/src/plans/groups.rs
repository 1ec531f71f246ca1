//! Which groups are configured together, over packages read from stanzas. What is wanted is worked out by hand from
//! Policy 7.2 and 7.3: the Depends of a group may be met within it, its Pre-Depends may not, nobody may break a member,
//! and no smaller group of it could be configured by itself.
use super::ends::universe_of;
use super::records::{answer, word_of};
use crate::texts::{Shown, all_hold};
use plancheck::{configure_failing, legal};
use plancheck_group::{greatest_part, is_indivisible};
use plancheck_state::Records;
use plantext::read_step;
use rules::Step;
use std::alloc::Global;
use std::test::Fail;

// The first rule that configuring the group of the line fails, by the rules of groups and as a step of a plan; whether no part of it
// could be configured by itself; and the names of its greatest part that could.
fn is_group(alloc: Global, db: &Records<'_, '_>, line: &str, wanted: &str) -> Result<bool, Fail> {
    let universe = universe_of(alloc, Vec::new(alloc))?;
    let step = read_step(alloc, line.as_bytes())?;
    let rule = word_of(legal(alloc, db, &universe, None, &step)?);
    let Step::Configure(names) = &step else {
        return Ok(false);
    };
    let mut shown = Shown::new(alloc);
    shown.add(word_of(configure_failing(alloc, db, names.as_slice())?))?;
    shown.add(" ")?;
    shown.add(is_indivisible(alloc, db, names.as_slice())?)?;
    shown.add(":")?;
    let part = greatest_part(alloc, db, names.as_slice())?;
    for name in part.as_slice() {
        shown.add_behind(" ", name.as_bytes())?;
    }
    Ok(shown.is(wanted) && wanted.split(' ').next() == Some(rule))
}

// The packages; the line of the group; and behind the second arrow the first rule that its configuring fails, whether no
// part of it could be configured by itself, and the names of its greatest part that could. More groups stand in the scenarios.
const GROUPS: &str = "\
|unpacked$Package: a$Depends: b|unpacked$Package: b$Depends: a|unpacked$Package: c→configure a b$→allowed true: a b
|unpacked$Package: a$Depends: b|unpacked$Package: b$Depends: a|unpacked$Package: c→configure a b c$→F5 false: a b c
|unpacked$Package: a$Depends: b|unpacked$Package: b$Depends: a|unpacked$Package: c→configure a c$→F4 false: c
|unpacked$Package: a|unpacked$Package: b$Depends: x→configure a b$→F4 false: a
|unpacked$Package: a$Depends: b, x|unpacked$Package: b$Depends: a→configure a b$→F4 true:
|unpacked$Package: a|unpacked$Package: b$Pre-Depends: a→configure a b$→F1 false: a
|unpacked$Package: a$Depends: b|unpacked$Package: b$Depends: a|installed$Package: x$Breaks: b→configure a b$→F3 true:
|unpacked$Package: a$Depends: b|installed$Package: b$Depends: a→configure a b$→F9 false: a
";

#[test]
fn a_group_is_configured_where_no_part_could_be(rt: HostRuntime) -> Result<(), Fail> {
    all_hold(
        rt.alloc(),
        GROUPS,
        |alloc, row| answer(alloc, row, is_group),
    )
}
