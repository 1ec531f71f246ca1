//! Which rule an unpacking fails in small databases, over packages read from stanzas (Policy 7.4).
use super::records::{ARCH, answer, word_of};
use crate::texts::all_hold;
use index::{IndexPackage, read_alone};
use plancheck::unpack_failing;
use plancheck_state::Records;
use std::alloc::Global;
use std::test::Fail;

// The stanza of the index for the package that a row unpacks.
fn text_of(name: &str) -> &'static [u8] {
    match name {
        "a" => b"Package: a\nVersion: 1\nArchitecture: all\nConflicts: b\n",
        _ => b"Package: b\nVersion: 1\nArchitecture: all\n",
    }
}

// Whether unpacking the package fails this rule, where its stanza is in an index and where it isn't.
fn unpacks_so(
    alloc: Global,
    db: &Records<'_, '_>,
    asked: &str,
    wanted: &str,
) -> Result<bool, Fail> {
    let (verb, name) = asked.split_once(' ').unwrap_or((asked, ""));
    let Some(indexed) = read_alone(text_of(name), ARCH) else {
        return Ok(false);
    };
    let listed = IndexPackage::new(
        indexed.pkg(alloc)?,
        indexed.is_essential(),
        indexed.says_essential(),
        indexed.place(),
    );
    let given = if verb == "unpack" {
        Some(&listed)
    } else {
        None
    };
    Ok(word_of(unpack_failing(db, given, indexed.name(), indexed.version())) == wanted)
}

// `a 1; Conflicts: b` and `b 1`: neither is unpacked beside the other. Each row has what stands, what is unpacked and the
// rule that this fails. What isn't in an index isn't unpacked.
const CONFLICTS: &str = "\
|unpacked$Package: a$Conflicts: b→unpack b→F2
|unpacked$Package: b→unpack a→F2
→unpack a→allowed
→unlisted a→F10
";

#[test]
fn a_conflict_counts_either_way(rt: HostRuntime) -> Result<(), Fail> {
    all_hold(
        rt.alloc(),
        CONFLICTS,
        |alloc, row| answer(alloc, row, unpacks_so),
    )
}
