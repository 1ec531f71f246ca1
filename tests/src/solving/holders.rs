//! Records found by names that they have or provide, through all actions, beside those that a scan of all finds. The
//! answers are counted by hand from dpkg(1), "Package states", and Policy 7.5.
use index::{IndexPackage, IndexStanza, read_alone};
use plancheck_state::{Records, StateRecord};
use relation::Pkg;
use rules::{Flag, Name, State, Want, is_name};
use std::alloc::{AllocError, Global};
use std::test::Fail;

// The packages that are unpacked, by the words of the rows: the item of `c` is of another architecture.
const A: &[u8] = b"Package: a\nVersion: 1\nArchitecture: all\nProvides: v, v (= 3)\n";

const B: &[u8] = b"Package: b\nVersion: 1\nArchitecture: all\nProvides: v (= 2), w\n";

const B2: &[u8] = b"Package: b\nVersion: 2\nArchitecture: all\nProvides: x\n";

const C: &[u8] = b"Package: c\nVersion: 1\nArchitecture: all\nProvides: w:i386\n";

// Steps, what they leave of `a`, which is installed, and of `o`, of which configuration files are left, and who then has
// or provides `v`, `w`, `x` and `b`.
const ROWS: &str = "\
→a=installed o=config-files→a→→→
unpack b→a=installed o=config-files b=unpacked→a b→b→→b
unpack b, purge o→a=installed b=unpacked→a b→b→→b
unpack b, purge o, configure b→a=installed b=installed→a b→b→→b
unpack b, purge o, unpack b2→a=installed b=unpacked→a→→b→b
unpack b, configure b, deconfigure b→a=installed o=config-files b=half-configured→a b→b→→b
unpack b, remove b→a=installed o=config-files b=config-files→a→→→b
unpack b, remove a, purge a→o=config-files b=unpacked→b→b→→b
unpack b, remove a, purge a, purge o→b=unpacked→b→b→→b
unpack c, unpack b, remove a, purge a, purge o→c=unpacked b=unpacked→b→b→→b
unpack b, remove a, purge a, unpack a→o=config-files b=unpacked a=unpacked→b a→b→→b
unpack a, unpack c, configure a c→a=installed o=config-files c=installed→a→→→
unpack b, unpack b2, unpack b, unpack b2→a=installed o=config-files b=unpacked→a→→b→b
unpack b, unpack c, unpack b, unpack a, unpack b→a=unpacked o=config-files b=unpacked c=unpacked→a b→b→→b
unpack c, unpack b, purge c, unpack c, purge b, unpack b→a=installed o=config-files c=unpacked b=unpacked→a b→b→→b
";

fn package_of<'a>(
    alloc: Global,
    indexed: &IndexStanza<'a>,
) -> Result<IndexPackage<'a>, AllocError> {
    Ok(IndexPackage::new(indexed.pkg(alloc)?, false, false, indexed.place()))
}

fn index_of<'a>(alloc: Global) -> Result<Vec<IndexPackage<'a>>, AllocError> {
    let mut index = Vec::new(alloc);
    for text in [A, B, B2, C] {
        if let Some(indexed) = read_alone(text, b"amd64") {
            index.push(package_of(alloc, &indexed)?)?;
        }
    }
    Ok(index)
}

// The names among the words.
fn names_of(alloc: Global, words: &str) -> Result<Vec<Name>, AllocError> {
    let mut names = Vec::new(alloc);
    for word in words.split(' ') {
        if is_name(word.as_bytes()) {
            names.push(Name::copied_from(alloc, word.as_bytes())?)?;
        }
    }
    Ok(names)
}

// Takes the step on packages that are present.
fn act(alloc: Global, db: &mut Records<'_, '_>, verb: &str, words: &str) -> Result<(), AllocError> {
    match verb {
        "configure" => db.configure(names_of(alloc, words)?.as_slice()),
        "deconfigure" => db.deconfigure(words.as_bytes()),
        "remove" => db.remove(words.as_bytes()),
        "purge" => db.purge(words.as_bytes()),
        _ => {}
    }
    Ok(())
}

fn listed_as<'p, 'a>(index: &'p [IndexPackage<'a>], word: &str) -> Option<&'p IndexPackage<'a>> {
    match word {
        "a" => index.get(0),
        "b" => index.get(1),
        "b2" => index.get(2),
        "c" => index.get(3),
        _ => None,
    }
}

fn unpack<'p, 'a>(
    db: &mut Records<'p, 'a>,
    index: &'p [IndexPackage<'a>],
    word: &str,
) -> Result<(), AllocError> {
    match listed_as(index, word) {
        Some(listed) => db.unpack(listed),
        None => Ok(()),
    }
}

fn step<'p, 'a>(
    alloc: Global,
    db: &mut Records<'p, 'a>,
    index: &'p [IndexPackage<'a>],
    text: &str,
) -> Result<(), AllocError> {
    match text.split_once(' ').unwrap_or((text, "")) {
        ("unpack", word) => unpack(db, index, word),
        (verb, words) => act(alloc, db, verb, words),
    }
}

fn state_word(state: State) -> &'static str {
    match state {
        State::NotInstalled => "not-installed",
        State::ConfigFiles => "config-files",
        State::HalfInstalled => "half-installed",
        State::Unpacked => "unpacked",
        State::HalfConfigured => "half-configured",
        State::TriggersAwaited => "triggers-awaited",
        State::TriggersPending => "triggers-pending",
        State::Installed => "installed",
    }
}

fn is_left(found: &StateRecord<'_, '_>, wanted: Option<&str>) -> bool {
    match wanted.unwrap_or("").split_once('=') {
        Some((name, state)) => {
            found.name() == name.as_bytes() && state_word(found.state()) == state
        }
        None => false,
    }
}

// Whether these are the names with their states.
fn are_left(records: &[StateRecord<'_, '_>], wanted: Option<&str>) -> bool {
    let mut words = wanted.unwrap_or("").split_whitespace();
    for found in records {
        if !is_left(found, words.next()) {
            return false;
        }
    }
    words.next().is_none()
}

fn holds(found: &StateRecord<'_, '_>, name: &[u8]) -> bool {
    found.name() == name
        || found
            .provides()
            .iter()
            .any(|item| !item.is_foreign() && item.name() == name)
}

fn is_found(db: &Records<'_, '_>, own: &[u8], name: &[u8]) -> bool {
    db.holders(name)
        .any(|found| found.name() == own && holds(found, name))
}

// Whether the record comes once at most, however many of its items are of the name and however often it was unpacked.
fn comes_once(db: &Records<'_, '_>, own: &[u8], name: &[u8]) -> bool {
    let mut has_come = false;
    for found in db.holders(name) {
        if found.name() == own {
            if has_come {
                return false;
            }
            has_come = true;
        }
    }
    true
}

// Whether those of these names, and no others, have or provide the name, both of all that are found by it and of all that
// a scan finds.
fn are_found(db: &Records<'_, '_>, name: &[u8], wanted: Option<&str>) -> bool {
    let mut words = wanted.unwrap_or(".").split_whitespace();
    for found in db.as_slice() {
        if holds(found, name) != is_found(db, found.name(), name)
            || !comes_once(db, found.name(), name)
        {
            return false;
        }
        if holds(found, name) && words.next().unwrap_or("").as_bytes() != found.name() {
            return false;
        }
    }
    words.next().is_none()
}

// The record of `a`, which is installed.
fn installed<'p, 'a>(a: &'p Pkg<'a>) -> StateRecord<'p, 'a> {
    StateRecord::present(
        a,
        State::Installed,
        Want::Install,
        Flag::Ok,
        Some(a.version().again()),
        false,
    )
}

// The record of `o`, of which configuration files are left.
fn removed<'p, 'a>() -> StateRecord<'p, 'a> {
    StateRecord::absent(
        b"o",
        State::ConfigFiles,
        Want::Deinstall,
        Flag::Ok,
        None,
        None,
        false,
    )
}

fn start<'p, 'a>(alloc: Global, a: &'p Pkg<'a>) -> Result<Records<'p, 'a>, AllocError> {
    Records::new(alloc, vec![in alloc; installed(a), removed()]?)
}

fn takes<'p, 'a>(
    alloc: Global,
    db: &mut Records<'p, 'a>,
    index: &'p [IndexPackage<'a>],
    steps: &str,
) -> Result<(), AllocError> {
    for text in steps.split(", ") {
        step(alloc, db, index, text)?;
    }
    Ok(())
}

// Whether the records are left so, and are found so.
fn is_so(db: &Records<'_, '_>, wanted: &str) -> bool {
    let mut parts = wanted.split('→');
    are_left(db.as_slice(), parts.next())
        && are_found(db, b"v", parts.next())
        && are_found(db, b"w", parts.next())
        && are_found(db, b"x", parts.next())
        && are_found(db, b"b", parts.next())
}

fn leaves<'p, 'a>(
    alloc: Global,
    db: &mut Records<'p, 'a>,
    index: &'p [IndexPackage<'a>],
    row: &str,
) -> Result<bool, AllocError> {
    let (steps, wanted) = row.split_once('→').unwrap_or((row, ""));
    takes(alloc, db, index, steps)?;
    Ok(is_so(db, wanted))
}

fn holds_over(alloc: Global, index: &[IndexPackage<'_>], row: &str) -> Result<bool, AllocError> {
    let Some(a) = index.first() else {
        return Ok(false);
    };
    let mut db = start(alloc, a.pkg())?;
    leaves(alloc, &mut db, index, row)
}

fn row_holds(alloc: Global, row: &str) -> Result<bool, AllocError> {
    let index = index_of(alloc)?;
    holds_over(alloc, index.as_slice(), row)
}

#[test]
fn records_are_found_by_what_they_have_and_provide(rt: HostRuntime) -> Result<(), Fail> {
    for row in ROWS.lines() {
        assert!(rt; row_holds(rt.alloc(), row)?, "{row}");
    }
    Ok(())
}
