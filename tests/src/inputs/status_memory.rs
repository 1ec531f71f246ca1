//! Steps whose memory is refused. The texts were worked out by hand from dpkg(1) and Debian Policy 5; the architecture is amd64.
use plantext::{PlanError, read_step};
use status::{ApplyError, Database, StatusError, Step};
use std::alloc::Global;

const ARCH: &[u8] = b"amd64";

const HANDED_IN: &[u8] =
    b"Filename: f\nPackage: x\nVersion: 2\nArchitecture: all\nsha256: 0\nConffiles:\n /etc/new n\nDepends: y, z\nDescription: d\n more\n";

// What is behind the stanza of the name and an empty line, where the text begins with them.
fn behind<'t>(db: &Database, name: &[u8], text: &'t [u8]) -> Option<&'t [u8]> {
    let record = db.record(name)?;
    text.strip_prefix(record.stanza().raw())?
        .strip_prefix(b"\n")
}

// Whether the stanzas of the records are these, each with an empty line behind it. No memory.
fn has_stanzas(db: &Database, wanted: &[u8]) -> bool {
    let mut rest = wanted;
    for name in db.names() {
        match behind(db, name.as_slice(), rest) {
            Some(text) => rest = text,
            None => return false,
        }
    }
    rest.is_empty()
}

fn is_whole_or_nothing(alloc: Global, step: &Step, before: &str, after: &str) -> bool {
    let mut db = match Database::read(alloc, before.as_bytes(), ARCH) {
        Ok(db) => db,
        Err(error) => return matches!(error, StatusError::OutOfMemory),
    };
    match db.apply(alloc, step, Some(HANDED_IN)) {
        Ok(()) => has_stanzas(&db, after.as_bytes()),
        Err(ApplyError::OutOfMemory) => has_stanzas(&db, before.as_bytes()),
        Err(_) => false,
    }
}

// Whether the step of the line leaves of the text before it the text after it, or is refused for memory and leaves all as it
// was. Where memory is refused before the step is taken, nothing is asked.
fn is_so(alloc: Global, before: &str, line: &str, after: &str) -> bool {
    match read_step(alloc, line.as_bytes()) {
        Ok(step) => is_whole_or_nothing(alloc, &step, before, after),
        Err(error) => matches!(error, PlanError::OutOfMemory),
    }
}

#[test]
fn a_refused_unpacking_leaves_no_record(rt: HostRuntime) {
    let after =
        "Package: x\nStatus: install ok unpacked\nVersion: 2\nArchitecture: all\nDepends: y, z\nDescription: d\n more\n\n";
    assert!(rt; is_so(rt.alloc(), "", "unpack x 2\n", after));
}

#[test]
fn a_refused_unpacking_leaves_the_record_before(rt: HostRuntime) {
    let before =
        "Package: x\nStatus: hold ok installed\nVersion:  1\nArchitecture: all\nConffiles:\n /etc/x m\n\n";
    let after =
        "Package: x\nStatus: install ok unpacked\nVersion: 2\nConfig-Version: 1\nArchitecture: all\nDepends: y, z\nDescription: d\n more\nConffiles:\n /etc/x m\n\n";
    assert!(rt; is_so(rt.alloc(), before, "unpack x 2\n", after));
}

const INSTALLED: &str =
    "Package: a\nStatus: install ok installed\nVersion:  1\nArchitecture: all\n\n";

#[test]
fn a_refused_deconfiguring_leaves_the_record(rt: HostRuntime) {
    let after =
        "Package: a\nStatus: install ok half-configured\nVersion: 1\nConfig-Version: 1\nArchitecture: all\n\n";
    assert!(rt; is_so(rt.alloc(), INSTALLED, "deconfigure a\n", after));
}

#[test]
fn a_refused_group_is_not_configured_in_part(rt: HostRuntime) {
    let before =
        "Package: a\nStatus: install ok unpacked\nVersion:  1\nArchitecture: all\n\nPackage: b\nStatus: install ok triggers-pending\nVersion:  1\nArchitecture: all\nTriggers-Pending: a\n\n";
    let after =
        "Package: a\nStatus: install ok installed\nVersion: 1\nArchitecture: all\n\nPackage: b\nStatus: install ok installed\nVersion: 1\nArchitecture: all\n\n";
    assert!(rt; is_so(rt.alloc(), before, "configure a b\n", after));
}

#[test]
fn a_refused_removal_leaves_the_record(rt: HostRuntime) {
    let after =
        "Package: a\nStatus: deinstall ok config-files\nVersion: 1\nConfig-Version: 1\nArchitecture: all\n\n";
    assert!(rt; is_so(rt.alloc(), INSTALLED, "remove a\n", after));
}
