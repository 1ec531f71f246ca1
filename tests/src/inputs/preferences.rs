//! Preferences files (apt_preferences(5)): each public call once, and want of memory. What is read and refused, and the priorities that
//! records give, are shown by the scenarios.
use crate::texts::Shown;
use debversion::Version;
use pins::{Origin, Prefs, PrefsError, PrefsFault, PrefsField};
use rules::{Pin, PinnedNames, Preference, ReleaseKey};
use std::alloc::{AllocError, Global};
use std::test::Fail;

#[test]
fn the_readme_example_of_pins(rt: HostRuntime) -> Result<(), Fail> {
    let text = b"Package: foo\nPin: version 1.*\nPin-Priority: 1001\n";
    let prefs = Prefs::read(rt.alloc(), text, Some(b"stable"))?;
    assert_eq!(rt; prefs.records().len(), 1);
    let version = Version::parse(b"1.0-1")?;
    let place = [Origin::status_file()];
    assert!(rt; prefs.priority(b"foo", &version, &place) == Some(1001));
    assert!(rt; prefs.priority(b"bar", &version, &place) == Some(100));
    assert!(rt; prefs.priority(b"foo", &version, &[]).is_none());
    Ok(())
}

fn write_names(shown: &mut Shown, names: &PinnedNames) -> Result<(), AllocError> {
    match names {
        PinnedNames::Every => shown.add("every "),
        PinnedNames::Listed(names) => {
            for name in names.as_slice() {
                shown.add_bytes(name.as_bytes())?;
                shown.add(" ")?;
            }
            Ok(())
        }
    }
}

fn key_of(key: ReleaseKey) -> &'static str {
    match key {
        ReleaseKey::Codename => "n=",
        ReleaseKey::Origin => "o=",
        _ => "another ",
    }
}

fn write_pin(shown: &mut Shown, pin: &Pin) -> Result<(), AllocError> {
    match pin {
        Pin::Version(version) => { shown.add_behind("version ", version.as_bytes()) }
        Pin::VersionBeginning(text) => { shown.add_behind("beginning ", text.as_bytes()) }
        Pin::Origin(host) => { shown.add_behind("host ", host.as_bytes()) }
        Pin::Release(items) => {
            for item in items.as_slice() {
                shown.add_behind(key_of(item.key), item.value.as_bytes())?;
                shown.add(",")?;
            }
            Ok(())
        }
    }
}

fn write_record(shown: &mut Shown, record: &Preference) -> Result<(), AllocError> {
    write_names(shown, &record.names)?;
    write_pin(shown, &record.pin)?;
    shown.add(" ")?;
    shown.add(record.priority)?;
    shown.add("; ")
}

const KINDS: &[u8] =
    b"Explanation: one\nExplanation: two\nPackage: a  b\nPin: version 1\nFoo: bar\nPin-Priority: +05\n\n\
Package: perl\nPin: version 5.32*\nPin-Priority: 1001\n\n\
pin-priority: -1\nPACKAGE: *\n# a comment\nPin: release n=bookworm, o=Debian Backports\n\n\
Package: *\nPin: origin \"ftp.de.debian.org\"\nPin-Priority: 999";

const KINDS_READ: &str =
    "a b version 1 5; perl beginning 5.32 1001; every n=bookworm,o=Debian Backports, -1; every host ftp.de.debian.org 999; ";

#[test]
fn each_stanza_is_a_record(rt: HostRuntime) -> Result<(), Fail> {
    let prefs = Prefs::read(rt.alloc(), KINDS, None)?;
    let mut shown = Shown::new(rt.alloc());
    for record in prefs.records() {
        write_record(&mut shown, record)?;
    }
    assert!(rt; shown.is(KINDS_READ));
    Ok(())
}

#[test]
fn the_target_is_kept(rt: HostRuntime) -> Result<(), Fail> {
    let read = Prefs::read(rt.alloc(), b"", Some(b"stable"))?;
    assert!(rt; read.target() == Some(b"stable".as_slice()) && read.records().is_empty());
    let targeted = Prefs::without_records(rt.alloc(), Some(b"12"))?;
    assert!(rt; targeted.target() == Some(b"12".as_slice()) && targeted.records().is_empty());
    let untargeted = Prefs::without_records(rt.alloc(), None)?;
    assert!(rt; untargeted.target().is_none() && untargeted.records().is_empty());
    Ok(())
}

const FOUR_RECORDS: &[u8] =
    b"Package: a b\nPin: version 1\nPin-Priority: 5\n\nPackage: *\nPin: release a=x,n=y\nPin-Priority: 5\n\n\
Package: *\nPin: version 1*\nPin-Priority: 5\n\nPackage: *\nPin: origin x\nPin-Priority: 5\n";

fn are_records_or_no_memory(alloc: Global) -> bool {
    match Prefs::read(alloc, FOUR_RECORDS, Some(b"stable")) {
        Ok(prefs) => prefs.records().len() == 4,
        Err(error) => error == PrefsError::OutOfMemory,
    }
}

// A field that is missing is refused before memory is taken.
fn is_refused_alone(alloc: Global) -> bool {
    let missing = PrefsError::from(PrefsFault::MissingField(1, PrefsField::Pin));
    matches!(Prefs::read(alloc, b"Package: a", None), Err(error) if error == missing)
}

/// Run with each allocation refused in turn: the answer is the same or want of memory.
#[test]
fn a_refused_growth_of_preferences_is_want_of_memory(rt: HostRuntime) {
    assert!(rt; are_records_or_no_memory(rt.alloc()));
    assert!(rt; is_refused_alone(rt.alloc()));
}
