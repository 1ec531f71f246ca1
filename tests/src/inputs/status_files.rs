//! Status files: a sample of records, the calls of a record, and how fields are written. The words are those of dpkg(1), and the
//! architecture is amd64. What is refused is shown by the scenarios.
use crate::texts::{Shown, all_hold, columns};
use debversion::Version;
use rules::{Flag, State, Want};
use status_text::{
    Slot, StatusError, StatusFile, StatusRecord, read_alone, read_status, write_bytes, write_field,
};
use std::alloc::{AllocError, Global};
use std::test::Fail;

const ARCH: &[u8] = b"amd64";

fn want_of(want: Want) -> &'static str {
    match want {
        Want::Hold => "hold ",
        Want::Deinstall => "deinstall ",
        Want::Install => "install ",
        _ => "another ",
    }
}

fn flag_of(flag: Flag) -> &'static str {
    match flag {
        Flag::Ok => "ok ",
        Flag::ReinstallRequired => "reinstreq ",
    }
}

fn state_of(state: State) -> &'static str {
    match state {
        State::HalfInstalled => "half-installed",
        State::ConfigFiles => "config-files",
        State::TriggersPending => "triggers-pending",
        _ => "another",
    }
}

fn write_version(
    shown: &mut Shown,
    word: &str,
    version: &Option<Version<'_>>,
) -> Result<(), AllocError> {
    if let Some(version) = version {
        shown.add_behind(word, version.text())?;
    }
    Ok(())
}

fn write_record(shown: &mut Shown, record: &StatusRecord<'_>) -> Result<(), AllocError> {
    shown.add_bytes(record.name())?;
    shown.add(" ")?;
    shown.add(want_of(record.want()))?;
    shown.add(flag_of(record.flag()))?;
    shown.add(state_of(record.state()))?;
    write_version(shown, " version ", record.version())?;
    write_version(shown, " configured ", record.config_version())?;
    shown.add(if record.is_essential() {
        " essential; "
    } else {
        "; "
    })
}

fn write_slot(shown: &mut Shown, slot: &Slot<'_, StatusRecord<'_>>) -> Result<(), AllocError> {
    match slot {
        Slot::Recorded(record) => write_record(shown, record),
        Slot::Foreign(stanza) => {
            shown.add("line ")?;
            shown.add(stanza.line())?;
            shown.add("; ")
        }
    }
}

// dpkg(1), "Package states", "Package selection states" and "Package flags".
const WORDS: &[u8] =
    b"Package: a\nStatus: hold\treinstreq half-installed\nVersion: 1\nArchitecture: all\n\n\
Package: b\nStatus: unknown ok not-installed\nArchitecture: i386\nVersion: _\n\n\
Package: c\nStatus: deinstall \t ok config-files\nConfig-Version: 2\n\n\
Package: d\nStatus: install ok triggers-pending\nArchitecture: amd64\nVersion: 1\nConfig-Version: 2\nEssential: yes\n";

// In a trigger state the version that was configured last is the one that stands.
const WORDS_READ: &str =
    "a hold reinstreq half-installed version 1; line 6; c deinstall ok config-files configured 2; d install ok triggers-pending version 1 configured 1 essential; ";

#[test]
fn records_are_those_of_the_text(rt: HostRuntime) -> Result<(), Fail> {
    let mut shown = Shown::new(rt.alloc());
    let slots = read_status(rt.alloc(), WORDS, ARCH)?;
    for slot in slots.as_slice() {
        write_slot(&mut shown, slot)?;
    }
    assert!(rt; shown.is(WORDS_READ));
    Ok(())
}

// What the text is by itself: the name of a record, the line of a stanza that has none, or `-`.
fn is_alone(alloc: Global, row: &str) -> Result<bool, Fail> {
    let (text, wanted) = columns(row);
    let mut shown = Shown::new(alloc);
    match read_alone(text.as_bytes(), ARCH) {
        Some(Slot::Recorded(record)) => shown.add_bytes(record.name())?,
        Some(Slot::Foreign(stanza)) => shown.add(stanza.line())?,
        None => shown.add("-")?,
    }
    Ok(shown.is(wanted))
}

const ALONE: &str = "\
$ $Package: x$Status: hold ok not-installed$$$→x
$Package: x$Status: unknown ok not-installed$Architecture: i386$→2
→-
Package: x$Status: hold ok not-installed$$Package: y$Status: hold ok not-installed$→-
Package: x$Status: hold ok not-installed$$y$→-
# y$Package: x$Status: hold ok not-installed$→-
Package: x$→-
Package: x$Status: install ok unpacked$Architecture: all$Version: 1$Depends: _$→-
";

#[test]
fn one_stanza_that_is_not_refused_is_a_slot(rt: HostRuntime) -> Result<(), Fail> {
    all_hold(rt.alloc(), ALONE, is_alone)
}

const HELD: &[u8] =
    b"\nPackage: x\nStatus: hold ok installed\nArchitecture: all\nVersion: 1\nDepends: y, z\n\n";

// The calls of the README's example.
#[test]
fn a_record_has_its_package_and_stanza(rt: HostRuntime) -> Result<(), Fail> {
    let file = StatusFile::read(rt.alloc(), HELD, ARCH)?;
    let records = file.records(rt.alloc())?;
    assert_eq!(rt; records.len(), 1);
    for record in records.as_slice() {
        assert!(rt; record.is_present() && record.stands() && record.is_installed());
        assert!(rt; record.is_held() && record.stanza().line() == 2);
        assert_eq!(rt; record.pkg(rt.alloc())?.depends().len(), 2);
    }
    Ok(())
}

/// Run with each allocation refused in turn: the answer is the same or want of memory.
#[test]
fn a_refused_growth_of_a_status_file_is_want_of_memory(rt: HostRuntime) {
    let text =
        b"Package: x\nStatus: install ok not-installed\n\nPackage: y\nStatus: install ok not-installed\n";
    match read_status(rt.alloc(), text, ARCH) {
        Ok(slots) => assert!(rt; slots.len() == 2),
        Err(error) => assert!(rt; matches!(error, StatusError::OutOfMemory)),
    }
}

// Bytes without a newline at their end get one.
#[test]
fn the_readme_example_of_status_text(rt: HostRuntime) -> Result<(), AllocError> {
    let mut text = Vec::new(rt.alloc());
    write_field(&mut text, b"Package", b"foo")?;
    write_field(&mut text, b"Depends", b"")?;
    write_field(&mut text, b"Conffiles", b"\n /etc/foo 0")?;
    write_bytes(&mut text, b"Version:   1")?;
    write_bytes(&mut text, b"X: y\n")?;
    let wanted = b"Package: foo\nDepends:\nConffiles:\n /etc/foo 0\nVersion:   1\nX: y\n";
    assert!(rt; text.as_slice() == wanted.as_slice());
    Ok(())
}

/// Run with each allocation refused in turn.
#[test]
fn a_refused_growth_leaves_the_text(rt: HostRuntime) {
    let mut text = Vec::new(rt.alloc());
    match write_field(&mut text, b"Conffiles", b"\n /etc/q 0") {
        Ok(()) => assert!(rt; text.as_slice() == b"Conffiles:\n /etc/q 0\n".as_slice()),
        Err(AllocError) => assert!(rt; text.is_empty()),
    }
}
