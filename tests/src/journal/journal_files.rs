//! Files of both versions, whole, torn and cut short. The offsets are counted by hand.
use journal::{OpenError, read_journal};
use std::alloc::{AllocError, Global};
use std::test::Fail;

// 48 bytes: a package of which the configuration files are left.
const START: &[u8] = b"Package: foo\nStatus: deinstall ok config-files\n\n";

// Behind the gate at 64 a record of 10 bytes, `purge foo` with its newline, and behind it a closed gate.
const RECORD: &[u8] = b"\0\0\0\x0apurge foo\n\0";

// A file of version 1 with this gate at offset 64.
fn version_1(alloc: Global, gate: u8) -> Result<Vec<u8>, AllocError> {
    let mut file = b"DPJRNL01\0\0\0\0\0\0\0\x30".to_vec(alloc)?;
    file.extend_from_slice(START)?;
    file.push(gate)?;
    file.extend_from_slice(RECORD)?;
    Ok(file)
}

// The same of version 2, for amd64: the gate is at offset 71.
fn version_2(alloc: Global, gate: u8) -> Result<Vec<u8>, AllocError> {
    let mut file = b"DPJRNL02\0\0\0\0\0\0\0\x30\0\x05amd64".to_vec(alloc)?;
    file.extend_from_slice(START)?;
    file.push(gate)?;
    file.extend_from_slice(RECORD)?;
    Ok(file)
}

// How many steps the file shows, and how many records they leave.
fn shown(alloc: Global, file: &[u8]) -> Result<(usize, usize), OpenError> {
    let ledger = read_journal(alloc, file, b"amd64")?;
    Ok((ledger.history().len(), ledger.database().names().len()))
}

#[test]
fn an_open_gate_counts_and_a_closed_one_does_not(rt: HostRuntime) -> Result<(), Fail> {
    let alloc = rt.alloc();
    assert_eq!(rt; version_1(alloc, 1)?.len(), 80);
    assert_eq!(rt; version_2(alloc, 1)?.len(), 87);
    assert!(rt; shown(alloc, &version_1(alloc, 1)?) == Ok((1, 0)));
    assert!(rt; shown(alloc, &version_1(alloc, 0x7f)?) == Ok((1, 0)));
    assert!(rt; shown(alloc, &version_1(alloc, 0)?) == Ok((0, 1)));
    assert!(rt; shown(alloc, &version_2(alloc, 1)?) == Ok((1, 0)));
    assert!(rt; shown(alloc, &version_2(alloc, 0)?) == Ok((0, 1)));
    Ok(())
}

// What the first bytes of the file with an open gate are read as, so many.
fn first_bytes(alloc: Global, count: usize) -> Result<Option<OpenError>, AllocError> {
    let mut file = version_1(alloc, 1)?;
    file.truncate(count);
    Ok(shown(alloc, &file).err())
}

#[test]
fn a_file_that_is_cut_short_is_refused_where_it_ends(rt: HostRuntime) -> Result<(), Fail> {
    let alloc = rt.alloc();
    assert!(rt; first_bytes(alloc, 0)? == Some(OpenError::NotAJournal));
    assert!(rt; first_bytes(alloc, 12)? == Some(OpenError::NotAJournal));
    assert!(rt; first_bytes(alloc, 15)? == Some(OpenError::NotAJournal));
    assert!(rt; first_bytes(alloc, 16)? == Some(OpenError::Damaged(16)));
    assert!(rt; first_bytes(alloc, 63)? == Some(OpenError::Damaged(16)));
    // The gate, and then its record.
    assert!(rt; first_bytes(alloc, 64)? == Some(OpenError::Damaged(64)));
    assert!(rt; first_bytes(alloc, 70)? == Some(OpenError::Damaged(64)));
    assert!(rt; first_bytes(alloc, 78)? == Some(OpenError::Damaged(64)));
    // The next gate.
    assert!(rt; first_bytes(alloc, 79)? == Some(OpenError::Damaged(79)));
    assert!(rt; first_bytes(alloc, 80)?.is_none());
    Ok(())
}

#[test]
fn another_architecture_is_refused_where_the_file_names_one(rt: HostRuntime) -> Result<(), Fail> {
    let alloc = rt.alloc();
    let one = version_1(alloc, 1)?;
    let two = version_2(alloc, 1)?;
    assert!(rt; read_journal(alloc, &one, b"arm64").is_ok());
    assert!(rt; read_journal(alloc, &two, b"arm64").err() == Some(OpenError::OtherArchitecture));
    Ok(())
}

#[test]
fn a_step_that_cannot_be_taken_is_refused_at_its_gate(rt: HostRuntime) -> Result<(), Fail> {
    let alloc = rt.alloc();
    // The same record twice: behind the first there is nothing left to be purged.
    let mut file = version_1(alloc, 1)?;
    file.pop();
    file.push(1)?;
    file.extend_from_slice(RECORD)?;
    assert!(rt; shown(alloc, &file).err() == Some(OpenError::Damaged(79)));
    Ok(())
}
