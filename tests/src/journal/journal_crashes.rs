//! Two steps on a file in memory of which one call fails, each in turn; and the bytes that are written.
use super::fuses::{UNSYNCED, fuses_of};
use disk::{Disk, MemoryDisk, Unsynced};
use journal::{OpenError, append, create, open, read_all, read_journal};
use plantext::{PlanError, read_step};
use std::alloc::{AllocError, Global};
use std::test::Fail;

const START: &[u8] =
    b"Package: foo\nStatus: install ok installed\nArchitecture: all\nVersion: 1\n\n";

// Takes a step, written so. Answers whether it was acknowledged; none where memory is refused.
fn is_added(
    alloc: Global,
    ledger: &mut journal::Ledger<'_>,
    disk: &mut MemoryDisk,
    line: &[u8],
) -> Result<bool, AllocError> {
    match read_step(alloc, line) {
        Ok(step) => Ok(append(alloc, ledger, disk, &step, None).is_ok()),
        Err(PlanError::Refused(_)) => Ok(false),
        Err(PlanError::OutOfMemory) => Err(AllocError),
    }
}

// Creates a journal and takes two steps. Answers how many were acknowledged, where the journal was created.
fn acknowledged(alloc: Global, disk: &mut MemoryDisk) -> Result<Option<usize>, AllocError> {
    let Ok(mut ledger) = create(alloc, disk, START, b"amd64") else {
        return Ok(None);
    };
    let first = is_added(alloc, &mut ledger, disk, b"remove foo\n")?;
    let second = is_added(alloc, &mut ledger, disk, b"purge foo\n")?;
    Ok(Some(usize::from(first) + usize::from(second)))
}

// How many steps the bytes show.
fn steps_in(alloc: Global, file: &[u8]) -> Result<usize, OpenError> {
    let ledger = read_journal(alloc, file, b"amd64")?;
    Ok(ledger.history().len())
}

// How many steps the file shows that a crash leaves, or none where it isn't opened.
fn left_steps(
    alloc: Global,
    disk: &MemoryDisk,
    unsynced: Unsynced,
) -> Result<Option<usize>, AllocError> {
    let left = disk.bytes_left(alloc, disk.calls().len(), unsynced)?;
    Ok(steps_in(alloc, &left).ok())
}

// Whether each file that a crash leaves shows the steps that were acknowledged, or one more.
fn are_kept(alloc: Global, disk: &MemoryDisk, count: usize) -> Result<bool, AllocError> {
    for unsynced in UNSYNCED {
        match left_steps(alloc, disk, unsynced)? {
            Some(steps) => {
                if steps < count || steps - count > 1 {
                    return Ok(false);
                }
            }
            None => return Ok(false),
        }
    }
    Ok(true)
}

#[test]
fn each_failing_call_leaves_what_was_acknowledged(rt: HostRuntime) -> Result<(), Fail> {
    let alloc = rt.alloc();
    // Seven calls create it, and four add a step.
    for call in 0..16usize {
        for fuse in fuses_of(call) {
            let mut disk = MemoryDisk::with_fuse(alloc, Vec::new(alloc), fuse);
            match acknowledged(alloc, &mut disk)? {
                Some(count) => {
                    assert!(rt; call >= 7 && are_kept(alloc, &disk, count)?, "at {call}");
                    // Behind a failing call of the first step none is added, and a failing call of the second leaves one.
                    assert_eq!(rt; count, (call - 7) / 4, "at {call}");
                }
                None => assert!(rt; call < 7, "at {call}"),
            }
        }
    }
    Ok(())
}

// A journal with one step, behind which a record was torn.
fn torn_file(alloc: Global) -> Result<Vec<u8>, OpenError> {
    let mut disk = MemoryDisk::new(alloc, Vec::new(alloc));
    let mut ledger = create(alloc, &mut disk, START, b"amd64").map_err(|_| OpenError::Disk)?;
    is_added(alloc, &mut ledger, &mut disk, b"remove foo\n")?;
    let mut file = disk.bytes().to_vec(alloc)?;
    file.extend_from_slice(b"\0\0\0\x0apur")?;
    Ok(file)
}

// How many steps the journal shows that is opened from the disk.
fn opened_steps(alloc: Global, disk: &mut MemoryDisk) -> Result<usize, OpenError> {
    let file = read_all(alloc, disk)?;
    let ledger = open(alloc, disk, &file, b"amd64")?;
    Ok(ledger.history().len())
}

// Whether each file that a crash leaves, at any moment of the calls that were made, shows the one step.
fn is_left(alloc: Global, disk: &MemoryDisk) -> Result<bool, AllocError> {
    for count in 0..disk.calls().len() + 1 {
        for unsynced in UNSYNCED {
            let left = disk.bytes_left(alloc, count, unsynced)?;
            if steps_in(alloc, &left).ok() != Some(1) {
                return Ok(false);
            }
        }
    }
    Ok(true)
}

#[test]
fn each_failing_call_of_an_opening_leaves_what_was_there(rt: HostRuntime) -> Result<(), Fail> {
    let alloc = rt.alloc();
    // Two calls read it, a sync makes its last gate sure, and a cut with a sync takes the torn record off.
    for call in 0..6usize {
        for fuse in fuses_of(call) {
            let mut disk = MemoryDisk::with_fuse(alloc, torn_file(alloc)?, fuse);
            match opened_steps(alloc, &mut disk) {
                Ok(steps) => assert!(rt; call == 5 && steps == 1, "at {call}"),
                Err(OpenError::Disk) => assert!(rt; call < 5 && disk.failures() == 1, "at {call}"),
                Err(_) => assert!(rt; false, "at {call}"),
            }
            assert!(rt; is_left(alloc, &disk)?, "at {call}");
        }
    }
    Ok(())
}

#[test]
fn the_bytes_of_version_2(rt: HostRuntime) -> Result<(), Fail> {
    let alloc = rt.alloc();
    let start = b"Package: foo\nStatus: deinstall ok config-files\n\n".as_slice();
    let mut disk = MemoryDisk::new(alloc, Vec::new(alloc));
    let mut ledger = create(alloc, &mut disk, start, b"amd64")?;
    assert_eq!(rt; disk.bytes().len(), 72);
    assert!(rt;
        disk.bytes().starts_with(b"DPJRNL02\0\0\0\0\0\0\0\x30\0\x05amd64Package: foo\n".as_slice())
    );
    assert!(rt; is_added(alloc, &mut ledger, &mut disk, b"purge foo\n")?);
    assert!(rt;
        disk.bytes()
            .ends_with(b"\n\n\x01\0\0\0\x0apurge foo\n\0".as_slice())
    );
    assert_eq!(rt; disk.bytes().len(), 87);
    let file = read_all(alloc, &mut disk)?;
    let opened = open(alloc, &mut disk, &file, b"amd64")?;
    assert_eq!(rt; opened.history().len(), 1);
    Ok(())
}

#[test]
fn a_torn_end_is_cut_off(rt: HostRuntime) -> Result<(), Fail> {
    let alloc = rt.alloc();
    let mut disk = MemoryDisk::new(alloc, Vec::new(alloc));
    create(alloc, &mut disk, START, b"amd64")?;
    let mut torn = disk.bytes().to_vec(alloc)?;
    let len = torn.len();
    torn.extend_from_slice(b"\0\0\0\x0arem")?;
    let mut disk = MemoryDisk::new(alloc, torn);
    let file = read_all(alloc, &mut disk)?;
    let opened = open(alloc, &mut disk, &file, b"amd64")?;
    assert_eq!(rt; opened.history().len(), 0);
    assert_eq!(rt; disk.bytes().len(), len);
    Ok(())
}
