//! Which calls of a file in memory fail, how they are counted and kept, and what a read gives after them.
use disk::{Disk, DiskCall, Failing, Fuse, MemoryDisk};
use std::alloc::{AllocError, Global};
use std::test::Fail;

const FILE: &[u8] = b"abcdef";

// A file in memory of which the call fails that is made after so many, and where it is lasting all later ones.
fn failing_at(
    alloc: Global,
    calls: usize,
    lasting: bool,
    failing: Failing,
) -> Result<MemoryDisk, AllocError> {
    let fuse = Fuse {
        calls,
        lasting,
        failing,
    };
    Ok(MemoryDisk::with_fuse(alloc, FILE.to_vec(alloc)?, fuse))
}

// Makes one call of each kind, and answers how many of them failed.
fn failed_calls(disk: &mut MemoryDisk) -> u64 {
    let mut buffer = [0u8; 2];
    let mut count = 0u64;
    let answers = [
        disk.len().is_err(),
        disk.read(1, &mut buffer).is_err(),
        disk.write_at(6, b"gh").is_err(),
        disk.cut(5).is_err(),
        disk.sync().is_err(),
    ];
    for failed in answers {
        if failed {
            count = count.saturating_add(1);
        }
    }
    count
}

// The place of the first call that failed, and how many did.
fn kept_failures(disk: &MemoryDisk) -> (Option<usize>, usize) {
    let first = disk.calls().iter().position(|made| made.has_failed());
    let count = disk.calls().iter().filter(|made| made.has_failed()).count();
    (first, count)
}

#[test]
fn one_call_fails(rt: HostRuntime) -> Result<(), Fail> {
    for call in 0..5usize {
        let mut disk = failing_at(rt.alloc(), call, false, Failing::Done)?;
        assert_eq!(rt; failed_calls(&mut disk), 1, "at {call}");
        assert_eq!(rt; disk.failures(), 1, "at {call}");
        assert!(rt; kept_failures(&disk) == (Some(call), 1), "at {call}");
        assert_eq!(rt; disk.bytes(), b"abcde".as_slice(), "at {call}");
    }
    Ok(())
}

#[test]
fn all_calls_fail_from_one_on(rt: HostRuntime) -> Result<(), Fail> {
    for call in 0..5usize {
        let mut disk = failing_at(rt.alloc(), call, true, Failing::Undone)?;
        let wanted = 5 - call as u64;
        assert_eq!(rt; failed_calls(&mut disk), wanted, "at {call}");
        assert_eq!(rt; disk.failures(), wanted, "at {call}");
        assert!(rt; kept_failures(&disk) == (Some(call), 5 - call), "at {call}");
    }
    Ok(())
}

#[test]
fn no_call_fails(rt: HostRuntime) -> Result<(), Fail> {
    let alloc = rt.alloc();
    let mut disk = MemoryDisk::new(alloc, FILE.to_vec(alloc)?);
    assert_eq!(rt; failed_calls(&mut disk), 0);
    assert_eq!(rt; disk.failures(), 0);
    assert_eq!(rt; disk.bytes(), b"abcde".as_slice());
    assert!(rt;
        matches!(disk.calls(), [a, b, c, d, e]
        if matches!(a.call(), DiskCall::Length) && matches!(b.call(), DiskCall::Reading(1, 2))
        && matches!(c.call(), DiskCall::Writing(6, _)) && matches!(d.call(), DiskCall::Cutting(5))
        && matches!(e.call(), DiskCall::Syncing))
    );
    Ok(())
}

// What a read gives after a write at 4 of four bytes that failed.
fn after_a_write(alloc: Global, failing: Failing) -> Result<Vec<u8>, AllocError> {
    let mut disk = failing_at(alloc, 0, false, failing)?;
    let _ = disk.write_at(4, b"WXYZ");
    disk.bytes().to_vec(alloc)
}

// What a read gives after a cut to 2 that failed.
fn after_a_cut(alloc: Global, failing: Failing) -> Result<Vec<u8>, AllocError> {
    let mut disk = failing_at(alloc, 0, false, failing)?;
    let _ = disk.cut(2);
    disk.bytes().to_vec(alloc)
}

#[test]
fn failed_changes_are_done_in_part(rt: HostRuntime) -> Result<(), Fail> {
    let alloc = rt.alloc();
    assert_eq!(rt;
        after_a_write(alloc, Failing::Undone)?.as_slice(),
        b"abcdef".as_slice()
    );
    assert_eq!(rt;
        after_a_write(alloc, Failing::Half)?.as_slice(),
        b"abcdWX".as_slice()
    );
    assert_eq!(rt;
        after_a_write(alloc, Failing::Done)?.as_slice(),
        b"abcdWXYZ".as_slice()
    );
    assert_eq!(rt;
        after_a_cut(alloc, Failing::Undone)?.as_slice(),
        b"abcdef".as_slice()
    );
    assert_eq!(rt;
        after_a_cut(alloc, Failing::Half)?.as_slice(),
        b"abcd".as_slice()
    );
    assert_eq!(rt;
        after_a_cut(alloc, Failing::Done)?.as_slice(),
        b"ab".as_slice()
    );
    Ok(())
}

#[test]
fn past_the_end_calls_fail(rt: HostRuntime) -> Result<(), Fail> {
    let alloc = rt.alloc();
    let mut disk = MemoryDisk::new(alloc, FILE.to_vec(alloc)?);
    let mut buffer = [0u8; 2];
    assert!(rt; disk.read(5, &mut buffer).is_err());
    assert!(rt; disk.write_at(7, b"x").is_err());
    assert!(rt; disk.cut(7).is_err());
    assert_eq!(rt; disk.failures(), 3);
    assert!(rt; kept_failures(&disk) == (Some(0), 1));
    assert_eq!(rt; disk.bytes(), b"abcdef".as_slice());
    Ok(())
}
