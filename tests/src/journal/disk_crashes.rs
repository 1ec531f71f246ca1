//! What a crash leaves of a file in memory, by hand.
use disk::{Disk, MemoryDisk, Unsynced, put};
use std::alloc::{AllocError, Global};
use std::test::Fail;

// A choice of what a crash leaves, as a row spells it.
fn unsynced_of(word: &str) -> Unsynced {
    match word {
        "kept" => Unsynced::Kept,
        "half" => Unsynced::Half,
        "filled" => Unsynced::Filled(b'-', 2),
        _ => Unsynced::Lost,
    }
}

// Whether a crash leaves these bytes after the calls: those in a row are a write at an offset, a cut to a length, or a sync.
fn is_left(alloc: Global, row: &str) -> Result<bool, AllocError> {
    let mut parts = row.split(':');
    let file = parts.next().unwrap_or_default().as_bytes().to_vec(alloc)?;
    let mut disk = MemoryDisk::new(alloc, file);
    let calls = parts.next().unwrap_or_default();
    for call in calls.split_whitespace() {
        make(&mut disk, call);
    }
    let moment = parts.next().unwrap_or_default();
    let moment = moment.parse::<usize>().unwrap_or(disk.calls().len());
    let unsynced = unsynced_of(parts.next().unwrap_or_default());
    let left = disk.bytes_left(alloc, moment, unsynced)?;
    Ok(left.as_slice() == parts.next().unwrap_or_default().as_bytes())
}

// Makes the call that a word spells: `4=XY` writes XY at 4, `cut=2` cuts to 2, and `sync` syncs.
fn make(disk: &mut MemoryDisk, call: &str) {
    let _ = match call.split_once('=') {
        Some(("cut", len)) => disk.cut(len.parse::<usize>().unwrap_or_default()),
        Some((at, bytes)) => disk.write_at(
            at.parse::<usize>().unwrap_or_default(),
            bytes.as_bytes(),
        ),
        None => disk.sync(),
    };
}

// Columns: the file, the calls, the number of calls before the crash (nothing: all), what is left of what isn't synced,
// and the file that a crash leaves.
const ROWS: &str = "\
abcdef:4=WXYZ::lost:abcdef
abcdef:4=WXYZ::kept:abcdWXYZ
abcdef:4=WXYZ::half:abcdWX
abcdef:4=WXYZ::filled:abcd------
abcdef:1=XY::half:aXcdef
abcdef:1=XY::filled:a--def--
abcdef:4=WXYZ sync::lost:abcdWXYZ
abcdef:4=WXYZ sync::filled:abcdWXYZ
abcdef:4=WXYZ sync:1:lost:abcdef
abcdef:4=WXYZ sync:1:half:abcdWX
abcdef:4=WXYZ sync:0:kept:abcdef
abcdef:cut=2::lost:abcdef
abcdef:cut=2::kept:ab
abcdef:cut=2 sync::lost:ab
abcdef:cut=0 0=XY::lost:abcdef
abcdef:cut=0 0=XY::half:X
abcdef:cut=0 0=XY:1:kept:
abcdef:cut=0 0=XY sync 2=Z::lost:XY
abcdef:cut=0 0=XY sync 2=Z:2:kept:XY
abcdef:0=X sync 1=Y sync 2=Z:4:filled:XYcdef
abcdef:0=X sync 1=Y sync 2=Z:3:filled:X-cdef--
";

#[test]
fn a_crash_leaves_what_is_chosen(rt: HostRuntime) -> Result<(), Fail> {
    for row in ROWS.lines() {
        if !is_left(rt.alloc(), row)? {
            return Err(Fail::new(row));
        }
    }
    Ok(())
}

#[test]
fn the_readme_example(rt: HostRuntime) -> Result<(), Fail> {
    let alloc = rt.alloc();
    let mut disk = MemoryDisk::new(alloc, b"some bytes".to_vec(alloc)?);
    put(&mut disk, 0, b"written")?;
    let left = disk.bytes_left(alloc, disk.calls().len(), Unsynced::Lost)?;
    assert_eq!(rt; left.as_slice(), b"writtentes".as_slice());
    Ok(())
}
