//! How a call of a file in memory fails, and what a crash leaves of what isn't synced.
use disk::{Failing, Fuse, Unsynced};

/// What a crash may leave of what isn't synced.
pub(crate) const UNSYNCED: [Unsynced; 4] = [
    Unsynced::Lost,
    Unsynced::Kept,
    Unsynced::Half,
    Unsynced::Filled(0x7f, 3),
];

/// The ways in which the call after so many can fail, alone or with all that follow.
pub(crate) fn fuses_of(calls: usize) -> [Fuse; 6] {
    let fuse = |lasting, failing| Fuse {
        calls,
        lasting,
        failing,
    };
    [
        fuse(false, Failing::Undone),
        fuse(false, Failing::Half),
        fuse(false, Failing::Done),
        fuse(true, Failing::Undone),
        fuse(true, Failing::Half),
        fuse(true, Failing::Done),
    ]
}
