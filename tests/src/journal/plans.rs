//! One plan of three steps, taken in every way. The wanted texts are made by hand after docs/FORMATS.md, section 17.
use super::fuses::{UNSYNCED, fuses_of};
use apply::{begin, catch_up, go_on};
use disk::{Fuse, MemoryDisk};
use journal::{Ledger, Step, open, read_all};
use plantext::{PlanError, read_plan};
use std::alloc::{AllocError, Global};
use std::test::Fail;

const START: &[u8] = b"Package: foo\nStatus: deinstall ok config-files\n\n";

const BAR: &[u8] = b"Package: bar\nVersion: 1.0\nArchitecture: all\n";

const PLAN: &[u8] = b"plan 1\nunpack bar 1.0\nconfigure bar\npurge foo\n";

const END: &[u8] =
    b"Package: bar\nStatus: install ok installed\nVersion: 1.0\nArchitecture: all\n\n";

// The steps of a plan; none where it isn't one.
fn steps_of(alloc: Global, plan: &[u8]) -> Result<Vec<Step>, AllocError> {
    match read_plan(alloc, plan) {
        Ok(steps) => Ok(steps),
        Err(PlanError::Refused(_)) => Ok(Vec::new(alloc)),
        Err(PlanError::OutOfMemory) => Err(AllocError),
    }
}

// This text for each unpacking.
fn texts_of<'a>(
    alloc: Global,
    steps: &[Step],
    text: &'a [u8],
) -> Result<Vec<Option<&'a [u8]>>, AllocError> {
    let mut texts = Vec::new(alloc);
    for step in steps {
        let given = match step {
            Step::Unpack(_, _) => Some(text),
            _ => None,
        };
        texts.push(given)?;
    }
    Ok(texts)
}

// Has the journal catch up with the plan, and says how many steps it then has, or prints the refusal.
fn caught_up<'a>(
    alloc: Global,
    ledger: &mut Ledger<'a>,
    disk: &mut MemoryDisk,
    start: &[u8],
    plan: &[u8],
    bar: &'a [u8],
) -> Result<String, AllocError> {
    let steps = steps_of(alloc, plan)?;
    let texts = texts_of(alloc, &steps, bar)?;
    match catch_up(alloc, ledger, disk, start, &steps, &texts) {
        Ok(()) => format!(in alloc; "{}", ledger.history().len()),
        Err(e) => format!(in alloc; "{e}"),
    }
}

// The same from the file on the disk, which is made a journal where none was made of it.
fn applied(alloc: Global, disk: &mut MemoryDisk, plan: &[u8]) -> Result<String, AllocError> {
    let steps = steps_of(alloc, plan)?;
    let texts = texts_of(alloc, &steps, BAR)?;
    match begin(alloc, disk, b"amd64", START) {
        Ok(()) => {}
        Err(e) => return format!(in alloc; "{e}"),
    }
    let file = match read_all(alloc, disk) {
        Ok(file) => file,
        Err(e) => return format!(in alloc; "{e}"),
    };
    match go_on(alloc, disk, &file, b"amd64", START, &steps, &texts) {
        Ok(_) => format!(in alloc; "{}", steps.len()),
        Err(e) => format!(in alloc; "{e}"),
    }
}

#[test]
fn a_plan_is_taken_and_taken_again(rt: HostRuntime) -> Result<(), Fail> {
    let alloc = rt.alloc();
    let mut disk = MemoryDisk::new(alloc, Vec::new(alloc));
    begin(alloc, &mut disk, b"amd64", START)?;
    let file = read_all(alloc, &mut disk)?;
    let mut ledger = open(alloc, &mut disk, &file, b"amd64")?;
    // Two calls read it and seven created it; two read it and one opened it.
    assert_eq!(rt; disk.calls().len(), 12);
    let first = caught_up(alloc, &mut ledger, &mut disk, START, PLAN, BAR)?;
    assert_eq!(rt; first.as_str(), "3");
    assert!(rt; ledger.database().text(alloc)?.as_slice() == END);
    // Four calls added each step.
    assert_eq!(rt; disk.calls().len(), 24);
    let again = caught_up(alloc, &mut ledger, &mut disk, START, PLAN, BAR)?;
    assert_eq!(rt; again.as_str(), "3");
    assert_eq!(rt; disk.calls().len(), 24);
    Ok(())
}

#[test]
fn a_plan_goes_on_from_where_it_stopped(rt: HostRuntime) -> Result<(), Fail> {
    let alloc = rt.alloc();
    let mut disk = MemoryDisk::new(alloc, Vec::new(alloc));
    let one = applied(alloc, &mut disk, b"plan 1\nunpack bar 1.0\n")?;
    assert_eq!(rt; one.as_str(), "1");
    let len = disk.bytes().len();
    let all = applied(alloc, &mut disk, PLAN)?;
    assert_eq!(rt; all.as_str(), "3");
    // Two records of five bytes each with the lines `configure bar` and `purge foo`.
    assert_eq!(rt; disk.bytes().len(), len + 5 + 14 + 5 + 10);
    Ok(())
}

// What is answered of a journal with the steps of the plan, where this is handed in; and that nothing is written.
fn is_refused(
    alloc: Global,
    start: &[u8],
    plan: &[u8],
    bar: &[u8],
    wanted: &str,
) -> Result<bool, Fail> {
    let mut disk = MemoryDisk::new(alloc, Vec::new(alloc));
    let done = applied(alloc, &mut disk, PLAN)?;
    let file = read_all(alloc, &mut disk)?;
    let mut ledger = open(alloc, &mut disk, &file, b"amd64")?;
    let calls = disk.calls().len();
    let answer = caught_up(alloc, &mut ledger, &mut disk, start, plan, bar)?;
    Ok(
        done.as_str() == "3"
            && answer.as_str() == wanted
            && disk.calls().len() == calls
            && ledger.history().len() == 3,
    )
}

#[test]
fn another_journal_is_a_mismatch(rt: HostRuntime) -> Result<(), Fail> {
    let alloc = rt.alloc();
    let mismatch = "E25 JournalMismatch";
    let exchanged = b"plan 1\nunpack bar 1.0\npurge foo\nconfigure bar\n".as_slice();
    let shorter = b"plan 1\nunpack bar 1.0\nconfigure bar\n".as_slice();
    let other = b"Package: bar\nVersion: 1.0\nArchitecture: all\nSection: misc\n".as_slice();
    assert!(rt; is_refused(alloc, START, PLAN, BAR, "3")?);
    assert!(rt;
        is_refused(alloc, b"", PLAN, BAR, mismatch)?,
        "another start"
    );
    assert!(rt;
        is_refused(alloc, START, exchanged, BAR, mismatch)?,
        "another order"
    );
    assert!(rt;
        is_refused(alloc, START, shorter, BAR, mismatch)?,
        "a longer journal"
    );
    assert!(rt;
        is_refused(alloc, START, PLAN, other, mismatch)?,
        "another stanza"
    );
    Ok(())
}

#[test]
fn a_step_that_cannot_be_taken_is_named(rt: HostRuntime) -> Result<(), Fail> {
    let alloc = rt.alloc();
    let mut disk = MemoryDisk::new(alloc, Vec::new(alloc));
    let refused = applied(alloc, &mut disk, b"plan 1\nunpack bar 1.0\nremove foo\n")?;
    assert_eq!(rt; refused.as_str(), "E24 NotApplicable foo");
    // The step before it stays.
    let one = applied(alloc, &mut disk, b"plan 1\nunpack bar 1.0\n")?;
    assert_eq!(rt; one.as_str(), "1");
    Ok(())
}

// Whether from each file that a crash leaves the plan is taken to its end.
fn is_made_up_for(alloc: Global, disk: &MemoryDisk) -> Result<bool, AllocError> {
    for unsynced in UNSYNCED {
        let left = disk.bytes_left(alloc, disk.calls().len(), unsynced)?;
        let mut next = MemoryDisk::new(alloc, left);
        if applied(alloc, &mut next, PLAN)?.as_str() != "3" {
            return Ok(false);
        }
    }
    Ok(true)
}

// What is answered where this call fails, after which a crash and a second run make up for it.
fn failing(alloc: Global, fuse: Fuse) -> Result<Option<String>, AllocError> {
    let mut disk = MemoryDisk::with_fuse(alloc, Vec::new(alloc), fuse);
    let answer = applied(alloc, &mut disk, PLAN)?;
    if is_made_up_for(alloc, &disk)? {
        return Ok(Some(answer));
    }
    Ok(None)
}

#[test]
fn each_failing_call_is_made_up_for_by_a_second_run(rt: HostRuntime) -> Result<(), Fail> {
    let alloc = rt.alloc();
    // Two calls read it and seven create it, two read it and one opens it, and four add each step. What a crash within the first write
    // of a creation leaves, or within its last, need not be one that is made anew.
    for call in 5..25usize {
        if call == 7 || call == 8 {
            continue;
        }
        for fuse in fuses_of(call) {
            match failing(alloc, fuse)? {
                Some(answer) => {
                    let wanted = if call < 24 { "E20 Disk" } else { "3" };
                    assert_eq!(rt; answer.as_str(), wanted, "at {call}");
                }
                None => assert!(rt; false, "at {call}"),
            }
        }
    }
    Ok(())
}

// Files of which no journal was made, and what a stopped making leaves.
#[test]
fn a_journal_whose_making_was_stopped_is_made_anew(rt: HostRuntime) -> Result<(), Fail> {
    let alloc = rt.alloc();
    for left in [
        b"".as_slice(),
        b"D",
        b"DPJRNL0",
        b"DPJRNL00",
        b"DPJRNL00\x00\x00\x00\x00\x00\x00\x00\x30\x00\x05amd64Package: f",
    ] {
        let mut disk = MemoryDisk::new(alloc, left.to_vec(alloc)?);
        let answer = applied(alloc, &mut disk, PLAN)?;
        assert_eq!(rt; answer.as_str(), "3");
    }
    Ok(())
}

#[test]
fn a_file_that_is_no_journal_is_left_as_it_is(rt: HostRuntime) -> Result<(), Fail> {
    let alloc = rt.alloc();
    let mut disk = MemoryDisk::new(alloc, b"DPJRNL9".to_vec(alloc)?);
    let answer = applied(alloc, &mut disk, PLAN)?;
    assert_eq!(rt; answer.as_str(), "E21 NotAJournal");
    assert!(rt; disk.bytes() == b"DPJRNL9".as_slice());
    Ok(())
}
