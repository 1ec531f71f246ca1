//! Plans that are applied by texts in memory. The wanted answers and texts are made by hand after docs/FORMATS.md.
use super::watched::Watched;
use apply_engine::{GoodPlan, Prepare, Prepared};
use cli_engine::{Refusal, Rule, Verdict};
use disk::{Failing, Fuse, MemoryDisk};
use inputs::{Inputs, MemoryShelf, Settings, Shelf, ask};
use std::alloc::{AllocError, Global};
use std::test::Fail;

const INDEX: &[u8] =
    b"Package: bar\nVersion: 1.0\nArchitecture: all\n\nPackage: foo\nVersion: 1.0\nArchitecture: all\nDepends: bar\n";

const PLAN: &[u8] = b"plan 1\nunpack bar 1.0\nunpack foo 1.0\nconfigure bar\nconfigure foo\n";

const END: &[u8] =
    b"Package: bar\nStatus: install ok installed\nVersion: 1.0\nArchitecture: all\n\nPackage: foo\nStatus: install ok installed\nVersion: 1.0\nArchitecture: all\nDepends: bar\n\n";

// What is printed of a plan that is carried out on the disk, and the text of the status file.
fn carried_out(
    alloc: Global,
    plan: &GoodPlan,
    disk: &mut MemoryDisk,
) -> Result<(String, Vec<u8>), AllocError> {
    match plan.begin(alloc, disk) {
        Ok(()) => {}
        Err(e) => return Ok((format!(in alloc; "journal: {e}")?, Vec::new(alloc))),
    }
    match plan.go_on(alloc, disk) {
        Ok(done) => Ok((format!(in alloc; "applied {}", done.steps)?, done.status)),
        Err(e) => Ok((format!(in alloc; "journal: {e}")?, Vec::new(alloc))),
    }
}

// What is printed of the answer, and of the plan where it is good, and the text of the status file.
fn shown(
    alloc: Global,
    answer: Result<Prepared, Refusal>,
    disk: &mut MemoryDisk,
) -> Result<(String, Vec<u8>), AllocError> {
    match answer {
        Ok(Prepared::Ready(plan)) => carried_out(alloc, &plan, disk),
        Ok(Prepared::Judged(Verdict::Step(3, Rule::Depends))) => {
            Ok((format!(in alloc; "no step 3 F4")?, Vec::new(alloc)))
        }
        Ok(Prepared::Judged(_)) => Ok((format!(in alloc; "no")?, Vec::new(alloc))),
        Err(refused) => Ok((format!(in alloc; "{refused}")?, Vec::new(alloc))),
    }
}

// The same of texts on a shelf.
fn applied<S: Shelf>(
    alloc: Global,
    shelf: &mut S,
    disk: &mut MemoryDisk,
) -> Result<(String, Vec<u8>), AllocError> {
    let settings = Settings {
        arch: b"amd64",
        target: None,
    };
    let answer = ask(alloc, shelf, &settings, &Prepare {}, &mut ());
    shown(alloc, answer, disk)
}

// The same of a plan of the request to install foo.
fn installed(
    alloc: Global,
    disk: &mut MemoryDisk,
    status: &'static [u8],
    plan: &'static [u8],
) -> Result<(String, Vec<u8>), AllocError> {
    let indices = [INDEX];
    let inputs = Inputs {
        status,
        sources: b"File: index\n",
        indices: indices.as_slice(),
        preferences: None,
        request: b"install foo\n",
    };
    let mut shelf = MemoryShelf::new(inputs, Some(plan));
    applied(alloc, &mut shelf, disk)
}

#[test]
fn a_plan_is_applied_and_applied_again(rt: HostRuntime) -> Result<(), Fail> {
    let alloc = rt.alloc();
    let mut disk = MemoryDisk::new(alloc, Vec::new(alloc));
    let (first, status) = installed(alloc, &mut disk, b"", PLAN)?;
    assert_eq!(rt; first.as_str(), "applied 4");
    assert!(rt; status.as_slice() == END);
    let len = disk.bytes().len();
    let (again, same) = installed(alloc, &mut disk, b"", PLAN)?;
    assert_eq!(rt; again.as_str(), "applied 4");
    assert!(rt; same.as_slice() == END);
    assert_eq!(rt; disk.bytes().len(), len);
    Ok(())
}

#[test]
fn a_plan_that_is_not_good_leaves_the_disk_alone(rt: HostRuntime) -> Result<(), Fail> {
    let alloc = rt.alloc();
    let exchanged =
        b"plan 1\nunpack bar 1.0\nunpack foo 1.0\nconfigure foo\nconfigure bar\n".as_slice();
    let mut disk = MemoryDisk::new(alloc, Vec::new(alloc));
    let (answer, _) = installed(alloc, &mut disk, b"", exchanged)?;
    assert_eq!(rt; answer.as_str(), "no step 3 F4");
    assert_eq!(rt; disk.calls().len(), 0);
    let (refused, _) = installed(alloc, &mut disk, b"x", PLAN)?;
    assert_eq!(rt; refused.as_str(), "status: E2 BadLine 1");
    assert_eq!(rt; disk.calls().len(), 0);
    Ok(())
}

#[test]
fn a_failing_call_is_gone_on_from(rt: HostRuntime) -> Result<(), Fail> {
    let alloc = rt.alloc();
    // The length and the bytes are read, seven calls create the journal; both are read again, a sync opens it, and four calls add each
    // step.
    for calls in 0..28usize {
        let fuse = Fuse {
            calls,
            lasting: true,
            failing: Failing::Done,
        };
        let mut disk = MemoryDisk::with_fuse(alloc, Vec::new(alloc), fuse);
        let (answer, _) = installed(alloc, &mut disk, b"", PLAN)?;
        assert_eq!(rt; answer.as_str(), "journal: E20 Disk", "at {calls}");
        let mut next = MemoryDisk::new(alloc, disk.bytes().to_vec(alloc)?);
        let (again, status) = installed(alloc, &mut next, b"", PLAN)?;
        assert_eq!(rt; again.as_str(), "applied 4", "at {calls}");
        assert!(rt; status.as_slice() == END, "at {calls}");
    }
    Ok(())
}

// Two indices with a package each, of which the first needs the second.
const ONE: &[u8] = b"Package: a\nVersion: 1\nArchitecture: all\nDepends: b\n";

const TWO: &[u8] = b"Package: b\nVersion: 1\nArchitecture: all\n";

// A plan whose first unpacking is of the second index.
const BOTH: &[u8] = b"plan 1\nunpack b 1\nunpack a 1\nconfigure b\nconfigure a\n";

fn watched<'a>(
    alloc: Global,
    second: [&'a [u8]; 2],
    request: &'a [u8],
    plan: &'a [u8],
) -> Watched<'a> {
    Watched {
        first: [ONE, TWO],
        second,
        request,
        plan,
        opened: Vec::new(alloc),
    }
}

#[test]
fn an_index_is_opened_again_where_a_stanza_of_it_is_unpacked(rt: HostRuntime) -> Result<(), Fail> {
    let alloc = rt.alloc();
    let mut disk = MemoryDisk::new(alloc, Vec::new(alloc));
    let mut both = watched(alloc, [ONE, TWO], b"install a\n", BOTH);
    let (answer, _) = applied(alloc, &mut both, &mut disk)?;
    assert_eq!(rt; answer.as_str(), "applied 4");
    assert!(rt; both.opened.as_slice() == [1, 2, 1, 2].as_slice());
    let mut disk = MemoryDisk::new(alloc, Vec::new(alloc));
    let mut last = watched(
        alloc,
        [b"", TWO],
        b"install b\n",
        b"plan 1\nunpack b 1\nconfigure b\n",
    );
    let (answer, _) = applied(alloc, &mut last, &mut disk)?;
    assert_eq!(rt; answer.as_str(), "applied 2");
    assert!(rt; last.opened.as_slice() == [1, 2, 2].as_slice());
    Ok(())
}

#[test]
fn an_index_that_has_changed_is_refused(rt: HostRuntime) -> Result<(), Fail> {
    let alloc = rt.alloc();
    let newer = b"Package: b\nVersion: 2\nArchitecture: all\n".as_slice();
    let more = b"Package: b\nVersion: 1\nArchitecture: all\nSection: misc\n".as_slice();
    for (second, wanted) in [
        ([ONE, newer], "index 2: E28 Changed"),
        ([TWO, TWO], "index 1: E28 Changed"),
        ([b"".as_slice(), newer], "index 1: E28 Changed"),
        ([ONE, more], "applied 4"),
    ] {
        let mut disk = MemoryDisk::new(alloc, Vec::new(alloc));
        let mut shelf = watched(alloc, second, b"install a\n", BOTH);
        let (answer, _) = applied(alloc, &mut shelf, &mut disk)?;
        assert_eq!(rt; answer.as_str(), wanted);
        if wanted != "applied 4" {
            assert_eq!(rt; disk.calls().len(), 0);
        }
    }
    Ok(())
}
