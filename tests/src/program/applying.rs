//! A plan that is carried out over files in memory: what is put in the place of the output, and that nothing is where the journal
//! or the output fails.
use super::memory::{Memory, Printed, run_line, spelled};
use disk::{Failing, Fuse};
use std::alloc::{AllocError, Global};
use std::test::Fail;

const APPLY: &str =
    "debplan apply --arch amd64 --status status --sources sources --request request \
--journal journal --output output plan";

const INDEX: &str = "\
Package: bar$Version: 1.0$Architecture: all$$\
Package: foo$Version: 1.0$Architecture: all$Depends: bar$";

const PLAN: &str = "plan 1$unpack bar 1.0$unpack foo 1.0$configure bar$configure foo$";

// The status file behind the plan. docs/FORMATS.md, section 17.
const END: &str = "\
Package: bar$Status: install ok installed$Version: 1.0$Architecture: all$$\
Package: foo$Status: install ok installed$Version: 1.0$Architecture: all$Depends: bar$$";

// A host with these files.
fn host_of_files<'a>(alloc: Global) -> Result<Memory<'a>, Fail> {
    let mut host = Memory::new(alloc);
    host.add(alloc, "status", "")?;
    host.add(alloc, "sources", "File: index$")?;
    host.add(alloc, "index", INDEX)?;
    host.add(alloc, "request", "install foo$")?;
    host.add(alloc, "plan", PLAN)?;
    Ok(host)
}

fn applied(alloc: Global, host: &mut Memory<'_>) -> Result<Printed, AllocError> {
    run_line(alloc, APPLY, host)
}

#[test]
fn the_status_file_behind_a_plan_is_put_in_its_place(rt: HostRuntime) -> Result<(), Fail> {
    let alloc = rt.alloc();
    let mut host = host_of_files(alloc)?;
    assert!(rt; applied(alloc, &mut host)?.is(alloc, "0 applied 4$|")?);
    let end = spelled(alloc, END)?;
    assert!(rt; host.put_text() == Some(end.as_slice()));
    // (the index is opened a second time, for the stanzas that are unpacked)
    assert!(rt; host.opened() == b"status sources index request plan index ".as_slice());
    Ok(())
}

#[test]
fn an_output_that_cannot_be_put_is_refused(rt: HostRuntime) -> Result<(), Fail> {
    let alloc = rt.alloc();
    let mut host = host_of_files(alloc)?;
    host.is_full = true;
    assert!(rt; applied(alloc, &mut host)?.is(alloc, "5 |debplan: output: E26 Write$")?);
    Ok(())
}

// How many calls of the journal's file are made before none of them fails, each of which is refused where it fails and nothing is
// put then.
fn refused_calls(alloc: Global, lasting: bool) -> Result<usize, Fail> {
    for calls in 0..100 {
        let mut host = host_of_files(alloc)?;
        host.fuse = Some(Fuse {
            calls,
            lasting,
            failing: Failing::Half,
        });
        let printed = applied(alloc, &mut host)?;
        if printed.status == 0 {
            return Ok(calls);
        }
        if !printed.is(alloc, "5 |debplan: journal: E20 Disk$")? || host.put_text().is_some() {
            return Err("another answer where a call of the journal fails".into());
        }
    }
    Err("no call of the journal is the last".into())
}

// Two calls read the file and seven make it a journal, two read it again and one opens it, and four add each of four steps.
#[test]
fn each_call_of_the_journal_that_fails_is_refused(rt: HostRuntime) -> Result<(), Fail> {
    assert!(rt; refused_calls(rt.alloc(), false)? == 28);
    assert!(rt; refused_calls(rt.alloc(), true)? == 28);
    Ok(())
}
