//! Requests, each with what it is to be read as. The format is this project's own, its atoms are those of Policy 7.1; lines were
//! counted by hand. What is refused is shown by the scenarios.
use super::shown::Shown;
use rules::{Goal, Op};
use std::alloc::{AllocError, Global};
use std::test::Fail;
use universe_request::{GoalLine, Request, RequestError, RequestFault};

const ARCH: &[u8] = b"amd64";

#[test]
fn the_readme_example_of_universe_request(rt: HostRuntime) -> Result<(), Fail> {
    let text = b"# a comment\ninstall foo (>= 2)\nremove bar";
    let request = Request::read(rt.alloc(), text, ARCH)?;
    assert_eq!(rt; request.as_slice()[1].line, 3);
    assert!(rt; !request.asks_all_versions());
    assert_eq!(rt; request.into_vec().len(), 2);
    let wide = Request::read(rt.alloc(), b"all-versions\nupgrade-all\n", ARCH)?;
    assert!(rt; wide.asks_all_versions() && wide.as_slice().len() == 1);
    Ok(())
}

fn write_goal(shown: &mut Shown, asked: &GoalLine) -> Result<(), AllocError> {
    shown.add(asked.line)?;
    match &asked.goal {
        Goal::Purge(name) => shown.add_behind(" purge ", name.as_bytes())?,
        Goal::Remove(name) => shown.add_behind(" remove ", name.as_bytes())?,
        Goal::Upgrade(name) => shown.add_behind(" upgrade ", name.as_bytes())?,
        Goal::UpgradeAll => shown.add(" upgrade all")?,
        Goal::NoRemove => shown.add(" remove nothing")?,
        Goal::Install(name, None) => shown.add_behind(" install ", name.as_bytes())?,
        Goal::Install(name, Some(restriction)) => {
            shown.add_behind(" install ", name.as_bytes())?;
            shown.add(if restriction.op == Op::StrictlyEarlier {
                " before "
            } else {
                " else "
            })?;
            shown.add_bytes(restriction.version.as_bytes())?;
        }
    }
    shown.add("; ")
}

// White space parts words and is ignored at the ends; lines that ask for nothing count in the numbers.
const EACH: &[u8] =
    b"\n \t\n# x\n\tpurge\t\ta\t\nremove b\nupgrade c\nupgrade-all\nall-versions\nno-remove\n\
install a  (\t<< 1:2 ) \ninstall install:any";

const EACH_READ: &str =
    "4 purge a; 5 remove b; 6 upgrade c; 7 upgrade all; 9 remove nothing; 10 install a before 1:2; 11 install install; ";

#[test]
fn a_request_has_its_goals_with_their_lines(rt: HostRuntime) -> Result<(), Fail> {
    let request = Request::read(rt.alloc(), EACH, ARCH)?;
    let mut shown = Shown::new(rt.alloc());
    for asked in request.as_slice() {
        write_goal(&mut shown, asked)?;
    }
    assert!(rt; request.asks_all_versions() && shown.is(EACH_READ));
    Ok(())
}

fn are_six_or_no_memory(alloc: Global, text: &str) -> bool {
    match Request::read(alloc, text.as_bytes(), ARCH) {
        Ok(request) => request.as_slice().len() == 6,
        Err(error) => error == RequestError::OutOfMemory,
    }
}

// A line that is refused by its form takes no memory.
fn is_refused_alone(alloc: Global) -> bool {
    let refused = RequestError::Refused(RequestFault::BadRequest(1));
    matches!(Request::read(alloc, b"install a,", ARCH), Err(error) if error == refused)
}

/// Run with each allocation refused in turn: the answer is the same or want of memory.
#[test]
fn a_refused_growth_of_a_request_is_want_of_memory(rt: HostRuntime) {
    let text = "install a (>= 1)\nremove b\npurge c\nupgrade d\nupgrade-all\nno-remove\n";
    assert!(rt; are_six_or_no_memory(rt.alloc(), text));
    assert!(rt; is_refused_alone(rt.alloc()));
}
