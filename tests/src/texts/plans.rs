//! Plans as they are read and written, and lines as one step. The format is this project's own; what is refused of a plan is shown
//! by the scenarios.
use super::shown::{Shown, all_hold};
use plantext::{PlanError, PlanFault, read_plan, read_step, write_plan, write_plan_2, write_step};
use rules::{Name, Step};
use std::alloc::{AllocError, Global};
use std::test::Fail;

fn write_read(shown: &mut Shown, step: &Step) -> Result<(), AllocError> {
    match step {
        Step::Unpack(name, version) => {
            shown.add_behind("unpacks ", name.as_bytes())?;
            shown.add_behind(" as ", version.as_bytes())?;
        }
        Step::Configure(names) => {
            shown.add("configures")?;
            for name in names.as_slice() {
                shown.add_behind(" ", name.as_bytes())?;
            }
        }
        Step::Deconfigure(name) => shown.add_behind("deconfigures ", name.as_bytes())?,
        Step::Remove(name) => shown.add_behind("removes ", name.as_bytes())?,
        Step::Purge(name) => shown.add_behind("purges ", name.as_bytes())?,
    }
    shown.add("; ")
}

const EACH: &[u8] =
    b"plan 1\nunpack Ab+c.d-e 1:2.0~rc1+b-3~\nconfigure B a+\ndeconfigure unpack\nremove c\npurge d\n";

const EACH_READ: &str =
    "unpacks Ab+c.d-e as 1:2.0~rc1+b-3~; configures B a+; deconfigures unpack; removes c; purges d; ";

#[test]
fn each_kind_of_step_is_read(rt: HostRuntime) -> Result<(), Fail> {
    let mut shown = Shown::new(rt.alloc());
    let steps = read_plan(rt.alloc(), EACH)?;
    for step in steps.as_slice() {
        write_read(&mut shown, step)?;
    }
    assert!(rt; shown.is(EACH_READ));
    Ok(())
}

fn is_refused_at(alloc: Global, text: &str, line: usize) -> bool {
    let refused = PlanError::Refused(PlanFault::BadPlan(line));
    matches!(read_plan(alloc, text.as_bytes()), Err(error) if error == refused)
}

// Whether the line is written again of the step that it is read as.
fn is_line_again(alloc: Global, line: &[u8]) -> Result<bool, AllocError> {
    match read_step(alloc, line) {
        Ok(step) => Ok(write_step(alloc, &step)?.as_slice() == line),
        Err(_) => Ok(false),
    }
}

// Whether the text is written again, in its version, of the steps that it is read as.
fn is_plan_again(alloc: Global, text: &str) -> Result<bool, Fail> {
    let steps = read_plan(alloc, text.as_bytes())?;
    let written = if text.starts_with("plan 2") {
        write_plan_2(alloc, steps.as_slice())?
    } else {
        write_plan(alloc, steps.as_slice())?
    };
    Ok(written.as_slice() == text.as_bytes())
}

#[test]
fn the_readme_example_of_plantext(rt: HostRuntime) -> Result<(), Fail> {
    let alloc = rt.alloc();
    assert!(rt; is_plan_again(alloc, "plan 1\nunpack foo 1.0\nconfigure bar foo\n")?);
    assert!(rt; is_plan_again(alloc, "plan 2\nunpack foo 1.0\nconfigure bar foo\nend 2\n")?);
    assert!(rt; is_refused_at(alloc, "plan 1\nconfigure foo bar\n", 2));
    assert!(rt; is_line_again(alloc, b"purge foo\n")?);
    Ok(())
}

// Each action; names that are words of the format; a group, in which a capital is before a letter, `+` before `-` before `.`
// before digits, and a beginning before the whole; and ends of one digit and of two.
const PLANS: &str = "\
plan 1$
plan 1$deconfigure q$remove q$purge q$purge q$
plan 1$unpack a 1:2.0~rc1+b-3~$unpack Ab+c.d-e 0:1-2-3:4-5$
plan 1$remove remove$configure configure plan unpack$
plan 1$configure B a a+ a- a. a0 aa b$
plan 2$end 0$
plan 2$remove end$end 1$
plan 2$purge a$purge b$purge c$purge d$purge e$purge f$purge g$purge h$purge i$purge j$end 10$
";

#[test]
fn a_plan_is_written_as_it_was_read(rt: HostRuntime) -> Result<(), Fail> {
    all_hold(rt.alloc(), PLANS, is_plan_again)
}

// Whether the text is one step, which is written again, or is refused as one line that is none.
fn is_step_or_refused(alloc: Global, row: &str) -> Result<bool, Fail> {
    let refused = PlanError::Refused(PlanFault::BadPlan(1));
    match row.strip_suffix("→E18 BadPlan 1") {
        Some(text) => {
            Ok(matches!(read_step(alloc, text.as_bytes()), Err(error) if error == refused))
        }
        None => Ok(is_line_again(alloc, row.as_bytes())?),
    }
}

// A line of each action; then what isn't one line with its newline, and lines that are no step's.
const STEPS: &str = "\
unpack a 1:2.0~rc1+b-3~$
deconfigure foo$
configure bar foo$
remove foo$
purge foo$
→E18 BadPlan 1
$→E18 BadPlan 1
purge foo→E18 BadPlan 1
purge foo$$→E18 BadPlan 1
$purge foo$→E18 BadPlan 1
purge foo$purge bar$→E18 BadPlan 1
unpack foo 1.0$Package: foo$→E18 BadPlan 1
plan 1$purge foo$→E18 BadPlan 1
configure foo bar$→E18 BadPlan 1
unpack foo 1.0-$→E18 BadPlan 1
";

#[test]
fn a_line_with_its_newline_is_one_step(rt: HostRuntime) -> Result<(), Fail> {
    all_hold(rt.alloc(), STEPS, is_step_or_refused)
}

fn are_five_or_no_memory(alloc: Global, text: &str) -> bool {
    match read_plan(alloc, text.as_bytes()) {
        Ok(steps) => steps.len() == 5,
        Err(error) => error == PlanError::OutOfMemory,
    }
}

/// Run with each allocation refused in turn: the answer is the same or want of memory.
#[test]
fn a_refused_growth_of_a_plan_is_want_of_memory(rt: HostRuntime) {
    let text = "plan 1\nunpack a 1\nunpack b 2\nconfigure a b\nremove c\npurge c\n";
    assert!(rt; are_five_or_no_memory(rt.alloc(), text));
    let text_2 = "plan 2\nunpack a 1\nunpack b 2\nconfigure a b\nremove c\npurge c\nend 5\n";
    assert!(rt; are_five_or_no_memory(rt.alloc(), text_2));
    // A line that is no step takes no memory.
    assert!(rt; is_refused_at(rt.alloc(), "plan 1\nconfigure b a\n", 2));
    assert!(rt; is_refused_at(rt.alloc(), "plan 2\nend 1\n", 2));
}

fn is_or_no_memory(written: Result<Vec<u8>, AllocError>, wanted: &[u8]) -> bool {
    match written {
        Ok(text) => text.as_slice() == wanted,
        Err(AllocError) => true,
    }
}

fn is_purge_or_no_memory(alloc: Global) -> bool {
    let Ok(name) = Name::copied_from(alloc, b"foo") else {
        return true;
    };
    let steps = [Step::Purge(name)];
    is_or_no_memory(write_step(alloc, &steps[0]), b"purge foo\n")
        && is_or_no_memory(write_plan(alloc, &steps), b"plan 1\npurge foo\n")
        && is_or_no_memory(write_plan_2(alloc, &steps), b"plan 2\npurge foo\nend 1\n")
}

fn is_group_or_no_memory(alloc: Global) -> bool {
    match read_step(alloc, b"configure a b\n") {
        Ok(step) => matches!(step, Step::Configure(_)),
        Err(error) => error == PlanError::OutOfMemory,
    }
}

/// Run with each allocation refused in turn: the answer is the same or want of memory.
#[test]
fn a_refused_growth_leaves_nothing_written(rt: HostRuntime) {
    assert!(rt; is_purge_or_no_memory(rt.alloc()));
    assert!(rt; is_group_or_no_memory(rt.alloc()));
}
