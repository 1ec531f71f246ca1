//! A plan judged, and a candidate found, by paths.
use super::memory::Memory;
use super::scenario::add_plan;
use cli::{HostShelf, Openings, Paths, Settings, TextAt, ask_files};
use cli_engine::{CandidateAnswer, CheckPlan, FindCandidates, JudgedPlan, Notes, Refusal};
use outcomes::{
    Exit, Outcome, candidate_line, exit_of_candidates, exit_of_refusal, exit_of_verdict,
    outcome_of_candidates, outcome_of_plan, verdict_line,
};
use rules::{Items, Verdict};
use std::alloc::{AllocError, Global};
use std::test::Fail;

const SETTINGS: Settings<'static> = Settings {
    arch: b"amd64",
    target: None,
};

const PATHS: Paths<'static> = Paths {
    status: "status",
    sources: "sources",
    preferences: None,
    request: TextAt::File("request"),
    judged: "plan",
};

// What is answered about the plan of the files of a host.
fn judged(alloc: Global, host: &mut Memory<'_>) -> Result<JudgedPlan, Refusal> {
    let mut context = None;
    let mut shelf = HostShelf {
        host,
        paths: &PATHS,
        context: &mut context,
        openings: Openings::none(),
    };
    let mut notes = Notes::new(alloc);
    ask_files(
        alloc,
        &mut shelf,
        &SETTINGS,
        &CheckPlan {
            tells_reasons: false,
        },
        &mut notes,
    )
}

// Whether the outcome is this line on standard output, with the status of an answer that is yes.
fn is_line(outcome: &Outcome, line: &[u8]) -> bool {
    matches!(outcome, Outcome::Answer(printed, Exit::Success) if printed.as_slice() == line)
}

fn is_yes(alloc: Global, verdict: &Verdict) -> Result<bool, AllocError> {
    let line = verdict_line(alloc, verdict)?;
    Ok(line.as_slice() == b"yes\n".as_slice() && exit_of_verdict(verdict) == Exit::Success)
}

fn answers_yes(alloc: Global, answer: &Result<JudgedPlan, Refusal>) -> Result<bool, AllocError> {
    match answer {
        Ok(judged) => is_yes(alloc, &judged.verdict),
        Err(_) => Ok(false),
    }
}

fn prints_yes(alloc: Global, answer: &Result<JudgedPlan, Refusal>) -> Result<bool, AllocError> {
    let outcome = outcome_of_plan(alloc, answer)?;
    Ok(is_line(&outcome, b"yes\n"))
}

fn answer_of_plan(alloc: Global) -> Result<Result<JudgedPlan, Refusal>, Fail> {
    let mut host = Memory::new(alloc);
    add_plan(alloc, &mut host, "plan 1$")?;
    Ok(judged(alloc, &mut host))
}

#[test]
fn a_verdict_is_printed_as_an_answer(rt: HostRuntime) -> Result<(), Fail> {
    let answer = answer_of_plan(rt.alloc())?;
    assert!(rt; answers_yes(rt.alloc(), &answer)?);
    assert!(rt; prints_yes(rt.alloc(), &answer)?);
    assert!(rt; Exit::Success.code() == 0);
    Ok(())
}

const FOO: &str = "Package: foo$Status: install ok installed$Version: 1$Architecture: all$";

fn has_parts_of_foo(found: &CandidateAnswer) -> bool {
    found.version() == b"1".as_slice() && found.priority() == 100
}

fn is_foo(alloc: Global, found: &CandidateAnswer) -> Result<bool, AllocError> {
    let line = candidate_line(alloc, b"foo", Some(found))?;
    Ok(line.as_slice() == b"foo 1 100\n".as_slice() && has_parts_of_foo(found))
}

// Whether these are `foo`, and none of the other name.
fn are_foo_and_none(alloc: Global, found: &[Option<CandidateAnswer>]) -> Result<bool, AllocError> {
    match found {
        [Some(found), None] => is_foo(alloc, found),
        _ => Ok(false),
    }
}

fn answers_foo(
    alloc: Global,
    answer: &Result<Items<Option<CandidateAnswer>>, Refusal>,
) -> Result<bool, AllocError> {
    match answer {
        Ok(found) => Ok(
            exit_of_candidates(found.as_slice()) == Exit::No
                && are_foo_and_none(alloc, found.as_slice())?,
        ),
        Err(_) => Ok(false),
    }
}

const NAMES: [&str; 2] = ["foo", "bar"];

fn prints_foo(
    alloc: Global,
    answer: &Result<Items<Option<CandidateAnswer>>, Refusal>,
) -> Result<bool, AllocError> {
    let outcome = outcome_of_candidates(alloc, NAMES.as_slice(), answer)?;
    Ok(
        matches!(&outcome, Outcome::Answer(printed, Exit::No) if printed.as_slice() == b"foo 1 100\nbar none\n".as_slice()),
    )
}

fn add_foo(alloc: Global, host: &mut Memory<'_>) -> Result<(), Fail> {
    host.add(alloc, "status", FOO)?;
    host.add(alloc, "sources", "")
}

fn answer_of_foo(alloc: Global) -> Result<Result<Items<Option<CandidateAnswer>>, Refusal>, Fail> {
    let mut host = Memory::new(alloc);
    add_foo(alloc, &mut host)?;
    let mut context = None;
    let mut shelf = HostShelf {
        host: &mut host,
        paths: &PATHS,
        context: &mut context,
        openings: Openings::none(),
    };
    let question = FindCandidates {
        names: NAMES.as_slice(),
        tells_versions: false,
    };
    let mut notes = Notes::new(alloc);
    Ok(ask_files(alloc, &mut shelf, &SETTINGS, &question, &mut notes))
}

#[test]
fn candidates_are_printed_as_an_answer(rt: HostRuntime) -> Result<(), Fail> {
    let answer = answer_of_foo(rt.alloc())?;
    assert!(rt; answers_foo(rt.alloc(), &answer)?);
    assert!(rt; prints_foo(rt.alloc(), &answer)?);
    Ok(())
}

// Whether the answer is a refusal for the sources, which can't be read, and is printed as a complaint.
fn is_complaint(alloc: Global, answer: &Result<JudgedPlan, Refusal>) -> Result<bool, AllocError> {
    let outcome = outcome_of_plan(alloc, answer)?;
    Ok(
        matches!(answer, Err(refusal) if exit_of_refusal(refusal) == Exit::Device)
            && matches!(&outcome, Outcome::Complaint(_, Exit::Device)),
    )
}

#[test]
fn a_refusal_is_printed_as_a_complaint(rt: HostRuntime) -> Result<(), Fail> {
    let mut host = Memory::new(rt.alloc());
    host.add(rt.alloc(), "status", "")?;
    let answer = judged(rt.alloc(), &mut host);
    assert!(rt; is_complaint(rt.alloc(), &answer)?);
    Ok(())
}
