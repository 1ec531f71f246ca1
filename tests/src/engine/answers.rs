//! The calls over texts in memory, each once with ample memory. What is wanted is worked by hand from docs/FORMATS.md, Policy
//! 7.2 and apt_preferences(5).
use cli_engine::{
    Answered, CandidateAnswer, CheckPlan, FindCandidates, JudgedPlan, Notes, Rule, Solve, Solved,
    Verdict,
};
use inputs::{Each, Fault, Inputs, MemoryShelf, Refusal, Settings, Shelf, ask_bytes};
use plantext::write_plan;
use rules::Items;
use std::alloc::{AllocError, Global};

const SETTINGS: Settings<'static> = Settings {
    arch: b"amd64",
    target: None,
};

const STATUS: &[u8] =
    b"Package: bar\nStatus: install ok installed\nVersion: 1.0\nArchitecture: all\n";

const SOURCES: &[u8] = b"File: index\n";

const INDEX: &[u8] = b"Package: bar\nVersion: 2.0\nArchitecture: all\n\n\
Package: foo\nVersion: 1.0\nArchitecture: all\nDepends: bar (>= 2.0)\n";

const REQUEST: &[u8] = b"install foo\n";

// bar is unpacked over its old version, and configured before foo, which depends on it.
const PLAN: &[u8] = b"plan 1\nunpack bar 2.0\nunpack foo 1.0\nconfigure bar\nconfigure foo\n";

// The version of bar that stands is preferred, so that the one of the index isn't admitted.
const PREFERENCES: &[u8] = b"Package: bar\nPin: version 1.0\nPin-Priority: 1001\n";

fn inputs<'p>(
    indices: &'p [&'static [u8]],
    preferences: Option<&'static [u8]>,
) -> Inputs<'p, 'static> {
    Inputs {
        status: STATUS,
        sources: SOURCES,
        indices,
        preferences,
        request: REQUEST,
    }
}

// What is answered about the plan.
fn judged(
    alloc: Global,
    inputs: &Inputs<'_, 'static>,
    plan: &'static [u8],
) -> Result<JudgedPlan, Refusal> {
    let mut notes = Notes::new(alloc);
    ask_bytes(
        alloc,
        inputs,
        Some(plan),
        &SETTINGS,
        &CheckPlan {
            tells_reasons: false,
        },
        &mut notes,
    )
}

#[test]
fn a_plan_is_judged_by_texts(rt: HostRuntime) {
    let late = b"plan 1\nunpack bar 2.0\nunpack foo 1.0\nconfigure foo\nconfigure bar\n";
    let inputs = inputs(&[INDEX], None);
    let good = judged(rt.alloc(), &inputs, PLAN);
    assert!(rt; matches!(&good, Ok(judged) if matches!(judged.verdict, Verdict::Yes)));
    assert!(rt; matches!(&good, Ok(judged) if judged.steps.len() == 4));
    let bad = judged(rt.alloc(), &inputs, late);
    assert!(rt;
        matches!(&bad, Ok(judged) if matches!(judged.verdict, Verdict::Step(3, Rule::Depends)))
    );
}

// Whether the answer is a plan with this text.
fn is_plan(alloc: Global, solved: &Solved, wanted: &[u8]) -> Result<bool, AllocError> {
    match solved {
        Solved::Plan(steps) => Ok(write_plan(alloc, steps)?.as_slice() == wanted),
        _ => Ok(false),
    }
}

const SOLVE: Solve = Solve {
    limit: 0,
    names_pairs: false,
    tells_reasons: false,
    has_document: false,
};

// What is answered to each of three requests: the second names a package that there is none of, and the last asks for
// something else.
fn three(alloc: Global) -> Result<Items<Result<Answered, Refusal>>, Refusal> {
    let requests: [&[u8]; 3] = [REQUEST, b"install baz\n", b"remove bar\n"];
    let question = Each {
        requests: requests.as_slice(),
        asks_all_versions: false,
        question: SOLVE,
    };
    let mut notes = Notes::new(alloc);
    ask_bytes(
        alloc,
        &inputs(&[INDEX], None),
        None,
        &SETTINGS,
        &question,
        &mut notes,
    )
}

#[test]
fn each_request_is_answered_over_one_reading(rt: HostRuntime) -> Result<(), AllocError> {
    let answers = three(rt.alloc());
    match &answers {
        Ok(answers) => match answers.as_slice() {
            [Ok(first), Err(second), Ok(last)] => {
                assert!(rt; is_plan(rt.alloc(), &first.solved, PLAN)?);
                assert!(rt; matches!(second.fault, Fault::UnknownName(1)));
                assert!(rt; is_plan(rt.alloc(), &last.solved, b"plan 1\nremove bar\n")?);
            }
            _ => assert!(rt; false),
        },
        Err(_) => assert!(rt; false),
    }
    Ok(())
}

fn is_offer(offer: &CandidateAnswer, version: &[u8], priority: i32) -> bool {
    offer.version() == version && offer.priority() == priority
}

// The candidates of two names.
fn candidates(
    alloc: Global,
    inputs: &Inputs<'_, 'static>,
) -> Result<Items<Option<CandidateAnswer>>, Refusal> {
    let names = ["bar", "baz"];
    let question = FindCandidates {
        names: names.as_slice(),
        tells_versions: false,
    };
    let mut notes = Notes::new(alloc);
    ask_bytes(alloc, inputs, None, &SETTINGS, &question, &mut notes)
}

// Whether the first name has this candidate, and the other none.
fn are_offers(
    answer: &Result<Items<Option<CandidateAnswer>>, Refusal>,
    version: &[u8],
    priority: i32,
) -> bool {
    match answer {
        Ok(offers) => {
            matches!(offers.as_slice(), [Some(offer), None] if is_offer(offer, version, priority))
        }
        Err(_) => false,
    }
}

#[test]
fn candidates_are_found_by_texts(rt: HostRuntime) {
    let highest = candidates(rt.alloc(), &inputs(&[INDEX], None));
    assert!(rt; are_offers(&highest, b"2.0", 500));
    let preferred = candidates(rt.alloc(), &inputs(&[INDEX], Some(PREFERENCES)));
    assert!(rt; are_offers(&preferred, b"1.0", 1001));
}

#[test]
fn preferences_in_memory_are_read(rt: HostRuntime) {
    let mut shelf = MemoryShelf::new(inputs(&[INDEX], Some(PREFERENCES)), None);
    let read = shelf.read_preferences(rt.alloc());
    assert!(rt; matches!(&read, Ok(Some(text)) if text.as_slice() == PREFERENCES));
    let mut without = MemoryShelf::new(inputs(&[INDEX], None), None);
    let none = without.read_preferences(rt.alloc());
    assert!(rt; matches!(&none, Ok(None)));
    assert!(rt; without.failures() == 0);
}
