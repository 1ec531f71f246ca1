//! Selections that no search would find, put in order: what is answered is worked by hand.
use super::texts::{numbers_in, stanzas_in};
use order::{Ordered, is_one_each, order};
use pins::Prefs;
use plancheck_state::{Records, parse_packages, view};
use plantext::write_plan;
use rules::Step;
use status_text::StatusFile;
use std::alloc::Global;
use std::test::Fail;
use universe::Universe;
use universe_build::build;
use universe_request::Request;

const ARCH: &[u8] = b"amd64";

// The status file, the request, the numbers that are selected, the answer with its steps, and why.
const ROWS: &str = "\
installed a; Depends: b→→1→stuck→what depends on nothing there is stuck without a step
unpacked b, installed e; Essential: yes→→1→stuck configure b→what can be configured is, before an essential package stays
installed a, installed b→remove b→1→plan remove b→what is selected is never removed
";

// The answer in a word, and its steps.
fn said_of(alloc: Global, ordered: &Ordered) -> Result<String, Fail> {
    match ordered {
        Ordered::Plan(steps) => words_of(alloc, "plan", steps.as_slice()),
        Ordered::Start => words_of(alloc, "start", &[]),
        Ordered::Stuck(steps) => words_of(alloc, "stuck", steps.as_slice()),
    }
}

// A word, and behind it each step, in place of the first line of a plan.
fn words_of(alloc: Global, word: &str, steps: &[Step]) -> Result<String, Fail> {
    let text = String::from_utf8(write_plan(alloc, steps)?)?;
    let words = text.trim_end().replace(alloc, "\n", " ")?;
    Ok(words.as_str().replace(alloc, "plan 1", word)?)
}

// The order of the pairs of these numbers.
fn ordered_on<'p, 'a>(
    alloc: Global,
    start: &Records<'p, 'a>,
    universe: &Universe<'_, 'a>,
    selection: &[u32],
) -> Result<Ordered, Fail> {
    if !is_one_each(alloc, universe, selection)? {
        return Err(Fail::new("two pairs are of one name"));
    }
    Ok(order(alloc, start, universe, selection)?)
}

// The same from the text of a status file on.
fn ordered(
    alloc: Global,
    status: &[u8],
    request: &str,
    selection: &[u32],
) -> Result<Ordered, Fail> {
    let status_file = StatusFile::read(alloc, status, ARCH)?;
    let records = status_file.records(alloc)?;
    let packages = parse_packages(alloc, records.as_slice())?;
    let start = view(alloc, records.as_slice(), packages.as_slice())?;
    let prefs = Prefs::without_records(alloc, None)?;
    let goals = Request::read(alloc, request.as_bytes(), ARCH)?.into_vec();
    match build(alloc, records.as_slice(), &[], &prefs, goals, false) {
        Ok(universe) => ordered_on(alloc, &start, &universe, selection),
        Err(_) => Err(Fail::new("no universe")),
    }
}

fn is_ordered(alloc: Global, row: &str) -> Result<bool, Fail> {
    let mut columns = row.split('→');
    let status = stanzas_in(alloc, columns.next().unwrap_or(""))?;
    let request = format!(in alloc; "{}\n", columns.next().unwrap_or(""))?;
    let selection = numbers_in(alloc, columns.next().unwrap_or(""))?;
    let found = ordered(
        alloc,
        status.as_bytes(),
        request.as_str(),
        selection.as_slice(),
    )?;
    Ok(said_of(alloc, &found)?.as_str() == columns.next().unwrap_or(""))
}

#[test]
fn selections_are_put_in_order_as_worked_by_hand(rt: HostRuntime) -> Result<(), Fail> {
    for row in ROWS.lines() {
        assert!(rt; is_ordered(rt.alloc(), row)?, "{row}");
    }
    Ok(())
}
