//! Answers worked by hand: sets by what is wished and preferred, refutations by units, and limits.
use super::replay::is_accepted;
use super::texts::{are_numbers, clauses_in};
use clauses::Clauses;
use search::{SearchAnswer, search};
use std::alloc::{AllocError, Global};
use std::process::Abort;

// Columns: clauses without an owner, clauses of owners, further clauses, wishes, the limit, the wanted answer, and why.
// A refutation is wanted as its number of premises and of lines.
const ROWS: &str = "\
→→→→0→set→no clause and no wish
1→→→→0→set 1→a unit
1, -1→→→→0→refuted 2 1→two units against one another
-→→→→0→refuted 1 0→an empty clause
2, -→→→→0→refuted 1 0→an empty clause behind a unit
1→-1 2, -2 3→→→0→set 1 2 3→a chain of units
1, -3→-1 2, -2 3→→→0→refuted 4 1→a chain of units that ends false
1→-1 2 3→→→0→set 1 2→the first alternative, by one decision
1→-1 2 3→-2 -4→4→0→set 1 3 4→what is wished comes before the alternatives
1→-1 2 3→-2→→0→set 1 3→the alternative that is left
→→→1→0→set 1→a wish of one number
→→→1 2→0→set 1→a wish keeps its first number
→→→1 2, 3→0→set 1 3→two wishes
-1→→→1 2→0→set 2→a wish whose first number can't be
-1, -2→→→1 2→0→set→a wish that can't be
→-1 2, -2 1→→1, 2→0→set 1 2→a ring of two, each wished, at limit 0
→-1 2, -2 1→-3 -1→3, 1, 2→0→set 1 2→a ring of two that one wish is against, which is lost
→-1 2, -2 1→→→0→set→a ring of two that isn't wished
→-1 2→-2 -3→3, 1→0→set 3→a wish lost to the one before it
→-1 2→-2 -3→1, 3→0→set 3→of one lost wish or the other, the one with fewer further numbers
→→-1 -2→1, 2→0→set 1→of one lost wish or the other, the later one
→-1 2, -2 1→→1 3, 2 4→0→set 1 2→a ring of two, each the best of its wish
→-4 -5→-1 -2, -1 -3→1, 2, 3→0→set 2 3→one wish is lost in place of two
→→-1 -3→1 2, 3 4→0→set 1 4→a second number in place of the first
→-1 2, -1 -2→→1→0→set→a wish that can't be, which one conflict shows
→-1 1 2→→1→0→set 1→a clause that is always true
1→-1 1 2→→→0→set 1→a clause that is always true, of a unit
1, 1→→→→0→set 1→a clause twice
1 2, -1 -2, 1 -2, -1 2→→→→0→limit 0→a choice that can't be decided without a conflict
1 2, -1 -2, 1 -2, -1 2→→→→1→refuted 4 2→the same within a limit of one
1 2, -1 -2, 1 -2, -1 2→→→→7→refuted 4 2→the same within a larger limit
1 2, 3 4, -1 -3, -1 -4→→→→0→limit 0→a conflict above the limit carries it
1 2, 3 4, -1 -3, -1 -4→→→→1→set 2 3→the same within a limit of one
3 -2, 2 1, -1→→→→0→set 2 3→a clause that a later one makes false without its first literal
4 5, 1 3 -2, 2 6, -6, -3→→→→0→set 1 2 4→a clause that a later one leaves to its first literal
1, -1 2, -2 -1→→→→0→refuted 3 1→clauses without a choice never reach the limit
5, -5 4, -4 3, -3 2, -2 1, -1→→→→0→refuted 6 1→a chain backwards
1 1, -1 -1→→→→0→refuted 2 1→a number that stands in a clause twice leaves no choice
2, -2 -2 -2 1 1, -1 -3, 3 3→→→→0→refuted 4 1→units of clauses in which literals stand twice
2 2, -2 -2 1 3→→→→0→set 1 2→a choice behind a literal that stands twice
";

fn is_wanted(
    alloc: Global,
    given: &Clauses,
    found: &SearchAnswer,
    wanted: &str,
) -> Result<bool, AllocError> {
    let (kind, words) = wanted.split_once(' ').unwrap_or((wanted, ""));
    match found {
        SearchAnswer::Selection(numbers) => Ok(
            kind == "set" && are_numbers(numbers.as_slice(), words),
        ),
        SearchAnswer::Limit(limit) => Ok(
            kind == "limit" && words.parse::<u32>().ok() == Some(*limit),
        ),
        SearchAnswer::Refutation(refutation) => {
            let counts = format!(in alloc;
                "{} {}",
                refutation.premises.len(),
                refutation.lines.len()
            )?;
            Ok(
                kind == "refuted"
                    && counts.as_str() == words
                    && is_accepted(alloc, given, refutation)?,
            )
        }
    }
}

fn is_answered(alloc: Global, row: &str) -> Result<bool, AllocError> {
    let given = clauses_in(alloc, row)?;
    let mut columns = row.split('→').skip(4);
    let limit = columns.next().unwrap_or("").parse::<u32>().unwrap_or(0);
    let found = search(alloc, &given, limit)?;
    is_wanted(alloc, &given, &found, columns.next().unwrap_or(""))
}

#[test]
fn clauses_are_answered_as_worked_by_hand(rt: HostRuntime) -> Result<(), AllocError> {
    for row in ROWS.lines() {
        assert!(rt; is_answered(rt.alloc(), row)?, "{row}");
    }
    Ok(())
}
