//! Values of relation fields (Policy 7.1): what they spell, and that a parser refuses what the check refuses. Most values that are
//! refused are shown by the scenarios. Offsets were counted in the value.
use super::shown::{Shown, all_hold, columns};
use relation::{
    Atom, Clause, Op, Provided, RelationError, RelationForm, parse_atoms, parse_clauses,
    parse_provides,
};
use relation_text::{RelationFault, check};
use std::alloc::{AllocError, Global};
use std::test::Fail;

const ARCH: &[u8] = b"amd64";

fn sign_of(op: Op) -> &'static str {
    match op {
        Op::StrictlyEarlier => " << ",
        Op::EarlierOrEqual => " <= ",
        Op::ExactlyEqual => " = ",
        Op::LaterOrEqual => " >= ",
        Op::StrictlyLater => " >> ",
    }
}

fn write_atom(shown: &mut Shown, atom: &Atom<'_>) -> Result<(), AllocError> {
    shown.add_bytes(atom.name())?;
    if let Some((op, version)) = atom.restriction() {
        shown.add_behind(sign_of(op), version.text())?;
    }
    if atom.is_foreign() {
        shown.add(" foreign")?;
    }
    Ok(())
}

/// The atoms, with `; ` behind each.
pub(crate) fn write_atoms(shown: &mut Shown, atoms: &[Atom<'_>]) -> Result<(), AllocError> {
    for atom in atoms {
        write_atom(shown, atom)?;
        shown.add("; ")?;
    }
    Ok(())
}

/// The clauses, each in brackets.
pub(crate) fn write_clauses(shown: &mut Shown, clauses: &[Clause<'_>]) -> Result<(), AllocError> {
    for clause in clauses {
        shown.add("[")?;
        write_atoms(shown, clause.as_slice())?;
        shown.add("]")?;
    }
    Ok(())
}

/// The items, with `; ` behind each.
pub(crate) fn write_items(shown: &mut Shown, items: &[Provided<'_>]) -> Result<(), AllocError> {
    for item in items {
        shown.add_bytes(item.name())?;
        if let Some(version) = item.version() {
            shown.add_behind(" = ", version.text())?;
        }
        shown.add(if item.is_foreign() {
            " foreign; "
        } else {
            "; "
        })?;
    }
    Ok(())
}

fn form_of(word: &str) -> RelationForm {
    match word {
        "clauses" => RelationForm::Clauses,
        "atoms" => RelationForm::Atoms,
        _ => RelationForm::Provides,
    }
}

fn write_parsed(
    alloc: Global,
    shown: &mut Shown,
    form: RelationForm,
    value: &[u8],
) -> Result<Result<(), RelationError>, AllocError> {
    match form {
        RelationForm::Clauses => match parse_clauses(alloc, value, ARCH) {
            Ok(clauses) => write_clauses(shown, clauses.as_slice())?,
            Err(error) => return Ok(Err(error)),
        },
        RelationForm::Atoms => match parse_atoms(alloc, value, ARCH) {
            Ok(atoms) => write_atoms(shown, atoms.as_slice())?,
            Err(error) => return Ok(Err(error)),
        },
        RelationForm::Provides => match parse_provides(alloc, value, ARCH) {
            Ok(items) => write_items(shown, items.as_slice())?,
            Err(error) => return Ok(Err(error)),
        },
    }
    Ok(Ok(()))
}

// Whether the value is read so, and the check has nothing against it; or both refuse it so.
fn is_value(alloc: Global, row: &str) -> Result<bool, Fail> {
    let (given, wanted) = columns(row);
    let (word, value) = given.split_once(' ').unwrap_or((given, ""));
    let form = form_of(word);
    let mut parsed = Shown::new(alloc);
    let mut checked = Shown::new(alloc);
    if let Err(error) = write_parsed(alloc, &mut parsed, form, value.as_bytes())? {
        parsed.add(error)?;
    }
    match check(form, value.as_bytes()) {
        Ok(()) => checked.add(wanted)?,
        Err(fault) => checked.add(fault)?,
    }
    Ok(parsed.is(wanted) && checked.is(wanted))
}

// White space is free between parts, empty items are skipped, `<` is `<=` and `>` is `>=`. At the end of a value white space is passed
// over, where a field ends before it.
const VALUES: &str = "\
clauses python3:any (>= 3.5), ,$ a | b\t(<<$2 ), c(< 1),d:i386 (= 1:2-3),→[python3 >= 3.5; ][a; b << 2; ][c <= 1; ][d = 1:2-3 foreign; ]
clauses  , ,$,→
atoms a, b:i386 (<< 2) ,, c(> 1),→a; b << 2 foreign; c >= 1; 
provides a, b:i386 (= 3)→a; b = 3 foreign; 
clauses a | , b→E8 BadName 4
clauses a_, b (= -)→E7 BadRelation 1
atoms a | b→E7 BadRelation 2
provides a (>= 1)→E7 BadRelation 3
clauses a |  →E8 BadName 5
clauses \0→E8 BadName 0
";

#[test]
fn a_value_is_read_so_or_refused_at_its_least_offset(rt: HostRuntime) -> Result<(), Fail> {
    all_hold(rt.alloc(), VALUES, is_value)
}

#[test]
fn the_readme_example_of_relation_text(rt: HostRuntime) {
    let clauses = b"python3:any (>= 3.5), a | b (<< 2), c (> 1)";
    assert!(rt; check(RelationForm::Clauses, clauses).is_ok());
    let fault = RelationFault::BadRelation(6);
    assert!(rt; check(RelationForm::Provides, b"a, b (>= 1)") == Err(fault));
}

// So many atoms of one byte, each with the separator behind it, and then the end.
fn many(alloc: Global, count: usize, separator: &str, end: &str) -> Result<String, AllocError> {
    let mut value = format!(in alloc; "a{separator}")?
        .as_str()
        .repeat(alloc, count)?;
    value.push_str(end)?;
    Ok(value)
}

fn is_counted(alloc: Global, row: &str) -> Result<bool, Fail> {
    let (count, rest) = columns(row);
    let (separator, rest) = columns(rest);
    let (end, wanted) = columns(rest);
    let value = many(alloc, count.parse::<usize>().unwrap_or(0), separator, end)?;
    let mut shown = Shown::new(alloc);
    match check(RelationForm::Clauses, value.as_bytes()) {
        Ok(()) => shown.add("accepted")?,
        Err(fault) => shown.add(fault)?,
    }
    Ok(shown.is(wanted))
}

// Whether so many atoms are parsed as their number, or the refusal is printed so.
fn are_parsed(alloc: Global, count: usize, wanted: &str) -> Result<bool, AllocError> {
    let value = many(alloc, count, ",", "")?;
    let mut shown = Shown::new(alloc);
    match parse_atoms(alloc, value.as_bytes(), ARCH) {
        Ok(atoms) => shown.add(atoms.len())?,
        Err(error) => shown.add(error)?,
    }
    Ok(shown.is(wanted))
}

const MOST: &str = "\
65534→|→a→accepted
65535→,→ ,\t→accepted
";

#[test]
fn a_field_has_65535_atoms_at_most(rt: HostRuntime) -> Result<(), Fail> {
    all_hold(rt.alloc(), MOST, is_counted)?;
    assert!(rt; are_parsed(rt.alloc(), 65_535, "65535")?);
    assert!(rt; are_parsed(rt.alloc(), 65_536, "E10 TooLarge")?);
    Ok(())
}

// The place of the atom too many is where it begins, before all that is wrong in it and behind it.
const TOO_MANY: &str = "\
65535→,→a→E10 TooLarge
65535→|→a→E10 TooLarge
65535→,→ a_→E10 TooLarge
65536→,→_→E10 TooLarge
";

#[test]
fn an_atom_too_many_is_told_before_what_is_wrong_in_it(rt: HostRuntime) -> Result<(), Fail> {
    all_hold(rt.alloc(), TOO_MANY, is_counted)
}

const WRONG_BEFORE: &str = "\
65535→,→_→E8 BadName 131070
65534→,→a (= 1-), a→E7 BadRelation 131073
";

#[test]
fn what_is_wrong_before_an_atom_too_many_is_told(rt: HostRuntime) -> Result<(), Fail> {
    all_hold(rt.alloc(), WRONG_BEFORE, is_counted)
}
