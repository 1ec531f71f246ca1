"""The premises that a refutation of version 2 rests on (docs/FORMATS.md, section 10), read of its text, its request and the stanzas of
the packages that it names. They have the form in which check-refutation writes premises as JSON (section 19), and their clauses are
spelled as there. Nothing is judged here, and the program isn't called."""
from debplan import control

# The first line of a refutation whose pairs are named, which may have lines for indices behind it.
NAMED = "refutation 2"
FIELDS = {"depends": "Depends", "predepends": "Pre-Depends"}
# How operators are spelled that are obsolete.
OBSOLETE = {"<": "<=", ">": ">="}


def resting_on(text):
    """The lines of the premises that the last line follows from, each as its words; none where the text isn't a whole one of version 2."""
    head, *lines = text.splitlines() or [""]
    *lines, end = [line.split(" ") for line in lines if not line.startswith("index ")] or [[]]
    if head != NAMED or end != ["end", str(len(lines))]:
        return []
    wanted, found = {len(lines)}, []
    for number, words in reversed(list(enumerate(lines, 1))):
        if number in wanted and words[0] == "derive":
            wanted.update(map(int, words[words.index(":") + 1:]))
        elif number in wanted:
            found.append(words)
    return found[::-1]


def premise_of(words, goals, fields_of):
    """A premise. `goals` are the goals of the request, and `fields_of` has the fields of a package by its name and version. One that
    these don't know is a KeyError or an IndexError."""
    kind, *values = words
    if kind == "goal":
        return {"premise": kind, "text": goals[int(values[0]) - 1]}
    if kind in ("essential", "keep"):
        return {"premise": kind, "name": values[0]}
    found = {"premise": kind, "pair": pair_of(*values[:2])}
    if kind in FIELDS:
        clauses = control.clauses_of(fields_of(*values[:2]).get(FIELDS[kind], ""))
        return {**found, "text": spelled(clauses[int(values[2]) - 1])}
    return {**found, "other": pair_of(*values[2:])} if values[2:] else found


def pair_of(name, version):
    return {"name": name, "version": version}


def spelled(clause):
    """A clause as the program spells it: with one space where there may be several, and without qualifiers of architectures."""
    return control.written(it._replace(qualifier=None, operator=OBSOLETE.get(it.operator, it.operator)) for it in clause)


def premises_of(request, refutation, fields_of):
    """The premises that a refutation rests on; none where these texts and stanzas don't tell them."""
    goals = [" ".join(line.split()) for line in request.splitlines() if line.startswith("install ")]
    try:
        return [premise_of(words, goals, fields_of) for words in resting_on(refutation)]
    except (KeyError, IndexError, ValueError, TypeError):
        return []
