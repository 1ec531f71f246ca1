"""The relations at which a package fails: of the premises of its refutation, as check-refutation writes them as JSON (docs/FORMATS.md,
section 19), those that nothing admitted meets, or where there are none the conflicts. Its sentences tell of a premise whether it is
one of these."""
import collections

from debplan import control
from debplan.machine.reasons import SAYS

# A relation: its kind, which is that of the premise; what it asks for, or is against; and whose it is, empty of a goal.
Relation = collections.namedtuple("Relation", "kind text owner")


def relations_in(document):
    """The relations at which the refutation fails that a document of check-refutation is about."""
    told = [it for it in map(told_of, document["lines"]) if it]
    found = [relation for relation, start in told if any(sentence.startswith(start) for sentence in document["reasons"])]
    unmet = [relation for relation in found if is_unmet(relation)]
    return list(dict.fromkeys(unmet or found))


def is_unmet(relation):
    return relation.kind in ("depends", "predepends", "goal")


def told_of(line):
    """A premise as a relation, with how its sentence begins where it fails; None of another line."""
    kind, text = line.get("premise"), line.get("text", "")
    owner, other = (versioned(line.get(which)) for which in ("pair", "other"))
    if kind in ("depends", "predepends"):
        return Relation(kind, text, owner), f"{owner} {SAYS[kind]} {text}, but "
    if kind == "goal":
        return Relation(kind, text, ""), f"You ask for {text.removeprefix('install ')}, but "
    if kind in ("conflicts", "breaks"):
        return Relation(kind, other, owner), f"{owner} {SAYS[kind]} {other}"
    if kind == "same":
        return Relation(kind, other, owner), f"{owner} and {other} are two versions of one package"
    return None


def versioned(pair):
    return f"{pair['name']} {pair['version']}" if pair else ""


def names_in(relation):
    """The names that a relation is about: what is missing, or the two that don't go together."""
    if is_unmet(relation):
        clauses = control.clauses_of(relation.text.removeprefix("install "))
        return " | ".join(dict.fromkeys(atom.name for clause in clauses for atom in clause))
    return " and ".join(dict.fromkeys(sorted(it.split(" ")[0] for it in (relation.owner, relation.text))))


def written(relation, package):
    """A relation as a text: whose it is, where that isn't this package, and what it asks for or is against."""
    if relation.kind == "goal":
        return relation.text
    owner = "" if relation.owner == package else f"{relation.owner} "
    return f"{owner}{'and' if relation.kind == 'same' else SAYS[relation.kind]} {relation.text}"
