"""A package of a release, as `NAME/SUITE` of tools/ask means it: the version that an index of this release has, and of what it depends
on the versions of the release too, where neither what is installed nor the candidate will do, as apt-get(8) says of such a word. Each
becomes a goal `install NAME (= VERSION)`, which admits this version."""
from debplan import control
from debplan.tool import Failure

# By what an index is named as one of a release, and by what debplan knows it as one of the target release (docs/FORMATS.md, section 7).
NAMES = ("Archive", "Suite", "Codename", "Distribution", "Version")
TARGETS = ("Archive", "Suite", "Codename", "Version")


def is_of(keys, suite, names=NAMES):
    """Whether an index is of this release."""
    return any(keys.get(name) == suite for name in names)


def name_of(keys):
    """What an index is of: its codename, or else its suite or what apt's sources ask for; None where that isn't known."""
    return keys.get("Codename") or keys.get("Suite") or keys.get("Distribution")


def check_suite(inputs, suite, names=NAMES):
    """Ends where no index is of this release."""
    if not any(is_of(keys, suite, names) for keys in inputs.sources()):
        known = dict.fromkeys(filter(None, map(name_of, inputs.sources())))
        raise Failure(f"no list of apt is of the release {suite}; there are {', '.join(known) or 'none'}", 64)


def check_target(inputs, target):
    """Ends where no index is of the target release, as debplan knows it."""
    check_suite(inputs, target, TARGETS)


def set_default_target(inputs, machine):
    """Has the release preferred that apt's settings prefer. Where that isn't the name of a release, it counts as a pin left out."""
    target = machine.setting("APT::Default-Release")
    if target and any(is_of(keys, target, TARGETS) for keys in inputs.sources()):
        inputs.target = target
    elif target:
        inputs.other_pins.append(f"apt's setting APT::Default-Release: '{target}' is the suite, codename or version of no list")


class Suite:
    """What the indices of a release have."""

    def __init__(self, inputs, suite):
        check_suite(inputs, suite)
        self.inputs, self.suite, self.known = inputs, suite, {}

    def read(self, names):
        """Reads what the release has of these names."""
        wanted = {name for name in names if name not in self.known}
        self.known.update({name: [] for name in wanted})
        for keys in self.inputs.sources() if wanted else ():
            for fields in control.stanzas_named(self.inputs.folder / keys["File"], wanted) if is_of(keys, self.suite) else ():
                if fields.get("Architecture") in ("all", self.inputs.arch) and "Version" in fields:
                    self.known[fields["Package"]].append(fields)

    def best(self, atom):
        """The stanza of the highest version of the release that meets an atom, or None."""
        fitting = [fields for fields in self.known.get(atom.name, ()) if control.meets(fields["Version"], atom)]
        return max(fitting, key=lambda fields: control.version_key(fields["Version"]), default=None)


def unmet_in(clauses, at_hand):
    """The clauses of which no atom is met by name among the versions at hand."""
    for clause in clauses:
        if not any(control.meets(version, atom) for atom in clause for version in at_hand.get(atom.name, ())):
            yield clause


def goals_from(inputs, name, suite, candidates_of, installed):
    """The goals that `install NAME/SUITE` stands for, that of NAME first. The candidates of names are asked for by the function."""
    of = Suite(inputs, suite)
    of.read([name])
    first = of.best(control.Atom(name, None, None, None))
    if first is None:
        raise Failure(f"{suite} has no package {name}", 1)
    chosen, waiting = {name: first}, [first]
    while waiting:
        clauses = [clause for fields in waiting for clause in control.clauses_in(fields, "Pre-Depends", "Depends")]
        names = sorted({atom.name for clause in clauses for atom in clause})
        of.read(names)
        candidates = candidates_of(names)
        at_hand = {it: [version for version in (installed(it), candidates.get(it)) if version] for it in names}
        at_hand.update({it: [fields["Version"]] for it, fields in chosen.items()})
        waiting = []
        for clause in unmet_in(clauses, at_hand):
            found = next((fields for fields in map(of.best, clause) if fields and fields["Package"] not in chosen), None)
            if found:
                chosen[found["Package"]] = found
                waiting.append(found)
    return [f"install {it} (= {fields['Version']})" for it, fields in chosen.items()]
