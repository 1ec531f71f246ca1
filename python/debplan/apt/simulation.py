"""The steps that apt has dpkg take, as a plan: what apt says it would do, and what dpkg does by itself (dpkg(1))."""
import collections
import re

from debplan import control
from debplan.control import matches
from debplan.machine.database import Database, PRESENT, TRIGGERED, UNCONFIGURED
from debplan.tool import Failure

ILLEGAL = re.compile(r"no step (\d+) (F\d+) ")


def rings_of(names, needs):
    """The groups of names that need each other, directly or by others, each ascending."""
    def reached(name):
        found, left = set(), [name]
        while left:
            for other in needs.get(left.pop(), set()) & names:
                if other not in found:
                    found.add(other)
                    left.append(other)
        return found
    reach = {name: reached(name) for name in names}
    return {name: sorted({name} | {other for other in reach[name] if name in reach[other]}) for name in names}


def in_order(names, needs):
    """The rings of these names, each behind what it needs and else in their order."""
    rings, found, done = rings_of(set(names), needs), [], set()
    place_of = {name: place for place, name in enumerate(names)}

    def place(name):
        if name not in done:
            done.update(rings[name])
            for other in sorted(set().union(*(needs[it] for it in rings[name])) - set(rings[name]), key=place_of.get):
                place(other)
            found.append(rings[name])

    for name in names:
        place(name)
    return found


class Simulation:
    """What is known of the packages while the lines of a simulation are turned into steps."""

    def __init__(self, inputs, offered, forced):
        self.database, self.offered, self.forced, self.arch = Database(inputs.path("status")), offered, forced, inputs.arch
        # what waits to be configured, what dpkg has deconfigured, what is deconfigured for a removal, and the removals that dpkg
        # has to be forced to
        self.steps, self.waiting, self.deconfigured, self.loosened, self.removals = [], [], [], [], []
        self.having = collections.defaultdict(set)
        for fields in [*self.database.records.values(), *offered.values()]:
            for name in control.names_of(fields):
                self.having[name].add(fields["Package"])

    def meeting(self, atom, *states):
        """The names of the packages in these states that match an atom."""
        records = self.database.records
        return {name for name in self.having[atom.name] if self.database.state(name) in states and matches(records[name], atom, self.arch)}

    def add(self, *words):
        """Adds a step, and takes it."""
        self.steps.append(" ".join(words))
        self.database.take(words, self.offered)

    def deconfigure(self, name):
        self.add("deconfigure", name)
        self.deconfigured.append(name)

    def needs(self, name):
        """Which of those that wait to be configured a package needs for this."""
        found = set()
        for clause in control.clauses_in(self.database.records[name], "Pre-Depends", "Depends"):
            if not any(self.meeting(atom, "installed") for atom in clause):
                found.update(other for atom in clause for other in self.meeting(atom, *UNCONFIGURED))
        return (found & set(self.waiting)) - {name}

    def is_met(self, clause, group):
        """Whether a clause is met by what is installed or by one of the group."""
        return any(self.meeting(atom, "installed") or self.meeting(atom, *UNCONFIGURED) & group for atom in clause)

    def part_of(self, names):
        """The greatest part of these names that can be configured together by itself."""
        group, before = set(names), None
        while group != before:
            before = group
            group = {name for name in group if all(self.is_met(clause, group) for clause in
                                                   control.clauses_in(self.database.records[name], "Pre-Depends", "Depends"))}
        return group

    def group_of(self, names):
        """Some of these names that can be configured together, and no part of which can; all of them where none can."""
        group, smaller = self.part_of(names) or set(names), True
        while smaller:
            smaller = next((part for part in (self.part_of(group - {name}) for name in sorted(group)) if part), None)
            group = smaller or group
        return group

    def again(self):
        """What was deconfigured for a removal and can be configured again, with what waits for it. Under --force-depends it was
        never deconfigured, so it is configured as early as can be."""
        part = self.part_of({*self.loosened, *(name for name in self.waiting if name in self.database.records)}) if self.loosened else ()
        return [name for name in self.loosened if name in part and name not in self.waiting]

    def forget(self, names):
        """These names aren't deconfigured any more."""
        self.deconfigured = [name for name in self.deconfigured if name not in names]
        self.loosened = [name for name in self.loosened if name not in names]

    def configure(self):
        """Configures what waits for it. A name of which there is nothing to be configured is left to the judge."""
        self.waiting = self.again() + self.waiting
        known = [name for name in self.waiting if name in self.database.records]
        for ring in in_order(known, {name: self.needs(name) for name in known}):
            left = set(ring)
            while left:
                group = self.group_of(left) if len(left) > 1 else left
                self.add("configure", *sorted(group))
                left = left - group
        self.steps += [f"configure {name}" for name in self.waiting if name not in known]
        self.forget(self.waiting)
        self.waiting = []

    def unpack(self, name, version):
        """Unpacks a package, behind the deconfiguring of what it breaks."""
        if (name, version) not in self.offered:
            raise Failure(f"the indices of the folder have no {name} {version}: collect-inputs writes them anew")
        breaks = control.clauses_in(self.offered[name, version], "Breaks")
        broken = {other for clause in breaks for other in self.meeting(clause[0], "installed")}
        for other in sorted(broken - {name}):
            self.deconfigure(other)
        self.forget([name])
        self.add("unpack", name, version)

    def is_needed(self, name, clause):
        """Whether a clause is met by this package, and by no other one that is installed."""
        meeting = [self.meeting(atom, *PRESENT) for atom in clause]
        others = set().union(*meeting) - {name}
        return any(name in it for it in meeting) and not any(self.database.state(it) == "installed" for it in others)

    def needing(self, name):
        """The installed packages that need one which is to be removed."""
        owned, found = set(control.names_of(self.database.records[name])), []
        for other, fields in self.database.records.items():
            if other != name and self.database.state(other) == "installed":
                clauses = [clause for clause in control.clauses_in(fields, "Pre-Depends", "Depends")
                           if any(atom.name in owned for atom in clause)]
                found += [other] if any(self.is_needed(name, clause) for clause in clauses) else []
        return found

    def remove(self, name):
        """Removes a package. Where an installed one needs it, apt has dpkg force that."""
        needing = self.needing(name)
        if needing:
            self.removals.append((name, needing))
            for other in needing if self.forced else []:
                self.add("deconfigure", other)
                self.loosened.append(other)
        self.forget([name])
        self.add("remove", name)

    def take(self, kind, name, version):
        """Takes a line: what stands next to one another to be configured is configured together."""
        if kind == "Conf":
            self.waiting.append(name)
            return
        self.configure()
        if kind == "Inst":
            self.unpack(name, version)
        elif self.database.state(name) in PRESENT:
            self.remove(name)
        if kind == "Purg":
            self.add("purge", name)

    def begin(self):
        """Configures what has triggers that are left to be processed: dpkg does so with the next call."""
        self.waiting = [name for name in self.database.records if self.database.state(name) in TRIGGERED]
        self.configure()

    def end(self):
        """Configures what waits, and then what dpkg has deconfigured."""
        self.configure()
        self.waiting = list(dict.fromkeys([*self.deconfigured, *self.loosened]))
        self.configure()


def simulation_of(inputs, lines, offered, forced=False):
    """The plan that a simulation is; with `forced` what needs a package is deconfigured before that is removed."""
    simulation = Simulation(inputs, offered, forced)
    simulation.begin()
    for line in lines:
        simulation.take(*line)
    simulation.end()
    return simulation
