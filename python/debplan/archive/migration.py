"""What changes where the packages of some sources are those of another index: what is said of the packages before and after, and which
other sources of that index would have to come along."""
import os
import pathlib
import sys
import tempfile

from debplan import control, disk, tool
from debplan.archive import differences, exchange, failing, groups, reports, shards, surveys
from debplan.archive.along import Along, LATER, told
from debplan.archive.asking import NO_STATUS, refutations_of
from debplan.machine.database import Database
from debplan.tool import Failure

# Names of so many bytes are words of a command line; where there are more of them, all packages are asked about.
NAMES_BYTES = 500_000
# How often it is asked what has to come along with what has to come along.
ROUNDS = 10
# Where more sources than so many would have to come along, that isn't asked any more: they bring most of the other suite with them.
SOURCES = 300
# Where it is asked about more groups than so many, which takes minutes, that is said.
MANY = 100
# How many of the relations are told at which a group fails.
RELATIONS = 3
# Why a package is broken that isn't explained.
BESIDE = "beside the base, which is newly broken"
# The index of the other suite stands beside the new one with a priority of 1, and has no host that a pin names.
BELOW = {"NotAutomatic": "yes", "Host": "not-wished-for.invalid"}


def note(line):
    print(f"{tool.tool_name()}: {line}", file=sys.stderr, flush=True)


class Known:
    """What checks have found that needn't be asked again: what was said before an exchange of these names, by the names; and what helps a
    package that fails at these relations, by both. Where no plan helps it, none does where more is exchanged."""

    def __init__(self):
        self.surveys, self.helps = {}, {}


class Check:
    """The packages that can have changed by an exchange, and how they are asked about, before it and after it. The index that would be
    stands in the file `output`. What another check has found is known."""

    def __init__(self, options, changed, output, known=None):
        self.options, self.changed, self.output, self.known = options, changed, output, known or Known()
        self.asking, self.arch = options.asking, options.asking.needed("--arch")
        self.status = Database(self.asking.value("--status") or NO_STATUS)
        self.sources = control.indices_in(self.asking.needed("--sources"))
        others = [path for path in self.places() if not self.is_changed(path)]
        if len(others) == len(self.places()):
            raise Failure(f"{self.asking.value('--sources')}: names no index {options.index}")
        stanzas = [it for path in others for it in exchange.stanzas_in(path)]
        self.before, self.after = (self.counting([*stanzas, *own]) for own in (changed.index, [*changed.left, *changed.put]))
        self.names = self.changing(changed.names())

    def counting(self, stanzas):
        """Of the stanzas of this architecture the fields; the program skips the others."""
        return [it.fields for it in stanzas if it.fields["Architecture"] in ("all", self.arch)]

    def places(self):
        return [keys["File"] for keys in self.sources]

    def is_changed(self, path):
        return os.path.samefile(path, self.options.index)

    def changing(self, exchanged):
        """The names of packages that can have changed; None where these are all, or too many to be named."""
        stanzas = [*self.before, *self.after, *self.status.records.values()]
        names, self.base = exchange.Needs(stanzas).reaching(exchanged), exchange.staying_in(self.status)
        if not self.asking.has("--without-essential"):
            self.base |= {fields["Package"] for fields in stanzas if exchange.is_essential(fields)}
        if names & self.base:
            note(f"{min(names & self.base)} stands beside each package, and can have changed: all packages are asked about")
            return None
        few = sum(len(name) + 1 for name in names) <= NAMES_BYTES
        note(f"{len(names)} names can have changed: {'their' if few else 'all'} packages are asked about")
        return names if few else None

    def survey(self, sources, stanzas, folder=None):
        """What is said of the packages that can have changed, with these indices and their stanzas; None where there are none of them.
        With a folder for the refutations the sentences are asked for too."""
        names = [] if self.names is None else sorted(self.names & {fields["Package"] for fields in stanzas})
        if not names and self.names is not None:
            return None
        asking = self.asking.over(sources, names)
        return shards.asked((asking.explained() if folder else asking).words(), self.options.processors, folder)

    def survey_before(self):
        """What is said of them before the exchange."""
        names = None if self.names is None else frozenset(self.names)
        if names not in self.known.surveys:
            self.known.surveys[names] = self.survey(self.asking.value("--sources"), self.before)
        return self.known.surveys[names]

    def survey_of_base(self, name, sources, folder=None):
        """What is said of the base with these indices, beside one package of it."""
        asking = self.asking.over(sources, [name])
        found = shards.asked((asking.explained() if folder else asking).words(), 1, folder)
        return surveys.Survey(found.base, [], 0, found.sentences)

    def surveys(self, sources, folder):
        """What is said before the exchange and after it. Where the base is newly broken nothing can be installed beside it, and it alone is
        asked about."""
        base = self.base.intersection(*({fields["Package"] for fields in stanzas} for stanzas in (self.before, self.after)))
        if self.names is None and base:
            old, new = self.survey_of_base(min(base), self.asking.value("--sources")), self.survey_of_base(min(base), sources, folder)
            if new.base == "broken" != old.base:
                note("the base is newly broken: no package is asked about beside it")
                return old, new
        return beside(self.survey_before(), self.survey(sources, self.after, folder))

    def difference(self, sources, folder):
        """What is said after the exchange, with this sources file, and not before it, and the sentences on that; the refutations are put
        into a folder."""
        old, new = self.surveys(sources, folder)
        pairs = (set(map(exchange.pair_of, stanzas)) for stanzas in (self.before, self.after))
        return surveys.compared(old, new, *pairs), new.sentences

    def sources_after(self):
        """The stanzas of the sources file, with the new index in the place of the old one."""
        changed = {"File": str(self.output)}
        return [{**keys, **changed} if self.is_changed(keys["File"]) else keys for keys in self.sources]

    def answer(self, room):
        """What differs, why it is so, and what would have to come along; a folder has the files that are asked with."""
        sources, both = room / "sources", room / "both-sources"
        write_stanzas(sources, self.sources_after())
        write_stanzas(both, [*self.sources_after(), {"File": self.options.other, **BELOW}])
        with refutations_of(self.asking, True) as folder:
            difference, sentences = self.difference(str(sources), folder)
            reader = groups.Reader(folder, sentences, [*self.after, *self.status.records.values()])
            found = reader.groups_of(differences.explained(difference))
            if len(found) > MANY:
                note(f"what is newly broken fails in {len(found)} ways: a package of each is asked about")
            with reports.Judges(self.asking.over(str(both)), self.options.processors) as judges:
                return Answer(difference, sentences, Along(judges, folder, self).for_each(found))


class Answer:
    """What a check has found: what differs, why packages are broken, in sentences, and what would have to come along, for each group of
    those that are explained."""

    def __init__(self, difference, sentences, helped):
        self.difference, self.sentences, self.helped = difference, sentences, helped
        self.help = {line: found for group, found in helped for line in group.lines}
        self.others = dict.fromkeys(line for line in differences.newly_broken(difference) if line not in self.help)

    def causes(self):
        """Why each package is newly broken, to be compared: the relations at which it fails, or else its sentences; nothing of one that
        isn't explained. One that wasn't asked about isn't among them."""
        found = {line: frozenset(group.relations or self.sentences.get(line, ())) for group, helped in self.helped if helped.said != LATER
                 for line in group.lines}
        return {**dict.fromkeys(self.others, frozenset()), **found}

    def sources(self):
        """The sources that would have to come along."""
        return set().union(*(found.sources for _, found in self.helped))

    def reasons(self, line):
        """What is told below a package that is newly broken: why, and what would have to come along; nothing below another one."""
        if line not in self.help:
            return [BESIDE] if line in self.others else []
        return [*self.sentences.get(line, ["nothing says why"]), *told(self.help[line], line)]

    def groups(self):
        """The lines of each group, with what is told of all of them; last those that aren't explained, beside a base that is."""
        found = [(group.lines, [*written(group.relations), *told(helped, None)]) for group, helped in self.helped]
        return [*found, (list(self.others), [BESIDE])]


def written(relations):
    """The relations of a group as texts, of which the first are told."""
    found = [failing.written(relation, "") for relation in relations]
    return [*found[:RELATIONS], *([f"and {len(found) - RELATIONS} more"] if len(found) > RELATIONS else [])]


def write_stanzas(path, stanzas):
    disk.write_text(path, "".join(map(control.text_of, stanzas)))


def beside(old, new):
    """Two surveys. One that wasn't asked for has no packages, and the base of the other one, which can't have changed then."""
    none = surveys.Survey(old.base if old else new.base if new else None, [], 0)
    return old or none, new or none


# Telling


def tell(check):
    """Has it asked what changes by an exchange, and prints that. Then what would have to come along is exchanged too, and it is asked
    again, until nothing more would have to, or why_over says why not. Returns the exit status of the exchange that was asked for."""
    with tempfile.TemporaryDirectory(prefix="debplan-exchange-") as folder:
        room = pathlib.Path(folder)
        answer = check.answer(room)
        status = differences.tell(answer.difference, answer.reasons, answer.groups())
        known, along = answer.causes(), answer.sources()
        more, rounds = along, 0
        while more and not why_over(rounds, len(along)):
            more, rounds = tell_with(check, along, known, room) - along, rounds + 1
            along = along | more
    if along:
        print(f"would have to come along: {' '.join(sorted(along))}")
    if more:
        note(why_over(rounds, len(along)))
    return status


def why_over(rounds, count):
    """Why it isn't asked any more what has to come along with so many sources, behind so many rounds; None where it is."""
    if count > SOURCES:
        return f"more than {SOURCES} sources would have to come along: what comes along with these isn't asked"
    return f"after {ROUNDS} rounds still more would have to come along" if rounds >= ROUNDS else None


def tell_with(check, along, known, room):
    """Prints what is newly broken where these sources are exchanged too, but for what is known to be so for the same cause. Returns which
    sources would have to come along then."""
    changed, output = check.changed.also(along), room / "index"
    disk.write_text(output, changed.text().decode("utf-8", "surrogateescape"))
    answer = Check(check.options, changed, output, check.known).answer(room)
    found, causes = answer.difference[0], answer.causes()
    broken = {kind: [line for line in found[kind] if line not in known or causes.get(line) != known[line]] for kind in differences.BROKEN}
    if any(broken.values()):
        print(f"with {' '.join(sorted(along))}:")
        differences.tell_kinds(broken, answer.reasons, answer.groups())
    known.update({line: cause for line, cause in causes.items() if cause or line not in known})
    return answer.sources()
