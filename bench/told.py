#!/usr/bin/env python3
"""told.py DIR PROGRAM [COUNT]: has the program answer, over the folder DIR that tools/collect-inputs has written, COUNT requests that
have a plan (100 without that word), as many that are refuted and as many texts that are refused, each as lines and as JSON, with
--explain. Each member and each sentence is compared with the stanzas, the status file and the texts, which are read anew by Python:
what a plan unpacks with Filename, Size and SHA256 of its stanza, what is new, upgraded, downgraded, removed and purged with what the
steps change, a sentence of a refutation with the relation as it stands and with every admitted version that meets it, and the line of
a refusal with the line at which the text was spoiled. Each answer is compared once more with something changed in it, which has to be
seen. What differs is printed, and the last line counts the answers and those that differ. It exits with 1 where there is one. The
requests are drawn by chance, the same ones each time."""

import collections
import copy
import functools
import json
import pathlib
import random
import re
import subprocess
import sys
import tempfile

sys.path.insert(0, str(pathlib.Path(__file__).resolve().parent.parent / "dev"))
sys.path.insert(1, str(pathlib.Path(__file__).resolve().parent.parent / "python"))
from debplan import control
from debplan.machine import changes, reasons
from debplan.machine.database import Database
from debplan.machine.inputs import Inputs
import documents  # noqa: E402

ARCHIVE = {"filename": "Filename", "size": "Size", "sha256": "SHA256"}
CLOSING = "This is about the admitted versions: "
PAIR = r"(\S+) (\S+)"
FIELDS = {"depends on": "Depends", "pre-depends on": "Pre-Depends", "conflicts with": "Conflicts", "breaks": "Breaks"}
# What stands behind the relation or the goal of a sentence: which versions meet it, or why none does.
REST = r"(?: \(that is (?P<one>[^)]*)\)|, which only (?P<some>.*) can satisfy|, but (?P<causes>.*))?"
NEED = re.compile(rf"{PAIR} (depends on|pre-depends on) (.+?){REST}\.")
AGAINST = re.compile(rf"{PAIR} (conflicts with|breaks) {PAIR}(?:, which provides (\S+))?\.")
INSTEAD = re.compile(rf"{PAIR} would do for (.+?) too, and is not admitted: .*\.")
GOAL = re.compile(rf"You ask for (.+?){REST}\.")
PLAIN = re.compile(r"(?:You ask to (?:upgrade|remove|purge) (\S+).*|(\S+) is essential and may not be removed\."
                   rf"|You ask that nothing is removed, and (\S+) is installed\.|{PAIR} is held\.|upgrade-all asks for {PAIR}\."
                   rf"|{PAIR} and {PAIR} are two versions of one package\.)")
LINE = re.compile(r"^Line (\d+) is: (.*)$", re.MULTILINE)
Answer = collections.namedtuple("Answer", "status out err")
IDLE = re.compile(r"Record \d+ of the preferences matches nothing: there is no (?:package (\S+)|such version of (\S+))\.")


class World:
    """The folder, as the program reads it and as Python does."""

    def __init__(self, folder, program):
        self.inputs, self.program = Inputs(folder), program
        self.offered = reasons.Offered(self.inputs)
        self.stanzas = collections.defaultdict(dict)
        for keys in control.stanzas_in(self.inputs.path("sources")):
            for fields in control.stanzas_in(self.inputs.folder / keys["File"]):
                if fields.get("Architecture") in ("all", self.inputs.arch):
                    self.stanzas[fields["Package"]].setdefault(control.version_key(fields["Version"]), fields)

    def words(self, command, status=None):
        words = [self.program, command, "--arch", self.inputs.arch, "--status", str(status or self.inputs.path("status")),
                 "--sources", str(self.inputs.path("sources"))]
        pins = self.inputs.path("preferences")
        return words + (["--preferences", str(pins)] if pins.is_file() else [])

    def asked(self, words):
        """What the program answers to these words as lines, and as JSON."""
        both = []
        for more in ([], ["--format", "json"]):
            run = subprocess.run([*words, "--explain", *more], capture_output=True, check=False, cwd=self.inputs.folder)
            both.append(Answer(run.returncode, run.stdout, run.stderr))
        return both

    def solved(self, goals):
        return self.asked([*self.words("solve"), *(word for goal in goals for word in ("--goal", goal))])

    @functools.cached_property
    def universe(self):
        """The admitted versions of a request whose goals name none by `=`."""
        pairs = [pair for name in sorted(self.offered.versions) for pair in self.offered.admitted(name, (), False)]
        return reasons.Universe(pairs, (), self.offered.held, self.inputs.arch)


# Plans


def archive_faults(world, steps):
    """What of the archives of the steps isn't as the first stanza of that name and version has it."""
    for step in steps:
        if step["action"] == "unpack":
            fields = world.stanzas[step["name"]].get(control.version_key(step["version"]), {})
            wanted = {key: fields.get(field) for key, field in ARCHIVE.items()}
            wanted["size"] = wanted["size"] and int(wanted["size"])
            if {key: step[key] for key in ARCHIVE} != wanted:
                yield f"the archive of {step['name']} {step['version']} is another one"


def changes_by(world, steps):
    """What the steps change, as the lists of the sentences: of each heading its items, without the reason of a removal."""
    before, after = (Database(world.inputs.path("status")) for _ in range(2))
    offered = {(name, fields["Version"]): fields for name, versions in world.stanzas.items() for fields in versions.values()}
    lists = collections.defaultdict(list)
    for step in steps:
        after.take(documents.step_line(step).split(" "), offered)
    for name in sorted(before.records.keys() | after.records.keys()):
        old, new = before.version(name), after.version(name)
        if old and new and control.version_key(old) != control.version_key(new):
            heading = "Upgraded" if control.version_key(old) < control.version_key(new) else "Downgraded"
            lists[heading].append(f"{name} {old} -> {new}")
        elif new and not old:
            lists["New"].append(f"{name} {new}")
        elif old and not new:
            lists["Removed" if after.state(name) == "config-files" else "Purged"].append(f"{name} {old}")
        elif before.state(name) == "config-files" and after.state(name) == "not-installed":
            lists["Purged"].append(name)
    return lists


def plan_faults(world, found, sentences):
    """What of the members and the sentences of a plan isn't so."""
    yield from archive_faults(world, found["steps"])
    wanted = changes_by(world, found["steps"])
    told = {listed[1]: [item.partition(" (")[0] for item in changes.items_of(listed[2])]
            for listed in filter(None, map(changes.LIST.fullmatch, sentences))}
    for heading in ("New", "Upgraded", "Downgraded", "Removed", "Purged"):
        if told.get(heading, []) != wanted[heading]:
            yield f"{heading}: {told.get(heading)} is told, and {wanted[heading]} is so"


# Refutations


def list_faults(text, wanted):
    """What is wrong with a list of pairs: `a 1, b 2 or c 3`, of which those behind the fifth are counted alone."""
    text, _, rest = re.sub(r" or (\d+) others?$", r"|\1", text).partition("|")
    told = [tuple(item.split(" ")) for item in re.split(r", | or ", text)]
    known = {(name, control.version_key(version)) for name, version in wanted}
    if any((name, control.version_key(version)) not in known for name, version in told) or len(told) + int(rest or 0) != len(known):
        yield f"{text} is told, and {sorted(wanted)} is so"


def cause_faults(world, universe, cause):
    """What is wrong with why nothing that is admitted meets an atom."""
    name = None
    if missing := re.fullmatch(r"there is no package (\S+) in any index", cause):
        name = missing[1]
        if name in world.stanzas:
            yield f"{cause}: there is one"
    elif only := re.fullmatch(r"only (.*?) can be had(?:, and (.*) provides (\S+), without the version that is asked for)?", cause):
        name = only[1].split(" ")[0]
        yield from list_faults(only[1], {pair[:2] for pair in universe.by_name[name]})
    elif provided := re.fullmatch(r"only (.*) provides (\S+), without the version that is asked for", cause):
        yield from list_faults(provided[1], {pair[:2] for pair in universe.providers()[provided[2]]})
    elif ruled := re.match(rf"(?:\S+ is provided by )?{PAIR}(?:, which)? is not admitted: ", cause):
        key = control.version_key(ruled[2])
        if key not in world.stanzas[ruled[1]] or key in {control.version_key(pair.version) for pair in universe.by_name[ruled[1]]}:
            yield f"{cause}: it isn't so"
    elif not re.match(r"(\S+) (?:is held|is no package|has no candidate|is asked for of)|no index has", cause):
        yield f"{cause}: no such cause is known"


def rest_faults(world, universe, sentence, wanted):
    """What is wrong with who meets a relation or a goal, of which these pairs do."""
    parts = sentence.groupdict()
    if parts["causes"]:
        if wanted:
            yield f"none is told, and {sorted(wanted)} meet it"
        for cause in re.split(r", and (?!the candidate is|it is lower than)(?=there|only|no index|\S+ \S+ is|\S+ is)", parts["causes"]):
            yield from cause_faults(world, universe, cause)
    else:
        yield from list_faults(parts["one"] or parts["some"] or "", wanted)


def need_faults(world, universe, need):
    name, version, verb, clause = need.groups()[:4]
    fields = next((pair.fields for pair in universe.by_name[name] if pair.version == version), None)
    if fields is None:
        yield f"{name} {version} isn't admitted"
        return
    spelled = {control.written(atom._replace(qualifier=None) for atom in atoms): atoms for atoms in control.clauses_in(fields, FIELDS[verb])}
    if clause not in spelled:
        yield f"{name} {version} has no such clause: {clause}"
        return
    wanted = {pair for atom in spelled[clause] for pair in universe.matched(atom)}
    yield from rest_faults(world, universe, need, wanted)


def against_faults(universe, against):
    name, version, verb, other, its, _ = against.groups()
    pairs = [next((pair for pair in universe.by_name[it] if pair.version == at), None) for it, at in ((name, version), (other, its))]
    if None in pairs:
        yield f"{name} {version} or {other} {its} isn't admitted"
    elif not any(control.matches(pairs[1].fields, atom) for atoms in control.clauses_in(pairs[0].fields, FIELDS[verb]) for atom in atoms):
        yield f"{name} {version} has no such {FIELDS[verb]}"


def instead_faults(world, universe, instead):
    name, version, wanted = instead.groups()
    key, atom = control.version_key(version), control.clauses_of(wanted)[0][0]
    if key not in world.stanzas[name] or key in {control.version_key(pair.version) for pair in universe.by_name[name]}:
        yield f"{name} {version} is admitted, or in no index"
    elif atom.name != name or not control.meets(version, atom):
        yield f"{name} {version} wouldn't do for {wanted}"


def goal_faults(world, universe, goal):
    atom = control.clauses_of(goal[1])[0][0]
    wanted = {pair[:2] for pair in universe.by_name[atom.name] if control.meets(pair.version, atom)}
    yield from rest_faults(world, universe, goal, wanted)


def idle_faults(world, absent, present):
    """Whether a name that no package has is one of an index or of what is installed, or a name that some package has is none."""
    name = absent or present
    is_there = name in world.stanzas or Database(world.inputs.path("status")).version(name)
    return [f"{name} is{'' if is_there else ' no'} package"] if bool(is_there) == bool(absent) else []


def sentence_faults(world, universe, sentence):
    """What is wrong with a sentence of a refutation."""
    if need := NEED.fullmatch(sentence):
        return need_faults(world, universe, need)
    if against := AGAINST.fullmatch(sentence):
        return against_faults(universe, against)
    if instead := INSTEAD.fullmatch(sentence):
        return instead_faults(world, universe, instead)
    if goal := GOAL.fullmatch(sentence):
        return goal_faults(world, universe, goal)
    if idle := IDLE.fullmatch(sentence):
        return idle_faults(world, *idle.groups())
    return [] if PLAIN.fullmatch(sentence) or sentence.startswith(CLOSING) else ["no such sentence is known"]


def refutation_faults(world, universe, sentences):
    for sentence in sentences:
        yield from (f"{sentence}: {fault}" for fault in sentence_faults(world, universe, sentence))


# Answers


def told_faults(world, found, sentences):
    """What of the members and the sentences of an answer isn't so."""
    if found["answer"] == "plan":
        return list(plan_faults(world, found, sentences))
    return list(refutation_faults(world, world.universe, sentences))


def planted(found, sentences):
    """The members and the sentences with something changed: the archive of a step, the last item of a list, the version of a package."""
    for place, step in enumerate(found.get("steps", ())):
        if step["action"] == "unpack":
            other = copy.deepcopy(found)
            other["steps"][place]["sha256"] = "00"
            yield other, sentences
            break
    for place, sentence in enumerate(sentences):
        if changes.LIST.fullmatch(sentence) and sentence.startswith(("New", "Upgraded", "Downgraded", "Removed", "Purged")):
            less = ", ".join(changes.items_of(sentence.partition(": ")[2])[:-1])
            yield found, [*sentences[:place], f"{sentence.partition(': ')[0]}: {less}", *sentences[place + 1:]]
        elif NEED.fullmatch(sentence) or AGAINST.fullmatch(sentence):
            yield found, [*sentences[:place], re.sub(r"^(\S+ \S+)", r"\g<1>~", sentence), *sentences[place + 1:]]


def faults(world, plain, document):
    """What is wrong with the answer to a request, as lines and as JSON."""
    found = json.loads(document.out)
    sentences = plain.err.decode().splitlines()
    yield from documents.faults("solve", b"", plain, document)
    if found["reasons"] != sentences:
        yield "the reasons aren't the sentences"
    yield from told_faults(world, found, sentences)
    if any(not told_faults(world, *change) for change in planted(found, sentences)):
        yield "something changed in it isn't seen"


def requests_of(world, chance):
    """Requests in turn: an installation, a removal, all upgrades, and two packages of which one conflicts with the other."""
    names = sorted(world.stanzas)
    installed = sorted(world.offered.standing)
    rivals = [(fields["Package"], atom.name) for versions in world.stanzas.values() for fields in versions.values()
              for atoms in control.clauses_in(fields, "Conflicts") for atom in atoms if atom.name in world.stanzas and not atom.operator]
    while True:
        yield [f"install {chance.choice(names)}"]
        yield [f"{chance.choice(('remove', 'purge'))} {chance.choice(installed)}"]
        yield [f"install {name}" for name in chance.choice(rivals)]
        yield ["no-remove", f"install {chance.choice(names)}", f"remove {chance.choice(installed)}"]


# Refusals


def spoiled(chance, lines, wrong):
    """The lines with this one at a place behind the first, and the place, counted from 1."""
    place = chance.randrange(1, len(lines) + 1)
    return [*lines[:place], wrong, *lines[place:]], place + 1


def refused(world, chance, folder):
    """A text that is refused, as the words of a call, and the beginning of the line that has to be printed."""
    request = ["install dpkg", "upgrade-all", "no-remove"]
    kind, wrong, command = chance.choice([("request: E16 BadRequest", "instal dpkg", "solve"), ("request: E17 UnknownName", "install no-such-name", "solve"),
                                          ("plan: E18 BadPlan", "unpak dpkg 1", "check-plan"), ("refutation: E19 BadRefutation", "goal none", "check-refutation"),
                                          ("status: E2 BadLine", "no colon", "solve")])
    path = pathlib.Path(folder) / "text"
    texts = {"solve": request, "check-plan": ["plan 1", "configure dpkg"], "check-refutation": ["refutation 1", "goal 1"]}
    lines = world.inputs.path("status").read_bytes().decode("utf-8", "replace").splitlines() if kind.startswith("status") else texts[command]
    lines, place = spoiled(chance, lines, wrong)
    path.write_text("\n".join(lines) + "\n", encoding="utf-8")
    words = world.words(command, path if kind.startswith("status") else None)
    if command == "solve" and not kind.startswith("status"):
        return [*words, "--request", str(path)], f"debplan: {kind} {place}", wrong
    return [*words, "--goal", "install dpkg", *([str(path)] if command != "solve" else [])], f"debplan: {kind} {place}", wrong


def refusal_faults(plain, document, line, wrong):
    """What is wrong with a refusal, which has no document."""
    if document != plain or plain.out or plain.status != 3:
        yield "a refusal that isn't one"
    first, _, sentences = plain.err.decode().partition("\n")
    if first != line:
        yield f"{first} is printed, and it is {line}"
    told = LINE.search(sentences)
    if told and (told[1], told[2]) != (line.rpartition(" ")[2], wrong):
        yield f"told is line {told[1]}: {told[2]}"


def main():
    folder, program, *rest = sys.argv[1:]
    count = int(rest[0]) if rest else 100
    world, chance = World(folder, program), random.Random(1)
    met, wrong = collections.Counter(), 0
    for goals in requests_of(world, chance):
        plain, document = world.solved(goals)
        kind = ("plans", "refutations")[plain.status] if plain.status < 2 else "others"
        met[kind] += 1
        if met[kind] > count or kind == "others":
            if min(met["plans"], met["refutations"]) >= count:
                break
            continue
        told = list(faults(world, plain, document))
        wrong += bool(told)
        print(*(f"{', '.join(goals)}: {fault}" for fault in told), sep="\n", end="\n" if told else "", flush=True)
        if min(met["plans"], met["refutations"]) >= count:
            break
    with tempfile.TemporaryDirectory() as work:
        for _ in range(count):
            words, line, text = refused(world, chance, work)
            told = list(refusal_faults(*world.asked(words), line, text))
            wrong += bool(told)
            print(*(f"{line}: {fault}" for fault in told), sep="\n", end="\n" if told else "", flush=True)
    print(f"{min(met['plans'], count)} plans, {min(met['refutations'], count)} refutations and {count} refusals; {wrong} of them differ")
    return bool(wrong)


if __name__ == "__main__":
    sys.exit(main())
