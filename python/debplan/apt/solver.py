"""What is answered to a scenario that apt sends a solver (EDSP 0.5)."""
import collections
import os
import re
import sys
import time

import debplan
from debplan import control, disk, tool
from debplan.control import clauses_of, version_key
from debplan.machine.inputs import UNMATCHED, program_path
from debplan.tool import Failure

PREFERENCES = "Package: *\nPin: release a=candidate\nPin-Priority: 1000\n"


# The scenario


def value_in(stanza, field):
    """The value of a field of a stanza, without reading the others; the value of the first line, or nothing."""
    at = stanza.find(b"\n" + field + b": ")
    if at < 0:
        return stanza[len(field) + 2:].partition(b"\n")[0] if stanza.startswith(field + b": ") else b""
    return stanza[at + len(field) + 3:].partition(b"\n")[0]


class Offer:
    """A version that apt knows, as the bytes of its stanza. What isn't always asked for is read when it is."""

    def __init__(self, stanza):
        self.stanza, self.parsed = stanza, None
        self.name = value_in(stanza, b"Package").decode("ascii", "surrogateescape")
        self.version = value_in(stanza, b"Version").decode("ascii", "surrogateescape")

    def fields(self):
        if self.parsed is None:
            self.parsed = control.fields_of(self.stanza)
        return self.parsed

    def is_held(self):
        return b"\nHold: yes" in self.stanza

    def with_status(self, held):
        """The stanza as one of a status file."""
        first, _, rest = self.stanza.partition(b"\n")
        return first + b"\nStatus: " + (b"hold" if held else b"install") + b" ok installed\n" + rest.rstrip(b"\n") + b"\n\n"


class Scenario:
    """What apt sends: its request, what is installed, and the candidates."""

    def __init__(self, data):
        if b"\nPreDepends:" in data or b"\nPredepends:" in data:
            raise Failure("this version of apt doesn't write Pre-Depends as it is called: nothing can be said of its scenario")
        first, _, rest = data.partition(b"\n\n")
        self.request = control.fields_of(first)
        self.arch = self.request["Architecture"]
        self.installed, self.candidates = {}, {}
        for stanza in rest.split(b"\n\n"):
            is_candidate, is_installed = b"\nAPT-Candidate: yes" in stanza, b"\nInstalled: yes" in stanza
            if is_candidate or is_installed:
                self.add(Offer(stanza.lstrip(b"\n")), is_candidate, is_installed)

    def add(self, offer, is_candidate, is_installed):
        """Keeps a version. One of another architecture can't be chosen, and can't be installed."""
        of = value_in(offer.stanza, b"Architecture").decode("ascii")
        if of not in ("all", self.arch):
            if is_installed:
                raise Failure(f"{offer.name} is installed for {of}: debplan chooses packages of one architecture")
            return
        if is_installed:
            self.installed[offer.name] = offer
        if is_candidate:
            self.candidates[offer.name] = offer

    def says(self, *fields):
        return any(self.request.get(field) == "yes" for field in fields)

    def names(self, field):
        return control.names_without(self.arch, self.request.get(field, ""))

    def lowered(self):
        """The names whose candidate apt has set to an older version than the installed one."""
        return [name for name, offer in self.candidates.items() if name in self.installed and offer is not self.installed[name]
                and int(value_in(offer.stanza, b"APT-Pin") or 0) < 1000
                and version_key(offer.version) < version_key(self.installed[name].version)]


# The request


class Question:
    """What is asked of debplan: goals that have to be met, and goals that are kept back where a refutation names them."""

    def __init__(self, scenario):
        self.scenario = scenario
        install, self.removed = scenario.names("Install"), scenario.names("Remove")
        self.asked = {*install, *self.removed}
        lowered = [name for name in scenario.lowered() if name not in self.asked]
        self.fixed = [f"upgrade {name}" for name in install + lowered] + [f"remove {name}" for name in self.removed]
        self.all = scenario.says("Upgrade-All", "Upgrade", "Dist-Upgrade")
        only_upgrade = scenario.says("Upgrade") and "Upgrade-All" not in scenario.request
        self.no_new = scenario.says("Forbid-New-Install") or only_upgrade
        self.keeps_all = scenario.says("Forbid-Remove") or only_upgrade
        self.no_remove = self.keeps_all or not self.removed and not self.all
        self.soft = [f"upgrade {name}" for name in self.upgradable()] if self.all else []
        self.kept_back = []

    def upgradable(self):
        """The names that aren't held and have another candidate than what is installed."""
        return [name for name, offer in sorted(self.scenario.installed.items()) if name not in self.asked and not offer.is_held()
                and self.scenario.candidates.get(name, offer) is not offer]

    def is_held(self, name):
        return name not in self.asked and self.scenario.installed[name].is_held()

    def offered(self):
        """The candidates that can be chosen and aren't installed."""
        installed = self.scenario.installed
        return [offer for name, offer in self.scenario.candidates.items() if offer is not installed.get(name)
                and (name in installed or not self.no_new)]

    def text(self):
        """The request. A line that isn't a name of a package of the scenario would be refused, so such a goal is left to fail."""
        return "".join(f"{line}\n" for line in [*self.fixed, *self.soft, *(["no-remove"] if self.no_remove else [])])

    def yields(self, premises):
        """Gives up what a refutation names, as little as can be, and says whether there was anything."""
        named = [it.goal for it in premises if it.kind == "goal"]
        soft = [number for number in named if len(self.fixed) < number <= len(self.fixed) + len(self.soft)]
        if soft:
            self.kept_back.append(self.soft.pop(soft[-1] - len(self.fixed) - 1))
            return True
        if self.no_remove and not self.keeps_all and any(it.kind == "keep" for it in premises):
            self.no_remove = False
            return True
        return False


# Recommends


class Selection:
    """What is installed at the end of a plan."""

    def __init__(self, scenario, steps):
        self.scenario, self.chosen = scenario, dict(scenario.installed)
        for step in steps:
            if step[0] == "unpack":
                self.chosen[step[1]] = scenario.candidates[step[1]]
            elif step[0] == "remove":
                self.chosen.pop(step[1], None)
        self.having = collections.defaultdict(list)
        for offer in self.chosen.values():
            self.having[offer.name].append(offer)
            if b"\nProvides: " in offer.stanza:
                for atom in control.provided_by(offer.fields()):
                    self.having[atom.name].append(offer)

    def has(self, atom):
        return any(control.matches(offer.fields(), atom, self.scenario.arch) for offer in self.having[atom.name])

    def wanted(self):
        """The names that new packages recommend and that aren't there: the first of each clause that is a candidate."""
        found = []
        for name, offer in sorted(self.chosen.items()):
            if name not in self.scenario.installed:
                for clause in clauses_of(offer.fields().get("Recommends", "")):
                    if not any(self.has(atom) for atom in clause):
                        found += self.first_of(clause)
        return list(dict.fromkeys(found))

    def first_of(self, clause):
        for atom in clause:
            offer = self.scenario.candidates.get(atom.name)
            if offer and atom.name not in self.scenario.installed and control.matches(offer.fields(), atom, self.scenario.arch):
                return [atom.name]
        return []


class Recommends:
    """Whether Recommends are asked for, and by whose setting."""

    def __init__(self, question):
        said = os.environ.get("DEBPLAN_RECOMMENDS")
        self.by = "DEBPLAN_RECOMMENDS" if said in ("yes", "no") else "apt's setting APT::Install-Recommends"
        is_set = said == "yes" if said in ("yes", "no") else \
            tool.said_by(["apt-config", "shell", "it", "APT::Install-Recommends/b"]).strip() != "it='false'"
        self.is_upgrade = question.all or question.no_new
        self.count = is_set and not self.is_upgrade

    def line(self):
        """The line that says so."""
        if self.is_upgrade:
            return "Recommends aren't asked for, since this is an upgrade"
        if not self.count:
            return f"Recommends aren't asked for, by {self.by}"
        return f"Recommends are asked for, by {self.by}; the command line of apt isn't seen here: DEBPLAN_RECOMMENDS=no turns them off"


# Asking


def write_inputs(folder, question):
    """Writes what doesn't change from one round to the next."""
    scenario = question.scenario
    with open(folder / "status", "wb") as status:
        for name, offer in scenario.installed.items():
            status.write(offer.with_status(question.is_held(name)))
    with open(folder / "candidates", "wb") as index:
        for offer in question.offered():
            index.write(offer.stanza.rstrip(b"\n") + b"\n\n")
    disk.write_text(folder / "sources", "File: candidates\nArchive: candidate\n")
    disk.write_text(folder / "preferences", PREFERENCES)


def premises_of(refutation):
    """The premises that a refutation stands on, by the hints of its lines, in their order."""
    lines, left = {}, [len(refutation.lines)]
    while left:
        line = refutation.lines[left.pop() - 1]
        if line.line not in lines:
            lines[line.line] = line
            left += line.hints if isinstance(line, debplan.Derived) else ()
    return [line for _, line in sorted(lines.items()) if isinstance(line, debplan.Premise)]


def progress(percent, text):
    sys.stdout.write(f"Progress: now\nPercentage: {percent}\nMessage: {text}\n\n")
    sys.stdout.flush()


def sentences_on(answer):
    """The sentences of the program on an answer, a line each, without those on an input that changes none."""
    return UNMATCHED.sub("", "".join(f"{it}\n" for it in answer.reasons))


class Asking:
    """The rounds of a question, each of which gives up what the refutation before it named."""

    def __init__(self, question, folder):
        self.question, self.folder = question, folder
        self.ends_at = time.monotonic() + int(os.environ.get("DEBPLAN_SECONDS") or 120)
        self.rounds, self.recommends = 0, Recommends(question)

    def plan(self):
        """A plan for what is left of the question."""
        try:
            with debplan.Resolver.of_folder(self.folder, arch=self.question.scenario.arch, program=program_path()) as resolver:
                return self.plan_by(resolver)
        except debplan.Refused as refused:
            raise Failure("\n".join([f"debplan: {refused}", *refused.reasons])) from None
        except debplan.Failed as failed:
            raise Failure(str(failed)) from None

    def plan_by(self, resolver):
        """The same, where the program gives its answers."""
        while True:
            answer = self.ask(resolver)
            if isinstance(answer, debplan.Plan):
                steps = [str(step).split(" ") for step in answer.steps]
                if not self.add_recommended(steps):
                    return steps
            elif isinstance(answer, debplan.Undecided):
                raise Failure(f"debplan is undecided: {answer.why}\n{sentences_on(answer)}".strip())
            elif not self.question.yields(premises_of(answer)):
                raise Failure(self.told(answer))

    def ask(self, resolver):
        if time.monotonic() > self.ends_at:
            raise Failure("debplan was stopped: the time is over (DEBPLAN_SECONDS)")
        self.rounds += 1
        progress(min(90, 20 + 2 * self.rounds), f"debplan, round {self.rounds}")
        disk.write_text(self.folder / "request", self.question.text())
        return resolver.solve(self.question.text())

    def add_recommended(self, steps):
        """Asks for what new packages recommend, and says whether there was anything."""
        if not self.recommends.count:
            return False
        known = {*self.question.soft, *self.question.kept_back, *(f"upgrade {name}" for name in self.question.removed)}
        wanted = Selection(self.question.scenario, steps).wanted()
        more = [goal for goal in (f"upgrade {name}" for name in wanted) if goal not in known]
        self.question.soft += more
        return bool(more)

    def told(self, answer):
        """The reasons, a line for each premise behind a short first one."""
        sentences = self.explained(sentences_on(answer)) or answer.text.splitlines()
        return f"no choice among the candidates fulfils this (debplan, proof on {len(sentences)} facts):\n" + "\n".join(sentences)

    def explained(self, said):
        """The sentences of the program on the premises. What apt wants to install it is asked for as an upgrade, to the candidate, and
        its index has the candidates alone."""
        for name in self.question.scenario.names("Install"):
            said = re.sub(rf"^You ask to upgrade {re.escape(name)}(?=[ ,.])", f"You ask for {name}", said, flags=re.MULTILINE)
        said = re.sub(r"there is no package (\S+) in any index", r"no candidate of apt is or provides \1", said)
        return [line for line in said.splitlines() if not line.startswith("This is about the admitted versions")]


# The answer


def answer_of(scenario, steps):
    """What apt is to change. A name that is installed in the same version at the end isn't told."""
    end, text = Selection(scenario, steps).chosen, []
    for name, offer in sorted(end.items()):
        if offer is not scenario.installed.get(name):
            text.append(f"Install: {value_in(offer.stanza, b'APT-ID').decode()}\nPackage: {name}\nVersion: {offer.version}\n\n")
    for name, offer in sorted(scenario.installed.items()):
        if name not in end:
            text.append(f"Remove: {value_in(offer.stanza, b'APT-ID').decode()}\nPackage: {name}\nVersion: {offer.version}\n\n")
    return "".join(text)


def unknown_in(question):
    """The names that are asked for and can't be had."""
    scenario = question.scenario
    return [name for name in scenario.names("Install") if name not in scenario.candidates]


def solved(data, folder):
    """The answer to a scenario."""
    scenario = Scenario(data)
    question = Question(scenario)
    unknown = unknown_in(question)
    if unknown:
        raise Failure(f"{unknown[0]} has no candidate")
    write_inputs(folder, question)
    asking = Asking(question, folder)
    print(f"debplan: {asking.recommends.line()}", file=sys.stderr)
    steps = asking.plan()
    print(f"debplan: {asking.rounds} rounds, kept back: {len(question.kept_back)}", file=sys.stderr)
    return answer_of(scenario, steps)
