"""What is answered to a scenario that apt sends a planner (EIPP 0.1)."""
import os
import subprocess
import sys

import debplan
from debplan import control, disk
from debplan.apt.simulation import Simulation
from debplan.machine.database import UNCONFIGURED
from debplan.machine.inputs import Inputs, ending, without_unmatched
from debplan.tool import Failure

PREFERENCES = "Package: *\nPin: release a=chosen\nPin-Priority: 1000\n"
APT = "/usr/lib/apt/planners/apt"
WORDS = {"Unpack": "Inst", "Configure": "Conf", "Remove": "Remv"}


class Scenario:
    """What apt sends: its request, the packages that are there and those that are chosen, and the id of each."""

    def __init__(self, data):
        first, _, rest = data.partition(b"\n\n")
        self.request = control.fields_of(first)
        self.arch = self.request["Architecture"]
        self.now, self.new, self.by_id = {}, {}, {}
        for stanza in filter(None, (it.strip(b"\n") for it in rest.split(b"\n\n"))):
            self.add(control.fields_of(stanza))
        if self.request.get("ReInstall"):
            raise Failure(f"{self.request['ReInstall'].split()[0]} is to be installed again, which is no step of debplan's plans")

    def add(self, fields):
        """Keeps a package: one with a state is there, and the others are chosen."""
        if fields["Architecture"] not in ("all", self.arch):
            if "Status" in fields:
                raise Failure(f"{fields['Package']} is installed for {fields['Architecture']}: debplan orders packages of one architecture")
            return
        self.by_id[fields["APT-ID"]] = fields
        (self.now if "Status" in fields else self.new)[fields["Package"]] = fields

    def names(self, field):
        return control.names_without(self.arch, self.request.get(field, ""))

    def write(self, folder):
        """Writes the inputs of debplan. The words of Status that aren't told are those of a sound package."""
        kept = ("Package", "Status", "Version", "Architecture", "Essential", *control.RELATIONS)
        stanzas = {"status": self.now, "chosen": self.new}
        for name, packages in stanzas.items():
            text = ""
            for fields in packages.values():
                told = {key: fields[key] for key in kept if key in fields}
                told.update({"Status": f"install ok {fields['Status']}"} if "Status" in fields else {})
                text += control.text_of(told)
            disk.write_text(folder / name, text)
        disk.write_text(folder / "sources", "File: chosen\nArchive: chosen\n")
        disk.write_text(folder / "preferences", PREFERENCES)
        goals = [f"upgrade {name}" for name in self.new] + [f"remove {name}" for name in self.names("Remove")]
        disk.write_text(folder / "request", "".join(f"{goal}\n" for goal in goals))
        return Inputs(folder, self.arch)

    def end(self):
        """The version of each package that is to be there at the end."""
        end = {name: fields["Version"] for name, fields in {**self.now, **self.new}.items()}
        for name in self.names("Remove"):
            end.pop(name, None)
        return end

    def offered(self):
        return {(name, fields["Version"]): fields for name, fields in self.new.items()}


# debplan orders


def stanza_of(word, fields):
    return f"{word}: {fields['APT-ID']}\nPackage: {fields['Package']}\nVersion: {fields['Version']}\n\n"


def answer_of(scenario, steps):
    """The steps of a plan as apt wants them. What is deconfigured dpkg deconfigures by itself; apt purges by itself."""
    text, at = [], dict(scenario.now)
    for step in steps:
        if isinstance(step, debplan.Unpack):
            at[step.name] = scenario.new[step.name]
            text.append(stanza_of("Unpack", at[step.name]))
        elif isinstance(step, debplan.Configure):
            text += [stanza_of("Configure", at[name]) for name in step.names]
        elif isinstance(step, debplan.Remove):
            text.append(stanza_of("Remove", at.pop(step.name)))
    if {name: fields["Version"] for name, fields in at.items()} != scenario.end():
        raise Failure("no order was found that changes only what was chosen")
    return "".join(text)


def ordered(scenario, inputs):
    """debplan's own order."""
    with inputs.resolver() as resolver, ending("no order was found: "):
        answer = resolver.solve(inputs.request())
    if isinstance(answer, debplan.Refutation):
        raise Failure("no order was found: these packages refuse each other")
    if isinstance(answer, debplan.Undecided):
        raise Failure("\n".join([f"no order was found: {answer.text.strip()}", *without_unmatched(answer.reasons)]))
    disk.write_text(inputs.path("plan"), answer.text)
    print(f"debplan: {len(answer.steps)} steps, judged", file=sys.stderr)
    return answer_of(scenario, answer.steps)


# debplan judges apt's order


def order_of_apt(data):
    """What apt's own planner answers."""
    planner = os.environ.get("PLANNER") or APT
    if not os.access(planner, os.X_OK):
        raise Failure(f"{planner} is missing: it is of the package apt-utils")
    run = subprocess.run([planner], input=data, stdout=subprocess.PIPE, check=False)
    if run.returncode:
        raise Failure(f"{planner} ended with the status {run.returncode}")
    return run.stdout


def actions_in(answer, scenario):
    """Yields the actions of an answer as those of a simulation, and then the removals that apt leaves to the end."""
    removed = set()
    for stanza in filter(None, (it.strip(b"\n") for it in answer.split(b"\n\n"))):
        fields = control.fields_of(stanza)
        for word, kind in WORDS.items():
            if word in fields:
                package = scenario.by_id[fields[word]]
                removed.update([package["Package"]] if kind == "Remv" else [])
                yield kind, package["Package"], package["Version"]
    for name in scenario.names("Remove"):
        if name in scenario.now and name not in removed:
            yield "Remv", name, None


def simulation_of(answer, scenario, inputs, forced):
    """The steps that an answer is. What it leaves unpacked apt has configured at the end."""
    simulation = Simulation(inputs, scenario.offered(), forced)
    for action in actions_in(answer, scenario):
        simulation.take(*action)
    simulation.configure()
    simulation.deconfigured += [name for name in simulation.database.records if name not in simulation.deconfigured
                                and simulation.database.state(name) in UNCONFIGURED]
    simulation.end()
    return simulation


def verdict_on(answer, scenario, inputs):
    """What debplan says of the plan that an answer is, and its steps. Where its fault is a removal that apt has dpkg force, that is said
    of the plan in which what needs the package is deconfigured before."""
    with inputs.resolver() as resolver, ending("the order of apt wasn't judged: "):
        for forced in (False, True):
            simulation = simulation_of(answer, scenario, inputs, forced)
            plan = "".join(f"{line}\n" for line in ["plan 1", *simulation.steps])
            disk.write_text(inputs.path("plan"), plan)
            verdict = resolver.check_plan(inputs.request(), plan)
            if verdict.place != "step" or verdict.rule.code != "F6" or not simulation.removals:
                break
    return verdict, simulation


def judged(answer, scenario, inputs):
    """The answer, if each step of it is legal."""
    verdict, simulation = verdict_on(answer, scenario, inputs)
    if not verdict:
        step = [simulation.steps[verdict.step - 1]] if verdict.step else []
        said = [f"the order of apt isn't legal: {verdict.text.strip()}", *step, *without_unmatched(verdict.reasons)]
        raise Failure("\n".join(said))
    forced = f", {len(simulation.removals)} removals forced (--force-depends)" if simulation.removals else ""
    print(f"debplan: {len(simulation.steps)} steps of apt judged: yes{forced}", file=sys.stderr)
    return answer.decode("utf-8", "surrogateescape")


def planned(data, folder, checks):
    """The answer to a scenario."""
    scenario = Scenario(data)
    inputs = scenario.write(folder)
    return judged(order_of_apt(data), scenario, inputs) if checks else ordered(scenario, inputs)
