#!/usr/bin/python3
"""recommends.py DIR PROGRAM NAME..: installs with what is recommended, as `tools/ask --recommends` asks for it, beside those of
`apt-get -s`, a row of a table for each NAME, of which `random:COUNT` stands for as many names of the indices that aren't installed,
drawn at random but the same in each run. DIR is what tools/collect-inputs wrote on this machine, PROGRAM is debplan.

A row has the packages that are new, upgraded and removed, those of apt, how many of both are the same in name and version, the names
that are changed by one of the two alone, the seconds of a processor with the reading, and how many Recommends came and were left out. Each plan has to be judged `yes` for its request, and the last line counts the rows.
Exit status: 0, 1 where a plan isn't judged yes, 2 for wrong words."""
import os
import pathlib
import random
import re
import resource
import subprocess
import sys
import tempfile

HERE = pathlib.Path(__file__).resolve().parent
sys.path.insert(0, str(HERE.parent / "python"))
import debplan
from debplan import tool
from debplan.machine import recommending
from debplan.machine.database import Database
from debplan.machine.inputs import Inputs

INST = re.compile(r"^Inst (\S+?)(?::\S+)? (?:\[\S+\] )?\((\S+) ", re.MULTILINE)
REMV = re.compile(r"^(?:Remv|Purg) (\S+?)(?::\S+)? ", re.MULTILINE)
SHOWN = 12


def seconds():
    """The seconds of a processor that this process and those that it has waited for took."""
    used = [resource.getrusage(who) for who in (resource.RUSAGE_SELF, resource.RUSAGE_CHILDREN)]
    return sum(it.ru_utime + it.ru_stime for it in used)


class Bench:
    def __init__(self, folder, room):
        self.inputs, self.room = Inputs(folder), room
        self.before = Database(self.inputs.path("status"))
        self.faults, self.same, self.rows = 0, 0, 0

    def of_apt(self, name):
        """What apt changes, as names with their new version, or None of those that are removed; nothing where it refuses."""
        settings = {"Dir::State::status": self.inputs.path("status"), "Dir::Cache::pkgcache": f"{self.room}/pkgcache",
                    "Dir::Cache::srcpkgcache": f"{self.room}/srcpkgcache", "APT::Install-Recommends": "true"}
        words = [word for key, value in settings.items() for word in ("-o", f"{key}={value}")]
        run = tool.run_of(["apt-get", "-s", *words, "install", name])
        return None if run.returncode else {**dict(INST.findall(run.stdout)), **dict.fromkeys(REMV.findall(run.stdout))}

    def of_debplan(self, name):
        """The plan with what is recommended, and what it changes; nothing where the request is refuted."""
        with self.inputs.resolver() as resolver:
            plan = resolver.solve(f"install {name}", recommends=True)
        if not isinstance(plan, debplan.Plan):
            return None, None
        changed = {step.name: step.version for step in plan.steps if isinstance(step, debplan.Unpack)}
        removed = (step.name for step in plan.steps if isinstance(step, (debplan.Remove, debplan.Purge)))
        return plan, {**dict.fromkeys(it for it in removed if self.before.version(it)), **changed}

    def is_judged(self, plan):
        with self.inputs.resolver() as resolver:
            return resolver.check_plan(plan.request, plan).is_good

    def counts(self, changed):
        """New, upgraded and removed packages."""
        if changed is None:
            return "refused"
        new = sum(bool(version) and not self.before.version(name) for name, version in changed.items())
        removed = sum(version is None for version in changed.values())
        return f"{new}/{len(changed) - new - removed}/{removed}"

    def row(self, name):
        began = seconds()
        found, ours = self.of_debplan(name)
        took, theirs = seconds() - began, self.of_apt(name)
        if found and not self.is_judged(found):
            self.faults += 1
        both = (ours or {}).items() & (theirs or {}).items()
        alone = [listed(sorted(it[0] for it in (one or {}).items() - both)) for one in (ours, theirs)]
        self.rows, self.same = self.rows + 1, self.same + (ours == theirs)
        told = recommending.members_of(found) if found else {"came": [], "left_out": []}
        cells = [f"`install {name}`", self.counts(ours), self.counts(theirs), f"{len(both)}", *alone, f"{took:.1f} s",
                 f"{len(told['came'])}, {len(told['left_out'])}"]
        print("| " + " | ".join(cells) + " |", flush=True)
        for line in recommending.lines_on({**told, "came": []}):
            print(f"    {line}", flush=True)


def listed(names):
    return " ".join(names[:SHOWN]) + (f" and {len(names) - SHOWN} more" if len(names) > SHOWN else "")


def names_of(words, bench):
    """The names, with those drawn at random put in."""
    for word in words:
        kind, _, count = word.partition(":")
        if kind == "random":
            names = {fields["Package"] for fields in bench.inputs.of_index()}
            yield from random.Random(1).sample(sorted(name for name in names if not bench.before.version(name)), int(count))
        else:
            yield word


def main(words):
    if len(words) < 3:
        print(__doc__, file=sys.stderr)
        return 2
    folder, os.environ["DEBPLAN"], *names = words
    with tempfile.TemporaryDirectory() as room:
        bench = Bench(folder, room)
        print("| Request | Changes | apt's | The same | debplan's alone | apt's alone | Time | Came, left out |")
        print("|---|---|---|---|---|---|---|---|")
        for name in names_of(names, bench):
            bench.row(name)
    print(f"{bench.rows} rows, {bench.same} as apt, {bench.faults} plans not judged yes")
    return 1 if bench.faults else 0


if __name__ == "__main__":
    sys.exit(main(sys.argv[1:]))
