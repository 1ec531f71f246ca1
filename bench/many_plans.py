#!/usr/bin/python3
"""many_plans.py DIR PROGRAM [COUNT]: judges plans that install COUNT packages (150), drawn at random but the same in each
run, each alone. DIR is what tools/collect-inputs wrote on this machine, PROGRAM is debplan. What is unpacked says
`apt-get -s`, and gnome_plan.py makes the order. Each plan has to be judged `yes`, and the same plan with one step left
out `no`. It prints what isn't so and the counts, and exits with 1 where there is such a plan. It wants Debian's package
python3-apt."""

import glob
import os
import random
import re
import subprocess
import sys
import tempfile
from collections import Counter
from concurrent.futures import ThreadPoolExecutor

import apt_pkg

from gnome_plan import INST, Machine, Package, is_there, stanzas_in, steps_of
from processes import simulation


def steps_for(folder, name, packages, installed):
    """The steps that install the package, or why there are none."""
    run = subprocess.run(simulation(folder, name), env={**os.environ, "LC_ALL": "C"}, capture_output=True, text=True)
    if run.returncode:
        return None, "apt refuses"
    if re.search("^Remv ", run.stdout, re.MULTILINE):
        return None, "apt removes packages"
    versions = dict(INST.match(line).groups() for line in run.stdout.splitlines() if line.startswith("Inst "))
    wanted = {name: Package(packages[name, version]) for name, version in versions.items()}
    steps = list(steps_of(Machine(Package(fields) for fields in installed), wanted))
    return (steps, "planned") if steps else (None, "installed already")


def main():
    folder, program = os.path.abspath(sys.argv[1]), os.path.abspath(sys.argv[2])
    count = int(sys.argv[3]) if len(sys.argv) > 3 else 150
    apt_pkg.init_system()
    random.seed(count)
    packages = {}
    for path in sorted(glob.glob(os.path.join(folder, "index-*.Packages"))):
        for fields in stanzas_in(path, lambda fields: True):
            packages.setdefault((fields["Package"], fields["Version"]), fields)
    status, sources = os.path.join(folder, "status"), os.path.join(folder, "sources")
    installed = list(stanzas_in(status, is_there))
    inputs = ["--arch", "amd64", "--status", status, "--sources", sources]
    counts = Counter()

    def judged(name, steps):
        with tempfile.TemporaryDirectory() as room:
            request, plan = os.path.join(room, "request"), os.path.join(room, "plan")
            with open(request, "w", encoding="utf-8") as text:
                text.write(f"install {name}\n")
            with open(plan, "w", encoding="utf-8") as text:
                text.write("".join(f"{line}\n" for line in ["plan 1", *steps]))
            command = [program, "check-plan", *inputs, "--request", request, plan]
            run = subprocess.run(command, capture_output=True, text=True)
            return run.stdout.strip() or run.stderr.strip()

    def answers(name):
        steps, why = steps_for(folder, name, packages, installed)
        if steps is None:
            return name, why, None, None
        gone = random.Random(name).randrange(len(steps))
        return name, why, judged(name, steps), judged(name, steps[:gone] + steps[gone + 1 :])

    names = random.sample(sorted({name for name, _ in packages}), count)
    with ThreadPoolExecutor(os.cpu_count()) as pool:
        for name, why, whole, shortened in pool.map(answers, names):
            counts[why] += 1
            if why == "planned" and (whole != "yes" or not shortened.startswith("no ")):
                counts["judged otherwise"] += 1
                print(f"{name}: {whole}; with a step left out: {shortened}")
    print(", ".join(f"{number} {why}" for why, number in sorted(counts.items())))
    sys.exit(1 if counts["judged otherwise"] or not counts["planned"] else 0)


main()
