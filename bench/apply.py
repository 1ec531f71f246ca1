#!/usr/bin/python3
"""apply.py PROGRAM [OPTION..] [GOAL..]: measures `debplan apply` of plans of 1,000 and of 2,000 steps, with the journal and the
output on a disk and in memory. The world is made, or with --data it is the real archive: what the goals need is installed, as
many packages of it as make the steps.

  --data DIR      a folder of inputs, as tools/collect-inputs writes it; GOAL is the name of a package to be installed
  --steps N,M     the sizes, 1000,2000 where they aren't given
  --rounds N      the times are medians of N runs, 5 where it isn't given
  --disk DIR      a folder on a disk, /var/tmp where it isn't given
  --memory DIR    a folder in memory, /dev/shm where it isn't given

It prints a row for each size and place: the time of `apply` and of `check-plan`, which reads and judges the same, the steps a
second by what `apply` takes longer, and the peak memory. Exit status: 0, 1 where the last size takes more than 2.5 times as
long as the first for twice the steps, or something fails, 2 for wrong words."""

import argparse
import os
import pathlib
import statistics
import sys
import tempfile

sys.dont_write_bytecode = True
from made_world import World  # noqa: E402
from processes import measured  # noqa: E402
from journal_bytes import journal_of  # noqa: E402

MOST = 2.5


class Subject:
    """A plan over inputs that is applied: the options that name these, and the number of its steps."""

    def __init__(self, program, folder, options):
        self.program, self.folder, self.options = os.path.abspath(program), pathlib.Path(folder), options
        self.steps = 0

    def words(self, command, *rest):
        request, plan = ["--request", str(self.folder / "request")], [] if command == "solve" else [str(self.folder / "plan")]
        return [self.program, command, "--arch", "amd64", *self.options, *request, *rest, *plan]

    def ask(self, names):
        """Has a request for these names solved, and keeps the plan."""
        (self.folder / "request").write_text("".join(f"install {name}\n" for name in names), encoding="utf-8")
        plan = measured(self.words("solve"))[2]
        (self.folder / "plan").write_text(plan, encoding="utf-8")
        self.steps = plan.count("\n") - 1
        return plan

    def judge(self):
        """The time of the judge."""
        time, _, said = measured(self.words("check-plan"))
        return time if said == "yes\n" else sys.exit(f"check-plan says {said}")

    def apply(self, place):
        """The time of `apply` in a new folder of the place, and its peak memory."""
        with tempfile.TemporaryDirectory(prefix="debplan-apply-", dir=place) as folder:
            journal, output = os.path.join(folder, "journal"), os.path.join(folder, "output")
            time, peak, said = measured(self.words("apply", "--journal", journal, "--output", output))
            taken = len(journal_of(pathlib.Path(journal).read_bytes()).payloads)
            if said != f"applied {self.steps}\n" or taken != self.steps:
                sys.exit(f"apply says {said.strip()}, and the journal has {taken} of {self.steps} steps")
        return time, peak


# Subjects


def made(options, folder, steps):
    """The made world of so many steps."""
    os.chdir(World(options.program, folder, steps // 2).folder)
    subject = Subject(options.program, folder, ["--status", "status", "--sources", "sources"])
    subject.steps = (pathlib.Path(folder) / "plan").read_text(encoding="utf-8").count("\n") - 1
    return subject


def real(options, folder, steps):
    """So many steps of what the goals need: the packages in the order in which a plan for all configures them, since the first
    of these need no later ones."""
    os.chdir(options.data)
    subject = Subject(options.program, folder, ["--status", "status", "--sources", "sources"])
    names = [name for line in subject.ask(options.goals).split("\n") if line.startswith("configure ") for name in line.split(" ")[1:]]
    count = steps // 2
    for _ in range(8):
        if count > len(names):
            sys.exit(f"what the goals need makes {2 * len(names)} steps, and {steps} are wanted: name more goals")
        subject.ask(names[:count])
        if abs(subject.steps - steps) <= 1:
            break
        count += (steps - subject.steps) // 2 or 1
    return subject


# Rows


def row(subject, name, place, rounds):
    """Measures a subject in a place, prints the row, and answers the time of `apply`."""
    judging = statistics.median(subject.judge() for _ in range(rounds))
    runs = [subject.apply(place) for _ in range(rounds)]
    time, peak = statistics.median(time for time, _ in runs), max(peak for _, peak in runs)
    rate = 1000 * subject.steps / max(time - judging, 1)
    spread = f"{min(time for time, _ in runs):.0f} to {max(time for time, _ in runs):.0f}"
    print(f"| {subject.steps:,} | {name} | {time:.0f} ms | {spread} ms | {judging:.0f} ms | {rate:,.0f} | {peak:.0f} MiB |", flush=True)
    return time


def main():
    parser = argparse.ArgumentParser(description=__doc__, formatter_class=argparse.RawDescriptionHelpFormatter)
    parser.add_argument("program", type=os.path.abspath)
    parser.add_argument("--data", type=os.path.abspath)
    parser.add_argument("--steps", type=lambda word: [int(number) for number in word.split(",")], default=[1000, 2000])
    parser.add_argument("--rounds", type=int, default=5)
    parser.add_argument("--disk", type=os.path.abspath, default="/var/tmp")
    parser.add_argument("--memory", type=os.path.abspath, default="/dev/shm")
    parser.add_argument("goals", nargs="*", metavar="GOAL")
    options = parser.parse_intermixed_args()
    if bool(options.data) != bool(options.goals):
        parser.error("--data and goals go together")
    print("| Steps | Place | apply | Least to most | check-plan | Steps a second | Peak |\n|---|---|---|---|---|---|---|")
    times = {}
    for steps in options.steps:
        with tempfile.TemporaryDirectory(prefix="debplan-apply-") as folder:
            subject = (real if options.data else made)(options, folder, steps)
            for name, place in (("disk", options.disk), ("memory", options.memory)):
                times.setdefault(name, []).append(row(subject, name, place, options.rounds))
            os.chdir("/")
    factors = {name: taken[-1] / taken[0] for name, taken in times.items()}
    most = MOST * options.steps[-1] / options.steps[0] / 2
    for name, factor in factors.items():
        print(f"{name}: {factor:.2f} times as long for {options.steps[-1] / options.steps[0]:g} times the steps")
    sys.exit(1 if max(factors.values()) > most else 0)


if __name__ == "__main__":
    main()
