#!/usr/bin/python3
"""solve.py DIR PROGRAM [OPTION..] GOAL..: solves requests by debplan and shows what comes out, a row of a table for each. A
GOAL is `install:NAME`, `remove:NAME`, `upgrade:NAME`, `upgrade-all`, `file:PATH`, which is a request of several goals, or
`random:COUNT`, which stands for as many names of the indices to be installed, drawn at random but the same in each run
(`gone:COUNT`: installed names to be removed). DIR is what tools/collect-inputs wrote on this machine, PROGRAM is debplan.
Each plan has to be judged `yes` by check-plan, and each refutation by check-refutation.

  --empty      nothing is installed
  --apt        beside it the packages that `apt-get -s` would change, without recommended ones; beside `file:PATH` those of
               its dist-upgrade
  --libsolv    beside it the time of libsolv from the same texts; wants Debian's package python3-solv
  --rounds N   times are medians and memory is the greatest of N runs, in which debplan, apt and libsolv take turns; apt
               then reads its lists in each run, and its time and memory are shown
  --same OTHER the program OTHER has to give the same answer, byte for byte
  --conflicts  beside it the least --limit, of 0, 1, 2, 3, 4, 6, 8, 16 and so on, doubled up to 65536, with which the request
               is decided: that many conflicts of the search, or hardly fewer
  --part K/N   every N-th goal alone, from the K-th on, so that N processes can share a sample

Exit status: 0, 1 where an answer isn't judged yes or isn't the same, or a request is undecided, 2 for wrong words."""

import argparse
import glob
import itertools
import os
import random
import re
import statistics
import subprocess
import sys
import tempfile
import time

HERE = os.path.dirname(os.path.abspath(__file__))
STATUS = re.compile(r"^Status: \S+ \S+ (\S+)$", re.MULTILINE)
INST = re.compile(r"^Inst (\S+) (\[\S+\] )?\(", re.MULTILINE)
REMV = re.compile(r"^(?:Remv|Purg) (\S+)", re.MULTILINE)
# The files in which apt keeps what it read of its lists, so that it reads them once.
CACHES = ("pkgcache", "srcpkgcache")
LIMITS = (0, 1, 2, 3, 4, 6, 8, *(2**power for power in range(4, 17)))


def run(command):
    """The exit status, what a process prints, its wall time in milliseconds, and its peak memory in MiB."""
    with tempfile.TemporaryFile() as out:
        start = time.perf_counter()
        process = subprocess.Popen(command, stdout=out, stderr=subprocess.STDOUT)
        _, status, usage = os.wait4(process.pid, 0)
        wall = (time.perf_counter() - start) * 1000
        out.seek(0)
        return os.waitstatus_to_exitcode(status), out.read().decode(), wall, usage.ru_maxrss / 1024


def installed_in(path):
    """The version of each name that is present in a status file."""
    found = {}
    with open(path, encoding="utf-8") as text:
        for stanza in text.read().split("\n\n"):
            state = STATUS.search(stanza)
            if state and state[1] not in ("not-installed", "config-files"):
                fields = dict(re.findall(r"^(Package|Version): (\S+)$", stanza, re.MULTILINE))
                found[fields["Package"]] = fields["Version"]
    return found


class Outcome:
    """What the steps of a plan change, and how many packages are unconfigured at a time."""

    def __init__(self, plan, start):
        end, open_names, self.most, self.deconfigured, self.steps = dict(start), set(), 0, 0, 0
        for line in plan.splitlines()[1:]:
            action, *words = line.split()
            self.steps += 1
            if action == "unpack":
                end[words[0]] = words[1]
                open_names.add(words[0])
            elif action == "configure":
                open_names.difference_update(words)
            elif action == "deconfigure":
                self.deconfigured += 1
                open_names.add(words[0])
            elif action == "remove":
                end.pop(words[0], None)
                open_names.discard(words[0])
            self.most = max(self.most, len(open_names))
        self.new = len(end.keys() - start.keys())
        self.removed = len(start.keys() - end.keys())
        self.upgraded = sum(1 for name in end.keys() & start.keys() if end[name] != start[name])


def lines_of(goal):
    """The request for a goal."""
    kind, _, path = goal.partition(":")
    if kind != "file":
        return goal.replace(":", " ") + "\n"
    with open(path, encoding="utf-8") as text:
        return text.read()


def time_and_peak(wall, peak):
    return f"{wall:,.0f} ms, {peak:.0f} MiB"


class Bench:
    def __init__(self, options):
        self.folder, self.program = os.path.abspath(options.folder), os.path.abspath(options.program)
        self.options = options
        self.room = tempfile.mkdtemp()
        self.status = os.path.join(self.room, "status") if options.empty else os.path.join(self.folder, "status")
        if options.empty:
            open(self.status, "w", encoding="utf-8").close()
        self.start = installed_in(self.status)
        self.faults = 0

    def judged(self, answer, inputs, text):
        """Whether the judge says yes to a plan or a refutation."""
        path = os.path.join(self.room, "answer")
        with open(path, "w", encoding="utf-8") as file:
            file.write(text)
        _, said, _, _ = run([self.program, answer, *inputs, path])
        return said.strip()

    def apt_command(self, goal):
        kind, _, name = goal.partition(":")
        words = {"install": ["install", name], "remove": ["remove", name], "upgrade": ["install", "--only-upgrade", name]}
        caches = {cache: "" if self.options.rounds > 1 else os.path.join(self.room, cache) for cache in CACHES}
        settings = [f"Dir::State::status={self.status}", *(f"Dir::Cache::{cache}={path}" for cache, path in caches.items())]
        command = ["apt-get", "-s", "--no-install-recommends", *(word for setting in settings for word in ("-o", setting))]
        return [*command, *words.get(kind, ["dist-upgrade"])]

    def apt_cell(self, code, said, wall, peak):
        """What apt would change: packages new, upgraded and removed, or that it refuses."""
        new = sum(1 for _, old in INST.findall(said) if not old)
        upgraded = sum(1 for _, old in INST.findall(said) if old)
        changes = "refuses" if code else f"{new}/{upgraded}/{len(REMV.findall(said))}"
        return f"{changes}, {time_and_peak(wall, peak)}" if self.options.rounds > 1 else changes

    def libsolv_cell(self, code, said, wall, peak):
        return ("refuses, " if code else "") + time_and_peak(wall, peak)

    def by_turns(self, commands):
        """Runs each command once a round: of each the exit status, what the last run prints, the median time, and the peak."""
        rounds = [[run(command) for command in commands] for _ in range(self.options.rounds)]
        for runs in zip(*rounds):
            codes, texts, walls, peaks = zip(*runs)
            yield codes[-1], texts[-1], statistics.median(walls), max(peaks)

    def conflicts(self, inputs):
        """The least of the limits with which the request is decided."""
        for limit in LIMITS:
            _, said, _, _ = run([self.program, "solve", *inputs, "--limit", f"{limit}"])
            if not said.startswith("undecided limit"):
                return f"{limit}"
        return f"more than {LIMITS[-1]}"

    def row(self, goal):
        request = os.path.join(self.room, "request")
        with open(request, "w", encoding="utf-8") as text:
            text.write(lines_of(goal))
        sources = os.path.join(self.folder, "sources")
        inputs = ["--arch", "amd64", "--status", self.status, "--sources", sources, "--request", request]
        others = [(self.apt_command(goal), self.apt_cell)] if self.options.apt else []
        if self.options.libsolv:
            script = os.path.join(HERE, "libsolv_request.py")
            others += [(["/usr/bin/python3", script, self.folder, "--request", request], self.libsolv_cell)]
        commands = [[self.program, "solve", *inputs], *(command for command, _ in others)]
        (code, said, wall, peak), *beside = self.by_turns(commands)
        cells = [f"`{goal if goal.startswith('file:') else lines_of(goal).strip()}`"]
        if code == 0:
            judged, outcome = self.judged("check-plan", inputs, said), Outcome(said, self.start)
            cells += ["plan", f"{outcome.new}/{outcome.upgraded}/{outcome.removed}", f"{outcome.steps}"]
            cells += [f"{outcome.deconfigured}", f"{outcome.most}"]
        elif code == 1:
            judged = self.judged("check-refutation", inputs, said)
            cells += ["refuted", "", f"{len(said.splitlines()) - 1} lines", "", ""]
        else:
            judged = "undecided"
            cells += [said.strip(), "", "", "", ""]
        if self.options.same and run([self.options.same, "solve", *inputs])[:2] != (code, said):
            judged += ", not the same"
        if judged != "yes":
            self.faults += 1
            cells[1] += f" ({judged})"
        cells += [f"{wall:.0f} ms", f"{peak:.0f} MiB", *(cell(*ran) for (_, cell), ran in zip(others, beside))]
        cells += [self.conflicts(inputs)] if self.options.conflicts else []
        print("| " + " | ".join(cells) + " |", flush=True)


def goals_of(words, folder, start):
    """The goals, with those drawn at random put in."""
    names = set()
    if any(word.startswith("random:") for word in words):
        for path in sorted(glob.glob(os.path.join(folder, "index-*"))):
            with open(path, encoding="utf-8") as text:
                names.update(line[9:].strip() for line in text if line.startswith("Package: "))
    for word in words:
        kind, _, count = word.partition(":")
        if kind == "random":
            yield from (f"install:{name}" for name in random.Random(1).sample(sorted(names), int(count)))
        elif kind == "gone":
            yield from (f"remove:{name}" for name in random.Random(1).sample(sorted(start), int(count)))
        else:
            yield word


def part_of(goals, part):
    """Every N-th of the goals from the K-th on, where the part is K/N."""
    first, step = (int(word) for word in part.split("/"))
    return itertools.islice(goals, first - 1, None, step)


def main():
    parser = argparse.ArgumentParser(description=__doc__, formatter_class=argparse.RawDescriptionHelpFormatter)
    parser.add_argument("folder")
    parser.add_argument("program")
    parser.add_argument("--empty", action="store_true")
    parser.add_argument("--apt", action="store_true")
    parser.add_argument("--libsolv", action="store_true")
    parser.add_argument("--conflicts", action="store_true")
    parser.add_argument("--part", default="1/1")
    parser.add_argument("--rounds", type=int, default=1)
    parser.add_argument("--same", type=os.path.abspath)
    parser.add_argument("goals", nargs="+")
    options = parser.parse_args()
    bench = Bench(options)
    columns = ["Request", "Answer", "New, upgraded, removed", "Steps", "Deconfigured", "At a time", "Time", "Peak"]
    columns += ["apt"] if options.apt else []
    columns += ["libsolv"] if options.libsolv else []
    columns += ["Conflicts"] if options.conflicts else []
    print("| " + " | ".join(columns) + " |\n|" + "---|" * len(columns))
    for goal in part_of(goals_of(options.goals, bench.folder, bench.start), options.part):
        bench.row(goal)
    sys.exit(1 if bench.faults else 0)


if __name__ == "__main__":
    main()
