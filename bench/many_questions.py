#!/usr/bin/python3
"""many_questions.py DIR PROGRAM [COUNT [MORE]]: COUNT (1,000) requests `install NAME`, of names of the indices that are drawn at random
but the same in each run, answered by one process of `PROGRAM batch`, and by libsolv in one process over one pool. DIR is what
tools/collect-inputs wrote on this machine.

A row has the time until the first answer, which is the reading; behind it the median time of an answer, the time that 95 of 100 take at
most, the longest one and all together; how many have a plan; and the peak memory. Times are those of a processor, of the process alone
(/proc/PID/schedstat), with all together by the clock behind them. debplan's times have its order, its judgement and its sentences, and
the reply written; libsolv's are of finding alone. Then MORE (10,000) questions are asked of one process, the same names over and over,
and its peak memory is shown behind 100 and behind all.
Exit status: 0, 1 where a process ends too early or the memory has grown by more than a twentieth, 64 for wrong words. It wants Debian's
package python3-solv."""

import json
import os
import random
import statistics
import subprocess
import sys
import tempfile
import time

FIRST = 100
GROWTH = 1.05


def names_in(folder, count):
    """Names of the indices."""
    names = set()
    with open(os.path.join(folder, "sources"), encoding="utf-8") as sources:
        paths = [line.split()[1] for line in sources if line.startswith("File:")]
    for path in paths:
        with open(os.path.join(folder, path), encoding="utf-8") as index:
            names.update(line.split()[1] for line in index if line.startswith("Package: "))
    return random.Random(1).sample(sorted(names), count)


def peak_of(process):
    """The peak memory of a process so far, in MiB."""
    with open(f"/proc/{process}/status", encoding="ascii") as status:
        return next(int(line.split()[1]) for line in status if line.startswith("VmHWM:")) / 1024


def seconds_of(process):
    """The seconds of a processor that a process has had."""
    with open(f"/proc/{process}/schedstat", encoding="ascii") as spent:
        return int(spent.read().split()[0]) / 1e9


class Batch:
    """One process of `debplan batch`."""

    def __init__(self, folder, program):
        words = [program, "batch", "--arch", "amd64", "--status", "status", "--sources", "sources"]
        self.process = subprocess.Popen(words, cwd=folder, stdin=subprocess.PIPE, stdout=subprocess.PIPE)
        self.number = self.process.pid

    def answer(self, name):
        """The answer to a request."""
        self.process.stdin.write(json.dumps({"id": name, "ask": "solve", "goals": [f"install {name}"]}).encode() + b"\n")
        self.process.stdin.flush()
        reply = self.process.stdout.readline()
        if not reply.endswith(b"\n"):
            sys.exit(f"many_questions.py: {name}: no answer")
        return json.loads(reply).get("answer", "refused")

    def close(self):
        self.process.stdin.close()
        self.process.wait()


class Pool:
    """libsolv over the same texts, in this process."""

    def __init__(self, folder):
        import solv
        self.solv, self.pool, self.number = solv, solv.Pool(), os.getpid()
        self.pool.setdisttype(solv.Pool.DISTTYPE_DEB)
        self.pool.setarch("amd64")
        with tempfile.TemporaryDirectory() as root:
            os.makedirs(os.path.join(root, "var/lib/dpkg"))
            os.symlink(os.path.join(folder, "status"), os.path.join(root, "var/lib/dpkg/status"))
            self.pool.set_rootdir(root)
            self.pool.installed = self.pool.add_repo("system")
            if not self.pool.installed.add_debdb():
                sys.exit("many_questions.py: the status file can't be read")
        with open(os.path.join(folder, "sources"), encoding="utf-8") as sources:
            paths = [line.split()[1] for line in sources if line.startswith("File:")]
        for path in paths:
            self.pool.add_repo(path).add_debpackages(solv.xfopen(os.path.join(folder, path)))
        self.pool.createwhatprovides()

    def answer(self, name):
        """The answer to a request."""
        jobs = self.pool.select(name, self.solv.Selection.SELECTION_NAME).jobs(self.solv.Job.SOLVER_INSTALL)
        solver = self.pool.Solver()
        solver.set_flag(self.solv.Solver.SOLVER_FLAG_ALLOW_UNINSTALL, 1)
        solver.set_flag(self.solv.Solver.SOLVER_FLAG_IGNORE_RECOMMENDED, 1)
        return "refuted" if solver.solve(jobs) else "plan"


def timed(asked, name):
    """The answer to a request, and the milliseconds of a processor that it took."""
    start = seconds_of(asked.number)
    answer = asked.answer(name)
    return answer, (seconds_of(asked.number) - start) * 1000


def row(subject, begun, asked, names):
    """Asks all, and prints the row. The first answer counts for the reading, and is asked for once more."""
    asked.answer(names[0])
    reading, start = seconds_of(asked.number) - begun, time.perf_counter()
    found = [timed(asked, name) for name in names]
    clock, times = time.perf_counter() - start, sorted(took for _, took in found)
    plans = sum(answer == "plan" for answer, _ in found)
    print(f"| {subject} | {reading:.2f} s | {statistics.median(times):.1f} ms | {times[int(len(times) * 0.95)]:.1f} ms | {times[-1]:.1f} ms "
          f"| {sum(times) / 1000:.1f} s, {clock:.1f} s | {plans} | {peak_of(asked.number):.0f} MiB |", flush=True)
    return [answer for answer, _ in found]


def main(words):
    if len(words) not in (2, 3, 4) or not all(word.isdecimal() for word in words[2:]):
        print(__doc__, file=sys.stderr)
        return 64
    folder, program = os.path.abspath(words[0]), os.path.abspath(words[1])
    count, more = (*map(int, words[2:]), *(1_000, 10_000)[len(words) - 2:])
    names = names_in(folder, count)
    print("| Subject | Reading | Median | 95 of 100 | Longest | All | Plans | Peak |\n|---|---|---|---|---|---|---|---|")
    batch = Batch(folder, program)
    ours = row("debplan batch", 0, batch, names)
    batch.close()
    begun = seconds_of(os.getpid())
    theirs = row("libsolv", begun, Pool(folder), names)
    print(f"{sum(one != other for one, other in zip(ours, theirs))} of {count} answered otherwise")
    batch, peaks = Batch(folder, program), []
    for number in range(more):
        batch.answer(names[number % len(names)])
        if number + 1 in (FIRST, more):
            peaks.append(peak_of(batch.process.pid))
    batch.close()
    print(f"peak memory behind {FIRST} questions {peaks[0]:.1f} MiB, behind {more} {peaks[-1]:.1f} MiB")
    return 1 if peaks[-1] > GROWTH * peaks[0] else 0


if __name__ == "__main__":
    sys.exit(main(sys.argv[1:]))
