#!/usr/bin/python3
"""stops.py PROGRAM [OPTION..] [PART..]: stops `debplan apply` at many moments and in many ways, and sees what is left: the
journal shows steps of the plan from the first on, none is skipped, none that was acknowledged is lost, the output is as it was
or whole, and a run that isn't stopped then ends with the output that a run without a stop has. The parts, all where none is named:

  kills    a world of a thousand packages, and SIGKILL at a hundred moments by chance; strace sees which steps were acknowledged
  crashes  a small world: of each moment between the calls on the journal what a crash may leave by docs/FORMATS.md, and again of
           the runs that go on from there; each is put in the journal's place
  calls    the same world, where one call on the journal or the output fails, or the run is killed in it, the first, the second and so on
  devices  a journal and an output on devices that are full, read-only, missing, or no files
  edges    two runs at once with one output, one file under two names, what standard output leads to, links, and inputs that can be read
           only once

  --packages N   of the world; 1000 for `kills`, 12 for `crashes`, 6 for `calls` and 60 for the others where it isn't given
  --stops N      how often it is stopped, 100 where it isn't given
  --seed N       of what is drawn by chance, 1 where it isn't given
  --room DIR     where the files lie, /var/tmp where it isn't given

`kills`, `crashes` and `edges` need strace, `calls` a C compiler and a program that is linked dynamically, `devices` has to be run by root.
A row is printed for each kind of stop, and before it what doesn't hold. Exit status: 0, 1 where something doesn't hold, 2 for wrong
words."""

import argparse
import os
import pathlib
import random
import re
import signal
import statistics
import subprocess
import sys
import tempfile
import time

sys.dont_write_bytecode = True
import stop_devices  # noqa: E402
import stop_edges  # noqa: E402
import traces  # noqa: E402
from made_world import World  # noqa: E402
from journal_bytes import Refused, is_unmade, journal_of  # noqa: E402
from stop_ends import DISK, OLD, SECONDS, WRITE, Ended  # noqa: E402


def was_never_created(ended):
    """Whether the journal is refused as one may be in whose making the machine stopped."""
    return ended.status == 3 and re.fullmatch(rb"debplan: journal: E(21 NotAJournal|22 Damaged 16|29 OtherArchitecture)\n", ended.err)


class Stops:
    """The world, and what doesn't hold in it."""

    def __init__(self, options, world, part):
        self.options, self.world, self.part, self.faults = options, world, part, 0
        self.chance = random.Random(f"{options.seed} {part}")
        self.payloads, self.whole = world.payloads(), world.output()
        self.done = Ended(0, b"applied %d\n" % len(self.payloads), b"")
        self.journal, self.output = world.folder / "journal", world.folder / "output"

    def need(self, holds, *what):
        """Counts and prints what doesn't hold."""
        if not holds:
            self.faults += 1
            print(f"{self.part}: {' '.join(map(str, what))}", flush=True)

    def row(self, *cells):
        print("| " + " | ".join([self.part, *map(str, cells)]) + " |", flush=True)

    # Runs

    def run(self, journal="journal", output="output", **how):
        """What `apply` does, to its end."""
        ended = subprocess.run(self.world.apply_words(journal, output), cwd=self.world.folder, stdin=subprocess.DEVNULL,
                               **{"stdout": subprocess.PIPE, "stderr": subprocess.PIPE, "timeout": SECONDS, **how}, check=False)
        return Ended(ended.returncode, ended.stdout or b"", ended.stderr)

    def run_to_end(self, is_created=False, **place):
        """The same, once more without the journal where that is refused and was never created."""
        ended = self.run(**place)
        if not is_created and was_never_created(ended):
            pathlib.Path(self.world.folder / place.get("journal", "journal")).unlink()
            ended = self.run(**place)
        return ended

    def begin(self, journal=None, old=None):
        """Puts a journal in its place, or none, and an output of before, or none."""
        for path, text in ((self.journal, journal), (self.output, old)):
            path.unlink(missing_ok=True)
            if text is not None:
                path.write_bytes(text)

    # What is left

    def steps_in(self, data, what):
        """How many steps of the plan a journal shows; none where it isn't one."""
        try:
            payloads = journal_of(data).payloads
        except Refused as refused:
            self.need(False, what, "the journal is refused:", refused)
            return 0
        self.need(payloads == self.payloads[:len(payloads)], what, "the journal shows other steps than the plan's first")
        return len(payloads)

    def see_steps(self, steps, acknowledged, what):
        """Each acknowledged step stands, and at most one more."""
        self.need(acknowledged <= steps <= acknowledged + 1, what, steps, "steps stand, and", acknowledged, "are acknowledged")

    def see_output(self, old, what):
        """The output is as it was, or whole."""
        left = self.output.read_bytes() if self.output.exists() else None
        self.need(left in (old, self.whole), what, "the output is neither as before nor whole:", len(left or b""), "bytes")

    def see_answer(self, ended, wanted, what):
        self.need(ended == wanted, what, "ended with", ended)

    def see_no_rest(self, what):
        """No file is left beside the output."""
        left = [path.name for path in self.world.folder.glob("output.debplan-*")]
        self.need(not left, what, "left", *left)

    def see_end(self, what, is_created=True):
        """A run that isn't stopped ends with the whole output. Only where the machine stopped before the journal was created may that
        have to be removed."""
        ended = self.run_to_end(is_created)
        self.need(ended == self.done, what, "the next run ends with", ended)
        self.need(self.output.exists() and self.output.read_bytes() == self.whole, what, "and its output isn't whole")
        if self.journal.exists():
            self.need(self.steps_in(self.journal.read_bytes(), what) == len(self.payloads), what, "and its journal hasn't all steps")

    # Kills

    def kills(self):
        """Stops a run at moments by chance, one after the other over one journal, and then has it go on to its end."""
        self.begin()
        began = time.monotonic()
        self.see_all_acknowledged(self.watched(), "never stopped:")
        whole = time.monotonic() - began
        self.see_end("never stopped:")
        size, stops, kept = self.journal.stat().st_size, 0, []
        while stops < self.options.stops:
            old = self.chance.choice((None, OLD))
            self.begin(old=old)
            stood, created = 0, False
            for _ in range(min(self.chance.choice((1, 1, 2, 3, 5)), self.options.stops - stops)):
                stops += 1
                stood, created = self.kill(f"stop {stops}:", self.moment(size), stood, created, old)
                kept.append(stood)
            self.see_end(f"after stop {stops}:")
        self.row(f"{stops} stops by SIGKILL", f"{self.world.size} packages, {len(self.payloads)} steps, a run takes {whole:.1f} s",
                 f"steps that stood after a stop: {min(kept)} to {max(kept)}, median {statistics.median(kept):.0f}")

    def see_all_acknowledged(self, calls, what):
        self.need(traces.acknowledged(calls) == (True, len(self.payloads)), what, "not all steps are acknowledged at the end")

    def length(self):
        return self.journal.stat().st_size if self.journal.exists() else 0

    def moment(self, size):
        """When to stop: a little after the journal has come to a length by chance, up to this size, or soon after the start."""
        pause = self.chance.uniform(0, 0.005)
        if self.chance.randrange(10) == 0:
            end = time.monotonic() + 20 * pause
            return lambda: time.monotonic() >= end
        wanted = self.chance.uniform(self.length(), size)
        return lambda: self.length() >= wanted and (time.sleep(pause) or True)

    def watched(self, is_over=lambda: False):
        """Runs under strace, is killed once it is over by what is said here, and answers the calls on the journal."""
        log = self.world.folder / "trace"
        log.unlink(missing_ok=True)
        process = traces.start(self.world.apply_words(), self.world.folder, log)
        while process.poll() is None and not is_over():
            time.sleep(0.0005)
        process.kill()
        process.communicate()
        return traces.calls_in(traces.whole_log(log), "journal")

    def kill(self, what, is_over, stood, created, old):
        """A stop: how many steps stand then, and whether the journal was created."""
        now_created, gates = traces.acknowledged(self.watched(is_over))
        self.see_output(old, what)
        created = created or now_created
        data = self.journal.read_bytes() if self.journal.exists() else b""
        if is_unmade(data):
            self.need(not created, what, "a journal was created, and the file is none")
            return 0, created
        steps = self.steps_in(data, what)
        self.see_steps(steps, stood + gates, what)
        return steps, created

    @staticmethod
    def is_refused(data):
        try:
            return journal_of(data) is None
        except Refused:
            return True

    # Crashes

    def crashes(self):
        """Puts what crashes may leave in the journal's place, and has runs go on from there; of some of these runs again."""
        self.begin()
        calls = self.watched()
        self.see_all_acknowledged(calls, "never stopped:")
        first, count = self.after_crashes(b"", calls, "a run from nothing,"), len(calls)
        again = self.chance.sample([it for it in first if it], 12)
        second = 0
        for number, left in enumerate(again):
            self.begin(left)
            calls = self.watched()
            if calls and (is_unmade(left) or not self.is_refused(left)):
                second += len(self.after_crashes(left, calls, f"a run from what crash {number} left,"))
        self.row(f"{len(first)} files that a crash in a run of {count} calls may leave",
                 f"{self.world.size} packages, {len(self.payloads)} steps",
                 f"and {second} that one in {len(again)} runs that went on from such may leave")

    def after_crashes(self, file, calls, what):
        """Has a run go on from each file that a crash may leave, and answers these files."""
        created = not is_unmade(file)
        stood = len(journal_of(file).payloads) if created else 0
        found = {}
        for left, done in traces.crashes(file, calls, self.chance):
            found.setdefault(left, done)
        for left, done in found.items():
            self.after_crash(left, done, created, stood, f"{what} {len(done)} calls:")
        return list(found)

    def after_crash(self, left, done, created, stood, what):
        now_created, gates = traces.acknowledged(done)
        created = created or now_created
        self.begin(left)
        if created:
            steps = self.steps_in(left, what)
            self.see_steps(steps, stood + gates, what)
        self.see_end(what, created)

    # Calls that fail

    def calls(self):
        """Lets each call fail in turn, from a journal that isn't there, one with half of the steps, and one with more behind it."""
        self.begin()
        self.run()
        half = traces.put(b"", 0, self.half_of(self.journal.read_bytes()))
        begins = {"no journal": None, "half of the steps": half, "half, and bytes behind": half + b"\1\0\0\0\7rest"}
        shim = self.built()
        for how in ("nothing", "all", "half", "gone", "short", "interrupted", "killed"):
            met = [self.fail_each(shim, how, journal, old, name) for name, journal in begins.items() for old in (None, OLD)]
            world = f"{self.world.size} packages, {len(self.payloads)} steps"
            self.row(f"{sum(met)} failing calls: {how}", world, f"{len(met)} beginnings")

    def half_of(self, data):
        """A journal with half of the steps."""
        gate = journal_of(data).gate
        for _ in range(len(self.payloads) - len(self.payloads) // 2):
            gate -= 5 + len(journal_of(data[:gate] + b"\0").payloads[-1])
            data = data[:gate] + b"\0"
        return data

    def built(self):
        """The library that lets calls fail, compiled of the C beside this."""
        library, source = self.world.folder / "failing.so", pathlib.Path(__file__).with_name("failing_calls.c")
        subprocess.run(["cc", "-O1", "-fPIC", "-shared", "-o", str(library), str(source)], check=True)
        return library

    def fail_each(self, shim, how, journal, old, name):
        """Lets the first call fail, the second and so on, until there are no more, and answers how many there are."""
        for number in range(1, 10_000):
            self.begin(journal, old)
            what = f"call {number}, {how}, {name}, {'no' if old is None else 'an old'} output:"
            said, ended = self.run_failing(shim, how, number)
            if not said:
                self.need(ended == self.done, what, "no call failed, and it ended with", ended)
                return number - 1
            self.see_failed(said, how, ended, old, what)
            self.see_end(what)
        return None

    def run_failing(self, shim, how, number):
        """Which call failed, and how the run ended."""
        log = self.world.folder / "failed"
        log.unlink(missing_ok=True)
        told = {"FAIL_BELOW": f"{self.world.folder}/", "FAIL_CALL": str(number), "FAIL_HOW": how, "FAIL_LOG": str(log)}
        ended = self.run(env={**os.environ, **told, "LD_PRELOAD": str(shim)})
        return log.read_text(encoding="utf-8").split() if log.exists() else None, ended

    def see_failed(self, said, how, ended, old, what):
        """A call that failed is told of, and what wasn't written isn't there."""
        is_journal = said[1] == str(self.journal)
        wanted = DISK if is_journal else WRITE
        if how == "killed":
            self.need(ended.status == -signal.SIGKILL, what, *said, "ended with", ended)
            for path in self.world.folder.glob("output.debplan-*"):
                path.unlink()
        elif how in ("short", "interrupted"):
            self.need(ended == self.done or how == "interrupted" and ended == wanted, what, *said, "ended with", ended)
        else:
            self.need(ended == wanted, what, *said, "ended with", ended)
        self.see_output(old, f"{what} {' '.join(said)}:")
        self.see_no_rest(what)

    # Devices

    def devices(self):
        """Has the journal and the output on devices that can't take them."""
        for name, wanted, tried in stop_devices.DEVICES:
            faults = self.faults
            with tempfile.TemporaryDirectory(dir=self.world.folder) as room:
                self.begin()
                tried(self, pathlib.Path(room), DISK if wanted == "journal" else WRITE, f"{name}:")
            self.row(name, "told, and the next run ends" if faults == self.faults else "see above", "")

    # Edges

    def edges(self):
        """Has files meet that are one, runs that are at work at once, and paths that lead elsewhere."""
        for name, tried in stop_edges.EDGES:
            faults = self.faults
            with tempfile.TemporaryDirectory(dir=self.world.folder) as room:
                self.begin()
                tried(self, pathlib.Path(room), f"{name}:")
            self.see_no_rest(f"{name}:")
            self.row(name, "as it has to be" if faults == self.faults else "see above", "")


def main():
    parser = argparse.ArgumentParser(description=__doc__, formatter_class=argparse.RawDescriptionHelpFormatter)
    parser.add_argument("program")
    parser.add_argument("--packages", type=int)
    parser.add_argument("--stops", type=int, default=100)
    parser.add_argument("--seed", type=int, default=1)
    parser.add_argument("--room", default="/var/tmp")
    parser.add_argument("parts", nargs="*", metavar="PART")
    options = parser.parse_intermixed_args()
    parts = {"kills": 1000, "crashes": 12, "calls": 6, "devices": 60, "edges": 60}
    if not set(options.parts) <= set(parts):
        parser.error(f"the parts are {', '.join(parts)}")
    faults = 0
    print("| Part | Stops | World | Met |\n|---|---|---|---|")
    for part in options.parts or parts:
        with tempfile.TemporaryDirectory(prefix="debplan-stops-", dir=options.room) as folder:
            stops = Stops(options, World(options.program, folder, options.packages or parts[part]), part)
            getattr(stops, part)()
            faults += stops.faults
    sys.exit(1 if faults else 0)


if __name__ == "__main__":
    main()
