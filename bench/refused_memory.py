#!/usr/bin/python3
"""refused_memory.py PROGRAM [--jobs N] [--most N] [PART..]: refuses each request for memory of a run in turn, the first, the
second and so on, until a run meets no refusal; and once more so that all requests behind it are refused too. PROGRAM is
debplan, linked dynamically. Each answer has to be `debplan: memory: E1 OutOfMemory` on standard error with status 5 and
nothing on standard output, or exactly the one that the run has where nothing is refused; where it tells sentences, lines of
them may be missing, but not that a goal was left out. Of `apply` the journal that is left
shows steps of the plan from the first on, at least those that it had; there is no output, or the whole one; and a run that
isn't refused then goes on to the same journal and output as one that never was. PART is a part of the name of a run, and
without one all are made.

  --jobs N   so many runs side by side, as many as there are processors where it isn't given
  --most N   no requests behind this one are refused, 100000 where it isn't given

What the C library asks for before `main` isn't counted. Needs a C compiler. A row is printed for each run, and before it what
doesn't hold. Exit status: 0, 1 where something doesn't hold, 2 for wrong words."""

import argparse
import collections
import concurrent.futures
import json
import os
import pathlib
import subprocess
import sys
import tempfile

Ended = collections.namedtuple("Ended", "status out err")
# The status file, the index and the request.
World = collections.namedtuple("World", "status index request")
# A run: its name, its world, its words with the text of the plan or the refutation that the last of them names, and what is
# wanted of it. Where the answer is free, `wanted` is the kind of the answer, and the judge says whether it is one.
Run = collections.namedtuple("Run", "name world command rest text wanted")
# What `apply` leaves: the steps that the journal has before, all that it records of the steps, the status text before them, and
# the output.
Applied = collections.namedtuple("Applied", "stood payloads start output")

REFUSED = Ended(5, b"", b"debplan: memory: E1 OutOfMemory\n")
JUDGES = {"plan": "check-plan", "refutation": "check-refutation"}
HOW = ("once", "on")
# How lines begin that tell what --keep-back leaves out, and what stands in the place of the reasons.
LEFT_OUT = ("Kept back: ", "Goals that are left: ")
UNTOLD = "  With it the request that is left can't be satisfied."
SECONDS = 120


# Texts


def stanza(package, *fields, status=""):
    """A stanza with an empty line behind it, of a package such as `foo 1`, and with a status one of a status file."""
    name, version = package.split(" ")
    state = [f"Status: install ok {status}"] if status else []
    return "\n".join([f"Package: {name}", *state, f"Version: {version}", "Architecture: all", *fields]) + "\n\n"


def text(head, *lines):
    return "".join(line + "\n" for line in (head, *lines))


NEEDED = World("", stanza("bar 1.0") + stanza("foo 1.0", "Depends: bar"), "install foo\n")
AGAINST = World("", "".join(stanza(f"{name} 1", "Provides: v", "Conflicts: v") for name in "ab"), "install a\ninstall b\n")
BROKEN = World("".join(stanza(f"{name} 1", status="installed") for name in "pq"),
               stanza("p 2", "Breaks: q (<< 2)") + stanza("q 2"), "upgrade p\n")
DERIVED = World("", stanza("a 1", "Depends: p | q") + stanza("p 1", "Depends: q", "Conflicts: q") + stanza("q 1", "Depends: p"),
                "install a\n")
UNMET = World("", stanza("a 1", "Depends: nobody"), "")
FOREIGN = World(stanza("x 1", status="installed").replace("Architecture: all", "Architecture: i386"), "", "")

NEEDED_PLAN = text("plan 1", "unpack bar 1.0", "unpack foo 1.0", "configure bar", "configure foo")
BROKEN_PLAN = text("plan 1", "deconfigure q", "unpack p 2", "unpack q 2", "configure p", "configure q")
NO_STEP = text("plan 1")
BAD_PLAN = text("plan 1", "configure b a")
FIRST_GOAL = text("refutation 1", "goal 1")
AGAINST_REFUTATION = text("refutation 1", "goal 1", "goal 2", "conflicts 1 2", "derive : 1 2 3")
DERIVED_REFUTATION = text("refutation 1", "goal 1", "depends 1 1", "depends 2 1", "conflicts 2 3", "depends 3 1", "derive -2 : 3 4",
                          "derive : 1 6 2 5")

# What the journal records of a step is its line, and of an unpacking the stanza behind it (docs/FORMATS.md, "Bytes").
NEEDED_STEPS = ["unpack bar 1.0\n" + stanza("bar 1.0")[:-1], "unpack foo 1.0\n" + stanza("foo 1.0", "Depends: bar")[:-1],
                "configure bar\n", "configure foo\n"]
BROKEN_STEPS = ["deconfigure q\n", "unpack p 2\n" + stanza("p 2", "Breaks: q (<< 2)")[:-1], "unpack q 2\n" + stanza("q 2")[:-1],
                "configure p\n", "configure q\n"]
NEEDED_OUTPUT = stanza("bar 1.0", status="installed") + stanza("foo 1.0", "Depends: bar", status="installed")
BROKEN_OUTPUT = stanza("p 2", "Breaks: q (<< 2)", status="installed") + stanza("q 2", status="installed")


def journal(applied, count):
    """The journal of version 2 that shows so many steps."""
    start = applied.start.encode()
    data = b"DPJRNL02" + len(start).to_bytes(8, "big") + b"\0\5amd64" + start
    for payload in applied.payloads[:count]:
        data += b"\1" + len(payload).to_bytes(4, "big") + payload.encode()
    return data + b"\0"


# Runs


def said(out, status=0):
    return Ended(status, out.encode() + b"\n", b"")


def refusal(line):
    """The refusal of an input."""
    return Ended(3, b"", f"debplan: {line}\n".encode())


NO_END = said("no end F11 Goal 1", 1)


def runs_over(world, name, solved, package, candidate, plan, judged, refutation, checked):
    """The runs that are made over each world, but for `apply`."""
    return [Run(f"solve, {name}", world, "solve", [], None, solved),
            Run(f"candidate, {name}", world, "candidate", [package], None, said(candidate)),
            Run(f"check-plan, {name}", world, "check-plan", [], plan, judged),
            Run(f"check-refutation, {name}", world, "check-refutation", [], refutation, checked)]


def applied(world, name, plan, payloads, output):
    """A plan that is carried out from nothing, from half of its steps, and from all."""
    for stood, told in ((None, "from nothing"), (len(payloads) // 2, "from half of the steps"), (len(payloads), "once more")):
        left = Applied(stood, payloads, world.status, output)
        yield Run(f"apply, {name}, {told}", world, "apply", left, plan, said(f"applied {len(payloads)}"))


def not_applied(world, name):
    """A plan that isn't good, of which nothing is carried out."""
    return Run(f"apply, {name}", world, "apply", Applied(None, [], None, None), NO_STEP, NO_END)


RUNS = [
    *runs_over(NEEDED, "what a package needs", "plan", "foo", "foo 1.0 500", NEEDED_PLAN, said("yes"),
               FIRST_GOAL, said("no line 2", 1)),
    *applied(NEEDED, "what a package needs", NEEDED_PLAN, NEEDED_STEPS, NEEDED_OUTPUT),
    *runs_over(AGAINST, "two in conflict", "refutation", "a", "a 1 500", NO_STEP, NO_END, AGAINST_REFUTATION, said("yes")),
    not_applied(AGAINST, "two in conflict"),
    *runs_over(BROKEN, "an upgrade that breaks", "plan", "p", "p 2 500", BROKEN_PLAN, said("yes"), FIRST_GOAL, said("no line 2", 1)),
    *applied(BROKEN, "an upgrade that breaks", BROKEN_PLAN, BROKEN_STEPS, BROKEN_OUTPUT),
    *runs_over(DERIVED, "a derived line", "refutation", "p", "p 1 500", NO_STEP, NO_END, DERIVED_REFUTATION, said("yes")),
    Run("solve without a conflict, a derived line", DERIVED, "solve", ["--limit", "0"], None, said("undecided limit 0", 2)),
    not_applied(DERIVED, "a derived line"),
    Run("check-plan, a refused status file", FOREIGN, "check-plan", [], NO_STEP, refusal("status: E14 ForeignArchitecture x")),
    Run("check-plan, a refused plan", NEEDED, "check-plan", [], BAD_PLAN, refusal("plan: E18 BadPlan 2")),
    Run("compare", None, "compare", ["1.0~rc1-1", "lt", "1.0-1"], None, said("yes")),
    Run("compare, a refused version", None, "compare", ["1", "eq", "1.0-"], None, refusal("version 2: E6 BadVersion EmptyRevision")),
    Run("help", None, "--help", [], None, "help"),
    Run("solve --explain, a plan", BROKEN, "solve", ["--explain"], None, "told"),
    Run("solve --explain, a refutation", AGAINST, "solve", ["--explain"], None, "told"),
    Run("solve --format json, a plan", NEEDED, "solve", ["--format", "json"], None, "told"),
    Run("solve --format json, a refutation", AGAINST, "solve", ["--format", "json"], None, "told"),
    Run("solve --keep-back --explain", AGAINST, "solve", ["--keep-back", "--explain"], None, "told"),
    Run("solve --keep-back --format json", AGAINST, "solve", ["--keep-back", "--format", "json"], None, "told"),
    Run("check-plan --explain, a no", NEEDED, "check-plan", ["--explain"], NO_STEP, "told"),
    Run("check-plan --explain, a yes", BROKEN, "check-plan", ["--explain", "--format", "json"], BROKEN_PLAN, "told"),
    Run("check-refutation --format json", AGAINST, "check-refutation", ["--format", "json"], AGAINST_REFUTATION, "told"),
    Run("candidate --explain", NEEDED, "candidate", ["nobody", "--explain"], None, "told"),
    Run("candidate --format json", NEEDED, "candidate", ["nobody", "--format", "json"], None, "told"),
    Run("installable --explain", UNMET, "installable", ["--explain"], None, "told"),
    Run("installable --format json", UNMET, "installable", ["--format", "json"], None, "told"),
    Run("wrong words", None, "solve", ["--limit"], None, "usage"),
]


def told_in(ended):
    """What a run answers without its sentences, which lines on what was left out it tells, and its other lines."""
    lines, answer = ended.err.decode().splitlines(), ended.out
    if answer.startswith(b"{"):
        answer = [json.loads(it) for it in answer.splitlines()]
        lines += [line for document in answer for name in ("reasons", "kept_back") for line in document.pop(name, None) or []]
    return answer, [it for it in lines if it.startswith(LEFT_OUT)], {it for it in lines if not it.startswith(LEFT_OUT)}


# The runs, in a folder of their own


class Refusing:
    """A run in its folder, and what doesn't hold of it."""

    def __init__(self, program, library, run, folder, most):
        self.program, self.library, self.made, self.most = os.path.abspath(program), library, run, most
        self.folder, self.faults = pathlib.Path(folder), []
        files = {"sources": "File: index\n", **({} if run.world is None else run.world._asdict())}
        for name, its in {**files, "answer": run.text or ""}.items():
            self.path(name).write_text(its, encoding="utf-8")

    def path(self, name):
        return self.folder / name

    def need(self, holds, *what):
        if not holds:
            self.faults.append(f"{self.made.name}: {' '.join(map(str, what))}")

    def words(self, command, rest, is_judging):
        """The words of a command over the world; a judge has the text of an answer last."""
        if self.made.world is None:
            return [self.program, command, *rest]
        files = ("status", "sources") if command in ("candidate", "installable") else ("status", "sources", "request")
        options = [it for name in files for it in (f"--{name}", name)]
        return [self.program, command, "--arch", "amd64", *options, *rest, *(["answer"] if is_judging else [])]

    def own_words(self):
        rest = ["--journal", "journal", "--output", "output"] if self.made.command == "apply" else self.made.rest
        return self.words(self.made.command, rest, self.made.text is not None)

    def call(self, words, **environment):
        """How a process ended, without a status where it doesn't end in time."""
        try:
            ended = subprocess.run(words, cwd=self.folder, env=environment, stdin=subprocess.DEVNULL, capture_output=True,
                                   timeout=SECONDS, check=False)
        except subprocess.TimeoutExpired:
            return Ended(None, b"", b"")
        return Ended(ended.returncode, ended.stdout, ended.stderr)

    def refused(self, how, number):
        """How a run ended of which this request is refused, and what was refused."""
        log = self.path("refused")
        log.unlink(missing_ok=True)
        ended = self.call(self.own_words(), LD_PRELOAD=str(self.library), REFUSE_CALL=str(number), REFUSE_HOW=how, REFUSE_LOG=str(log))
        return ended, log.read_text(encoding="utf-8").strip() if log.exists() else None

    # What is wanted

    def own_answer(self):
        """How the run ends where nothing is refused."""
        self.begin()
        ended, wanted = self.call(self.own_words()), self.made.wanted
        if isinstance(wanted, Ended):
            self.need(ended == wanted, "without a refusal it ended with", ended)
        elif wanted in JUDGES:
            self.path("answer").write_bytes(ended.out)
            self.need(ended.err == b"" and self.call(self.words(JUDGES[wanted], [], True)) == said("yes"), "no", wanted, "but", ended)
        elif wanted == "told":
            self.need(ended.status in (0, 1) and ended.out, "it ended with", ended)
        else:
            self.need(ended.status == 0 and ended.out if wanted == "help" else ended.status == 4 and ended.err, "it ended with", ended)
        return ended

    # What `apply` leaves

    def begin(self):
        """Puts the journal of the beginning in its place, or none."""
        left = self.made.rest
        for name in ("journal", "output"):
            self.path(name).unlink(missing_ok=True)
        if isinstance(left, Applied) and left.stood is not None:
            self.path("journal").write_bytes(journal(left, left.stood))

    def left(self, name):
        return self.path(name).read_bytes() if self.path(name).exists() else None

    def see_left(self, left, what):
        """The journal shows steps from the first on, and the output is whole or isn't there."""
        found = self.left("journal")
        if left.output is None:
            self.need((found, self.left("output")) == (None, None), what, "there is a journal or an output")
            return
        wanted = [journal(left, count) for count in range(left.stood or 0, len(left.payloads) + 1)]
        self.need(found in wanted or left.stood is None and found in (None, b""), what, "the journal is", found)
        self.need(self.left("output") in (None, left.output.encode()), what, "the output is", self.left("output"))

    def see_end(self, left, own, what):
        """A run that isn't refused goes on to the end."""
        ended = self.call(self.own_words())
        self.need(ended == own, what, "the next run ended with", ended)
        if left.output is not None:
            whole = (journal(left, len(left.payloads)), left.output.encode())
            found = self.left("journal"), self.left("output")
            self.need(found == whole, what, "the next run left", *found)

    # What is told

    def is_own(self, ended, own):
        """Whether it is its own answer, of which sentences are missing."""
        if self.made.wanted != "told" or ended.status != own.status:
            return False
        (found, left_out, told), (wanted, all_left_out, all_told) = (told_in(it) for it in (ended, own))
        return (found, left_out) == (wanted, all_left_out) and told <= {*all_told, UNTOLD}

    # All requests

    def refuse(self, how, number, own):
        """Refuses a request. What was refused, if anything, and how the run ended."""
        self.begin()
        ended, met = self.refused(how, number)
        what = f"request {number} ({met}) refused {how}:"
        self.need(ended in (own, REFUSED) or self.is_own(ended, own) if met else ended == own, what, "it ended with", ended)
        if self.made.command == "apply":
            if ended == own:
                self.need(self.left("output") == (self.made.rest.output and self.made.rest.output.encode()), what, "the output isn't whole")
            self.see_left(self.made.rest, what)
            self.see_end(self.made.rest, own, what)
        return met, ended

    def refuse_each(self, how, own):
        """Refuses the first request, the second and so on. How many there are, how many of these runs said so, and how many
        gave the answer all the same."""
        told = same = 0
        for number in range(1, self.most + 1):
            met, ended = self.refuse(how, number, own)
            if not met:
                self.need(number > 1, "no request for memory was met: the program isn't linked dynamically")
                return number - 1, told, same
            told, same = told + (ended == REFUSED), same + (ended == own)
        return self.most, told, same


def row(program, library, run, most):
    """What doesn't hold of a run, and its row."""
    with tempfile.TemporaryDirectory(prefix="debplan-refused-") as folder:
        it = Refusing(program, library, run, folder, most)
        own = it.own_answer()
        counts = [it.refuse_each(how, own) for how in HOW] if not it.faults else []
    cells = [f"{cell:,}" for count in counts for cell in count] or [""] * 6
    return it.faults, f"| {run.name} | " + " | ".join(cells) + " |"


def built(folder):
    """The library that refuses, compiled of the C beside this."""
    library, source = pathlib.Path(folder) / "refusing.so", pathlib.Path(__file__).with_suffix(".c")
    subprocess.run(["cc", "-O1", "-fPIC", "-shared", "-o", str(library), str(source)], check=True)
    return library


def main():
    parser = argparse.ArgumentParser(description=__doc__, formatter_class=argparse.RawDescriptionHelpFormatter)
    parser.add_argument("program")
    parser.add_argument("--jobs", type=int, default=os.cpu_count())
    parser.add_argument("--most", type=int, default=100_000)
    parser.add_argument("parts", nargs="*", metavar="PART")
    options = parser.parse_intermixed_args()
    runs = [run for run in RUNS if not options.parts or any(part in run.name for part in options.parts)]
    failed = not runs
    heads = " | ".join(f"Requests, refused {how} | E1 | The same answer" for how in ("once", "with all behind"))
    print(f"| Run | {heads} |\n|---|---|---|---|---|---|---|")
    with tempfile.TemporaryDirectory() as folder, concurrent.futures.ThreadPoolExecutor(options.jobs) as pool:
        library = built(folder)
        for faults, line in pool.map(lambda run: row(options.program, library, run, options.most), runs):
            failed |= bool(faults)
            print("".join(fault + "\n" for fault in faults) + line, flush=True)
    sys.exit(1 if failed else 0)


if __name__ == "__main__":
    main()
