#!/usr/bin/python3
"""limits.py PROGRAM [--most SECONDS] [--room DIR] [--list] [PART..]: makes texts that are exactly at each limit of docs/FORMATS.md,
section 16, and texts that pass it by one, and has PROGRAM, which is debplan, read them. What each answer has to be stands here by
that section. PART is a part of the name of a case, and without one all are run, which takes some minutes, up to 3 GiB of memory and
as much room on the disk.

  --most SECONDS   a process is ended after so many, 600 where it isn't given
  --room DIR       where the files lie, /var/tmp where it isn't given
  --list           says what is wanted of each case, and runs none

A row is printed for each case: the answer, the time and the peak memory, which below some 250 MiB is that of this program. Exit
status: 0, 1 where an answer is another one, 2 for wrong words."""

import argparse
import collections
import os
import pathlib
import subprocess
import sys
import tempfile
import threading
import time

# A case: its name, its files, its command with the words of its own (of `apply` the architecture), and what is wanted, as behind
# `wants` in a scenario. A file is a list of pieces, each a text and how often it stands, or a text alone.
Case = collections.namedtuple("Case", "name files words wanted")

TEXT_BYTES, INDICES, PACKAGES, ATOMS, PAIRS, GOALS = 268_435_456, 1_000, 4_000_000, 65_535, 1_000_000, 100_000
STEPS, LINES, LITERALS, NAME_BYTES = 1_000_000, 10_000_000, 1_000_000, 65_535
FIELDS = ("Pre-Depends", "Depends", "Conflicts", "Breaks", "Provides")
# The files in the order in which they are read, by what a refusal calls them.
PLACES = {"status": "status", "sources": "sources", "index 1": "index1", "preferences": "preferences", "request": "request"}
CHECK_PLAN, CHECK_REFUTATION, CANDIDATE = ["check-plan"], ["check-refutation"], ["candidate", "x"]


# Texts


def stanza(name, version="1", *fields, status="", arch="all"):
    """A stanza and an empty line; with a status one of a status file."""
    state = [f"Status: install ok {status}"] if status else []
    return "\n".join([f"Package: {name}", *state, f"Version: {version}", f"Architecture: {arch}", *fields]) + "\n\n"


def stanzas(count):
    """Stanzas of so many names."""
    return "".join(stanza(f"p{number}") for number in range(count))


def filled(size, begin="", byte="\n", end=""):
    """A text of so many bytes."""
    return [begin, (byte, size - len(begin) - len(end)), end]


def numbers(last):
    return " ".join(map(str, range(1, last + 1)))


def repeated(separator, count):
    """The atom `x` so many times."""
    return separator.join(["x"] * count)


# Cases, as a row of each limit at it and past it


def rows(world, words, *rows_of_file):
    """Cases over one world: each has its name, the file that is its own, and what is wanted."""
    for name, file, pieces, wanted in rows_of_file:
        yield Case(name, {**world, file: pieces}, words, wanted)


def texts():
    """A text may have so many bytes. Of a longer one nothing is tested, but of an index what stands in front: a line of a colon
    alone is none of any text."""
    for where, name in PLACES.items():
        begin = "File: index1\n" if name == "sources" else ""
        passed = "" if name == "index1" else ":\n"
        yield Case(f"bytes of {where}", {name: filled(TEXT_BYTES, begin)}, CHECK_PLAN, "0 yes")
        yield Case(f"bytes of {where} passed", {name: filled(TEXT_BYTES + 1, passed)}, CHECK_PLAN, f"3 {where}: E10 TooLarge")
    yield Case("bytes of index 1 passed behind a bad line", {"index1": filled(TEXT_BYTES + 1, ":\n")}, CHECK_PLAN,
               "3 index 1: E3 BadFieldName 1")
    begin = "plan 1\nunpack a 1"
    yield from rows({}, CHECK_PLAN,
                    ("bytes of a plan", "answer", filled(TEXT_BYTES, begin, "1", "\n"), "1 no step 1 F10 NotAdmitted"),
                    ("bytes of a plan passed", "answer", filled(TEXT_BYTES + 1, ":\n", "1"), "3 plan: E10 TooLarge"))
    begin = "refutation 1\nkeep a"
    yield from rows({}, CHECK_REFUTATION,
                    ("bytes of a refutation", "answer", filled(TEXT_BYTES, begin, "a", "\n"), "1 no line 1"),
                    ("bytes of a refutation passed", "answer", filled(TEXT_BYTES + 1, ":\n", "a"), "3 refutation: E10 TooLarge"))


def indices():
    """There may be so many indices; one too many is told after what is wrong with its own stanza."""
    plan = ["plan 1\nunpack x 1\nconfigure x\n"]
    world = {"index1": [stanza("x")], "request": ["install x\n"], "answer": plan}
    line = 2 * INDICES + 1
    for name, more, wanted in (
            ("indices", "", "0 yes"),
            ("indices and a comment", "# x\n", "0 yes"),
            ("indices passed", "File: index1\n", "3 sources: E10 TooLarge"),
            ("indices passed without a file", "Suite: x\n", f"3 sources: E9 MissingField {line} File"),
            ("indices passed by no field", " x\n", f"3 sources: E2 BadLine {line}"),
            ("indices passed by a name twice", "File: a\nfile: b\n", f"3 sources: E4 DuplicateField {line + 1}")):
        yield Case(name, {**world, "sources": [("File: index1\n\n", INDICES), more]}, CHECK_PLAN, wanted)


def packages():
    """All indices together may have so many packages; those of other architectures don't count."""
    each = PACKAGES // INDICES
    its, line = stanza("x") + stanzas(each - 1), 4 * each + 1
    world = {"sources": [("File: index1\n\n", INDICES - 1), "File: index2\n\n"], "index1": [its]}
    where = f"index {INDICES}"
    for name, more, wanted in (
            ("packages", "", "0 x 1 500"),
            ("packages and one that is skipped", stanza("y", arch="i386"), "0 x 1 500"),
            ("packages passed", stanza("y"), f"3 {where}: E10 TooLarge"),
            ("packages passed by a bad one", stanza("y", "1", "Depends: ("), f"3 {where}: E8 BadName {line + 3} 0"),
            ("packages passed by one without a version", "Package: y\nArchitecture: all\n",
             f"3 {where}: E9 MissingField {line} Version")):
        yield Case(name, {**world, "index2": [its, more]}, CANDIDATE, wanted)


def atoms():
    """A field may have so many atoms; what is wrong before one too many is told."""
    for field in FIELDS:
        least, most = f"{field}: {repeated(', ', ATOMS)}", f"{field}: {repeated(', ', ATOMS + 1)}"
        yield from rows({}, CANDIDATE,
                        (f"atoms of {field}", "index1", [stanza("x", "1", least)], "0 x 1 500"),
                        (f"atoms of {field} passed", "index1", [stanza("x", "1", most)], "3 index 1: E10 TooLarge"),
                        (f"atoms of {field} that stands", "status", [stanza("x", "1", least, status="installed")], "0 x 1 100"),
                        (f"atoms of {field} that stands passed", "status", [stanza("x", "1", most, status="installed")],
                         "3 status: E10 TooLarge"))
    begin = "Depends: " + "x, " * (ATOMS - 1)
    for name, field, wanted in (
            ("atoms that are alternatives", f"Depends: {repeated(' | ', ATOMS)}", "0 x 1 500"),
            ("atoms that are alternatives passed", f"Depends: {repeated(' | ', ATOMS + 1)}", "3 index 1: E10 TooLarge"),
            ("atoms passed behind a bad one", begin + "_, x, x", f"3 index 1: E8 BadName 4 {3 * (ATOMS - 1)}"),
            ("atoms passed before a bad one", begin + "x, x, _", "3 index 1: E10 TooLarge"),
            ("atoms and commas", begin + "x" + "," * ATOMS, "0 x 1 500")):
        yield Case(name, {"index1": [stanza("x", "1", field)]}, CANDIDATE, wanted)


def pairs():
    """So many pairs may be admitted; one too many is told after what is wrong with the request."""
    few = {"index1": [stanzas(PAIRS - 1), stanza("x", "1"), stanza("x", "2")]}
    many = {"index1": [stanzas(PAIRS), stanza("x")]}
    refutation = f"refutation 1\ngoal 1\ngoal 2 {PAIRS}\nderive : 1 2\n"
    yield Case("admitted pairs, by candidates", few, CHECK_PLAN, "0 yes")
    yield from rows(few, CHECK_PLAN,
                    ("admitted pairs passed by a version that a goal names", "request", ["install x (= 1)\n"], "3 request: E10 TooLarge"))
    yield from rows(many, CHECK_PLAN,
                    ("admitted pairs passed", "request", [], "3 request: E10 TooLarge"),
                    ("admitted pairs passed, and a bad goal", "request", ["x\n"], "3 request: E16 BadRequest 1"),
                    ("admitted pairs passed, and an unknown name", "request", ["# x\n\ninstall y\n"], "3 request: E17 UnknownName 3"))
    yield from rows({**few, "request": ["install x\nremove x\n"]}, CHECK_REFUTATION,
                    ("admitted pairs of which the last is refuted", "answer", [refutation], "0 yes"))


def goals():
    """A request may have so many goals; one too many is told after what is wrong with its own line."""
    for name, last, wanted in (
            ("goals", "no-remove\n", "0 yes"),
            ("goals and a comment", "no-remove\n# x\n \t\n", "0 yes"),
            ("goals passed", "no-remove\nno-remove\n", "3 request: E10 TooLarge"),
            ("goals passed by a bad line", "no-remove\ninstall\n", f"3 request: E16 BadRequest {GOALS + 1}"),
            ("goals passed before a bad line", "no-remove\nno-remove\ninstall\n", "3 request: E10 TooLarge"),
            ("goals of which the last has an unknown name", "install y\n", f"3 request: E17 UnknownName {GOALS}")):
        yield Case(name, {"request": [("no-remove\n", GOALS - 1), last]}, CHECK_PLAN, wanted)


def steps():
    """A plan may have so many steps; one too many is told after what is wrong with its own line."""
    world = {"index1": [stanza("x", "1"), stanza("x", "2")], "request": ["install x (= 1)\n"]}
    first, last = ["plan 1\n", ("unpack x 1\nunpack x 2\n", STEPS // 2 - 1)], "unpack x 1\nconfigure x\n"
    for name, its, wanted in (
            ("steps", last, "0 yes"),
            ("steps of which the last isn't allowed", "unpack x 1\nunpack x 1\n", f"1 no step {STEPS} F9 WrongState"),
            ("steps passed", last + "purge x\n", "3 plan: E10 TooLarge"),
            ("steps passed by a bad line", last + "purge\n", f"3 plan: E18 BadPlan {STEPS + 2}"),
            ("steps passed by a line without an end", last + "purge x", f"3 plan: E18 BadPlan {STEPS + 2}")):
        yield Case(name, {**world, "answer": [*first, its]}, CHECK_PLAN, wanted)


def lines():
    """A refutation may have so many lines, and a line so many literals and hints."""
    world = {"index1": [stanza("x")], "request": ["install x\nremove x\n"]}
    begin, end = "goal 1\ngoal 2 1\n", "derive : 1 2\n"
    for name, its, wanted in (
            ("lines of a refutation", ["goal 2 1\n", ("goal 1\n", LINES - 2), f"derive : 1 {LINES - 1}\n"], "0 yes"),
            ("lines of a refutation passed", [("goal 1\n", LINES + 1)], "3 refutation: E10 TooLarge"),
            ("literals of a line that doesn't follow", [f"derive {numbers(LITERALS)} : 1\n"], "1 no line 1"),
            ("literals of a line that follows", [begin, f"derive {numbers(LITERALS)} : 1\n", end], "0 yes"),
            ("literals of a line passed", [begin, f"derive {numbers(LITERALS + 1)} : 1\n", end], "3 refutation: E10 TooLarge"),
            ("hints of a line", [begin, "derive :", (" 1", LITERALS - 1), " 2\n"], "0 yes"),
            ("hints of a line passed", [begin, "derive :", (" 1", LITERALS), " 2\n"], "3 refutation: E10 TooLarge")):
        yield Case(name, {**world, "answer": ["refutation 1\n", *its]}, CHECK_REFUTATION, wanted)


def far_behind():
    """Lines and offsets of what is refused far behind."""
    for where, its, many in (("status", stanza("x", status="installed"), 1), ("index 1", stanza("x"), 70_000)):
        line = 70_000 + its.count("\n") * many + 3
        text = [("\n", 70_000), (its, many), "Package: y\nX: 1\nx: 2\n"]
        yield Case(f"a line far behind, {where}", {PLACES[where]: text}, CHECK_PLAN, f"3 {where}: E4 DuplicateField {line}")
    record, bad = ("Package: x\nPin: version 1\nPin-Priority: {}\n\n".format(priority) for priority in ("1", "x"))
    yield from rows({}, CHECK_PLAN,
                    ("a line far behind, preferences", "preferences", [(record, 70_000), bad], f"3 preferences: E11 BadPin {4 * 70_000 + 3}"),
                    ("an offset far behind, index 1", "index1", [stanza("x")[:-1], "Depends: x", (" ", 70_000), "_\n"],
                     "3 index 1: E7 BadRelation 4 70001"))
    yield from rows({}, CHECK_REFUTATION,
                    ("a line far behind, refutation", "answer", ["refutation 1\n", ("keep x\n", 70_000), "keep\n"],
                     "3 refutation: E19 BadRefutation 70002"))


def versions():
    """Versions nearly as long as a word of a command line may be."""
    text = "1." * 60_000
    for name, words in (("many pieces that are equal", (text + "1", "eq", text + "01")),
                        ("many pieces of which the last differs", (text + "1", "lt", text + "2")),
                        ("one long number", ("1" * 120_000, "lt", "1" * 119_999 + "2")),
                        ("many tildes", ("~" * 120_000, "lt", "~" * 119_999))):
        yield Case(f"versions of {name}", {}, ["compare", *words], "0 yes")


def journals():
    """An architecture and the payload of a record may be so long."""
    yield Case("bytes of an architecture in a journal", {}, ["apply", "a" * NAME_BYTES], "0 applied 0")
    yield Case("bytes of an architecture in a journal passed", {}, ["apply", "a" * (NAME_BYTES + 1)], "3 journal: E10 TooLarge")
    step, begin = "unpack x 1\n", stanza("x")[:-1] + "X: "
    most = TEXT_BYTES - len(step)
    yield from rows({"request": ["install x\n"], "answer": [f"plan 1\n{step}configure x\n"]}, ["apply", "amd64"],
                    ("payload of a record", "index1", filled(most, begin, "x", "\n"), "0 applied 2"),
                    ("payload of a record passed", "index1", filled(most + 1, begin, "x", "\n"), "3 journal: E10 TooLarge"))


def cases():
    for group in (texts, indices, packages, atoms, pairs, goals, steps, lines, far_behind, versions, journals):
        yield from group()


# Runs


class Limits:
    def __init__(self, options, folder):
        self.options, self.folder, self.faults = options, pathlib.Path(folder), 0
        self.program = os.path.abspath(options.program)

    def write(self, case):
        """The files of a case; those that it doesn't name are empty or name one index."""
        texts = {"status": [], "sources": ["File: index1\n"], "index1": [], "request": [], "answer": ["plan 1\n"], **case.files}
        for name, pieces in texts.items():
            with open(self.folder / name, "wb") as file:
                for piece in pieces:
                    text, count = piece if isinstance(piece, tuple) else (piece, 1)
                    write_often(file, text.encode(), count)

    def line(self, case):
        """The command line of a case."""
        command, *rest = case.words
        if command == "compare":
            return [self.program, *case.words]
        options = ["--arch", rest[0] if command == "apply" else "amd64", "--status", "status", "--sources", "sources"]
        if "preferences" in case.files:
            options += ["--preferences", "preferences"]
        if command == "candidate":
            return [self.program, command, *options, *rest]
        files = ["--journal", "journal", "--output", "output"] if command == "apply" else []
        return [self.program, command, *options, "--request", "request", *files, "answer"]

    def run(self, case):
        """What a process answers, as behind `wants`, its time in seconds and its peak memory in MiB."""
        with tempfile.TemporaryFile() as out, tempfile.TemporaryFile() as err:
            start = time.perf_counter()
            process = subprocess.Popen(self.line(case), cwd=self.folder, stdin=subprocess.DEVNULL, stdout=out, stderr=err)
            clock = threading.Timer(self.options.most, process.kill)
            clock.start()
            _, status, usage = os.wait4(process.pid, 0)
            seconds = time.perf_counter() - start
            clock.cancel()
            is_late = os.WIFSIGNALED(status) and seconds >= self.options.most
            said = f"over {self.options.most:.0f} s" if is_late else answer(os.waitstatus_to_exitcode(status), out, err)
            return said, seconds, usage.ru_maxrss / 1024

    def row(self, case):
        """Runs a case, and prints its row, before it what isn't as wanted."""
        for old in self.folder.iterdir():
            old.unlink()
        self.write(case)
        said, seconds, peak = self.run(case)
        if said != case.wanted:
            self.faults += 1
            print(f"{case.name}: wanted {case.wanted}, got {said}")
        print(f"| {case.name} | `{said}` | {seconds:.2f} s | {peak:,.0f} MiB |", flush=True)


def write_often(file, text, count):
    """Writes a text so many times, in pieces of a mebibyte."""
    piece = max(1, 2**20 // max(1, len(text)))
    for _ in range(count // piece):
        file.write(text * piece)
    file.write(text * (count % piece))


def answer(status, out, err):
    """The exit status with the line of standard output, or that of standard error where there is no other."""
    texts = []
    for stream in (out, err):
        stream.seek(0)
        texts.append(stream.read(400).decode("utf-8", "replace"))
    if status in (3, 5) and not texts[0] and texts[1].startswith("debplan: ") and texts[1].count("\n") == 1:
        return f"{status} {texts[1].removeprefix('debplan: ').rstrip()}"
    return f"{status} {texts[0].removesuffix(chr(10))}" if not texts[1] else f"{status} {texts}"


def main():
    parser = argparse.ArgumentParser(description=__doc__, formatter_class=argparse.RawDescriptionHelpFormatter)
    parser.add_argument("program")
    parser.add_argument("--most", type=float, default=600)
    parser.add_argument("--room", default="/var/tmp")
    parser.add_argument("--list", action="store_true")
    parser.add_argument("parts", nargs="*", metavar="PART")
    options = parser.parse_intermixed_args()
    with tempfile.TemporaryDirectory(prefix="debplan-limits-", dir=options.room) as folder:
        limits = Limits(options, folder)
        print("| Case | Answer | Time | Peak |\n|---|---|---|---|")
        for case in cases():
            if options.parts and not any(part in case.name for part in options.parts):
                continue
            if options.list:
                print(f"| {case.name} | `{case.wanted}` | | |")
            else:
                limits.row(case)
        sys.exit(1 if limits.faults else 0)


if __name__ == "__main__":
    main()
