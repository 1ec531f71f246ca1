#!/usr/bin/python3
"""times.py SUBJECT DIR PROGRAM [ROUNDS]: time and peak memory of PROGRAM, which is debplan, beside others. Each is a whole
process, run once a round (7 rounds where it isn't said otherwise).

  candidate   the candidate of gnome, beside apt-cache policy; stops where the two answers differ
  plan        a plan of two steps that installs hello is judged, beside apt-get -s and libsolv for the same request
  large-plan  a plan of more than a thousand steps that installs gnome is judged, beside the same two
  refutation  a refutation of 100,000 derived lines is judged, beside one of half as many, and beside a plan without a step over
              the same texts, which is the reading

DIR is what tools/collect-inputs wrote on this machine; for `refutation` it is a folder into which the inputs are written.
apt reads its lists without a cache. It prints a table: median, least and greatest time, peak memory.
Exit status: 0, 1 where an answer is wrong or a process fails, 64 for wrong words. It wants Debian's package python3-solv,
and for large-plan python3-apt."""

import glob
import os
import re
import subprocess
import sys
import tempfile

from processes import NO_CACHE, simulation, table

HERE = os.path.dirname(os.path.abspath(__file__))
LEAST_STEPS = 1000
SIZES = (50_000, 100_000)


def fail(why):
    sys.exit(f"times.py: {why}")


def write(path, lines):
    with open(path, "w", encoding="utf-8") as text:
        text.writelines(f"{line}\n" for line in lines)


def options_of(folder, request=None):
    """The options that name the inputs of a folder, and the request."""
    options = ["--arch", "amd64", "--status", os.path.join(folder, "status"), "--sources", os.path.join(folder, "sources")]
    return options + (["--request", request] if request else [])


def libsolv(folder, name):
    return [sys.executable, os.path.join(HERE, "libsolv_request.py"), folder, name]


def is_yes(subject, printed):
    if subject.startswith("debplan") and printed != "yes\n":
        fail(f"{subject} answers {printed}")


def candidate_of_apt(printed):
    """The version of the candidate and its priority, of what `apt-cache policy` prints."""
    version = re.search(r"^  Candidate: (\S+)$", printed, re.MULTILINE)[1]
    priority = re.search(rf"^ (?:   |\*\*\*) {re.escape(version)} (-?\d+)$", printed, re.MULTILINE)[1]
    return version, priority


def time_candidate(folder, program, rounds):
    answers = set()

    def check(subject, printed):
        answers.add(tuple(printed.split()[1:]) if subject.startswith("debplan") else candidate_of_apt(printed))
        if len(answers) > 1:
            fail(f"the candidates differ: {sorted(answers)}")

    commands = {
        "debplan candidate": [program, "candidate", *options_of(folder), "gnome"],
        "apt-cache policy": ["apt-cache", *NO_CACHE, "policy", "gnome"],
    }
    table(commands, rounds, check)


def version_of(folder, name):
    """The version of the package's first stanza in the indices. They are read line by line: the peak memory of a process
    counts what the one that starts it holds."""
    for path in sorted(glob.glob(os.path.join(folder, "index-*.Packages"))):
        is_there = False
        with open(path, encoding="utf-8") as index:
            for line in index:
                if line.startswith("Package: "):
                    is_there = line == f"Package: {name}\n"
                elif is_there and line.startswith("Version: "):
                    return line.split()[1]
    fail(f"{folder} has no package {name}")


def time_plan(folder, program, rounds):
    with tempfile.TemporaryDirectory() as room:
        request, plan = os.path.join(room, "request"), os.path.join(room, "plan")
        write(request, ["install hello"])
        write(plan, ["plan 1", f"unpack hello {version_of(folder, 'hello')}", "configure hello"])
        commands = {
            "debplan check-plan": [program, "check-plan", *options_of(folder, request), plan],
            "apt-get -s": ["apt-get", "-s", *NO_CACHE, "install", "hello"],
            "libsolv from the texts": libsolv(folder, "hello"),
        }
        table(commands, rounds, is_yes)


def time_large_plan(folder, program, rounds):
    subprocess.run([sys.executable, os.path.join(HERE, "gnome_plan.py"), folder, "gnome"], check=True)
    request, plan = os.path.join(folder, "gnome.request"), os.path.join(folder, "gnome.plan")
    with open(plan, encoding="utf-8") as lines:
        if len(lines.readlines()) <= LEAST_STEPS:
            fail(f"the plan has less than {LEAST_STEPS} steps")
    simulate, *options = simulation(folder, "gnome")
    commands = {
        "debplan check-plan": [program, "check-plan", *options_of(folder, request), plan],
        "apt-get -s": [simulate, *NO_CACHE, *options],
        "libsolv from the texts": libsolv(folder, "gnome"),
    }
    table(commands, rounds, is_yes)


def stanzas(size):
    """Packages of which each depends on the next, and the last on one that is nowhere."""
    for number in range(1, size + 1):
        yield f"Package: p{number:06}\nVersion: 1\nArchitecture: all\nDepends: p{number + 1:06}\n"


def refutation(size):
    """The goal, the premise of each package, and from the last to the first that it isn't chosen."""
    yield "refutation 1"
    yield "goal 1"
    for number in range(1, size + 1):
        yield f"depends {number} 1"
    yield f"derive -{size} : {size + 1}"
    for number in range(size - 1, 0, -1):
        yield f"derive -{number} : {number + 1} {2 * size + 1 - number}"
    yield f"derive : 1 {2 * size + 1}"


def write_refutation(folder, size):
    os.makedirs(folder, exist_ok=True)
    write(os.path.join(folder, "status"), [])
    write(os.path.join(folder, "sources"), [f"File: {os.path.join(folder, 'packages')}"])
    write(os.path.join(folder, "packages"), stanzas(size))
    write(os.path.join(folder, "request"), ["install p000001"])
    write(os.path.join(folder, "empty-request"), [])
    write(os.path.join(folder, "refutation"), refutation(size))
    write(os.path.join(folder, "plan"), ["plan 1"])


def time_refutation(top, program, rounds):
    commands = {}
    for size in SIZES:
        folder = os.path.join(top, str(size))
        write_refutation(folder, size)
        empty, request = os.path.join(folder, "empty-request"), os.path.join(folder, "request")
        commands[f"debplan check-plan, {size:,} packages, no step"] = [
            program, "check-plan", *options_of(folder, empty), os.path.join(folder, "plan")]
        commands[f"debplan check-refutation, {size:,} derived lines"] = [
            program, "check-refutation", *options_of(folder, request), os.path.join(folder, "refutation")]
    medians = list(table(commands, rounds, is_yes).values())
    judging = [whole - reading for reading, whole in zip(medians[::2], medians[1::2])]
    print(f"judging alone: {judging[0]:.0f} ms and {judging[1]:.0f} ms, {judging[1] / judging[0]:.2f} times as much")


SUBJECTS = {"candidate": time_candidate, "plan": time_plan, "large-plan": time_large_plan, "refutation": time_refutation}


def main(words):
    if len(words) not in (3, 4) or words[0] not in SUBJECTS or not words[-1].isdecimal() and len(words) == 4:
        print(__doc__, file=sys.stderr)
        return 64
    rounds = int(words[3]) if len(words) > 3 else 7
    SUBJECTS[words[0]](os.path.abspath(words[1]), os.path.abspath(words[2]), rounds)
    return 0


if __name__ == "__main__":
    sys.exit(main(sys.argv[1:]))
