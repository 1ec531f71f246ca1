#!/usr/bin/python3
"""many_candidates.py DIR PROGRAM [COUNT [PREFERENCES [TARGET]]]: asks debplan and `apt-cache policy` for the candidates of
about COUNT names (400), drawn at random but the same in each run: half of all names of the indices, a quarter of the last
index and a quarter of those that the status file names. DIR is what tools/collect-inputs wrote on this machine, PROGRAM
is debplan, PREFERENCES a file (- for none) and TARGET a target release. It prints each difference and the counts, and
exits with 1 where there is one."""

import glob
import os
import random
import re
import subprocess
import sys
from concurrent.futures import ThreadPoolExecutor

from processes import NO_CACHE


def names_in(path):
    with open(path, encoding="utf-8") as lines:
        return sorted({line.split()[1] for line in lines if line.startswith("Package: ")})


def drawn(folder, count):
    """The names that are asked for."""
    random.seed(count)
    indices = [names_in(path) for path in sorted(glob.glob(os.path.join(folder, "index-*.Packages")))]
    every = sorted({name for names in indices for name in names})
    parts = (every, count // 2), (indices[-1], count // 4), (names_in(os.path.join(folder, "status")), count // 4)
    return sorted({name for names, most in parts for name in random.sample(names, min(len(names), most))})


def apts_candidates(names, preferences, target):
    """The candidate of each name as debplan prints it, of what `apt-cache policy` prints."""
    chosen = ["-o", f"Dir::Etc::Preferences={preferences or '/dev/null'}", "-o", "Dir::Etc::PreferencesParts=/dev/null"]
    aimed = ["-t", target] if target else []
    command = ["apt-cache", *NO_CACHE, *chosen, *aimed, "policy", *names]
    printed = subprocess.run(command, capture_output=True, text=True, check=True, env={**os.environ, "LC_ALL": "C"}).stdout
    found = {}
    for part in re.split(r"^(?=\S)", printed, flags=re.MULTILINE):
        asked = re.match(r"(\S+):\n  Installed: .*\n  Candidate: (\S+)\n", part)
        if not asked:
            continue
        name, version = asked.groups()
        priority = re.search(rf"^ (?:   |\*\*\*) {re.escape(version)} (-?\d+)$", part, re.MULTILINE)
        found[name] = f"{name} {version} {priority[1]}" if priority else f"{name} none"
    return found


def main():
    folder, program = os.path.abspath(sys.argv[1]), os.path.abspath(sys.argv[2])
    count = int(sys.argv[3]) if len(sys.argv) > 3 else 400
    preferences = os.path.abspath(sys.argv[4]) if len(sys.argv) > 4 and sys.argv[4] != "-" else None
    target = sys.argv[5] if len(sys.argv) > 5 else None
    status, sources = os.path.join(folder, "status"), os.path.join(folder, "sources")
    command = [program, "candidate", "--arch", "amd64", "--status", status, "--sources", sources]
    command += ["--preferences", preferences] if preferences else []
    command += ["--target", target] if target else []

    def ours(name):
        return subprocess.run([*command, name], capture_output=True, text=True).stdout.strip()

    names = drawn(folder, count)
    apts = apts_candidates(names, preferences, target)
    with ThreadPoolExecutor(os.cpu_count()) as pool:
        pairs = [(apts.get(name), answer) for name, answer in zip(names, pool.map(ours, names))]
    differing = [pair for pair in pairs if pair[0] != pair[1]]
    for theirs, answer in differing:
        print(f"apt: {theirs}; debplan: {answer}")
    print(f"{len(pairs)} names, {len(differing)} differences")
    sys.exit(1 if differing or not pairs else 0)


main()
