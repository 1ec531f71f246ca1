#!/usr/bin/env python3
"""dose_causes.py DIR PROGRAM: asks `dose-debcheck --failures --explain` which packages of the indices in DIR (written by
tools/collect-inputs) can't be installed, asks debplan for each of them with every version admitted and nothing installed, and
prints the causes that dose names beside the sentences of `--explain`. The last line counts the packages, those that debplan
refutes, and those whose sentences name each package, and each relation, at which dose's reasons end. It exits with 1 where these
numbers differ. dose-debcheck comes with Debian's package dose-distcheck; it takes a minute."""

import collections
import os
import re
import subprocess
import sys

Cause = collections.namedtuple("Cause", "kind package version relation")
ENDS = {"unsat-dependency": "depends on", "unsat-conflict": "conflicts with"}


def said_by_dose(folder, arch):
    """dose's report of the packages that can't be installed."""
    indices = sorted(name for name in os.listdir(folder) if name.endswith(".Packages"))
    words = ["dose-debcheck", "--failures", "--explain", f"--deb-native-arch={arch}"]
    asked = subprocess.run(words + [os.path.join(folder, name) for name in indices], capture_output=True, text=True)
    if "report:" not in asked.stdout:
        sys.exit(f"dose_causes.py: dose-debcheck: {asked.stderr.strip()}")
    return asked.stdout


def causes_in(text):
    """The ends of the reasons in one package of the report: who needs or forbids what."""
    found, package, version = [], None, None
    for line in text.split("\n"):
        key, _, value = line.strip().partition(": ")
        if key == "package":
            package = value
        elif key == "version":
            version = value
        elif key in ENDS:
            cause = Cause(ENDS[key], package, version, value.replace(f":{ARCH}", ""))
            if cause not in found:
                found.append(cause)
    return found


def broken_in(report):
    """The packages of the report, each with its version and its causes."""
    for text in re.split(r"\n -\n  package: ", report)[1:]:
        name, _, rest = text.partition("\n")
        version = re.search(r"^  version: (.*)$", rest, re.MULTILINE).group(1)
        yield name, version, causes_in(rest.partition("  reasons:")[2])


def told_by_debplan(folder, program, name, version):
    """The exit status and the sentences of debplan."""
    words = [program, "solve", "--explain", "--arch", ARCH, "--status", os.devnull]
    words += ["--sources", os.path.join(folder, "sources"), "--goal", "all-versions", "--goal", f"install {name} (= {version})"]
    asked = subprocess.run(words, capture_output=True, text=True)
    return asked.returncode, asked.stderr


def is_told(cause, sentences):
    """Whether one of the sentences is about the package and the relation that it needs, or the package that it forbids."""
    needs = cause.kind == ENDS["unsat-dependency"]
    other = cause.relation if needs else cause.relation.split(" ")[0]
    return any(f"{cause.package} {cause.version}" in line and other in line for line in sentences.split("\n"))


def main():
    folder, program = sys.argv[1:]
    count = refuted = same = 0
    for name, version, causes in broken_in(said_by_dose(folder, ARCH)):
        status, sentences = told_by_debplan(folder, program, name, version)
        are_told = all(is_told(cause, sentences) for cause in causes)
        count, refuted, same = count + 1, refuted + (status == 1), same + are_told
        print(f"{name} {version}")
        for cause in causes:
            print(f"  dose: {cause.package} {cause.version} {cause.kind} {cause.relation}")
        for line in sentences.rstrip("\n").split("\n"):
            print(f"  debplan: {line}")
    print(f"{count} packages, {refuted} refuted, {same} with the causes that dose names")
    sys.exit(not count == refuted == same)


ARCH = os.environ.get("ARCH", "amd64")
if __name__ == "__main__":
    main()
