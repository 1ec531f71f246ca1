#!/usr/bin/env python3
"""dose_sets.py SOURCES PROGRAM: asks `dose-debcheck --failures` and `debplan installable --all-versions` which packages of the indices
that the file SOURCES names can't be installed, and prints the packages that one of them alone calls broken, and how long each took and
how much memory. It exits with 1 where there is such a package. dose-debcheck comes with Debian's package dose-distcheck."""

import re
import sys

from processes import measured

ARCH = "amd64"
# What each prints of a package that can't be installed.
DOSE = re.compile(r"^ -\n  package: (\S+)\n  version: (\S+)$", re.MULTILINE)
DEBPLAN = re.compile(r"^broken (\S+) (\S+)$", re.MULTILINE)


def asked(command, form):
    """The packages that a process calls broken, with its seconds and its peak memory in MiB. Either status is an answer."""
    wall, peak, printed = measured(command, (0, 1))
    return set(form.findall(printed)), wall / 1000, peak


def main():
    sources, program = sys.argv[1:]
    with open(sources, encoding="utf-8") as file:
        indices = re.findall(r"^File:\s*(.*\S)\s*$", file.read(), re.MULTILINE)
    commands = {"dose": (["dose-debcheck", "--failures", f"--deb-native-arch={ARCH}", *indices], DOSE),
                "debplan": ([program, "installable", "--arch", ARCH, "--sources", sources, "--all-versions"], DEBPLAN)}
    found = {}
    for name, command in commands.items():
        found[name], seconds, peak = asked(*command)
        print(f"{name}: {len(found[name])} broken, {seconds:.0f} s, {peak:.0f} MiB", flush=True)
    for name, other in (("dose", "debplan"), ("debplan", "dose")):
        for package in sorted(found[name] - found[other]):
            print(f"{name} alone: {' '.join(package)}")
    sys.exit(found["dose"] != found["debplan"])


if __name__ == "__main__":
    main()
