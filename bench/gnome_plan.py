#!/usr/bin/python3
"""gnome_plan.py DIR NAME: makes a request to install the package NAME, which is gnome where a large plan is measured, and
a plan for it, and writes them into DIR as NAME.request and NAME.plan. DIR is what tools/collect-inputs wrote on this
machine. What is unpacked says `apt-get -s`, without recommended packages; the order is made here, by the rules of
docs/FORMATS.md. It ends with an error where it finds none. It wants Debian's package python3-apt."""

import glob
import os
import re
import subprocess
import sys

import apt_pkg

from processes import simulation

RELATIONS = ("Pre-Depends", "Depends", "Conflicts", "Breaks", "Provides")
FIELDS = ("Package", "Version", "Status", "Config-Version", *RELATIONS)
ATOM = re.compile(r"([A-Za-z0-9][A-Za-z0-9+.-]*)(?::([A-Za-z0-9-]+))?\s*(?:\(\s*([<>=]+)\s*([^\s)]+)\s*\))?$")
NATIVE = (None, "any", "native", "amd64")
MEETS = {
    "<<": lambda order: order < 0,
    "<=": lambda order: order <= 0,
    "=": lambda order: order == 0,
    ">=": lambda order: order >= 0,
    ">>": lambda order: order > 0,
}
INST = re.compile(r"Inst (\S+) (?:\[\S+\] )?\((\S+) ")


def clauses_of(value):
    """The clauses of a relation field, each as its atoms: name, qualifier, operator and version."""
    items = [item.strip() for item in value.split(",")]
    return [[ATOM.match(atom.strip()).groups() for atom in item.split("|")] for item in items if item]


def atoms_of(value):
    return [atom for (atom,) in clauses_of(value)]


def meets(text, operator, version):
    return not operator or MEETS[operator](apt_pkg.version_compare(text, version))


class Package:
    """What a stanza says of a package, and the state of its record."""

    def __init__(self, fields):
        self.name, self.version = fields["Package"], fields["Version"]
        self.pre_depends = clauses_of(fields.get("Pre-Depends", ""))
        self.depends = clauses_of(fields.get("Depends", ""))
        self.conflicts = atoms_of(fields.get("Conflicts", ""))
        self.breaks = atoms_of(fields.get("Breaks", ""))
        self.provides = [item for item in atoms_of(fields.get("Provides", "")) if item[1] in NATIVE]
        self.state = fields.get("Status", "- - not-installed").split()[2]
        self.config_version = self.version if self.state == "installed" else fields.get("Config-Version")

    def matches(self, atom):
        name, qualifier, operator, version = atom
        if qualifier not in NATIVE:
            return False
        texts = [self.version] if self.name == name else []
        texts += [given for provided, _, _, given in self.provides if provided == name]
        return any(not operator or (text and meets(text, operator, version)) for text in texts)

    def satisfies_beforehand(self, atom):
        """Whether the package, which matches the atom of Pre-Depends, is installed, or was configured in a version that
        meets it too."""
        if self.state == "installed":
            return True
        was_configured = self.state in ("unpacked", "half-configured") and self.config_version
        return was_configured and (self.name != atom[0] or meets(self.config_version, atom[2], atom[3]))

    def keys(self):
        """What the package is found by: the names that match it, and those that it is against."""
        yield "name", self.name
        yield from (("name", item[0]) for item in self.provides)
        yield from (("conflicts", atom[0]) for atom in self.conflicts)
        yield from (("breaks", atom[0]) for atom in self.breaks)


class Machine:
    """The packages that are there."""

    def __init__(self, packages):
        self.there, self.found = {}, {}
        for package in packages:
            self.put(package)

    def put(self, package):
        if package.name in self.there:
            for key in self.there[package.name].keys():
                self.found[key].discard(package.name)
        self.there[package.name] = package
        for key in package.keys():
            self.found.setdefault(key, set()).add(package.name)

    def others(self, key, name):
        return [self.there[other] for other in sorted(self.found.get(key, ())) if other != name]

    def matching(self, atom, but=None):
        """The packages of another name than `but` that match the atom."""
        return [package for package in self.others(("name", atom[0]), but) if package.matches(atom)]

    def is_opposed(self, package, field):
        """Whether an atom in this field of another package matches this one."""
        names = {name for kind, name in package.keys() if kind == "name"}
        others = [other for name in names for other in self.others((field, name), package.name)]
        return any(package.matches(atom) for other in others for atom in getattr(other, field))

    def may_unpack(self, package):
        for clause in package.pre_depends:
            pairs = [(other, atom) for atom in clause for other in self.matching(atom, package.name)]
            if not any(other.satisfies_beforehand(atom) for other, atom in pairs):
                return False
        if self.is_opposed(package, "conflicts") or any(self.matching(atom, package.name) for atom in package.conflicts):
            return False
        broken = [other for atom in package.breaks for other in self.matching(atom, package.name)]
        return all(other.state != "installed" for other in broken)

    def unpack(self, package):
        old = self.there.get(package.name)
        package.state = "unpacked"
        package.config_version = old and old.config_version
        self.put(package)

    def is_met(self, clause, members=()):
        found = [other for atom in clause for other in self.matching(atom)]
        return any(other.state == "installed" or other.name in members for other in found)

    def may_configure(self, name, members):
        package = self.there[name]
        return (
            all(self.is_met(clause) for clause in package.pre_depends)
            and all(self.is_met(clause, members) for clause in package.depends)
            and not self.is_opposed(package, "breaks")
        )

    def configure(self, names):
        for name in names:
            self.there[name].state = "installed"
            self.there[name].config_version = self.there[name].version

    def part_of(self, names):
        """The greatest part of these names that can be configured together."""
        while True:
            kept = [name for name in names if self.may_configure(name, names)]
            if len(kept) == len(names):
                return kept
            names = kept

    def reached_from(self, name, names):
        """The name, and those of these names by which what it needs can be met, each clause by the first."""
        reached = [name]
        for member in reached:
            for clause in self.there[member].depends:
                found = [other.name for atom in clause for other in self.matching(atom) if other.name in names]
                if found and not self.is_met(clause, reached):
                    reached.append(found[0])
        return reached

    def ring_in(self, names):
        """Names that can be configured together and no part of which can be."""
        part = self.part_of(names)
        ring = min((self.reached_from(name, part) for name in part), key=len, default=[])
        for name in list(ring):
            ring = self.part_of([other for other in ring if other != name]) or ring
        return ring


def stanzas_in(path, is_wanted):
    """The fields that matter of those stanzas of a file that are wanted."""
    with open(path, encoding="utf-8") as text:
        for stanza in text.read().split("\n\n"):
            lines = [line.partition(":") for line in stanza.replace("\n ", " ").split("\n")]
            fields = {name: value.strip() for name, _, value in lines if name in FIELDS}
            if fields and is_wanted(fields):
                yield fields


def is_there(fields):
    return fields["Status"].split()[2] not in ("not-installed", "config-files")


def packages_of(folder, versions):
    """The first package of the indices in each of these versions, by name."""
    packages = {}
    for path in sorted(glob.glob(os.path.join(folder, "index-*.Packages"))):
        for fields in stanzas_in(path, lambda fields: versions.get(fields["Package"]) == fields["Version"]):
            packages.setdefault(fields["Package"], Package(fields))
    if len(packages) != len(versions):
        sys.exit(f"gnome_plan.py: {folder} isn't of this machine's lists")
    return packages


def versions_of(folder, name):
    """The versions that apt unpacks for the request, by name and in its order."""
    environment = {**os.environ, "LC_ALL": "C"}
    run = subprocess.run(simulation(folder, name), env=environment, capture_output=True, text=True, check=True)
    if re.search("^Remv ", run.stdout, re.MULTILINE):
        sys.exit("gnome_plan.py: apt removes packages, and no order is made for that")
    return dict(INST.match(line).groups() for line in run.stdout.splitlines() if line.startswith("Inst "))


def steps_of(machine, packages):
    """The steps that unpack and configure all these packages: whatever can be unpacked, then what can be configured
    alone, then a ring, and so on."""
    waiting, unpacked = list(packages.values()), []
    while waiting or unpacked:
        before = len(waiting), len(unpacked)
        for package in list(waiting):
            if machine.may_unpack(package):
                machine.unpack(package)
                waiting.remove(package)
                unpacked.append(package.name)
                yield f"unpack {package.name} {package.version}"
        alone = [name for name in unpacked if machine.may_configure(name, ())]
        groups = [[name] for name in alone] or [machine.ring_in(unpacked)]
        for group in filter(None, groups):
            machine.configure(group)
            unpacked = [name for name in unpacked if name not in group]
            yield " ".join(["configure", *sorted(group)])
        if before == (len(waiting), len(unpacked)):
            sys.exit(f"gnome_plan.py: no order is found for {[package.name for package in waiting] + unpacked}")


def main():
    if len(sys.argv) != 3:
        sys.exit("usage: gnome_plan.py DIR NAME")
    folder, name = os.path.abspath(sys.argv[1]), sys.argv[2]
    apt_pkg.init_system()
    packages = packages_of(folder, versions_of(folder, name))
    machine = Machine(Package(fields) for fields in stanzas_in(os.path.join(folder, "status"), is_there))
    steps = list(steps_of(machine, packages))
    with open(os.path.join(folder, f"{name}.request"), "w", encoding="utf-8") as request:
        request.write(f"install {name}\n")
    with open(os.path.join(folder, f"{name}.plan"), "w", encoding="utf-8") as plan:
        plan.write("".join(f"{line}\n" for line in ["plan 1", *steps]))
    groups = sum(line.count(" ") > 1 for line in steps if line.startswith("configure"))
    print(f"{len(steps)} steps, {groups} of which configure more than one package")


if __name__ == "__main__":
    main()
