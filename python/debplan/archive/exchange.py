"""The index that would be where the binary packages of some sources are those of another index, and the names of the packages of which
this can change whether they can be installed."""
import collections
import copy
import re

from debplan import control
from debplan.tool import Failure

VERSION = re.compile(r"(?:[0-9]+:)?[A-Za-z0-9.+~:-]+")
SOURCE = re.compile(r"([A-Za-z0-9][A-Za-z0-9+.-]*)\s*(?:\(\s*(.*?)\s*\))?", re.DOTALL)
# By which fields a package is essential (docs/FORMATS.md, section 6).
MARKS = ("Essential", "Protected")
# The fields of a stanza that count here.
COUNTING = ("Package", "Version", "Architecture", "Source", "Pre-Depends", "Depends", "Provides", *MARKS)
NO_INDEX = "so this is no index (one that is compressed is unpacked first)"
# A stanza of an index: its bytes, without the newline behind them, and these fields.
Stanza = collections.namedtuple("Stanza", "text fields")


def stanzas_in(path, names=None):
    """The stanzas of an index, in their order; with names those of these names alone."""
    return [Stanza(text, fields_in(text, number, path)) for number, text in enumerate(control.texts_in(path), 1)
            if names is None or control.name_in(text) in names]


def fields_in(text, number, path):
    """The fields that count of a stanza, which has to be one of a package."""
    try:
        fields = {name: value for name, value in control.fields_of(text, f"{path}: stanza {number}").items() if name in COUNTING}
    except Failure as failure:
        raise Failure(f"{failure}, {NO_INDEX}") from None
    missing = [name for name in ("Package", "Version", "Architecture") if not fields.get(name)]
    if missing:
        raise Failure(f"{path}: stanza {number} has no {missing[0]}, {NO_INDEX}")
    if not VERSION.fullmatch(fields["Version"]):
        raise Failure(f"{path}: stanza {number}, of {fields['Package']}, has no version but `{fields['Version']}`")
    return fields


def pair_of(fields):
    """The name and the version of a package, by which packages of two indices are the same."""
    return fields["Package"], control.version_key(fields["Version"])


def source_of(fields):
    """The name of the source of a binary package: its own one, where no other is named (deb-control(5), "Source")."""
    found = SOURCE.fullmatch(fields.get("Source", ""))
    return found.group(1) if found else fields["Package"]


def source_version_of(fields):
    """The name and the version of the source of a binary package: the version is its own one, where no other is named."""
    found = SOURCE.fullmatch(fields.get("Source", ""))
    return source_of(fields), found and found.group(2) or fields["Version"]


# The exchange


class Exchange:
    """The stanzas of an index, with those of some sources taken out, and put in those that another index has of these sources."""

    def __init__(self, index, other, sources):
        self.index, self.other = stanzas_in(index), stanzas_in(other)
        self.exchange(sources)
        had = {source_of(it.fields) for it in (*self.out, *self.put)}
        missing = [source for source in sources if source not in had]
        if missing:
            raise Failure(f"{index}: has no package of the source {missing[0]}, nor has {other}")

    def exchange(self, sources):
        self.sources = set(sources)
        self.out, self.left = [], []
        for it in self.index:
            (self.out if source_of(it.fields) in self.sources else self.left).append(it)
        self.put = [it for it in self.other if source_of(it.fields) in self.sources]

    def also(self, sources):
        """The exchange of these sources too."""
        found = copy.copy(self)
        found.exchange(self.sources | sources)
        return found

    def text(self):
        """The index that would be: what is left stays in its order, and what is put in stands behind it."""
        return b"".join(it.text + b"\n\n" for it in (*self.left, *self.put))

    def names(self):
        """The names of the packages that are taken out or put in."""
        return {it.fields["Package"] for it in (*self.out, *self.put)}

    def beside(self):
        """The packages that are put in though another source has one of this name, which stays."""
        left = {it.fields["Package"]: it.fields for it in self.left}
        return [(left[it.fields["Package"]], it.fields) for it in self.put if it.fields["Package"] in left]


# What can change


class Needs:
    """Of the packages of some stanzas what each name provides, and which names need a name."""

    def __init__(self, stanzas):
        self.provided, self.needing = collections.defaultdict(set), collections.defaultdict(set)
        for fields in stanzas:
            name = fields["Package"]
            self.provided[name].update(atom.name for atom in control.provided_by(fields))
            for clause in control.clauses_in(fields, "Pre-Depends", "Depends"):
                for atom in clause:
                    self.needing[atom.name].add(name)

    def reaching(self, names):
        """These names, and those that need one of them, or what one of them provides, by any number of steps.

        What has none of these names, beside a base that has none, is answered as before where only packages of the first names are
        exchanged. For of a set that it can be installed with those members are enough that it and the base need by such steps. None
        of them has an exchanged name, so each is there as before and is admitted as before, and none of them is in conflict with
        another one. Versions and alternatives aren't looked at, so more names are found than those of packages that change."""
        found, waiting = set(names), list(names)
        while waiting:
            name = waiting.pop()
            for needed in (name, *self.provided.get(name, ())):
                new = self.needing.get(needed, set()) - found
                found |= new
                waiting += new
        return found


def is_essential(fields):
    return any(fields.get(mark) == "yes" for mark in MARKS)


def staying_in(database):
    """The names of a status file that stay: those of the essential and of the held packages that are present."""
    return {name for name, fields in database.records.items()
            if database.version(name) and (is_essential(fields) or fields.get("Status", "").startswith("hold "))}
