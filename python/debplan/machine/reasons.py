"""What the pins, the status file and the indices of a folder of inputs admit, as docs/FORMATS.md has it in sections 7 and 8: beside
what the program says of a candidate, and for measuring its sentences."""
import collections
import functools

from debplan import control
from debplan.machine.database import UNCONFIGURED

Pair = collections.namedtuple("Pair", "name version fields")
SAYS = {"predepends": "pre-depends on", "depends": "depends on", "conflicts": "conflicts with", "breaks": "breaks"}
KEYS = {"a": ("Archive", "Suite"), "n": ("Codename",), "v": ("Version",), "c": ("Component",), "o": ("Origin",), "l": ("Label",)}
IS_STATUS = "status"


# Priorities and candidates


class Record:
    """A plain record of a preferences file."""

    def __init__(self, fields):
        words = fields["Package"].split()
        self.names = None if words == ["*"] else set(words)
        self.priority = int(fields["Pin-Priority"])
        self.word, _, rest = " ".join(fields["Pin"].split()).partition(" ")
        self.rest, self.place = rest.strip('"'), fields.get("Explanation")

    def matches(self, version, keys):
        """Whether the record matches a version in an index with these release keys."""
        if self.word == "version" and self.rest.endswith("*"):
            return version.startswith(self.rest[:-1])
        if self.word == "version":
            return control.version_key(version) == control.version_key(self.rest)
        if self.word == "origin":
            return keys.get("Host", "") == self.rest
        items = [item.strip().partition("=") for item in self.rest.split(",")]
        return all(any(keys.get(name) == value for name in KEYS[key]) for key, _, value in items)


def default_priority(keys):
    """The priority of an index that no record and no target release names; the status file is one too."""
    if IS_STATUS in keys:
        return 100
    if keys.get("NotAutomatic") == "yes":
        return 100 if keys.get("ButAutomaticUpgrades") == "yes" else 1
    return 500


class Preferences:
    """The pins and the target release of a folder of inputs."""

    def __init__(self, inputs):
        path = inputs.path("preferences")
        self.records = [Record(fields) for fields in control.stanzas_in(path)] if path.is_file() else []
        self.named = set().union(*(record.names for record in self.records if record.names))
        self.target = inputs.target

    def at(self, version, keys):
        """The priority that an index gives a version that no record names."""
        if self.target and any(keys.get(it) == self.target for it in ("Archive", "Suite", "Codename", "Version")):
            return 990
        for record in self.records:
            if record.names is None and record.matches(version, keys):
                return record.priority
        return default_priority(keys)

    def record_on(self, name, version, places):
        """The record that names a package and matches a version in one of the indices that have it; None where there is none."""
        for record in self.records if name in self.named else ():
            if record.names and name in record.names and any(record.matches(version, keys) for keys in places):
                return record
        return None

    def priority(self, name, version, places):
        """The priority of a version over the indices that have it."""
        record = self.record_on(name, version, places)
        return record.priority if record else max(self.at(version, keys) for keys in places)


class Offered:
    """What the start and the indices offer: of each name its versions, each with its stanza that counts and its indices."""

    def __init__(self, inputs):
        self.preferences = Preferences(inputs)
        self.standing, self.held, self.versions = {}, set(), collections.defaultdict(dict)
        for fields in control.stanzas_in(inputs.path("status")):
            self.add_standing(fields)
        for keys in inputs.sources():
            for fields in control.stanzas_in(inputs.folder / keys["File"]):
                if fields.get("Architecture") in ("all", inputs.arch) and "Package" in fields and "Version" in fields:
                    self.add(fields, keys)

    def add(self, fields, keys):
        known = self.versions[fields["Package"]].setdefault(control.version_key(fields["Version"]), (fields, []))
        known[1].append(keys)

    def add_standing(self, fields):
        """A package of the status file counts where it stands: unconfigured or installed, and sound."""
        want, flag, state = (fields.get("Status", "").split() + ["", "", ""])[:3]
        if want == "hold":
            self.held.add(fields["Package"])
        if flag == "ok" and state in (*UNCONFIGURED, "installed"):
            self.standing[fields["Package"]] = fields
            self.add(fields, {IS_STATUS: "yes"})

    def eligible(self, name):
        """The versions of a name that may be chosen by themselves: the priority and the key of each."""
        stands = control.version_key(self.standing[name]["Version"]) if name in self.standing else None
        for key, (fields, places) in self.versions[name].items():
            priority = self.preferences.priority(name, fields["Version"], places)
            if priority > 0 and (stands is None or key >= stands or priority >= 1000):
                yield priority, key

    def candidate(self, name):
        """The key of the candidate of a name, or None."""
        best = max(self.eligible(name), default=None)
        return best[1] if best else None

    def admitted(self, name, wanted, all_versions):
        """The pairs of a name that a request admits, by version; wanted are the keys that its goals name with `=`."""
        keys = {control.version_key(self.standing[name]["Version"])} if name in self.standing else set()
        if name not in self.held:
            keys.update(key for key in wanted if key in self.versions[name])
            candidate = self.candidate(name)
            keys.update([candidate] if candidate else [])
            keys.update(key for _, key in self.eligible(name) if all_versions)
        return [Pair(name, fields["Version"], fields) for key in sorted(keys) for fields in [self.versions[name][key][0]]]


class Universe:
    """The admitted pairs of a request by number, and its goals."""

    def __init__(self, pairs, goals, held, arch):
        self.pairs, self.goals, self.held, self.arch = pairs, goals, held, arch
        self.by_name = collections.defaultdict(list)
        for pair in pairs:
            self.by_name[pair.name].append(pair)

    @functools.lru_cache(maxsize=None)
    def providers(self):
        """The pairs that provide each name."""
        found = collections.defaultdict(list)
        for pair in self.pairs:
            if "Provides" in pair.fields:
                for atom in control.provided_by(pair.fields):
                    found[atom.name].append(pair)
        return found

    def matched(self, atom):
        """The names and versions of the pairs that match an atom."""
        some = dict.fromkeys([it[:2] for it in self.by_name[atom.name] + self.providers()[atom.name]
                              if control.matches(it.fields, atom, self.arch)])
        return list(some)
