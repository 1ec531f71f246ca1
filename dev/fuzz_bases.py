"""What dev/fuzz changes: whole calls of the program over texts, of the scenarios and of real inputs."""
import functools
import pathlib
import re
from dataclasses import dataclass, field

from journal_bytes import stanzas_in, value_in
from scenario_text import HEADS, scenarios_of

TOP = pathlib.Path(__file__).resolve().parent.parent
LAST = {"check-plan": "plan", "apply": "plan", "check-refutation": "refutation"}
NAME = re.compile(rb"[A-Za-z0-9][A-Za-z0-9+.-]*")
NEEDS = re.compile(rb"^(?:Pre-Depends|Depends|Conflicts|Breaks):(.*)$", re.MULTILINE)
PROVIDES = re.compile(rb"^Provides:(.*)$", re.MULTILINE)


@dataclass
class Base:
    """A call: where it is from, the texts of its files by their names, the kind of the command, its options and the words behind
    them, and whether its words are none that the program refuses or has help for. Of a call that has no options in this form its
    words stand alone."""

    label: str
    texts: dict
    kind: str
    options: list = field(default_factory=list)
    rest: list = field(default_factory=list)
    is_call: bool = True

    def words(self):
        """The words of its command line."""
        if not self.options:
            return [self.kind, *self.rest]
        words = [self.kind, *self.options, *(["--request", "request"] if self.kind not in ("candidate", "installable") else [])]
        if self.kind == "apply":
            words += ["--journal", "journal", "--output", "output"]
        return [*words, *self.rest, *([LAST[self.kind]] if self.kind in LAST else [])]

    def command(self, kind, text=None):
        """Another command over the same texts, with a plan or a refutation of this text."""
        texts = self.texts if text is None else {**self.texts, LAST[kind]: text}
        return Base(self.label, texts, kind, self.options, [])


# Scenarios


def base_of(label, scenario, command):
    """The call of a command of a scenario. The file that it has itself is among the texts."""
    texts = dict(scenario.files())
    if command.text is not None and command.file() not in scenario.missing:
        texts[command.file()] = command.text
    if command.kind in ("run", "compare"):
        kind, *rest = command.words(scenario) or [""]
        return Base(label, texts, kind, [], rest, command.wanted.form not in ("usage", "help"))
    rest = [] if command.kind in HEADS else command.rest.split()
    return Base(label, texts, command.kind, scenario.option_words(), rest)


@functools.lru_cache(maxsize=None)
def scenario_bases():
    """The calls of all scenarios, in the order of their files, but for those whose request is no file, that read standard input, that
    have sentences beside their answer, or that write files into a folder."""
    found = []
    for path in sorted((TOP / "scenarios").glob("*.txt")):
        for scenario in scenarios_of(path.read_text(encoding="utf-8")):
            if scenario.goals is None and not scenario.input:
                found += [base_of(f"{path.name}:{command.line}", scenario, command) for command in scenario.commands
                          if not {"--explain", "--keep-back", "--refutations"} & set(command.words(scenario))]
    return found


# Real inputs


def field_names(pattern, stanza):
    """The names in the relation fields of a stanza that the pattern finds."""
    values = b",".join(re.sub(rb"\([^)]*\)", b"", value) for value in pattern.findall(stanza))
    return [it.group() for it in map(NAME.match, re.split(rb"[\s,|]+", values)) if it]


class Real:
    """The inputs of a folder that tools/collect-inputs wrote, of which small worlds are cut."""

    def __init__(self, folder):
        self.folder = pathlib.Path(folder).resolve()
        self.sources = stanzas_in((self.folder / "sources").read_bytes())
        self.standing = {value_in(it, b"Package"): it for it in stanzas_in((self.folder / "status").read_bytes())}
        self.by_name, self.providers = {}, {}
        for number, path in enumerate(self.paths()):
            for stanza in stanzas_in(path.read_bytes()):
                self.by_name.setdefault(value_in(stanza, b"Package"), []).append((number, stanza))
                for name in field_names(PROVIDES, stanza):
                    self.providers.setdefault(name, set()).add(value_in(stanza, b"Package"))
        self.names = sorted(self.by_name)

    def paths(self):
        return [self.folder / value_in(it, b"File").decode() for it in self.sources]

    def needed(self, name):
        """The names that the stanzas of a name need or are against, and who provides them."""
        for _, stanza in self.by_name.get(name, []):
            for other in field_names(NEEDS, stanza):
                yield other
                yield from sorted(self.providers.get(other, ()))[:3]

    def closure(self, names, most):
        """These names and what they need, and so on, so many at most."""
        found, left = dict.fromkeys(names), list(names)
        while left and len(found) < most:
            for name in self.needed(left.pop(0)):
                if name not in found and len(found) < most:
                    found[name] = None
                    left.append(name)
        return list(found)

    def sources_with(self, names):
        """The sources with other names of files."""
        renamed = (re.sub(rb"^File:.*$", b"File: " + name, stanza, flags=re.MULTILINE | re.IGNORECASE)
                   for stanza, name in zip(self.sources, names))
        return b"\n".join(renamed)

    def indices(self, names):
        """The stanzas of these names, as a text for each index."""
        found = [[] for _ in self.sources]
        for name in names:
            for number, stanza in self.by_name.get(name, []):
                found[number].append(stanza)
        return [b"\n".join(stanzas) for stanzas in found]

    def base(self, chance):
        """A call over a small world; now and then over the whole indices."""
        goals = chance.sample(self.names, chance.randrange(1, 4))
        names = self.closure(goals, chance.choice((20, 100, 300)))
        names += chance.sample(self.names, 10)
        texts = {"request": request_of(chance, goals, names, list(self.standing))}
        if chance.randrange(60) == 0:
            texts["sources"] = self.sources_with([bytes(path) for path in self.paths()])
            texts["status"] = b"\n".join(self.standing.values())
        else:
            indices = [f"index{number}" for number in range(1, len(self.sources) + 1)]
            texts.update(zip(indices, self.indices(names)))
            texts["sources"] = self.sources_with([name.encode() for name in indices])
            texts["status"] = status_of(chance, self.standing, names)
        options = ["--arch", "amd64", "--status", "status", "--sources", "sources"]
        if chance.randrange(3) == 0:
            texts["preferences"] = preferences_of(chance, names)
            options += ["--preferences", "preferences"]
        return Base(f"{self.folder.name}, {goals[0].decode('utf-8', 'replace')}", texts, "solve", options, [])


def status_of(chance, standing, names):
    """A status file with most of what stands of these names, or with nothing."""
    if chance.randrange(3) == 0:
        return b""
    return b"\n".join(standing[name] for name in names if name in standing and chance.randrange(8))


def request_of(chance, goals, names, standing):
    """A request that asks for these packages, and perhaps for changes of others."""
    lines = [b"install " + name for name in goals]
    for _ in range(chance.choice((0, 0, 1, 3))):
        name = chance.choice(chance.choice((names, standing or names)))
        lines.append(chance.choice((b"install", b"remove", b"purge", b"upgrade")) + b" " + name)
    lines += [line for line in (b"upgrade-all", b"no-remove", b"all-versions") if chance.randrange(6) == 0]
    return b"".join(line + b"\n" for line in lines)


def preferences_of(chance, names):
    """A few records."""
    pins = (b"release a=stable", b"release n=bookworm, c=main", b"version *", b"version 1*", b'origin ""', b"release o=Debian",
            b"origin deb.debian.org")
    record = b"Package: %s\nPin: %s\nPin-Priority: %d\n"
    return b"\n".join(record % (chance.choice((b"*", *names)), chance.choice(pins), chance.choice((-1, 1, 100, 500, 990, 1000, 1001)))
                      for _ in range(chance.randrange(1, 5)))
