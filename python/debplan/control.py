"""Control text (Policy 5.1), relations (Policy 7.1) and versions (Policy 5.6.12): the one reader of
them."""
from __future__ import annotations

import functools
import pathlib
import re
from typing import (
    Any,
    Container,
    Dict,
    Iterable,
    Iterator,
    List,
    Mapping,
    NamedTuple,
    Optional,
    Tuple,
)

from debplan.answers import Path
from debplan.tool import Failure

Fields = Dict[str, str]
# A name and a version.
Pair = Tuple[str, str]
RELATIONS = ("Pre-Depends", "Depends", "Conflicts", "Breaks", "Provides")
NAME = re.compile(r"[A-Za-z0-9][A-Za-z0-9+.-]*")
# The name of a field (docs/FORMATS.md, section 1), and those that are asked for, by their letters
# without capitals.
FIELD_NAME = re.compile(r"(?![#-])[!-9;-~]+")
SPELLED = {
    it.lower(): it
    for it in (
        *RELATIONS,
        "Package",
        "Version",
        "Architecture",
        "Status",
        "Config-Version",
        "Essential",
        "Protected",
        "Priority",
        "Source",
        "Recommends",
        "Maintainer",
        "Filename",
        "Size",
        "Installed-Size",
        "SHA256",
        "SHA512",
        "Triggers-Pending",
        "Triggers-Awaited",
        "File",
        "Archive",
        "Suite",
        "Codename",
        "Component",
        "Origin",
        "Label",
        "Host",
        "Date",
        "URI",
        "Distribution",
        "Snapshot",
        "NotAutomatic",
        "ButAutomaticUpgrades",
        "Index-SHA256",
        "Pin",
        "Pin-Priority",
        "Explanation",
        "Lock",
        "Status-SHA256",
        "Target",
        "Preferences",
        "Request",
        "Plan",
        "Index",
        "Types",
        "URIs",
        "Suites",
        "Components",
        "Architectures",
        "Architectures-Remove",
        "Enabled",
        "Signed-By",
    )
}
# What separates stanzas: lines that are empty or hold nothing but spaces and tabs. And the name of
# a stanza's package.
SEPARATOR = re.compile(rb"\n(?:[ \t]*\n)+")
PACKAGE = re.compile(rb"^package:[ \t]*([^ \t\r\n]*)", re.IGNORECASE | re.MULTILINE)
ATOM = re.compile(
    r"\s*([A-Za-z0-9][A-Za-z0-9+.-]*)(?::([A-Za-z0-9-]+))?\s*(?:\(\s*(<<|<=|=|>=|>>|<|>)\s*([^\s)]+)\s*\))?\s*"
)


class Atom(NamedTuple):
    """An atom of a relation: a name, perhaps with an architecture, and a restriction."""

    name: str
    qualifier: Optional[str]
    operator: Optional[str]
    version: Optional[str]


Clause = Tuple[Atom, ...]


@functools.lru_cache(maxsize=4096)
def spelled(name: str) -> Optional[str]:
    """The name of a field as it is asked for: any other case of its letters is the same name. None
    where that is no name."""
    return SPELLED.get(name.lower(), name) if FIELD_NAME.fullmatch(name) else None


def stanzas_in(path: Path) -> Iterator[Fields]:
    """Yields the stanzas of a control file, each as its fields, whose values keep their
    newlines."""
    with open(path, encoding="utf-8", errors="surrogateescape", newline="\n") as lines:
        yield from stanzas_of(lines, path)


def stanzas_of(lines: Iterable[str], place: object = "a text") -> Iterator[Fields]:
    """Yields the stanzas of these lines, without comments. What can't be read ends the tool, with
    the line."""
    fields: Fields = {}
    name: Optional[str] = None
    for number, line in enumerate(lines, 1):
        if line[0] in " \t" and line.strip(" \t\n"):
            if name is None:
                raise Failure(f"{place}: line {number} continues no field")
            fields[name] += "\n" + line.rstrip("\n").rstrip(" \t")
        elif not line.strip(" \t\n"):
            if fields:
                yield fields
            fields, name = {}, None
        elif not line.startswith("#"):
            key, colon, value = line.partition(":")
            name = spelled(key)
            if not colon or not name:
                raise Failure(f"{place}: line {number} is no field: {line.strip()[:80]}")
            if name in fields and name != "Explanation":
                raise Failure(f"{place}: line {number} has the field {name} again")
            fields.setdefault(name, value.strip(" \t\n"))
    if fields:
        yield fields


def texts_in(path: Path) -> List[bytes]:
    """The texts of the stanzas of a control file, as their bytes without the newline behind
    them."""
    return [
        text
        for text in SEPARATOR.split(b"\n\n" + pathlib.Path(path).read_bytes() + b"\n\n")
        if text
    ]


def stanzas_named(path: Path, names: Container[str]) -> Iterator[Fields]:
    """Yields the stanzas of these names in an index, in their order, without reading the others."""
    yield from (fields_of(text, path) for text in texts_in(path) if name_in(text) in names)


def name_in(text: bytes) -> Optional[str]:
    """The name of the package of a stanza, of its bytes, without reading the other fields; None
    where it has none."""
    found = PACKAGE.search(text)
    return found.group(1).decode("utf-8", "surrogateescape") if found else None


def fields_of(text: bytes, place: object = "a stanza") -> Fields:
    """The fields of a stanza, of its bytes."""
    return next(
        stanzas_of(
            (f"{line}\n" for line in text.decode("utf-8", "surrogateescape").split("\n") if line),
            place,
        ),
        {},
    )


def indices_in(path: Path) -> List[Fields]:
    """The stanzas of a sources file that name an index. A path that begins on the line below `File`
    begins with a newline."""
    return [keys for keys in stanzas_in(path) if "File" in keys]


def names_without(arch: str, value: str) -> List[str]:
    """Names in a row, each without this architecture behind it."""
    return [word[: -len(arch) - 1] if word.endswith(f":{arch}") else word for word in value.split()]


def text_of(fields: Mapping[str, str]) -> str:
    """The text of a stanza, with the empty line behind it."""
    parts = (
        f"{key}:{'' if value.startswith(chr(10)) or not value else ' '}{value}\n"
        for key, value in fields.items()
    )
    return "".join(parts) + "\n"


def weights_of(word: str) -> Tuple[int, ...]:
    """A piece without digits as its weights: a tilde below the end of the piece, letters above it,
    other bytes above these."""
    return (*(-1 if it == "~" else ord(it) if it.isalpha() else ord(it) + 256 for it in word), 0)


def number_key(digits: str) -> Tuple[int, str]:
    """A number of any length as a key by which numbers are in order."""
    digits = digits.lstrip("0")
    return len(digits), digits


def pieces_of(text: str) -> Tuple[Any, ...]:
    return tuple(
        (weights_of(word), number_key(digits)) for word, digits in re.findall(r"(\D*)(\d*)", text)
    )


@functools.lru_cache(maxsize=None)
def version_key(version: str) -> Tuple[Any, ...]:
    """A version as a key by which versions are in order."""
    epoch, colon, rest = version.partition(":")
    if not colon:
        epoch, rest = "0", version
    upstream, hyphen, revision = rest.rpartition("-")
    if not hyphen:
        upstream, revision = rest, "0"
    return (
        number_key(epoch) if epoch.isdigit() else (-1, ""),
        pieces_of(upstream),
        pieces_of(revision),
    )


def meets(version: str, atom: Atom) -> bool:
    """Whether a version meets the restriction of an atom."""
    if not atom.operator:
        return True
    one, other = version_key(version), version_key(atom.version)
    return {
        "<<": one < other,
        "<": one <= other,
        "<=": one <= other,
        "=": one == other,
        ">=": one >= other,
        ">": one >= other,
        ">>": one > other,
    }[atom.operator]


@functools.lru_cache(maxsize=None)
def clauses_of(value: str) -> Tuple[Clause, ...]:
    """The clauses of a relation field, each as its atoms."""
    found = []
    for clause in value.split(","):
        atoms = tuple(
            Atom(*match.groups()) for match in map(ATOM.fullmatch, clause.split("|")) if match
        )
        if atoms:
            found.append(atoms)
    return tuple(found)


def clauses_in(fields: Fields, *kinds: str) -> List[Clause]:
    """The clauses of these relation fields of a stanza."""
    return [clause for kind in kinds for clause in clauses_of(fields.get(kind, ""))]


def provided_by(fields: Fields) -> List[Atom]:
    """What a package provides, as atoms."""
    return [atom for clause in clauses_in(fields, "Provides") for atom in clause]


def names_of(fields: Fields) -> List[str]:
    """The name of a package, and the names that it provides."""
    return [fields["Package"], *(atom.name for atom in provided_by(fields))]


def matches(fields: Fields, atom: Atom, arch: Optional[str] = None) -> bool:
    """Whether a package matches an atom (Policy 7.5). A qualifier of another architecture is
    matched by nothing."""
    if atom.qualifier not in (None, "any", "native", arch) and arch:
        return False
    if fields["Package"] == atom.name and meets(fields["Version"], atom):
        return True
    return any(
        it.name == atom.name and (not atom.operator or it.version and meets(it.version, atom))
        for it in provided_by(fields)
    )


def written(atoms: Iterable[Atom]) -> str:
    """A clause as it is written."""
    return " | ".join(
        f"{it.name}{':' + it.qualifier if it.qualifier else ''}{f' ({it.operator} {it.version})' if it.operator else ''}"
        for it in atoms
    )
