"""The lists of packages that apt's sources ask for (sources.list(5)), found without apt: where it keeps the list of each."""
import bz2
import collections
import gzip
import lzma
import pathlib
import re

from debplan import control
from debplan.tool import Failure

# A source of packages: the URI of its archive, its suite, its components, of which a flat archive has none, and whether it is asked for
# packages of the architecture; those for all architectures it's asked for in any case; and by which keys it is signed, as its field
# Signed-By says it.
Source = collections.namedtuple("Source", "uri suite components has_arch signed_by")
# How a list is read that has this at the end of its name.
OPENED = {"": open, ".gz": gzip.open, ".xz": lzma.open, ".lzma": lzma.open, ".bz2": bz2.open}
ENDINGS = (*OPENED, ".lz4", ".zst")
FILE = re.compile(r"[A-Za-z0-9_:-][A-Za-z0-9_:.-]*\.(?:list|sources)")
LINE = re.compile(r"deb\s+(?:\[([^\]]*)\]\s*)?((?:\[[^\]]*\]|\S)+)\s+(\S+)\s*(.*)")
NO = ("no", "false", "without", "off", "disable", "0")
# Where a URI names its place: behind the scheme, and the name and the password before the host.
BEFORE_PLACE = re.compile(r"^[^:/]*:(?://(?:[^/@]*@)?)?")
QUOTED = re.compile(r"[\\|{}\[\]<>\"^~_=!@#$%&*\x00-\x20\x7f-\xff]")


# Sources


def is_for(arch, named, removed):
    """Whether a source is for this architecture, where it names some, or takes some away."""
    return arch not in removed and (not named or arch in named)


def of_lines(text, arch):
    """Yields the sources of a file with one in each line."""
    for line in text.splitlines():
        parts = LINE.fullmatch(line.partition("#")[0].strip())
        if parts:
            options, uri, suite, components = parts.groups()
            by_name = dict(re.findall(r"(\S+?)=(\S*)", options or ""))
            named, removed = (list(filter(None, by_name.get(key, "").split(","))) for key in ("arch", "arch-"))
            yield Source(uri, suite, components.split(), is_for(arch, named, removed), by_name.get("signed-by", ""))


def of_stanzas(text, arch, place):
    """Yields the sources of a file of stanzas."""
    for stanza in control.stanzas_of(text.splitlines(True), place):
        fields = {name: value.split() for name, value in stanza.items()}
        if "deb" in fields.get("Types", ()) and "".join(fields.get("Enabled", ())).lower() not in NO:
            has_arch = is_for(arch, fields.get("Architectures"), fields.get("Architectures-Remove", ()))
            for uri in fields.get("URIs", ()):
                yield from (Source(uri, suite, fields.get("Components", []), has_arch, stanza.get("Signed-By", ""))
                            for suite in fields.get("Suites", ()))


def sources_of(machine, arch):
    """Yields the sources of a machine in apt's order."""
    main, parts = (pathlib.Path(machine.setting(it)) for it in ("Dir::Etc::sourcelist/f", "Dir::Etc::sourceparts/d"))
    files = [main] if main.is_file() else []
    files += sorted(it for it in parts.iterdir() if FILE.fullmatch(it.name) and it.is_file()) if parts.is_dir() else []
    for file in files:
        text = file.read_text(encoding="utf-8", errors="replace")
        for source in of_stanzas(text, arch, file) if file.suffix == ".sources" else of_lines(text, arch):
            yield source._replace(uri=source.uri.rstrip("/") + "/", suite=source.suite.replace("$(ARCH)", arch))


# Lists


def place_of(source):
    """The URI of the folder that has the Release file of a source."""
    if source.suite.endswith("/"):
        return source.uri + source.suite.lstrip("/")
    return f"{source.uri}dists/{source.suite}/"


def without_words(uri):
    """A URI without the name and the password that may stand before its host."""
    return re.sub(r"^([a-z0-9+.-]+://)[^/@]*@", r"\1", uri)


def name_of(uri):
    """The name by which apt keeps what it gets from a URI."""
    return QUOTED.sub(lambda it: f"%{ord(it[0]):02x}", BEFORE_PLACE.sub("", uri)).replace("/", "_")


def parts_of(source, arch):
    """Yields the component, the architecture and the path below its place of each list of a source. A flat archive has one list."""
    if not source.components:
        yield "", "", "Packages"
    for component in source.components:
        for of in (arch, "all") if source.has_arch else ("all",):
            yield component, of, f"{component}/binary-{of}/Packages"


def targets_for(machine, arch):
    """Yields of each list of packages for this architecture the file, the component, the architecture, the site, the URI of the archive
    and the name by which the sources ask for it. What is asked for twice is yielded once."""
    lists, known = pathlib.Path(machine.setting("Dir::State::lists/d")), set()
    for source in sources_of(machine, arch):
        for component, of, path in parts_of(source, arch):
            name = name_of(place_of(source) + path)
            listed = next((lists / f"{name}{it}" for it in ENDINGS if (lists / f"{name}{it}").is_file()), None)
            if listed and listed not in known:
                known.add(listed)
                yield str(listed), component, of, without_words(source.uri).rstrip("/"), source.uri, source.suite


def missing_for(machine, arch):
    """Yields the place of each source that has no list."""
    lists = pathlib.Path(machine.setting("Dir::State::lists/d"))
    for place in dict.fromkeys(map(place_of, sources_of(machine, arch))):
        if not any((lists / name_of(f"{place}{it}")).is_file() for it in ("InRelease", "Release")):
            yield without_words(place).rstrip("/")


def text_of(listed):
    """The bytes of a list, uncompressed."""
    ending = next((it for it in ENDINGS if it and listed.endswith(it)), "")
    if ending not in OPENED:
        raise Failure(f"{listed} can't be read without apt: uncompress it")
    try:
        with OPENED[ending](listed, "rb") as file:
            return file.read()
    except (OSError, EOFError, lzma.LZMAError):
        raise Failure(f"{listed} can't be read: run 'apt-get update' first") from None
