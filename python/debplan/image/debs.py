"""The .deb files of the packages that a plan unpacks: where they are, how they are got, and whether they are those of the index."""
import email.utils
import os
import pathlib
import re
import subprocess

from debplan import control, disk, tool
from debplan.machine.system import HELPER
from debplan.tool import Failure

# The ways that apt's program is given a URI by, and what it says of a file that isn't there (any more).
SCHEMES = ("http", "https", "ftp", "file", "copy")
GONE = re.compile(r"^E: Failed to fetch (\S+) +(?:404|410|File not found)", re.MULTILINE)
VERSION = re.compile(r"[A-Za-z0-9.+~:-]+")
# The sums of a file that are compared, the first of them that a stanza has, and how many digits each has. Others are too weak.
SUMS = {"SHA256": 64, "SHA512": 128}
# The archive on snapshot.debian.org of an index with this label, where its origin is Debian.
SNAPSHOTS = {"Debian": "debian", "Debian Backports": "debian", "Debian-Security": "debian-security"}


def uri_of(fields, keys, field="URI"):
    """The URI of the file of a package: that of its archive, as this field of the sources file has it, with the file's name; or None."""
    uri, name = keys.get(field, ""), fields.get("Filename")
    return uri.rstrip("/") + "/" + name.removeprefix("./") if name and uri.partition(":")[0] in SCHEMES else None


def sum_of(fields):
    """The kind and the value of the sum with which the file of a package is compared. A package without one isn't taken."""
    kind = next((kind for kind in SUMS if kind in fields), None)
    value = fields[kind].lower() if kind else ""
    if not kind or not re.fullmatch(f"[0-9a-f]{{{SUMS[kind]}}}", value):
        why = f"its {kind} is none" if kind else f"it has no {' and no '.join(SUMS)}"
        raise Failure(f"{fields['Package']} {fields['Version']}: by its index nothing says which file is this package: {why}")
    return kind, value


def stamp_of(date):
    """The date of a Release file as snapshot.debian.org writes it, or None."""
    try:
        return email.utils.parsedate_to_datetime(date).strftime("%Y%m%dT%H%M%SZ")
    except (TypeError, ValueError):
        return None


def snapshot_of(keys):
    """The archive of an index as it was when the index was made, by its release keys; None where snapshot.debian.org has none."""
    archive = SNAPSHOTS.get(keys.get("Label")) if keys.get("Origin") == "Debian" else None
    stamp = stamp_of(keys.get("Date", ""))
    return f"http://snapshot.debian.org/archive/{archive}/{stamp}/" if archive and stamp else None


class Debs:
    """The .deb files of the packages that a plan unpacks, each of which has its stanza, and that of its index in the sources. By the
    stanza each has the sum of its file."""

    def __init__(self, folder, located):
        self.folder = pathlib.Path(folder).resolve()
        self.offered = {pair: fields for pair, (fields, _) in located.items()}
        self.keys = {pair: keys for pair, (_, keys) in located.items()}
        strange = next((pair for pair in self.offered if not control.NAME.fullmatch(pair[0]) or not VERSION.fullmatch(pair[1])), None)
        if strange:
            raise Failure(f"{' '.join(strange)} is no name and no version of a package")
        self.sums = {pair: sum_of(fields) for pair, fields in self.offered.items()}

    def names(self, pair):
        """The names that the file of a package may have: apt's, and that of the archive."""
        name, version = pair
        arch = self.offered[pair]["Architecture"]
        return [f"{name}_{version.replace(':', '%3a')}_{arch}.deb", os.path.basename(self.offered[pair].get("Filename", "")) or "-"]

    def file(self, pair):
        """The file of a package, or None. Of an archive on this machine apt leaves a link, which leads nowhere in another root."""
        return next(((self.folder / it).resolve() for it in self.names(pair) if (self.folder / it).is_file()), None)

    def missing(self):
        return [pair for pair in self.offered if self.file(pair) is None]

    def uri(self, pair):
        return uri_of(self.offered[pair], self.keys[pair])

    def download(self):
        """Gets what is missing: from the archive that the sources name, and else by apt's lists."""
        missing = self.missing()
        self.folder.mkdir(parents=True, exist_ok=True)
        by_uri = [pair for pair in missing if self.uri(pair)]
        by_apt = [pair for pair in missing if not self.uri(pair)]
        for first in range(0, len(missing), 200):
            self.get_by_uri(by_uri[first:first + 200])
            self.get_by_apt(by_apt[first:first + 200])

    def fetch(self, pairs, field):
        """Gets the files of these packages from where this field of the sources says that they are, each with its sum."""
        words = [HELPER, "download-file", "-o", "APT::Sandbox::User=root"]
        for pair in pairs:
            words += [uri_of(self.offered[pair], self.keys[pair], field), str(self.folder / self.names(pair)[0]), ":".join(self.sums[pair])]
        return tool.run_of(words)

    def get_by_uri(self, pairs):
        """Gets the files of these packages from their archives, what these don't have any more from the snapshots, and the rest by apt."""
        run = self.fetch(pairs, "URI") if pairs else None
        if run and run.returncode:
            gone, missing = GONE.findall(run.stderr), [pair for pair in pairs if self.file(pair) is None]
            self.get_old([pair for pair in missing if self.uri(pair) in gone])
            # an archive that asks for a password has it in apt's sources, and not in those of the folder
            self.get_by_apt([pair for pair in missing if self.uri(pair) not in gone], f"\n{tool.last_words(run)}")

    def get_old(self, pairs):
        """Gets what the archives don't have any more from the snapshots that the sources name, and says so."""
        lost = next((pair for pair in pairs if not uri_of(self.offered[pair], self.keys[pair], "Snapshot")), None)
        if lost:
            raise Failure(self.told_gone(lost, len(pairs)))
        for place in sorted({self.keys[pair]["Snapshot"] for pair in pairs}):
            some = [pair for pair in pairs if self.keys[pair]["Snapshot"] == place]
            print(f"{self.keys[some[0]]['URI']} has moved on: {len(some)} files are got from {place}", flush=True)
            run = self.fetch(some, "Snapshot")
            if run.returncode:
                raise Failure(f"{place} doesn't have all of them:\n{tool.last_words(run)}")

    def told_gone(self, pair, count):
        """That an archive doesn't have the file of a package any more, of which day its index is, and where the file may still be."""
        keys, snapshot = self.keys[pair], snapshot_of(self.keys[pair]) or "URI"
        return (f"{keys['URI']} doesn't have the file of {' '.join(pair)} any more, and {count} are missing in all: the archive has moved on "
                f"since the index was made{', ' + keys['Date'] if 'Date' in keys else ''}\n"
                f"with `Snapshot: {snapshot}` below that URI in the sources file or the lock file they are asked for there")

    def get_by_apt(self, pairs, why=""):
        """Gets the files of these packages by `apt-get download`; why they couldn't be had otherwise is told where that fails too."""
        if not pairs:
            return
        wanted = [f"{name}:{self.offered[name, version]['Architecture']}={version}" if self.offered[name, version]["Architecture"] != "all"
                  else f"{name}={version}" for name, version in pairs]
        words = ["apt-get", "download", "-q", "-o", "APT::Sandbox::User=root", *wanted]
        run = subprocess.run(words, cwd=self.folder, stdin=subprocess.DEVNULL, stdout=subprocess.DEVNULL, stderr=subprocess.PIPE,
                             encoding="utf-8", errors="replace", check=False)
        if run.returncode:
            raise Failure(f"not all packages were downloaded:{why}\n{tool.last_words(run)}")

    def verify(self):
        """Compares each file with the sum of its stanza."""
        missing = self.missing()
        if missing:
            raise Failure(f"{self.folder} has no file of {' '.join(missing[0])}, and {len(missing)} are missing in all")
        for pair, (kind, value) in self.sums.items():
            if disk.sum_of(self.file(pair), kind) != value:
                raise Failure(f"{self.file(pair)} isn't the file of {' '.join(pair)} that the index names: its {kind} is another one")
