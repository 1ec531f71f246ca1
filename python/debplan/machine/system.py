"""The machine whose apt and dpkg are asked."""
from __future__ import annotations

import os
import pathlib
import shutil
import tempfile
from typing import Optional

from debplan.answers import Path
from debplan.control import stanzas_named
from debplan.tool import Failure, said_by

# apt's program that downloads and that reads its lists.
HELPER = "/usr/lib/apt/apt-helper"
# Where apt has what is read of a machine, if its settings don't say otherwise (apt.conf(5),
# "DIRECTORIES").
PLACES = {
    "Dir::State::lists/d": "var/lib/apt/lists/",
    "Dir::State::status/f": "var/lib/dpkg/status",
    "Dir::Etc::sourcelist/f": "etc/apt/sources.list",
    "Dir::Etc::sourceparts/d": "etc/apt/sources.list.d/",
    "Dir::Etc::preferences/f": "etc/apt/preferences",
    "Dir::Etc::preferencesparts/d": "etc/apt/preferences.d/",
}


class Machine:
    """A machine whose apt and dpkg are asked: this one, or the root of another system below a
    folder. Where this machine has no apt, the root is as apt's own settings would have it."""

    def __init__(self, root: Optional[Path] = None) -> None:
        self.root = pathlib.Path(root or "/").resolve()
        self.env, self.config = {}, None
        if str(self.root) != "/":
            # apt reads this file first, and goes on with the files that it names
            self.config = tempfile.NamedTemporaryFile("w", prefix="debplan-apt-", suffix=".conf")
            self.config.write(
                f'Dir "{self.root}/";\nDir::State::status "{self.root}/var/lib/dpkg/status";\n'
                'Dir::Cache::pkgcache "";\nDir::Cache::srcpkgcache "";\n'
            )
            self.config.flush()
            self.env = {"APT_CONFIG": self.config.name}

    def has_apt(self) -> bool:
        """Whether there is an apt to be asked."""
        return bool(shutil.which("apt-get")) and os.path.exists(HELPER)

    def says(self, *words: str, limit: Optional[int] = None) -> str:
        """What a program of apt says of the machine."""
        return said_by(words, limit, self.env)

    def arch(self) -> str:
        """The architecture of dpkg; of another system the one for which it has dpkg installed."""
        listed = self.root / "var/lib/dpkg/arch-native"
        if os.environ.get("ARCH") or not self.env:
            return native_architecture()
        return (
            listed.read_text().strip()
            if listed.is_file()
            else self.arch_of_dpkg() or native_architecture()
        )

    def arch_of_dpkg(self) -> Optional[str]:
        """The architecture of the package dpkg in the status file; None where that has no such
        package."""
        path = self.root / PLACES["Dir::State::status/f"]
        stanzas = stanzas_named(path, {"dpkg"}) if path.is_file() else ()
        return next(
            (fields["Architecture"] for fields in stanzas if "Architecture" in fields), None
        )

    def status(self) -> pathlib.Path:
        """The status file."""
        return pathlib.Path(
            os.environ.get("STATUS")
            or self.setting("Dir::State::status/f")
            or "/var/lib/dpkg/status"
        )

    def setting(self, name: str) -> str:
        """A setting of apt's configuration; empty where there is none."""
        if not self.has_apt():
            return str(self.root / PLACES[name]) if name in PLACES else ""
        return self.says("apt-config", "shell", "it", name).partition("=")[2].strip().strip("'")

    def settings(self) -> str:
        """All settings as a text."""
        return self.says("apt-config", "dump") if self.has_apt() else ""


def native_architecture() -> str:
    """The architecture that is asked about: that of the environment, or else of this machine's
    dpkg."""
    if not os.environ.get("ARCH") and not shutil.which("dpkg"):
        raise Failure("dpkg is missing, which says the architecture: name it in ARCH", 69)
    return os.environ.get("ARCH") or said_by(["dpkg", "--print-architecture"]).strip()
