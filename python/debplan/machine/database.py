"""The database of dpkg."""
from __future__ import annotations

from typing import Any, List, Mapping, Optional

from debplan.answers import Path
from debplan.control import Fields, stanzas_in

# The states in which triggers are left to be processed (deb-triggers(5)), of what waits to be
# configured, and of what is there.
TRIGGERED = ("triggers-awaited", "triggers-pending")
UNCONFIGURED = ("unpacked", "half-configured", *TRIGGERED)
PRESENT = ("half-installed", *UNCONFIGURED, "installed")


class Database:
    """The packages of a status file, and what the steps of a plan leave of them (docs/FORMATS.md,
    section 11)."""

    def __init__(self, path: Path) -> None:
        self.records = {
            fields["Package"]: fields
            for fields in stanzas_in(path)
            if "Package" in fields
            and fields.get("Status", "").split()[-1:] not in ([], ["not-installed"])
        }

    def state(self, name: str) -> str:
        """The state of a package; not-installed where it has no record."""
        return self.records[name]["Status"].split()[-1] if name in self.records else "not-installed"

    def version(self, name: str) -> Optional[str]:
        """The version of a package that is present, or None."""
        return self.records[name].get("Version") if self.state(name) in PRESENT else None

    def put(self, name: str, want: Optional[str], state: str, config: Optional[str]) -> None:
        """Changes a record. The version last configured is written of a package that isn't
        installed, where there is one."""
        fields = self.records[name]
        flag = fields["Status"].split()[1]
        fields["Status"] = f"{want or fields['Status'].split()[0]} {flag} {state}"
        for key in ("Config-Version", "Triggers-Pending", "Triggers-Awaited"):
            fields.pop(key, None)
        if config and state != "installed":
            fields["Config-Version"] = config

    def configured_version(self, name: str) -> Optional[str]:
        """The version last configured, or None."""
        if self.state(name) in ("installed", *TRIGGERED):
            return self.records[name]["Version"]
        return self.records.get(name, {}).get("Config-Version")

    def take(self, step: List[str], offered: Mapping[Any, Fields]) -> None:
        """Takes a step; an unpacking has its stanza among those that are offered by name and
        version."""
        kind, name = step[:2]
        if kind == "unpack":
            config = self.configured_version(name) if self.state(name) in PRESENT[1:] else None
            self.records[name] = {**offered[name, step[2]], "Status": "install ok unpacked"}
            self.put(name, "install", "unpacked", config)
        elif kind == "configure":
            for it in step[1:]:
                self.put(it, None, "installed", None)
        elif kind == "purge":
            self.records.pop(name, None)
        else:
            state = {"deconfigure": "half-configured", "remove": "config-files"}[kind]
            self.put(
                name,
                "deinstall" if kind == "remove" else None,
                state,
                self.configured_version(name),
            )
