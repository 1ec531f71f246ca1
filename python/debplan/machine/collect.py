"""What debplan reads of a machine, collected into a folder: indices, the sources file, the status file and pins."""
import hashlib
import os
import pathlib
import re
import shutil
import subprocess

from debplan import control, disk
from debplan.apt import pins, sources as apt_sources
from debplan.machine.database import TRIGGERED
from debplan.machine.system import HELPER
from debplan.tool import Failure

# The file that says which pins of the machine aren't in a folder of inputs.
LEFT_OUT = "pins-left-out"
# The file that says which pins match nothing in the lists, and what stands behind one of which that was so before.
UNMATCHED_PINS, AS_BEFORE = "pins-unmatched", " (as before)"
# How a line on such pins begins.
TOLD_LEFT_OUT, TOLD_UNMATCHED = "preferences: left out: ", "preferences: matches nothing in the lists: "
RELEASE_KEYS = ("Suite", "Codename", "Version", "Origin", "Label", "Date", "NotAutomatic", "ButAutomaticUpgrades")
WRITTEN = ("status", "sources", "preferences")


# Indices


def release_keys(listed, component, of):
    """The release keys of a list of apt, from the Release file beside it. A flat archive has no component."""
    beginning = listed.split(f"_{component}_binary-{of}_Packages" if component else "_Packages")[0]
    for file in (f"{beginning}_InRelease", f"{beginning}_Release"):
        if os.path.exists(file):
            with open(file, encoding="utf-8", errors="replace") as lines:
                text = lines.read()
            found = {key: re.search(rf"^{key}:[ \t]*(.*\S)[ \t]*$", text, re.MULTILINE) for key in RELEASE_KEYS}
            return as_read({key: match.group(1) for key, match in found.items() if match})
    return {}


def as_read(keys):
    """The release keys as apt reads them: several words say yes, and upgrades alone make an archive not automatic, too."""
    for key in ("NotAutomatic", "ButAutomaticUpgrades"):
        if keys.pop(key, "no").lower() in ("yes", "true", "with", "on", "enable", "1"):
            keys.update(dict.fromkeys(("NotAutomatic", key), "yes"))
    return keys


def write_index(listed, index, by_apt):
    """Writes a list of apt uncompressed, and returns how many packages it has."""
    if by_apt:
        with open(index, "wb") as to:
            run = subprocess.run([HELPER, "cat-file", listed], stdout=to, stdin=subprocess.DEVNULL, check=False)
        if run.returncode:
            raise Failure(f"{listed} can't be read: run 'apt-get update' first")
    else:
        index.write_bytes(apt_sources.text_of(listed))
    with open(index, "rb") as lines:
        return sum(line.startswith(b"Package:") for line in lines)


def targets_for(machine, arch):
    """Yields of each list of packages for this architecture the file, the component, the architecture, the site, the URI of the archive
    and the name by which apt's sources ask for it."""
    if not machine.has_apt():
        yield from apt_sources.targets_for(machine, arch)
        return
    form = "$(FILENAME)|$(COMPONENT)|$(ARCHITECTURE)|$(SITE)|$(REPO_URI)|$(RELEASE)"
    for line in machine.says("apt-get", "indextargets", "--format", form, "Created-By: Packages").splitlines():
        listed, component, of, *place = ("" if it.startswith("$(") else it for it in line.split("|"))
        if of in (arch, "all", ""):
            yield listed, component, of, *place


def host_of(site):
    return re.sub(r":[0-9]*$", "", re.sub(r"^[a-z+]*:/*", "", site).split("/")[0]) if "//" in site else ""


def write_sources(folder, machine, arch, tell):
    """Writes the indices and the sources file, and returns the stanzas of the latter."""
    stanzas = []
    for number, (listed, component, of, site, uri, distribution) in enumerate(targets_for(machine, arch), 1):
        index = folder.resolve() / f"index-{number}.Packages"
        count = write_index(listed, index, machine.has_apt())
        keys = {"File": str(index), **release_keys(listed, component, of), "Component": component, "Host": host_of(site),
                "URI": apt_sources.without_words(uri), "Distribution": distribution, "Index-SHA256": disk.sha256_of(index)}
        stanzas.append({key: value for key, value in keys.items() if value})
        tell(f"index {number}: {count} packages of {component or 'a flat archive'}, {site}")
    tell_missing(machine, arch, tell)
    if not stanzas:
        raise Failure(f"apt has no lists of packages for {arch}: run 'apt-get update' first")
    disk.write_text(folder / "sources", "".join(map(control.text_of, stanzas)).rstrip("\n") + "\n")
    return stanzas


def tell_missing(machine, arch, tell):
    """Names each source of apt that has no list."""
    for place in missing_by_apt(machine) if machine.has_apt() else apt_sources.missing_for(machine, arch):
        tell(f"no list: {place}: run 'apt-get update', or see why it failed")


def missing_by_apt(machine):
    """Yields the place of each source that has no list, as apt sees it."""
    lists = pathlib.Path(machine.setting("Dir::State::lists/d"))
    said = machine.says("apt-get", "update", "--print-uris", "-o", "Debug::NoLocking=true")
    for uri, name in re.findall(r"^'(\S+)' (\S+) ", said, re.MULTILINE):
        release = re.sub(r"_InRelease$", "_Release", name)
        if release != name and not any((lists / it).exists() for it in (name, release)):
            yield re.sub(r"/?(dists/)?InRelease$", "", uri)


def tell_unread(machine, tell):
    """Names the files of apt's settings, where there is no apt that reads them."""
    folder = machine.root / "etc/apt"
    files = [it for it in (folder / "apt.conf", *sorted((folder / "apt.conf.d").glob("*"))) if it.is_file()]
    if files and not machine.has_apt():
        tell(f"settings: not counted, since no apt is here to read them: {', '.join(it.name for it in files)}")


# Status


def write_status(folder, status, arch, tell):
    """Copies the status file, and says which packages debplan would refuse it for, and which a plan has to configure."""
    shutil.copyfile(status, folder / "status")
    count = 0
    for fields in control.stanzas_in(folder / "status"):
        count += "Package" in fields
        state = fields.get("Status", "").split()[-1:]
        if state != ["not-installed"] and fields.get("Architecture", arch) not in (arch, "all"):
            tell(f"status: {fields.get('Package')} is of the architecture {fields['Architecture']}: debplan refuses the file (E14)")
        if set(state) & set(TRIGGERED):
            tell(f"status: triggers of {fields.get('Package')} are left to be processed: a plan configures it")
    tell(f"status: {count} packages")


def preferences_files(machine):
    """The preferences files of apt, in the order in which apt reads them."""
    main, parts = (pathlib.Path(machine.setting(it)) for it in ("Dir::Etc::preferences/f", "Dir::Etc::preferencesparts/d"))
    files = [main] if main.is_file() else []
    if parts.is_dir():
        files += sorted(it for it in parts.iterdir() if re.fullmatch(r"[A-Za-z0-9_-]+(\.pref)?", it.name) and it.is_file())
    return files


def records_in(text):
    """Yields the line and the fields of each record; a line of white space or a comment is none of a record."""
    fields, key, first = {}, None, 0
    for number, line in enumerate([*text.splitlines(), ""], 1):
        if line.startswith("#"):
            continue
        if not line.strip():
            if fields:
                yield first, fields
            fields, key = {}, None
        elif line[0] in " \t" and key:
            fields[key] += " " + line.strip()
        else:
            key, _, value = line.partition(":")
            key, first = key.strip().lower(), first if fields else number
            fields[key] = value.strip()


def records_of(machine):
    """Yields the place and the fields of each record of the machine's preferences; of a file that can't be read the reason."""
    for file in preferences_files(machine):
        try:
            text = file.read_text(encoding="utf-8", errors="replace")
        except OSError as error:
            yield str(file), error.strerror
            continue
        for line, fields in records_in(text):
            if not set(fields) <= {"explanation"}:
                yield f"{file}, line {line}", fields


class Collected:
    """The records of preferences files as they are collected: what is written, what had to be left out, and what matches nothing."""

    def __init__(self, lists, before, tell):
        self.lists, self.before, self.tell = lists, before, tell
        self.plain, self.left_out, self.unmatched = [], [], []

    def add(self, place, fields):
        """A record, which has its place; of a file that can't be read the reason is in the place of its fields."""
        try:
            if isinstance(fields, str):
                raise pins.Unreadable(fields)
            self.plain.append((place, fields, pins.plain_of(fields, self.lists)))
        except pins.Unknown as why:
            self.tell(f"preferences: {place}: {why}")
        except pins.Unreadable as why:
            self.tell(f"{TOLD_LEFT_OUT}{place}: {why}")
            self.left_out.append(f"{place}: {why}\n")

    def find_unmatched(self):
        """Finds the records that match nothing. One that matched nothing at the last collection isn't told again."""
        names = {name for _, _, plain in self.plain for name in plain.named if plain.named != ["*"]}
        versions = self.lists.versions_of(names)
        for place, fields, plain in self.plain:
            if not pins.is_matched(plain, self.lists, versions):
                line = f"{place}: {pins.written(fields)}"
                is_known = line in self.before
                if not is_known:
                    self.tell(f"{TOLD_UNMATCHED}{line}")
                self.unmatched.append(f"{line}{AS_BEFORE if is_known else ''}\n")

    def records(self):
        """The plain records, each with the place of the record that it was made of."""
        return [f"Explanation: {place}\n{text}" for place, _, plain in self.plain for text in plain.texts]


def write_preferences(folder, places, lists, tell):
    """Writes the records of preferences, which have their places, and returns how many had to be left out."""
    path = folder / UNMATCHED_PINS
    before = path.read_text(encoding="utf-8", errors="replace").splitlines() if path.is_file() else []
    found = Collected(lists, {line.removesuffix(AS_BEFORE) for line in before}, tell)
    for place, fields in places:
        found.add(place, fields)
    found.find_unmatched()
    records = found.records()
    disk.write_text(folder / "preferences", "\n".join(records))
    write_or_remove(folder / LEFT_OUT, "".join(found.left_out))
    write_or_remove(path, "".join(found.unmatched))
    tell(f"preferences: {len(records)} records, {len(found.left_out)} left out")
    return len(found.left_out)


def write_or_remove(path, text):
    """Writes the text into the file, of which there is none where the text is empty."""
    if text:
        disk.write_text(path, text)
    elif path.exists():
        path.unlink()


# What they were collected from


def files_of(machine):
    """The files that the inputs come from."""
    yield machine.status()
    for name in ("Dir::State::lists/d", "Dir::Etc::sourceparts/d", "Dir::Etc::preferencesparts/d"):
        folder = pathlib.Path(machine.setting(name))
        yield from (it for it in (sorted(folder.iterdir()) if folder.is_dir() else []) if it.is_file() and it.name != "lock")
    yield from (pathlib.Path(machine.setting(name)) for name in ("Dir::Etc::sourcelist/f", "Dir::Etc::preferences/f"))


def fingerprint_of(machine, *words):
    """A text that changes where one of these files, the settings of apt, this tool or the words do."""
    found = hashlib.sha256("\n".join([*words, machine.settings()]).encode("utf-8", "surrogateescape"))
    for path in (__file__, apt_sources.__file__, pins.__file__):
        found.update(pathlib.Path(path).read_bytes())
    for path in files_of(machine):
        if path.exists():
            state = path.stat()
            found.update(f"{path} {state.st_size} {state.st_mtime_ns}\n".encode("utf-8", "surrogateescape"))
    return found.hexdigest()


def collected(folder):
    """What the inputs of the folder were collected from, and the exit status; nothing where they aren't whole."""
    path = folder / "collected"
    words = path.read_text(encoding="utf-8").split() if path.is_file() else []
    return words if len(words) == 2 and all((folder / it).is_file() for it in WRITTEN) else [None, None]


def check(machine):
    """Ends where there is nothing to be collected from."""
    if not machine.env and not machine.has_apt():
        raise Failure("apt is missing: this works on a machine with apt and dpkg, or on a copy of one that --root names", 69)


def collect_if_changed(folder, machine, arch, with_pins, tell):
    """Writes all if apt's lists, sources, pins or settings or the status file aren't as they were, and returns the exit status: 1 where a
    pin was left out. Each line on what is written is told."""
    check(machine)
    before, status = collected(folder)
    if fingerprint_of(machine, arch, "no pins" if not with_pins else "pins") == before:
        return int(status)
    return collect_anew(folder, machine, arch, with_pins, tell)


def collect_anew(folder, machine, arch, with_pins, tell):
    """Writes all, and of what that was collected."""
    check(machine)
    fingerprint = fingerprint_of(machine, arch, "no pins" if not with_pins else "pins")
    if (folder / "collected").exists():
        (folder / "collected").unlink()
    status = collect(folder, machine, arch, with_pins, tell)
    disk.write_text(folder / "collected", f"{fingerprint} {status}\n")
    return status


def collect(folder, machine, arch, with_pins, tell):
    """Writes all, and returns the exit status."""
    folder.mkdir(parents=True, exist_ok=True)
    stanzas = write_sources(folder, machine, arch, tell)
    tell_unread(machine, tell)
    write_status(folder, machine.status(), arch, tell)
    return 1 if write_preferences(folder, records_of(machine) if with_pins else (), pins.Lists(folder, stanzas, arch), tell) else 0
