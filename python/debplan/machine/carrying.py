"""How a plan is carried out in a root by its dpkg, step by step."""
import contextlib
import copy
import fcntl
import os
import pathlib
import re
import shutil
import subprocess
import tempfile

from debplan import control, disk
from debplan.image.debs import Debs
from debplan.machine import inside
from debplan.machine.database import Database, TRIGGERED
from debplan.tool import Failure

NEEDED = "dependency problems prevent removal of"
COMPARED = ("Status", "Version", "Config-Version", "Architecture", "Essential", "Protected", *control.RELATIONS)
PATH = "/usr/local/sbin:/usr/local/bin:/usr/sbin:/usr/bin:/sbin:/bin"
# How the folder in a root is called that has the file of a package while that is unpacked, and what says what services may be started.
ROOM, POLICY = "debplan-files-", "usr/sbin/policy-rc.d"
NO_SERVICES = b"#!/bin/sh\n# of run-plan, while it carries a plan out\nexit 101\n"


class Dpkg:
    """The dpkg of a root."""

    def __init__(self, root, log, more):
        self.root, self.log, self.more, self.room = pathlib.Path(root).resolve(), log, more, None
        if not inside.has(self.root, "var/lib/dpkg/status"):
            raise Failure(f"{self.root} has no status file of dpkg: 'image extract' makes a root from nothing")
        self.status = inside.path_of(self.root, "var/lib/dpkg") / "status"
        if not self.status.is_file() or self.status.is_symlink():
            raise Failure(f"{self.status} is no file")

    def is_this_machine(self):
        return str(self.root) == "/"

    def call(self, *words):
        """Calls dpkg, and returns whether it was well and what it said."""
        words = ["dpkg", *self.more, *words]
        env = {"PATH": PATH, "HOME": "/root", "LC_ALL": "C", "DEBIAN_FRONTEND": "noninteractive", "DEBCONF_NONINTERACTIVE_SEEN": "true"}
        words = words if self.is_this_machine() else ["chroot", str(self.root), *words]
        run = subprocess.run(words, env=env, stdin=subprocess.DEVNULL, stdout=subprocess.PIPE, stderr=subprocess.STDOUT,
                             encoding="utf-8", errors="replace", check=False)
        with open(self.log, "a", encoding="utf-8", opener=own_file) as log:
            log.write(f"# {' '.join(words)}\n{run.stdout}")
        return run.returncode == 0, run.stdout

    @contextlib.contextmanager
    def prepared(self):
        """Has a folder of its own in the root for the file of a package, into which nobody else may look. What a run that was killed has
        left of such is removed."""
        if self.is_this_machine():
            yield
            return
        for left in self.root.glob(f"{ROOM}*"):
            remove_left(left)
        with tempfile.TemporaryDirectory(prefix=ROOM, dir=self.root) as room, held(room):
            self.room = pathlib.Path(room)
            yield

    def unpack(self, deb, words):
        """Unpacks a file, which is put where the root sees it."""
        if self.is_this_machine():
            return self.call(*words, "--unpack", str(deb))
        seen = self.room / deb.name
        try:
            try:
                os.link(deb, seen)
            except OSError:
                with open(deb, "rb") as file, open(seen, "wb", opener=disk.new_file) as to:
                    shutil.copyfileobj(file, to)
            return self.call(*words, "--unpack", f"/{self.room.name}/{deb.name}")
        finally:
            with contextlib.suppress(FileNotFoundError):
                seen.unlink()

    def settle(self):
        """Has dpkg write what an interrupted call left beside its status file, and process what triggers are left."""
        return self.call("--triggers-only", "--pending")

    def audit(self):
        """What dpkg finds wrong with its database."""
        return self.call("--audit")[1].strip()


def own_file(path, flags):
    """Opens a file for `open`, but none that a link leads to."""
    return os.open(path, flags | os.O_NOFOLLOW, 0o666)


@contextlib.contextmanager
def held(folder):
    """Holds a folder locked."""
    descriptor = os.open(folder, inside.FOLDER)
    try:
        fcntl.flock(descriptor, fcntl.LOCK_EX | fcntl.LOCK_NB)
        yield
    finally:
        os.close(descriptor)


def remove_left(folder):
    """Removes a folder that no run holds locked any more."""
    with contextlib.suppress(OSError), held(folder):
        shutil.rmtree(folder)


class Run:
    """A plan that is carried out."""

    def __init__(self, inputs, dpkg, debs, strict):
        self.inputs, self.dpkg, self.debs, self.strict = inputs, dpkg, debs, strict
        self.steps = inputs.steps("run.plan")
        self.database = Database(inputs.path("run.start"))
        self.waiting, self.kept, self.forced = [], set(), 0

    def go_to(self, number):
        """Takes the first steps as done. What was to be deconfigured behind their last unpacking or removal is still waiting."""
        for step in self.steps[:number]:
            self.database.take(step, self.debs.offered)
            if step[0] == "deconfigure":
                self.waiting.append(step[1])
            elif step[0] in ("unpack", "remove"):
                self.waiting = []
        found = Database(self.dpkg.status)
        self.kept = {name for name in self.database.records if self.database.state(name) == "half-configured"
                     and name not in self.waiting and is_configured(found, name)}
        if self.steps[number:] and self.steps[number][0] == "configure":
            # the interrupted call may have configured some of them
            self.kept.update(name for name in self.steps[number][1:] if is_configured(found, name))

    def differing(self, number):
        """The packages that aren't as the first steps leave them, but for those that the next call is about."""
        found, planned, free = Database(self.dpkg.status), copy.deepcopy(self.database), set()
        for step in self.steps[number:]:
            free.update(step[1:])
            if step[0] != "deconfigure":
                break
        # a package that was deconfigured in the plan alone is still installed
        free.update(self.kept, self.waiting)
        for fields in (*found.records.values(), *planned.records.values()):
            fields["Status"] = re.sub(r"triggers-(awaited|pending)$", "installed", fields["Status"])
        return [line for name, line in differences(planned, found) if name not in free]

    def take(self, number):
        """Carries a step out, and says in run.done that it is."""
        step = self.steps[number]
        if step[0] == "deconfigure":
            self.waiting.append(step[1])
            return
        well, said = getattr(self, step[0])(*step[1:])
        if not well:
            lines = [line for line in said.splitlines() if line.strip()]
            told = f"step {number + 1} of {len(self.steps)} was refused by dpkg: {' '.join(step)}"
            raise Failure("\n".join([told, *lines[-12:]]))
        disk.write_text(self.inputs.path("run.done"), f"{number + 1}\n")

    def automatic(self):
        """The words for what is to be deconfigured by this call."""
        return ["--auto-deconfigure"] if self.waiting else []

    def after(self, result):
        """Looks which packages dpkg has deconfigured: the others are installed still."""
        if self.waiting:
            found = Database(self.dpkg.status)
            self.kept.update(name for name in self.waiting if is_configured(found, name))
            self.waiting = []
        return result

    def unpack(self, name, version):
        self.kept.discard(name)
        return self.after(self.dpkg.unpack(self.debs.file((name, version)), self.automatic()))

    def configure(self, *names):
        found = Database(self.dpkg.status)
        left = [name for name in names if name not in self.kept and name not in self.waiting]
        # dpkg configures nothing that has triggers left: it processes them
        unconfigured = [name for name in left if found.state(name) not in TRIGGERED]
        self.kept.difference_update(names)
        self.waiting = [name for name in self.waiting if name not in names]
        result = self.dpkg.settle() if unconfigured != left else (True, "")
        return self.dpkg.call("--configure", *unconfigured) if result[0] and unconfigured else result

    def remove(self, name):
        self.kept.discard(name)
        well, said = self.dpkg.call(*self.automatic(), "--remove", name)
        if not well and NEEDED in said and not self.strict:
            self.forced += 1
            print(f"removed with --force-depends: {name}, {reason_in(said)}", flush=True)
            well, said = self.dpkg.call("--force-depends", *self.automatic(), "--remove", name)
        return self.after((well, said))

    def purge(self, name):
        return self.dpkg.call("--purge", name)


def is_configured(found, name):
    """Whether a package is configured, be it with triggers that are left to be processed."""
    return found.state(name) in ("installed", *TRIGGERED)


def reason_in(said):
    """What dpkg says of the packages that need one that is to be removed."""
    lines = [line.strip().rstrip(".") for line in said.splitlines() if " depends on " in line]
    return lines[0] + (f", and {len(lines) - 1} more" if len(lines) > 1 else "") if lines else "which others need"


def plain(fields):
    """The fields of a record that are compared, with single spaces."""
    return {key: " ".join(fields[key].split()) for key in COMPARED if fields.get(key)}


def differences(planned, found):
    """Yields of each package that isn't as planned its name and a line."""
    for name in sorted(set(planned.records) | set(found.records)):
        one, other = plain(planned.records.get(name, {})), plain(found.records.get(name, {}))
        if one == other or not other and planned.state(name) == "config-files":
            continue
        keys = [key for key in COMPARED if one.get(key) != other.get(key)]
        told = (f"{key} is {other.get(key, 'missing')}, planned {one.get(key, 'missing')}" for key in keys)
        yield name, f"{name}: {'; '.join(told)}"


def is_begun(inputs):
    """Whether the plan was begun and not ended."""
    return inputs.path("run.done").is_file() and inputs.path("run.plan").is_file() and inputs.path("run.plan").read_bytes() == inputs.path("plan").read_bytes()


def begin(inputs, dpkg):
    """Keeps the plan and the status file at the start."""
    disk.write_bytes(inputs.path("run.start"), dpkg.status.read_bytes())
    disk.write_bytes(inputs.path("run.plan"), inputs.path("plan").read_bytes())
    for name in ("run.log", "run.done"):
        with contextlib.suppress(FileNotFoundError):
            inputs.path(name).unlink()


def judge(inputs):
    """Has the plan judged by the status file at the start."""
    run = inputs.asks("check-plan", "run.plan", status="run.start")
    print(inputs.verdict(run, "run.plan"), flush=True)
    return run.returncode == 0


@contextlib.contextmanager
def services_kept(dpkg):
    """Keeps maintainer scripts from starting services in a root that isn't this machine, if nothing there says what they may."""
    known = None
    if not dpkg.is_this_machine() and not inside.has(dpkg.root, POLICY):
        known = inside.write(dpkg.root, POLICY, NO_SERVICES, 0o755)
    elif not dpkg.is_this_machine():
        if not inside.leads_on(dpkg.root, POLICY):
            raise Failure(f"{dpkg.root / POLICY} is a link that leads nowhere, and nothing else keeps services from being started")
        known = inside.known_by(dpkg.root, POLICY, NO_SERVICES)
    try:
        yield
    finally:
        if known:
            inside.remove(dpkg.root, POLICY, known)


def carry_out(run, number):
    """Carries out the steps behind the first ones, and says how far it is."""
    for at in range(number, len(run.steps)):
        run.take(at)
        run.database.take(run.steps[at], run.debs.offered)
        if (at + 1) % 100 == 0:
            print(f"{at + 1} of {len(run.steps)} steps", flush=True)


def compare(run):
    """Compares the end with the plan, and returns the exit status. What is done stays noted where all is as planned."""
    run.dpkg.settle()
    found = Database(run.dpkg.status)
    lines = [line for _, line in differences(run.database, found)]
    dropped = sum(name not in found.records and run.database.state(name) == "config-files" for name in run.database.records)
    print(f"{len(run.steps)} steps done, {run.forced} removals with --force-depends")
    print("\n".join(lines[:20]) or f"the end is as planned: {len(found.records)} packages, {dropped} removed ones without a record")
    audit = run.dpkg.audit()
    print(f"dpkg --audit: {audit or 'silent'}")
    if lines or audit:
        run.inputs.path("run.done").unlink()
        return 1
    disk.write_text(run.inputs.path("run.done"), f"{len(run.steps)}\n")
    return 0


def debs_of(options, inputs):
    """The files of the packages that the plan unpacks."""
    pairs = {(step[1], step[2]) for step in inputs.steps("run.plan") if step[0] == "unpack"}
    return Debs(options.debs, inputs.located(pairs))


def get_debs(options, debs):
    """Sees that each of the files is there, as its index says."""
    if options.download:
        debs.download()
    debs.verify()


def number_done(inputs):
    """How many steps were done, as run.done says."""
    return int(inputs.path("run.done").read_text(encoding="ascii"))


def is_done(run):
    """Whether all steps were done before, and the root is as they leave it."""
    if number_done(run.inputs) < len(run.steps):
        return False
    run.dpkg.settle()
    run.go_to(len(run.steps))
    return not run.differing(len(run.steps))


def steps_done(run, again):
    """How many steps were done before; the root has to be as they leave it."""
    if not again:
        return 0
    done = number_done(run.inputs)
    run.dpkg.settle()
    run.go_to(done)
    differing = run.differing(done)
    if differing:
        raise Failure(f"the root isn't as the first {done} steps leave it (without {run.inputs.path('run.done')} the plan is begun "
                      f"anew): {differing[0]}")
    print(f"{done} of {len(run.steps)} steps were done before", flush=True)
    return done
