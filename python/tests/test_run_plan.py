"""run_plan_tests.py: tests of tools/run-plan by the program that DEBPLAN names or that the gate builds. In most of them a stand-in for
dpkg on PATH of a small root takes the calls: one is refused, one is killed, run-plan is killed, and is called again. In the last one a
root is made from nothing and the plan is carried out by copies of this machine's dpkg. Without the program, the rights for chroot, or
these programs that is left out, and said. The last line is `N passed, M failed`. Exit status: 0 where all pass, else 1."""
import contextlib
import os
import pathlib
import select
import shutil
import subprocess
import sys
import tempfile
import time
import unittest

from debplan import control, disk
from debplan.machine import inside
from tests import small
from tests.rows import Rows

# The stand-in asks by one pipe, and does what it reads from the other one, up to its end.
SCRIPT = """#!/bin/sh
echo "$*" > /asked
text=
while read -r line; do text="$text$line;"; done < /answer
eval "$text"
"""
SHELL = {"usr/bin/dpkg": SCRIPT.encode(), "var/lib/dpkg/status": b"", "usr/sbin/x": b""}
POLICY = "usr/sbin/policy-rc.d"
# How long a run may take.
SECONDS = 60
FORCED = "dpkg: dependency problems prevent removal of old:\n app depends on old.\n"
PROGRAMS = ("dpkg", "dpkg-deb", "dpkg-split", "dpkg-query", "tar", "sh", "rm", "cat", "diff", "ldconfig", "start-stop-daemon", "chroot")


class Stand:
    """What stands for the dpkg of a root: it changes the status file as dpkg does. By the number of a call, or by its verb, `fails` has
    the words of sh by which that ends, before or behind the change."""

    def __init__(self, root, fails=None, before=True):
        self.root, self.fails, self.before, self.calls, self.seen = root, fails or {}, before, [], []
        for name in ("asked", "answer"):
            if not (root / name).exists():
                os.mkfifo(root / name)

    def serve(self, process):
        """Answers the calls until the process ends."""
        asked, end = os.open(self.root / "asked", os.O_RDWR), time.monotonic() + SECONDS
        try:
            while process.poll() is None:
                if time.monotonic() > end:
                    process.kill()
                if select.select([asked], [], [], 0.02)[0]:
                    self.answer(os.read(asked, 1 << 16).decode().split(), process)
        finally:
            os.close(asked)

    def answer(self, words, process):
        """Takes a call, and answers with words of sh."""
        self.calls.append(" ".join(words))
        self.seen.append(small.text_in(self.root / POLICY))
        verb = next(it for it in words if it in ("--unpack", "--configure", "--remove", "--purge", "--triggers-only", "--audit"))
        ending = self.fails.pop(len(self.calls), None) or self.fails.pop(verb, None)
        if not (ending and self.before):
            self.take(verb, words[words.index(verb) + 1:], "--auto-deconfigure" in words)
        if ending == "kill run-plan":
            process.kill()
            process.wait()
        self.tell("exit 1" if ending == "kill run-plan" else ending or "exit")

    def tell(self, text):
        """Gives the shell a text, once it waits for it."""
        end = time.monotonic() + SECONDS
        while time.monotonic() < end:
            with contextlib.suppress(OSError), open(os.open(self.root / "answer", os.O_WRONLY | os.O_NONBLOCK), "wb") as pipe:
                pipe.write(f"{text}\n".encode())
                return
            time.sleep(0.002)

    def take(self, verb, names, deconfigures):
        """Changes the status file."""
        status = inside.path_of(self.root, "var/lib/dpkg") / "status"
        records = {fields["Package"]: fields for fields in control.stanzas_in(status)}
        if verb == "--unpack":
            new = next(control.stanzas_in(self.root / names[0].lstrip("/")))
            old = records.get(new["Package"], {})
            config = {"Config-Version": old["Version"]} if old.get("Status", "").endswith("installed") else {}
            records[new["Package"]] = {**new, "Status": "install ok unpacked", **config}
            for name in new.get("Breaks", "").split() if deconfigures else ():
                records[name] = {**records[name], "Status": "install ok half-configured", "Config-Version": records[name]["Version"]}
        elif verb in ("--remove", "--purge"):
            records.pop(names[0], None)
        elif verb == "--configure":
            for name in names:
                records[name] = {key: value for key, value in records[name].items() if key != "Config-Version"}
                records[name]["Status"] = "install ok installed"
        disk.write_text(status, "".join(map(control.text_of, records.values())))


# A room: a root, the files of packages, and a folder of inputs


def stanza_of(package):
    """A stanza, of `NAME VERSION; FIELD: VALUE; ..`."""
    pair, *fields = package.split("; ")
    name, version = pair.split(" ")
    return {"Package": name, "Version": version, "Architecture": "all", **dict(it.split(": ", 1) for it in fields)}


def make_room(room, start, offered, request, plan):
    """Makes a room. The file of a package has its stanza, which the stand-in reads."""
    offers = []
    for fields in map(stanza_of, offered):
        data = control.text_of(fields).encode()
        small.write(room, {f"debs/{fields['Package']}_{fields['Version']}_all.deb": data})
        offers.append({**fields, "SHA256": small.sum_of(data)})
    small.inputs_of(room, "in", offers, request, plan)
    for path, data in {**SHELL, **small.copies_of("sh")}.items():
        small.put(room / "root" / path, data)
    for name in ("bin", "lib", "lib64", "sbin"):
        (room / "root/usr" / name).mkdir(exist_ok=True)
        (room / "root" / name).symlink_to(f"usr/{name}")
    installed = [{"Status": "install ok installed", **stanza_of(it)} for it in start]
    small.write(room, {"root/var/lib/dpkg/status": "".join(map(control.text_of, installed))})
    (room / "root/var/tmp").mkdir(parents=True)
    (room / "root/var/tmp").chmod(0o1777)


def run(room, stand, *more):
    """Runs run-plan, whose calls of dpkg the stand-in takes, and returns its status and what it said."""
    words = [sys.executable, small.TOOLS / "run-plan", "--root", "root", "--debs", "debs", *more, "in"]
    env = {**os.environ, "DEBPLAN": str(small.BUILT), "ARCH": "amd64", "LC_ALL": "C.UTF-8"}
    with tempfile.TemporaryFile("w+") as said, \
            subprocess.Popen([*BEFORE, *map(str, words)], cwd=room, env=env, stdin=subprocess.DEVNULL, stdout=said, stderr=said) as process:
        try:
            stand.serve(process)
        finally:
            process.kill()
            process.wait()
        said.seek(0)
        return process.returncode, said.read().replace(str(room), "ROOM")


# What is installed, what is offered, the request, and a plan of every kind of step with the calls of dpkg that carry it out.
START = ("old 1", "gone 1; Status: deinstall ok config-files", "p 1", "q 1")
OFFERED = ("a 1; Depends: b", "b 1; Depends: a", "p 2; Breaks: q")
REQUEST = "install a\nupgrade p\nremove old\npurge gone\nremove q\n"
STEPS = ("remove old", "purge gone", "unpack a 1", "unpack b 1", "configure a b", "deconfigure q", "unpack p 2", "remove q", "configure p")
PLAN = "".join(f"{line}\n" for line in ("plan 1", *STEPS))
CALLS = ["--remove old", "--purge gone", "--unpack ROOM/a_1_all.deb", "--unpack ROOM/b_1_all.deb", "--configure a b",
         "--auto-deconfigure --unpack ROOM/p_2_all.deb", "--remove q", "--configure p", "--triggers-only --pending", "--audit"]
# The calls of which one is killed too; and by the call, the step that it is of.
KILLED = (3, 5, 6)
STEP_OF = {1: 1, 2: 2, 3: 3, 4: 4, 5: 5, 6: 7, 7: 8, 8: 9}
DONE = "debplan check-plan: yes\n9 steps done, 0 removals with --force-depends\nthe end is as planned: 3 packages, 2 removed ones without " \
       "a record\ndpkg --audit: silent\n"


def in_rooms(rows, made=True):
    """Yields each row with a room of its own."""
    for row in rows:
        with tempfile.TemporaryDirectory(prefix="debplan-run-") as room:
            room = pathlib.Path(room)
            if made:
                make_room(room, START, OFFERED, REQUEST, PLAN)
            yield room, row


def left_in(room):
    """What a run has left in the root that isn't of the plan; or None."""
    left = [*(room / "root").glob("debplan-files-*"), *(it for it in [room / "root" / POLICY] if os.path.lexists(it))]
    return f"{left[0]} is left" if left else None


def with_room(calls):
    """Calls with ROOM for the folder of the file that is unpacked."""
    found = []
    for words in (it.split(" ") for it in calls):
        words[-1] = f"ROOM/{words[-1].rpartition('/')[2]}" if words[-2:-1] == ["--unpack"] else words[-1]
        found.append(" ".join(words))
    return found


def of_whole():
    """Yields whether a plan is carried out whole, by these calls, while nothing is started; and what is said when it is run again."""
    for room, _ in in_rooms(["whole"]):
        stand = Stand(room / "root")
        yield small.differs("a run", run(room, stand), (0, DONE)) or left_in(room)
        yield None if with_room(stand.calls) == CALLS else f"the calls are {stand.calls}"
        yield None if all(text and text.endswith("exit 101\n") for text in stand.seen) else f"the policy was {stand.seen}"
        log = small.text_in(room / "in/run.log") or ""
        yield None if log.count("# chroot ") == len(CALLS) else f"run.log is {log}"
        again = Stand(room / "root")
        yield small.differs("a run again", run(room, again), (0, f"all 9 steps were done before\n{DONE.partition(chr(10))[2]}"))
        yield None if [it for it in again.calls if it not in CALLS[-2:]] == [] else f"again the calls are {again.calls}"
        small.write(room, {"root/var/lib/dpkg/status": ""})
        found = run(room, Stand(room / "root"))
        yield small.differs("a run of a changed root", found, (1, "debplan check-plan: ..E17 UnknownName 3\n..")) or left_in(room)


def of_refused_steps():
    """Yields of each call whether a run stops there where dpkg refuses it, or is killed, and goes on from there when it is called again."""
    how = [(call, "echo no good; exit 1", True) for call in STEP_OF]
    how += [(call, ending, before) for call in KILLED for ending in ("kill -9 $$", "kill run-plan") for before in (True, False)]
    for room, (call, ending, before) in in_rooms(how):
        step = STEP_OF[call]
        told = f"debplan check-plan: yes\nrun-plan: step {step} of 9 was refused by dpkg: {STEPS[step - 1]}\n"
        wanted = (-9, "..") if ending == "kill run-plan" else (1, told + ("no good\n" if "echo" in ending else ""))
        yield small.differs(f"a run with call {call}: {ending}", run(room, Stand(room / "root", {call: ending}, before)), wanted)
        done = STEP_OF.get(call - 1, 0)
        again = "debplan check-plan: yes\n" + (f"{done} of 9 steps were done before\n" if done else "..")
        found = run(room, Stand(room / "root"))
        yield small.differs(f"again behind call {call}: {ending}, {before}", found, (0, f"{again}{DONE.partition(chr(10))[2]}")) or left_in(room)


def of_forced():
    """Yields whether a removal that dpkg refuses for what needs the package is forced, and with --strict refused."""
    rows = [((), (0, "debplan check-plan: yes\nremoved with --force-depends: old, app depends on old\n9 steps done, 1 removals with ..silent\n")),
            (("--strict",), (1, "debplan check-plan: yes\nrun-plan: step 1 of 9 was refused by dpkg: remove old\ndpkg: .."))]
    for room, (words, wanted) in in_rooms(rows):
        said = "".join(f"echo '{line}'\n" for line in FORCED.splitlines())
        stand = Stand(room / "root", {1: f"{said}exit 1"})
        yield small.differs(f"a run {words}", run(room, stand, *words), wanted) or left_in(room)
        forced = stand.calls[1:2] == ["--force-depends --remove old"]
        yield None if forced == (not words) else f"the calls are {stand.calls}"


def of_ends():
    """Yields of an end that isn't as planned, and of an audit that isn't silent, what is said."""
    rows = [({"--triggers-only": "> /var/lib/dpkg/status"}, "..a: Status is missing, planned install ok installed; ..dpkg --audit: silent\n"),
            ({"--audit": "echo b is broken"}, "..the end is as planned: ..dpkg --audit: b is broken\n")]
    for room, (fails, said) in in_rooms(rows):
        yield small.differs(f"a run with {fails}", run(room, Stand(room / "root", fails)), (1, said)) or left_in(room)
        yield "run.done is left" if (room / "in/run.done").exists() else None


def of_changed_roots():
    """Yields whether a root that was changed between two runs is told, and what stands in the way of a run."""
    for room, _ in in_rooms(["changed"]):
        run(room, Stand(room / "root", {4: "exit 1"}))
        small.write(room, {"root/var/lib/dpkg/status": ""})
        yield small.differs("a changed root", run(room, Stand(room / "root")), (1, "..the root isn't as the first 3 steps leave it ..: a: ..\n"))
    rows = [({"in/plan": "plan 1\nunpack a 1\nconfigure a\n"}, (), (1, "debplan check-plan: no step 2 F4 Depends\n..")),
            ({"in/pins-left-out": "a pin\n"}, (), (6, "run-plan: a pin of the machine is left out ..")),
            ({"in/plan": "no plan\n"}, (), (1, "debplan check-plan: ..E18 BadPlan 1\n..")), ({}, ("--target", "none"), (64, "run-plan: no list ..")),
            ({"debs/a_1_all.deb": "another one\n"}, (), (1, "debplan check-plan: yes\nrun-plan: ROOM/debs/a_1_all.deb isn't the file of a 1 ..")),
            ({"in/plan": PLAN, "in/request": "install nobody\n"}, (), (1, "debplan check-plan: ..E17 .."))]
    for room, (texts, words, wanted) in in_rooms(rows):
        small.write(room, texts)
        stand = Stand(room / "root")
        yield small.differs(f"a run with {texts} {words}", run(room, stand, *words), wanted)
        yield f"dpkg was called: {stand.calls}" if stand.calls else left_in(room)
    for room, name in in_rooms(["debs/a_1_all.deb", "root/var/lib/dpkg/status"]):
        (room / name).unlink()
        yield small.differs(f"a run without {name}", run(room, Stand(room / "root")), (1, "..run-plan: ROOM/..\n"))


# Links


def of_links():
    """Yields of links in the root whether something is written where they lead outside of it."""
    rows = {"root/var/tmp/a_1_all.deb": "new", "root/var/tmp": "out", POLICY: "new", "root/usr/sbin": "out", "in/run.log": "kept",
            "in/.run.done.new": "kept", "in/run.start": "kept", "in/run.plan": "kept", "root/debplan-files-x": "out"}
    for room, (name, target) in in_rooms(rows.items()):
        path = room / (name if name != POLICY else f"root/{POLICY}")
        small.write(room, {"kept": "kept\n", "out/kept": "kept\n"})
        if path.is_dir():
            shutil.rmtree(path)
        path.unlink() if path.exists() else None
        path.symlink_to(room / target)
        run(room, Stand(room / "root"))
        yield None if small.text_in(room / "kept") == "kept\n" else f"{name}: kept is {small.text_in(room / 'kept')}"
        yield f"{name}: new was written" if os.path.lexists(room / "new") else None
        yield None if os.listdir(room / "out") == ["kept"] else f"{name}: out has {os.listdir(room / 'out')}"
    for room, _ in in_rooms(["within"]):
        # (links of the root itself are followed in it)
        (room / "root/var/lib/dpkg").rename(room / "root/database")
        (room / "root/var/lib/dpkg").symlink_to("/database")
        (room / "root/usr/sbin").rename(room / "root/sbins")
        (room / "root/usr/sbin").symlink_to("/sbins")
        yield small.differs("a run over links in the root", run(room, Stand(room / "root")), (0, DONE)) or left_in(room)
    for room, text in in_rooms(["#!/bin/sh\nexit 101\n", "#!/bin/sh\nexit 0\n"]):
        small.write(room, {f"root/{POLICY}": text})
        run(room, Stand(room / "root"))
        yield None if small.text_in(room / "root" / POLICY) == text else "a policy that was there is another one"
    for room, _ in in_rooms(["dangling"]):
        (room / "root" / POLICY).symlink_to(room / "nowhere")
        yield small.differs("a run with a policy that leads nowhere", run(room, Stand(room / "root")), (1, "..is a link that leads nowhere, ..\n"))
        yield "a policy was written where the link leads" if (room / "nowhere").exists() else None


# A root from nothing, by the dpkg of this machine


def of_small_root():
    """Yields how a root is made from nothing, by packages of which one has this machine's dpkg, and a plan is carried out in it."""
    programs = small.copies_of(*PROGRAMS)
    for room, _ in in_rooms(["small"], made=False):
        (room / "debs").mkdir()
        fields = {"Version": "1", "Architecture": "all"}
        stanzas = [
            small.make_deb(room / "debs", {"Package": "base", **fields, "Essential": "yes"}, {
                **programs, "etc/apt/sources.list.d": None, "var/tmp": None, "etc/ld.so.conf": b"",
                "usr/share/base-passwd/passwd.master": b"root:*:0:0:root:/root:/bin/sh\n", "usr/share/base-passwd/group.master": b"root:*:0:\n"}),
            small.make_deb(room / "debs", {"Package": "app", **fields, "Depends": "lib"}, {"usr/share/app": b"app\n"},
                           {"postinst": "echo configured > /app-was-configured"}),
            small.make_deb(room / "debs", {"Package": "lib", **fields}, {"usr/share/lib": b"lib\n"}),
        ]
        small.inputs_of(room, "in", stanzas, "install base\ninstall app\n", "")
        solved = subprocess.run([small.BUILT, "solve", "--arch", "amd64", "--status", "status", "--sources", "sources", "--request", "request"],
                                cwd=room / "in", stdout=subprocess.PIPE, encoding="utf-8", check=False)
        small.write(room, {"in/plan": solved.stdout})
        steps = len(solved.stdout.splitlines()) - 1
        yield small.differs("extract", small.call(room, "image", "extract", "--debs", "debs", "in", "root"), (0, "root: 3 packages extracted, ..\n"))
        yield small.differs("run-plan", small.call(room, "run-plan", "--root", "root", "--debs", "debs", "in"), (0, f"debplan check-plan: yes\n{steps} steps done, 0 removals with "
                            "--force-depends\nthe end is as planned: 3 packages, 0 removed ones without a record\ndpkg --audit: silent\n"))
        yield None if small.text_in(room / "root/app-was-configured") == "configured\n" else "the script of app wasn't run"
        yield left_in(room)
        yield small.differs("finish", small.call(room, "image", "finish", "--tar", "root.tar", "in", "root"), (0, "..: 1 sources of apt\n..left to do.."))
        names = subprocess.run(["tar", "-tf", room / "root.tar"], stdout=subprocess.PIPE, encoding="utf-8", check=False).stdout
        yield None if "./usr/share/app\n" in names and "debplan-files" not in names else "the tar file isn't of the root"


# How root's rights are had, or a process that has them over this user's files; None where they can't be had.
BEFORE = [] if small.is_root() else ["unshare", "--map-root-user"]


def has_rights():
    """Whether there are the rights for chroot."""
    if not BEFORE:
        return True
    return bool(shutil.which("unshare")) and subprocess.run([*BEFORE, "true"], stderr=subprocess.DEVNULL, check=False).returncode == 0


WITHOUT_RIGHTS = "run-plan in a root, which root alone may"
WITHOUT_COPIES = "a root from nothing, which root alone may, by dpkg, tar, libc-bin and diffutils of this machine"


@unittest.skipUnless(small.HAS_PROGRAM, small.WITHOUT_PROGRAM)
@unittest.skipUnless(has_rights(), WITHOUT_RIGHTS)
class Runs(Rows):
    """Plans that are carried out in a small root."""

    def test_whole(self):
        self.check(of_whole())

    def test_refused_steps(self):
        self.check(of_refused_steps())

    def test_forced(self):
        self.check(of_forced())

    def test_ends(self):
        self.check(of_ends())

    def test_changed_roots(self):
        self.check(of_changed_roots())

    def test_links(self):
        self.check(of_links())

    @unittest.skipUnless(small.is_root() and small.copies_of(*PROGRAMS), WITHOUT_COPIES)
    def test_small_root(self):
        self.check(of_small_root())
