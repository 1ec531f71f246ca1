"""image_tests.py: tests of tools/image over small texts and packages, by the program that DEBPLAN names or that the gate builds: what it
refuses, that no text leads to a file elsewhere, and that a package is taken by its sum alone. Without that program, root's rights,
dpkg-deb or apt what needs them is left out, and that is said. The last line is `N passed, M failed`. Exit status: 0 where all pass,
else 1."""
import os
import pathlib
import shutil
import tempfile
import unittest
from unittest import mock

from debplan.image import debs
from debplan.machine import inside
from debplan.machine.inputs import Inputs
from debplan.tool import Failure
from tests import small
from tests.rows import Rows
from tests.small import EMPTY

DEB = b"a package\n"
SHA256, SHA512 = small.sum_of(DEB), small.sum_of(DEB, "sha512")
OTHER = small.sum_of(b"another one\n")
HEAD = f"Lock: 2\nArchitecture: amd64\nStatus-SHA256: {EMPTY}\nRequest:\n install a\nPlan:\n plan 1\n unpack a 1\n configure a\n"
KEYS = "URI: http://deb.example/debian\nDistribution: s\nComponent: main\n"
PACKAGE = f"Package: a\nVersion: 1\nArchitecture: all\nFilename: pool/a_1_all.deb\nSHA256: {SHA256}\n"
LOCK = f"{HEAD}\nIndex: 1\n{KEYS}\n{PACKAGE}"
OPENED = "again/plan: 2 steps\ndebplan check-plan: yes\ndebplan solve: the same plan, byte for byte\n"
NAMES_FILE, NO_NUMBER = "image: lock has a field File: ..\n", "image: lock has the Index '..': an index has a number, ..\n"
# The text of a lock file, and how `image open` ends with it, in a folder whose file `kept` has to stay as it is.
LOCKS = [
    (LOCK.replace("Index: 1\n", "Index: 1\nFile: ROOM/kept\n"), 1, NAMES_FILE),
    (LOCK.replace("Index: 1\n", "file: ROOM/kept\nIndex: 1\n"), 1, NAMES_FILE),
    (LOCK.replace("Index: 1\n", "FILE:\n ROOM/kept\nIndex: 1\n"), 1, NAMES_FILE),
    (LOCK.replace(KEYS, "File: ROOM/kept\n"), 1, NAMES_FILE),
    (LOCK.replace("Filename:", "FiLe: ROOM/kept\nFilename:"), 1, NAMES_FILE),
    (LOCK.replace("Lock: 2\n", "Lock: 2\nFile: ROOM/kept\n"), 1, NAMES_FILE),
    *((LOCK.replace("Index: 1\n", f"Index: {number}\n"), 1, NO_NUMBER) for number in ("../../kept", "0", "-1", "1/..", "\u0661", "", "10000")),
    (f"{LOCK}\nIndex: 1\n", 1, NO_NUMBER),
    (LOCK.replace("Index: 1\n", "Index: 1\nIndex: 2\n"), 1, "image: lock: line 12 has the field Index again\n"),
    (LOCK.replace("Index: 1\n", "index 1\n"), 1, "image: lock: line 11 is no field: index 1\n"),
    (LOCK.replace("Index: 1\n", " one\n"), 1, "image: lock: line 11 continues no field\n"),
    ("", 1, "image: lock is no lock file of version 1 or 2\n"),
    (HEAD.replace("Plan:", "Plans:"), 1, "image: lock has no Plan in its first stanza\n"),
]
# The same of texts that the program reads then.
GOOD = [
    (LOCK, 0, OPENED),
    (LOCK.replace("Index:", "index:").replace("Package:", "PACKAGE:").replace("Request:", "request:"), 0, OPENED),
    (LOCK.replace("Index: 1\n", "Index: 7\n"), 0, OPENED),
]
# What `image open` writes in its folder, where links stand that lead to `kept`, or nowhere.
WRITTEN = ("status", "request", "plan", "preferences", "sources", "index-1.Packages")
# The fields of a stanza that are about the sum of its file, and what is said where the package isn't taken.
NO_SUM, NO_SUCH, OTHER_FILE = "..: it has no SHA256 and no SHA512", "..: its SHA256 is none", "..that the index names: its {} is another one"
SUMS = [
    (f"SHA256: {SHA256}\n", None), (f"sha256: {SHA256}\n", None), (f"Sha256: {SHA256.upper()}\n", None), (f"SHA512: {SHA512}\n", None),
    (f"SHA256: {SHA256}\nSHA512: {SHA512}\n", None),
    ("", NO_SUM), (f"MD5sum: {small.sum_of(DEB, 'md5')}\n", NO_SUM), (f"SHA1: {small.sum_of(DEB, 'sha1')}\n", NO_SUM),
    ("SHA256:\n", NO_SUCH), (f"SHA256:\nSHA512: {SHA512}\n", NO_SUCH), (f"SHA256: {SHA256[:40]}\n", NO_SUCH), ("SHA512:\n", "..: its SHA512 is none"),
    (f"SHA256: {OTHER}\n", OTHER_FILE.format("SHA256")), (f"Sha256: {'0' * 64}\n", OTHER_FILE.format("SHA256")),
    (f"SHA512: {'0' * 128}\n", OTHER_FILE.format("SHA512")), (f"SHA256: {OTHER}\nSHA512: {SHA512}\n", OTHER_FILE.format("SHA256")),
]
PLAN = "plan 1\nunpack a 1\nconfigure a\n"
# An index of a plan, and what `image extract` and `run-plan` say of it, which begin nothing.
INDICES = [
    ("Package: a\nVersion: 1\nArchitecture: all\n", *["a 1: by its index nothing says which file is this package: it has no SHA256 ..\n"] * 2),
    (f"package: a\nversion: 1\narchitecture: all\nsha256: {OTHER}\n", *["ROOM/debs/a_1_all.deb isn't the file of a 1 ..\n"] * 2),
    ("Version: 1\nArchitecture: all\npackage: a\n", *["a 1: by its index nothing says ..\n"] * 2),
    ("Package: a\nVersion 1\n", "ROOM/in/index-1.Packages: line 2 is no field: Version 1\n", "debplan: index 1: E2 BadLine 2\n.."),
    ("Package: a\n", "the indices of in have no a 1\n", "debplan: index 1: E9 MissingField .."),
]
# Sources, and what `image finish` says and writes of them.
SOURCES = [
    ("URI: http://deb.example/debian\nDistribution: s\nComponent: main\n\nURI: http://deb.example/debian\nDistribution: s\nComponent: contrib\n\n"
     "URI: http://other.example/\nDistribution: ./\n", 0, "ROOM/root/etc/apt/sources.list.d/debplan.sources: 2 sources of apt\nleft to do..",
     "Types: deb\nURIs: http://deb.example/debian\nSuites: s\nComponents: main contrib\n\nTypes: deb\nURIs: http://other.example/\nSuites: ./\n"),
    ("URI: [trusted=yes] http://deb.example/debian\nDistribution: s\nComponent: main\n", 1,
     "image: in/sources: URI is '[trusted=yes] http://deb.example/debian', which names no archive\n", None),
    ("URI: http://deb.example/debian\nDistribution: s main [trusted=yes]\n", 1, "image: in/sources: Distribution is ..\n", None),
    ("URI: http://deb.example/debian\nDistribution: s\nComponent:\n main\n Trusted: yes\n", 1, "image: in/sources: Component is ..", None),
    ("URI: http://deb.example/debian\n Trusted: yes\nDistribution: s\nComponent: main\n", 1, "image: in/sources: URI is ..", None),
]


def in_rooms(rows):
    """Yields each row with a folder of its own, which has a file `kept`."""
    for row in rows:
        with tempfile.TemporaryDirectory(prefix="debplan-image-") as room:
            small.write(pathlib.Path(room), {"kept": "kept\n"})
            yield pathlib.Path(room), row


def changed(room):
    """Why the file `kept` isn't as it was; or None."""
    found = small.text_in(room / "kept")
    return None if found == "kept\n" else f"kept is now\n{found}"


# Opening


def of_locks(rows):
    """Yields of each lock file how it isn't opened as it is wanted, or None."""
    for room, (text, status, said) in in_rooms(rows):
        small.write(room, {"lock": text.replace("ROOM", str(room))})
        yield small.differs(f"open of\n{text}", small.call(room, "image", "open", "lock", "again"), (status, said)) or changed(room)


def of_links():
    """Yields of each file in the folder, and of the one that is put in its place, whether a link there is followed."""
    names = [*WRITTEN, *(f".{name}.new" for name in WRITTEN)]
    for room, (name, target) in in_rooms([(name, target) for name in names for target in ("kept", "new")]):
        if (name, target) == ("status", "kept"):
            continue
        small.write(room, {"lock": LOCK, "again/collected": ""})
        (room / "again" / name).symlink_to(room / target)
        small.call(room, "image", "open", "lock", "again", env={"DEBPLAN": "/bin/true"})
        yield changed(room) or (f"the link {name} was followed" if os.path.lexists(room / "new") else None)


# Sums


def located(folder, text):
    """The one package of an index, as it is in a folder of inputs."""
    small.write(folder, {"index": text, "sources": f"File: {folder}/index\nURI: http://deb.example\n"})
    return Inputs(folder, "amd64", needed=("sources",)).located({("a", "1")})


def said_of(function):
    """What a function ends the tool with; None where it doesn't."""
    try:
        function()
    except Failure as failure:
        return str(failure)
    return None


def of_sums():
    """Yields of each stanza whether the file of its package is taken."""
    for room, (lines, wanted) in in_rooms(SUMS):
        small.write(room, {"debs/a_1_all.deb": DEB})
        said = said_of(lambda: debs.Debs(room / "debs", located(room, f"Package: a\nVersion: 1\nArchitecture: all\n{lines}")).verify())
        is_right = said == wanted if None in (said, wanted) else small.trials.is_as(wanted, said)
        yield None if is_right else f"{lines} is said to be {said}, and not {wanted}"


def of_downloads():
    """Yields of each stanza whether its file is asked for with the sum, or not at all."""
    for room, (lines, _) in in_rooms(SUMS):
        small.write(room, {"helper": '#!/bin/sh\necho "$@" > asked\n'})
        (room / "helper").chmod(0o755)
        before = os.getcwd()
        os.chdir(room)
        index = f"Package: a\nVersion: 1\nArchitecture: all\nFilename: a.deb\n{lines}"
        with mock.patch.object(debs, "HELPER", str(room / "helper")):
            said_of(lambda: debs.Debs(room / "debs", located(room, index)).download())
        os.chdir(before)
        asked = small.text_in(room / "asked")
        yield f"{lines}: was asked for so: {asked}" if asked and not asked.split()[-1].startswith(("SHA256:", "SHA512:")) else None


def of_names():
    """Yields of names and versions of packages whether they lead out of the folder of the files."""
    for room, (name, version) in in_rooms([("../kept", "1"), ("a", "1/../../kept"), ("-o", "1")]):
        fields = {"Package": name, "Version": version, "Architecture": "all", "SHA256": SHA256}
        said = said_of(lambda: debs.Debs(room / "debs", {(name, version): (fields, {})}).download())
        yield None if "is no name and no version of a package" in (said or "") else f"{name} {version}: {said}"


def of_indices():
    """Yields of each index how `image extract` and `run-plan` end, which begin nothing with it."""
    for room, (text, by_image, by_run_plan) in in_rooms(INDICES):
        small.write(room, {"debs/a_1_all.deb": b"another package\n", "in/index-1.Packages": text, "in/status": "", "in/request": "install a\n",
                           "in/sources": f"File: {room}/in/index-1.Packages\n", "in/plan": PLAN, "root/var/lib/dpkg/status": ""})
        found = small.call(room, "image", "extract", "--debs", "debs", "in", "new")
        yield small.differs(f"extract of\n{text}", found, (1, f"image: {by_image}"))
        if small.HAS_PROGRAM:
            found = small.call(room, "run-plan", "--root", "root", "--debs", "debs", "in")
            yield small.differs(f"run-plan of\n{text}", found, (1, f"debplan check-plan: ..{by_run_plan}"))
        yield "a root was made" if (room / "new").exists() else None


# A root


def of_extracting():
    """Yields whether links of packages lead out of the root, and whether what was extracted is as the packages have it."""
    for room, _ in in_rooms(["links"]):
        (room / "debs").mkdir()
        out = str(room / "out")[1:]
        (room / "out").mkdir()
        fields = {"Version": "1", "Architecture": "all", "Essential": "yes"}
        stanzas = [
            small.make_deb(room / "debs", {"Package": "a", **fields}, {"link": f"-> {room}/out", "up": "-> ../../..", f"{out}/has": b"a\n",
                                                                      "usr/lib/x": b"old\n", "gone": f"-> {room}/none", "etc": f"-> {room}/out", "over": f"-> {room}/kept"}),
            small.make_deb(room / "debs", {"Package": "b", **fields}, {"link/file": b"b\n", f"up/{out}/two": b"b\n", "lib/x": b"new\n",
                                                                      "over": b"b\n", "gone/x": b"b\n", "usr/share/base-passwd/passwd.master": b"root\n"}),
        ]
        plan = "plan 1\nunpack a 1\nunpack b 1\nconfigure a\nconfigure b\n"
        small.inputs_of(room, "in", stanzas, "install a\ninstall b\n", plan)
        found = small.call(room, "image", "extract", "--debs", "debs", "in", "root")
        yield small.differs("extract", found, (0, "root: 2 packages extracted, none unpacked by dpkg\n"))
        yield changed(room) or (f"out has {os.listdir(room / 'out')}" if os.listdir(room / "out") else None)
        texts = {f"{out}/has": "a\n", f"{out}/file": "b\n", f"{out}/two": "b\n", "usr/lib/x": "new\n", "over": "b\n", "gone/x": "b\n", f"{out}/passwd": "root\n"}
        for name, wanted in texts.items():
            text = small.text_in(room / "root" / name)
            yield None if text == wanted else f"root/{name} is {text!r}, and not {wanted!r}"
        mode = (room / "root" / "usr/lib/x").stat().st_mode & 0o7777
        yield None if mode == 0o755 and (room / "root/lib").is_symlink() else f"lib/x has the mode {mode:o}, or lib is no link any more"


def of_strange_packages():
    """Yields how it ends where a package is none, or has a file in the place of a folder that isn't empty."""
    for room, (files, said) in in_rooms([(None, "image: ROOM/debs/b_1_all.deb can't be extracted: ..\n"),
                                         ({"usr/share/x": b"b\n"}, "image: ROOM/debs/b_1_all.deb can't be extracted: ..\n")]):
        (room / "debs").mkdir()
        fields = {"Version": "1", "Architecture": "all"}
        stanzas = [small.make_deb(room / "debs", {"Package": "a", **fields}, {"usr/share/x/y": b"a\n"})]
        if files:
            stanzas.append(small.make_deb(room / "debs", {"Package": "b", **fields}, files))
        else:
            small.write(room, {"debs/b_1_all.deb": DEB})
            stanzas.append({"Package": "b", **fields, "SHA256": SHA256})
        small.inputs_of(room, "in", stanzas, "install b\n", "plan 1\nunpack a 1\nunpack b 1\n")
        yield small.differs(f"extract of {files}", small.call(room, "image", "extract", "--debs", "debs", "in", "root"), (1, said))


def of_paths():
    """Yields whether a path in a root is followed in it."""
    for room, _ in in_rooms(["paths"]):
        root = room / "root"
        for path in ("a/b", "usr/sbin", str(room)[1:]):
            (root / path).mkdir(parents=True, exist_ok=True)
        for name, target in {"abs": room, "up": "../../..", "in": "a/b", "a/top": "/a", "loop": "loop", "none": "/none", "file": "kept"}.items():
            (root / name).symlink_to(target)
        small.write(root, {"kept": "in\n"})
        for path, wanted in {"abs": str(room)[1:], "up/a": "a", "in/..": "a", "a/top/b": "a/b", "../a": "a", "/usr/../usr/sbin": "usr/sbin",
                             "loop": None, "none": None, "file": None, "kept": None, "in/nowhere": None}.items():
            try:
                found = str(inside.path_of(root, path))
            except Failure:
                found = None
            right = wanted and str(root / wanted)
            yield None if found == right else f"{path} leads to {found}, and not to {right}"
        for path, wanted in {"file": (True, True), "none": (False, True), "a/b": (True, True), "abs/kept": (False, False), "in/x": (False, False),
                             "loop": (False, True)}.items():
            found = inside.leads_on(root, path), inside.has(root, path)
            yield None if found == wanted else f"{path}: {found}"


# Behind the plan


def make_settings(room):
    """Settings of apt by which sources in a folder are those of this machine."""
    small.write(room, {"apt.conf": f'Dir::Etc "{room}/etc/";\nDir::Etc::sourcelist "{room}/etc/sources.list";\n'
                                   f'Dir::Etc::sourceparts "{room}/etc/parts/";\n',
                       "etc/sources.list": "deb [signed-by=/usr/share/keyrings/k.gpg] http://deb.example/debian s main\n",
                       "etc/parts/o.sources": "Types: deb\nURIs: http://other.example\nSuites: ./\nsigned-by: /etc/apt/keyrings/o.asc\n"})
    return {"APT_CONFIG": str(room / "apt.conf")}


def make_small_root(room):
    """A root that has apt, as far as `finish` looks."""
    (room / "root/etc/apt/sources.list.d").mkdir(parents=True)
    small.write(room, {"root/var/lib/dpkg/status": "", "apt.conf": f'Dir::Etc::sourcelist "{room}/none";\nDir::Etc::sourceparts "{room}/none";\n'})


def of_sources():
    """Yields of each sources file what `finish` says and writes."""
    path = "root/etc/apt/sources.list.d/debplan.sources"
    for room, (text, status, said, wanted) in in_rooms(SOURCES):
        make_small_root(room)
        small.write(room, {"in/sources": "".join(f"{'File: index' + chr(10) if line.startswith('URI') else ''}{line}\n" for line in text.splitlines())})
        found = small.call(room, "image", "finish", "in", room / "root", env={"APT_CONFIG": str(room / "apt.conf")})
        yield small.differs(f"finish with\n{text}", found, (status, said))
        written = small.text_in(room / path)
        yield None if written == wanted else f"{path} is\n{written}\nand not\n{wanted}"


def of_keys():
    """Yields whether the sources are written with the keys of this machine's, once, and by no link out of the root."""
    path = "root/etc/apt/sources.list.d/debplan.sources"
    for room, _ in in_rooms(["keys"]):
        make_small_root(room)
        env = make_settings(room)
        small.write(room, {"in/sources": f"File: x\n{SOURCES[0][0]}".replace("\n\nURI", "\n\nFile: x\nURI"), "root/usr/share/keyrings/k.gpg": ""})
        found = small.call(room, "image", "finish", "in", room / "root", env=env)
        yield small.differs("finish", found, (0, f"ROOM/{path}: 2 sources of apt\nROOM/root/etc/apt/keyrings/o.asc: is missing, by which ..\nleft .."))
        first, second = SOURCES[0][3].split("\n\n")
        wanted = f"{first}\nSigned-By: /usr/share/keyrings/k.gpg\n\n{second}Signed-By: /etc/apt/keyrings/o.asc\n"
        yield None if small.text_in(room / path) == wanted else f"{path} is\n{small.text_in(room / path)}"
        yield small.differs("finish", small.call(room, "image", "finish", "in", room / "root", env=env),
                            (0, f"ROOM/{path}: is there already, and stays as it is\nleft .."))
    for room, link in in_rooms(["root/etc/apt", "root/etc/apt/sources.list.d"]):
        make_small_root(room)
        (room / "out/sources.list.d").mkdir(parents=True)
        shutil.rmtree(room / link)
        (room / link).symlink_to(room / "out")
        small.write(room, {"in/sources": f"File: x\n{KEYS}"})
        small.call(room, "image", "finish", "in", room / "root", env={"APT_CONFIG": str(room / "apt.conf")})
        files = [it for it in (room / "out").glob("**/*") if not it.is_dir()]
        yield f"{link}: {files[0]} was written" if files else None


class Images(Rows):
    """What `image` refuses, and what it writes."""

    def test_locks(self):
        self.check(of_locks(LOCKS))

    def test_links(self):
        self.check(of_links())

    def test_sums(self):
        self.check(of_sums())

    def test_downloads(self):
        self.check(of_downloads())

    def test_names(self):
        self.check(of_names())

    def test_indices(self):
        self.check(of_indices())

    def test_paths(self):
        self.check(of_paths())

    @unittest.skipUnless(small.HAS_PROGRAM, small.WITHOUT_PROGRAM)
    def test_locks_that_are_opened(self):
        self.check(of_locks(GOOD))

    @unittest.skipUnless(small.is_root(), "extract, which root alone may")
    def test_extracting(self):
        self.check(of_extracting())

    @unittest.skipUnless(small.is_root(), "extract, which root alone may")
    def test_strange_packages(self):
        self.check(of_strange_packages())

    @unittest.skipUnless(shutil.which("apt-config"), "finish, which needs apt")
    def test_sources(self):
        self.check(of_sources())

    @unittest.skipUnless(shutil.which("apt-config"), "finish, which needs apt")
    def test_keys(self):
        self.check(of_keys())
