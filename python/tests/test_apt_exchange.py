"""exchange_tests.py: tests of tools/apt-solver and apt-planner by scenarios that are written as apt writes them (EDSP 0.5, EIPP 0.1), and
by the program that DEBPLAN names or that the gate builds. A script stands for apt's own planner. Where there is no program all is left
out, and that is said. The last line is `N passed, M failed`. Exit status: 0 where all pass, else 1."""
import os
import pathlib
import re
import tempfile
import unittest

from tests import small
from tests.rows import Rows

# A package of a scenario: `NAME VERSION; FIELD: VALUE; ..`. Behind the solver's stand how it is there and chosen, and its id.
PACKAGES = {"solver": "Package: {0}\nSource: {0}\nArchitecture: {arch}\nVersion: {1}\nAPT-ID: {id}\n{more}",
            "planner": "Package: {0}\nArchitecture: {arch}\nVersion: {1}\nAPT-ID: {id}\n{more}"}
HEADS = {"solver": "Request: EDSP 0.5\nArchitecture: amd64\nArchitectures: amd64\n", "planner": "Request: EIPP 0.1\nArchitecture: amd64\nArchitectures: amd64\n"}
INSTALLED, CANDIDATE = "Installed: yes", "APT-Candidate: yes"
HERE, BOTH = f"{INSTALLED}; APT-Pin: 500", f"{INSTALLED}; {CANDIDATE}; APT-Pin: 500"
OFFER = f"{CANDIDATE}; APT-Pin: 500"
ERROR = "Error: debplan\nMessage: "


def scenario(kind, request, packages):
    """The text of a scenario. The ids are the numbers of the packages, from 1."""
    stanzas = [HEADS[kind] + "".join(f"{line}\n" for line in request.split("; ") if line)]
    for number, package in enumerate(packages, 1):
        pair, *fields = package.split("; ")
        arch = next((it.partition(": ")[2] for it in fields if it.startswith("Architecture: ")), "amd64")
        more = "".join(f"{it}\n" for it in fields if not it.startswith("Architecture: "))
        stanzas.append(PACKAGES[kind].format(*pair.split(" "), arch=arch, id=number, more=more))
    return "\n".join(stanzas) + "\n"


def install(*ids):
    """What a solver answers of these numbers, each with its name and version."""
    return "".join(f"Install: {it.split()[0]}\nPackage: {it.split()[1]}\nVersion: {it.split()[2]}\n\n" for it in ids)


def remove(*ids):
    return install(*ids).replace("Install:", "Remove:")


# What is asked of the solver, the packages, and the answer behind what is said of progress.
SOLVER = [
    ("Install: a", [f"a 1; {OFFER}"], install("1 a 1")),
    ("Install: a:amd64", [f"a 1; {OFFER}"], install("1 a 1")),
    ("Install: a", [f"a 1; {OFFER}; Depends: b", f"b 2; {OFFER}", f"c 1; {BOTH}"], install("1 a 1", "2 b 2")),
    ("Install: a", [f"a 1; {OFFER}; Depends: nowhere"], f"{ERROR}no choice among the candidates fulfils this (debplan, proof on 2 facts):\n You ask for a..nowhere.."),
    ("Install: a", [f"b 1; {OFFER}"], f"{ERROR}a has no candidate\n"),
    ("Install: a", [f"a 1; {OFFER}; Conflicts: c", f"c 1; {BOTH}"], install("1 a 1") + remove("2 c 1")),
    ("Install: a; Forbid-Remove: yes", [f"a 1; {OFFER}; Conflicts: c", f"c 1; {BOTH}"], f"{ERROR}no choice .."),
    ("Install: a; Forbid-New-Install: yes", [f"a 1; {HERE}", f"a 2; {OFFER}; Depends: b", f"b 2; {OFFER}"], f"{ERROR}.."),
    ("Remove: c", [f"c 1; {BOTH}", f"d 1; {BOTH}; Depends: c"], remove("1 c 1", "2 d 1")),
    ("Upgrade-All: yes", [f"a 1; {HERE}", f"a 2; {OFFER}", f"b 1; {HERE}", f"b 2; {OFFER}; Depends: nowhere"], install("2 a 2")),
    ("Upgrade-All: yes", [f"a 1; {HERE}; Hold: yes", f"a 2; {OFFER}", f"b 1; {HERE}", f"b 2; {OFFER}"], install("4 b 2")),
    ("Upgrade: yes", [f"a 1; {HERE}", f"a 2; {OFFER}; Depends: b", f"b 2; {OFFER}", f"c 1; {HERE}", f"c 2; {OFFER}"], install("5 c 2")),
    ("Install: a", [f"a 2; {HERE}", f"a 1; {CANDIDATE}; APT-Pin: 100"], install("2 a 1")),
    ("Install: a", [f"a 1; {OFFER}", f"x 1; {BOTH}; Architecture: i386"], f"{ERROR}x is installed for i386: debplan chooses packages of one ..\n"),
    ("Install: a", [f"a 1; {OFFER}; PreDepends: b"], f"{ERROR}this version of apt doesn't write Pre-Depends as it is called: ..\n"),
    ("Install: a", [f"a 1; {OFFER}; Recommends: b | c, nowhere", f"b 2; {OFFER}", f"c 2; {OFFER}"], install("1 a 1", "2 b 2")),
    ("Install: a", [f"a 1; {OFFER}; Recommends: b", f"b 2; {OFFER}; Depends: nowhere"], install("1 a 1")),
    ("Install: a", ["a 1"], f"{ERROR}a has no candidate\n"),
]
STATE = "Status: installed"
# The same of the planner, whose packages are there where they have a Status.
PLANNER = [
    ("Install: a:amd64", ["a 1"], "Unpack: 1\nPackage: a\nVersion: 1\n\nConfigure: 1\nPackage: a\nVersion: 1\n\n"),
    ("Install: a b", ["a 1; Depends: b", "b 1; Depends: a"], "Unpack: ..Unpack: ..Configure: 1\nPackage: a\nVersion: 1\n\nConfigure: 2\n.."),
    ("Install: a; Remove: c", ["a 1; Conflicts: c", f"c 1; {STATE}"], "Remove: 2\nPackage: c\nVersion: 1\n\nUnpack: 1\n..Configure: 1\n.."),
    ("Install: a", [f"a 1; {STATE}", "a 2; Pre-Depends: b", "b 1"], "Unpack: 3\n..Configure: 3\n..Unpack: 2\n..Configure: 2\n.."),
    ("Install: a", ["a 1; Depends: nowhere"], f"{ERROR}no order was found: these packages refuse each other\n"),
    ("ReInstall: a", [f"a 1; {STATE}"], f"{ERROR}a is to be installed again, which is no step of debplan's plans\n"),
    ("Install: a", ["a 1", f"x 1; {STATE}; Architecture: i386"], f"{ERROR}x is installed for i386: debplan orders ..\n"),
]


def order(*steps):
    """What a planner answers: `VERB ID`, each."""
    return "".join("{}: {}\n\n".format(*it.split()) for it in steps)


# What is asked, the packages, what apt's planner answers, and how that is judged; it is passed on as it is where nothing is told.
CHECKED = [
    ("Install: a", ["a 1"], order("Unpack 1", "Configure 1"), None),
    ("Install: a", ["a 1"], order("Unpack 1"), None),
    ("Install: a", ["a 1; Depends: b", "b 1"], order("Unpack 1", "Configure 1", "Unpack 2", "Configure 2"),
     f"{ERROR}the order of apt isn't legal: no step 2 F4 Depends\n configure a\n .."),
    ("Install: a", ["a 1; Pre-Depends: b", "b 1"], order("Unpack 1", "Unpack 2", "Configure 2", "Configure 1"),
     f"{ERROR}the order of apt isn't legal: no step 1 F1 PreDepends\n unpack a 1\n .."),
    ("Remove: c", [f"c 1; {STATE}", f"d 1; {STATE}; Depends: c"], order("Remove 1"), f"{ERROR}the order of apt isn't legal: no step 3 F4 Depends\n configure d\n .."),
    ("Remove: c d", [f"c 1; {STATE}", f"d 1; {STATE}; Depends: c"], order("Remove 2", "Remove 1"), None),
    ("Install: a", ["a 1"], "", f"{ERROR}the order of apt isn't legal: no end F11 Goal 1\n .."),
]
PLANNERS = {"exit 3": f"{ERROR}ROOM/planner ended with the status 3\n", None: f"{ERROR}ROOM/planner is missing: it is of the package apt-utils\n"}
PROGRESS = re.compile(r"Progress: now\nPercentage: \d+\nMessage: .*\n\n")


def asked(room, tool, text, **env):
    """What a tool answers, without progress and what it says to the user."""
    status, said = small.call(room, tool, text=text, env={"DEBPLAN_RECOMMENDS": "yes", "DEBPLAN_FOLDER": str(room / "in"), **env})
    text = "".join(f"{line}\n" for line in PROGRESS.sub("", said).splitlines() if not line.startswith("debplan: "))
    return status, text.removesuffix("\n") if text.startswith("Error:") else text


def in_rooms(rows):
    for row in rows:
        with tempfile.TemporaryDirectory(prefix="debplan-exchange-") as room:
            yield pathlib.Path(room), row


def of_tool(tool, kind, rows):
    """Yields of each scenario whether the tool answers it as it is wanted, with the status 0."""
    for room, (request, packages, wanted) in in_rooms(rows):
        yield small.differs(f"{tool} of {request}, {packages}", asked(room, tool, scenario(kind, request, packages)), (0, wanted))


def script(room, text):
    """A planner that is a script of sh."""
    small.write(room, {"planner": f"#!/bin/sh\n{text}\n"})
    (room / "planner").chmod(0o755)


def as_checking(room):
    """The planner by the name with which it judges apt's order."""
    (room / "debplan-check").symlink_to(small.TOOLS / "apt-planner")
    return room / "debplan-check"


def of_checked():
    """Yields of each order of apt whether it is judged as it is wanted."""
    for room, (request, packages, answer, wanted) in in_rooms(CHECKED):
        small.write(room, {"answer": answer})
        script(room, "cat > asked; cat answer")
        text = scenario("planner", request, packages)
        found = asked(room, as_checking(room), text, PLANNER=str(room / "planner"))
        yield small.differs(f"the order {answer!r} of {request}, {packages}", found, (0, answer if wanted is None else wanted))
        yield None if small.text_in(room / "asked") == text else "apt's planner isn't asked what apt asks"
    for room, (text, wanted) in in_rooms(PLANNERS.items()):
        if text:
            script(room, text)
        found = asked(room, as_checking(room), scenario("planner", "Install: a", ["a 1"]), PLANNER=str(room / "planner"))
        yield small.differs(f"a planner that is {text}", found, (0, wanted))


def of_settings():
    """Yields whether Recommends are left out where that is said, the time is over, and wrong words and scenarios are told."""
    for room, tool in in_rooms(["apt-solver", "apt-planner"]):
        status, said = small.call(room, tool, "word")
        yield None if status == 64 and said.startswith(f"{tool}: ") else f"{tool} word: {status}, {said}"
        status, said = small.call(room, tool, "--help")
        yield None if status == 0 and said.startswith(f"usage: {tool} ") else f"{tool} --help: {status}, {said}"
        bad = scenario("solver", "Install: a", [f"a 1; {OFFER}"]).replace("Architectures:", "Architectures")
        yield small.differs(f"{tool} of a line without a colon", asked(room, tool, bad), (0, f"{ERROR}a stanza: line 3 is no field: Architectures amd64\n"))
        yield small.differs(f"{tool} without a program", asked(room, tool, scenario(tool[4:], "Install: a", [f"a 1; {OFFER}"]),
                                                                     DEBPLAN=str(room / "none")),
                            (0, f"{ERROR}debplan is missing, ROOM/none is no program: ..\n"))
    text = scenario("solver", "Install: a", [f"a 1; {OFFER}; Recommends: b", f"b 2; {OFFER}"])
    for room, (env, wanted) in in_rooms([({"DEBPLAN_RECOMMENDS": "no"}, install("1 a 1")),
                                         ({"DEBPLAN_SECONDS": "-1"}, f"{ERROR}debplan was stopped: the time is over (DEBPLAN_SECONDS)\n")]):
        yield small.differs(f"apt-solver with {env}", asked(room, "apt-solver", text, **env), (0, wanted))
        yield None if os.path.exists(room / "in/status") else "the inputs aren't kept in DEBPLAN_FOLDER"


@unittest.skipUnless(small.HAS_PROGRAM, small.WITHOUT_PROGRAM)
class Exchanges(Rows):
    """What the solver and the planner answer apt."""

    def test_solver(self):
        self.check(of_tool("apt-solver", "solver", SOLVER))

    def test_planner(self):
        self.check(of_tool("apt-planner", "planner", PLANNER))

    def test_checked(self):
        self.check(of_checked())

    def test_settings(self):
        self.check(of_settings())
