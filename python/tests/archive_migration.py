"""The part of the self-test of tools/archive-check about packages that fail at the same relations: on which premises refutations rest, of
which packages is asked what helps them, and how many are told in groups. It goes on in the folder of the other part."""
import contextlib
import io
import json

from debplan.archive import along, differences, failing, groups, migration, premises, surveys
from tests.trials import fails
# (behind these, by which the module of Python is found)

# Keeps what is asked of `debplan batch`.
KEEPING = '#!/bin/sh\nif [ "$1" = batch ]; then tee -a questions | ./debplan "$@"; else exec ./debplan "$@"; fi\n'
# A package that needs what app needs, which nothing else of the newer suite has; and one of the source plugin there that needs it.
LONE = "Package: lone\nVersion: 1\nArchitecture: all\nDepends: api-1\n"
PLUG = "\nPackage: plug-on\nVersion: 5\nArchitecture: all\nSource: plugin\nDepends: lone\n"
MIGRATE = "PROGRAM=keeping migrate --processors 1 --index index --from newest --output next lib --check --"
# The calls, as in archive_tests, and for which goals is asked what helps.
ASKED = [
    (f"{MIGRATE} --arch amd64 --sources far-sources", 1, "next: ..\nnewly broken app 1\n  ..api-1..\n  needs app 2-0, plugin 3\n"
     "newly broken top 1\n  ..api-1..\n  asked of app 1, which fails there too: needs app 2-0, plugin 3\nstill broken 0\n"
     "with app plugin:\ncame broken plug-in 4\n  ..libb (>= 3)..\ncame broken plug-on 5\n  ..lone..\n"
     "would have to come along: app plugin\n", "..",
     ["install app (= 1)", "install app", "install plug-in (= 4)", "install plug-in", "install plug-on (= 5)", "install plug-on"]),
    (f"{MIGRATE} --arch amd64 --sources lone-sources", 1, "next: ..\nnewly broken app 1\n  ..api-1..\n  needs app 2-0, plugin 3\n"
     "newly broken lone 1\n  ..api-1..\nstill broken 0\nwith app plugin:\ncame broken plug-in 4\n  ..libb (>= 3)..\n"
     "came broken plug-on 5\n  ..api-1..\n  asked of lone 1, which fails there too: nothing helps\n"
     "would have to come along: app plugin\n", "..",
     ["install app (= 1)", "install app", "install lone (= 1)", "install lone", "install plug-in (= 4)", "install plug-in"]),
]
# A request, its refutation, and at which lines of it the last one rests, counted from the first behind the head: the second example of
# FORMATS.md, section 10, with the names of its pairs, then with a premise that nothing follows from, and cut short.
STANZAS = {("a", "1"): {"Depends": "c, p | q:any"}, ("p", "1"): {"Pre-Depends": "q (> 1)"}}
EXAMPLE = ("refutation 2\nindex 00 of a day\ngoal 1\ndepends a 1 2\npredepends p 1 1\nconflicts p 1 q 1\nessential q\nderive -p 1 : 3 4\n"
           "derive : 1 6 2 5\nend 7\n")
RESTING = [
    (EXAMPLE, ["goal install a", "depends a p | q", "predepends p q (>= 1)", "conflicts p q", "essential q"]),
    (EXAMPLE.replace("1 6 2 5", "1 2 5"), ["goal install a", "depends a p | q", "essential q"]),
    (EXAMPLE.replace("end 7\n", ""), []),
    (EXAMPLE.replace("depends a 1 2", "depends a 1 3"), []),
    (EXAMPLE.replace("refutation 2", "refutation 1"), []),
    ("", []),
]
# Sources that groups need, about which groups it is asked then, two at a time, and which are left for the next round.
PARTS = [
    ({}, ["b", "c", "a", "d"], []),
    ({"b": ["exchanged"]}, ["b", "c", "a", "d"], []),
    ({"c": ["other"]}, ["b", "c"], ["a", "d"]),
    ({"d": ["other"]}, ["b", "c", "a", "d"], []),
]
# Rounds and sources, and why it isn't asked any more behind them what has to come along.
ENDS = [
    (0, 300, None),
    (9, 1, None),
    (10, 1, "after 10 rounds still more would have to come along"),
    (0, 301, "more than 300 sources would have to come along: what comes along with these isn't asked"),
]
# What is said of the base before an exchange and after it, and whether it alone is asked about.
BASES = [(None, "broken", True), ("undecided", "broken", True), ("broken", "broken", False), (None, None, False), (None, "undecided", False)]
# What is told of more packages than have a line each.
GROUPED = """newly broken base
  why
newly broken, 1000 packages: a 0, a 1, a 2, a 3, a 4, and 995 more
  at a
newly broken, 2 packages: b 0, b 1
  at b
newly broken c 0
  why
came broken d 0
  why
"""


def tried_in(room):
    """Yields of each refutation, of each call and of what is told in groups why it isn't as it is wanted, or None."""
    write_files(room)
    yield from (rests_elsewhere(*row) for row in RESTING)
    yield from (asks_otherwise(room, row[:-1], row[-1]) for row in ASKED)
    yield tells_otherwise()
    yield from (asks_about_others(*row) for row in PARTS)
    yield from (ends_otherwise(*row) for row in ENDS)
    yield from (asks_beside_base(*row) for row in BASES)


def write_files(room):
    newer = (room / "newer").read_text(encoding="utf-8")
    texts = {"lone": LONE, "newest": newer.removesuffix("\n") + f"\n{PLUG}", "lone-sources": "File: lone\n\nFile: index\n", "keeping": KEEPING}
    for name, text in texts.items():
        (room / name).write_text(text, encoding="utf-8")
    (room / "keeping").chmod(0o755)


def rests_elsewhere(text, wanted):
    found = premises.premises_of("# of a\ninstall a\nall-versions\n", text, lambda *pair: STANZAS[pair])
    told = [" ".join(it if isinstance(it, str) else it["name"] for it in premise.values()) for premise in found]
    return None if told == wanted else f"{text}rests on {told}, and not on {wanted}"


def asks_otherwise(room, call, wanted):
    """Why a call isn't as it is wanted, or for which goals it asks what helps."""
    questions = room / "questions"
    questions.unlink(missing_ok=True)
    why = fails(room, call)
    asked = map(json.loads, questions.read_text(encoding="utf-8").splitlines()) if questions.is_file() else []
    found = [it["goals"][0].partition("\n")[0] for it in asked]
    return why or (None if found == wanted else f"`{call[0]}` asks for {found}, and not for {wanted}")


def tells_otherwise():
    """Why many packages aren't told as it is wanted."""
    base, lines = surveys.Line("broken", "base", None), {name: lines_of(name, count) for name, count in (("a", 1000), ("b", 2), ("c", 1), ("d", 1))}
    newly = [base, *lines["c"], *lines["b"], *lines["a"]]
    parts = [(lines["c"], ["at c"]), (lines["b"], ["at b"]), ([base], ["at base"]), (lines["a"] + lines["d"], ["at a"])]
    with contextlib.redirect_stdout(io.StringIO()) as told:
        differences.tell_kinds({"newly broken": newly, "came broken": lines["d"]}, lambda _: ["why"], parts)
    wanted = f"newly broken, in 4 groups: 1003 packages\n{GROUPED}"
    return None if told.getvalue() == wanted else f"many packages are told as\n{told.getvalue()}and not as\n{wanted}"


class Answering:
    """Answers each question about a group with these sources, by the first relation of the group, and keeps what it was asked about."""

    def __init__(self, needed):
        self.needed, self.seen = needed, []

    def asked(self, question, found):
        self.seen += map(name_of, found)
        return [along.Help(group.lines[0], "needs", set(self.needed.get(name_of(group), ()))) for group in found]


def asks_about_others(needed, wanted, left):
    """Why it isn't asked about these groups, in this order, where these need sources beside one that is exchanged, or why others are left.
    What helps the greatest group is known."""
    sizes = {"a": 1, "b": 3, "c": 2, "d": 1, "e": 4}
    found = [groups.Group([failing.Relation("depends", name, "")], lines_of(name, count)) for name, count in sizes.items()]
    line, judges, asking, before = found[-1].lines[0], Answering(needed), object.__new__(along.Along), along.PART
    asking.known = {(line, frozenset(found[-1].relations)): along.Help(line, along.NO_PLAN, set())}
    asking.judges, asking.exchanged, along.PART = judges, {"exchanged"}, 2
    try:
        told = [name_of(group) for group, answer in asking.for_each(found) if answer.said == along.LATER]
    finally:
        along.PART = before
    return None if (judges.seen, told) == (wanted, left) else f"{judges.seen} are asked about and {told} left, and not {wanted} and {left}"


def ends_otherwise(rounds, count, wanted):
    """Why it isn't asked any more, or is asked, where that isn't as it is wanted."""
    found = migration.why_over(rounds, count)
    return None if found == wanted else f"behind {rounds} rounds, with {count} sources, it is said {found}, and not {wanted}"


class Asking:
    """Stands for how the program is asked, where its answers are given."""

    def value(self, _):
        return "sources"

    def over(self, *_):
        return self

    def explained(self):
        return self

    def words(self):
        return []


def asks_beside_base(was, now, alone):
    """Why packages are asked about beside this base, or aren't, where that isn't as it is wanted."""
    check, asked = object.__new__(migration.Check), migration.shards.asked
    check.names, check.base, check.asking = None, {"base"}, Asking()
    check.before = check.after = [{"Package": "base", "Version": "1"}]
    check.survey_before, check.survey = (lambda *_, state=state: surveys.Survey(state, lines_of("a", 1), 1) for state in (was, now))
    migration.shards.asked = lambda words, count, folder=None: surveys.Survey(now if folder else was, [], 1)
    try:
        with contextlib.redirect_stderr(io.StringIO()):
            said = check.surveys("sources", "folder")
    finally:
        migration.shards.asked = asked
    found = [it.base for it in said], not any(it.lines for it in said)
    return None if found == ([was, now], alone) else f"with a base that is {was} and then {now}, {found} is said"


def name_of(group):
    return group.relations[0].text


def lines_of(name, count):
    return [surveys.Line("broken", name, str(version)) for version in range(count)]
