"""Tests of what Python is answered over small made-up archives, by the program that DEBPLAN names or that the gate builds, and by scripts
of sh that stand for one which goes wrong. Where there is no program its tests are left out, and that is said."""
from __future__ import annotations

import concurrent.futures
import json
import os
import pathlib
import shutil
import signal
import subprocess
import sys
import tempfile
import unittest
from typing import Any, Callable, ClassVar, Dict, List, Optional, Tuple, Union
from unittest import mock

import debplan
from debplan import process, resolver
from debplan.tool import Failure

TOP = pathlib.Path(__file__).resolve().parent.parent.parent
BUILT = pathlib.Path(os.environ.get("DEBPLAN") or TOP / "crates" / "debplan" / "out" / "debplan").resolve()
MISSING = None if os.access(BUILT, os.X_OK) else f"there is no program {BUILT}"


def index_of(*packages: str) -> str:
    """A Packages file of packages, each as `NAME VERSION; FIELD: VALUE; ..`."""
    stanzas = []
    for package in packages:
        pair, *fields = package.split("; ")
        name, version = pair.split(" ")
        stanzas.append("".join(f"{line}\n" for line in (f"Package: {name}", f"Version: {version}", "Architecture: all", *fields)))
    return "\n".join(stanzas)


def status_of(*packages: str) -> str:
    """A status file of packages that are installed; one whose fields have a Status is as it says."""
    return index_of(*(it if "Status: " in it else f"{it}; Status: install ok installed" for it in packages))


# hello is missing; what it needs is installed. Two mail servers exclude each other. a and b are a ring. The examples of docs/FORMATS.md,
# sections 9, 10 and 13, are p with q, r with s and t, and foo.
INDEX = index_of("hello 2.10-3; Depends: libc6 (>= 2.34); Filename: pool/hello_2.10-3.deb; Size: 53080; SHA256: 2e6e", "libc6 2.36-9",
                 "exim 4; Provides: mta; Conflicts: mta", "postfix 3; Provides: mta; Conflicts: mta", "a 1; Depends: b", "b 1; Depends: a",
                 "p 2; Breaks: q (<< 2)", "q 2", "r 1; Depends: s | t", "s 1; Depends: t; Conflicts: t", "t 1; Depends: s",
                 "needy 1; Depends: nowhere", "old 1", "old 2", "wants-old 1; Depends: old (<< 2)",
                 "mutt 1; Recommends: mta, urlview | pager, needy; Filename: pool/mutt_1.deb", "pager 1; Recommends: hello")
STATUS = status_of("libc6 2.36-9", "p 1", "q 1", "left 1; Status: deinstall ok config-files", "leaf 1",
                   "held 1; Status: hold ok installed", "essential 1; Essential: yes")
FILES = {"index": INDEX, "status": STATUS, "sources": "File: index\nSuite: stable\n",
         "preferences": "Package: old\nPin: version 1\nPin-Priority: 1000\n",
         "bad-preferences": "Package: *\nPin: nothing\nPin-Priority: 1\n", "bad-sources": "Suite: stable\n",
         "no-index-sources": "File: index\n\nFile: nowhere\n", "bad-index-sources": "File: bad-index\n",
         "bad-index": "Package: x\nVersion 1\n", "bad-status": index_of("x 1; Status: install ok nothing"),
         "foreign-status": "Package: x\nVersion: 1\nArchitecture: i386\nStatus: install ok installed\n",
         "clashing-status": status_of("one 1; Conflicts: two", "two 1"), "broken-base-sources": "File: broken-base\n",
         "broken-base": index_of("base 1; Essential: yes; Depends: nowhere")}
PLAN = "plan 1\nunpack hello 2.10-3\nconfigure hello\n"


class InRoom(unittest.TestCase):
    """Tests in a folder that has the files."""

    room: ClassVar[pathlib.Path]

    @classmethod
    def setUpClass(cls) -> None:
        folder = tempfile.TemporaryDirectory(prefix="debplan-module-")
        cls.addClassCleanup(folder.cleanup)
        cls.room = pathlib.Path(folder.name)
        for name, text in FILES.items():
            (cls.room / name).write_text(text, encoding="utf-8")

    def over(self, **options: Any) -> debplan.Resolver:
        """A Resolver over the files, of which other ones may be named."""
        defaults: Dict[str, Any] = {"arch": "amd64", "status": "status", "sources": "sources", "folder": self.room, "program": BUILT}
        resolver = debplan.Resolver(**{**defaults, **options})
        self.addCleanup(resolver.close)
        return resolver

    def script(self, text: str) -> pathlib.Path:
        """A program of sh that stands for debplan."""
        path = self.room / "script"
        path.write_text(f"#!/bin/sh\n{text}\n", encoding="utf-8")
        path.chmod(0o755)
        return path

    def assert_is_gone(self, number: int) -> None:
        """That no process of this number is there."""
        with self.assertRaises(ProcessLookupError):
            os.kill(number, 0)


@unittest.skipIf(MISSING, str(MISSING))
class Answers(InRoom):
    """What is read of each kind of answer."""

    def test_a_plan_has_its_steps(self) -> None:
        plan = self.over().solve("install hello")
        assert isinstance(plan, debplan.Plan)
        self.assertEqual(plan.steps, (debplan.Unpack("hello", "2.10-3"), debplan.Configure(("hello",))))
        self.assertEqual((plan.text, plan.request, plan.kept_back, plan.came, plan.left_out), (PLAN, "install hello\n", (), (), ()))
        self.assertEqual(plan.counts, debplan.StepCounts(unpack=1, deconfigure=0, configure=1, remove=0, purge=0))
        self.assertTrue(plan.reasons)

    def test_a_step_has_what_the_index_says_of_the_archive_where_that_is_asked_for(self) -> None:
        plan = self.over().solve("install hello", archives=True)
        assert isinstance(plan, debplan.Plan)
        unpack = debplan.Unpack("hello", "2.10-3", "pool/hello_2.10-3.deb", 53080, "2e6e")
        self.assertEqual((plan.steps, plan.text), ((unpack, debplan.Configure(("hello",))), PLAN))

    def test_the_steps_as_texts_are_the_lines_of_the_plan(self) -> None:
        for goals in (["install a"], ["upgrade p"], ["remove p", "purge leaf"], ["install hello", "upgrade-all", "no-remove"]):
            plan = self.over().solve(*goals)
            assert isinstance(plan, debplan.Plan), goals
            self.assertEqual("".join(f"{line}\n" for line in ("plan 1", *plan.steps)), plan.text, goals)

    def test_what_an_index_does_not_say_of_an_archive_is_none(self) -> None:
        plan = self.over().solve("install exim", archives=True)
        assert isinstance(plan, debplan.Plan)
        self.assertEqual(plan.steps[0], debplan.Unpack("exim", "4", None, None, None))

    def test_each_action_is_a_step_of_its_own_kind(self) -> None:
        text = "plan 1\nunpack a 1\nunpack b 1\nconfigure a b\ndeconfigure q\nremove leaf\npurge left\n"
        verdict = self.over().check_plan("install a", text)
        self.assertEqual(verdict.steps, (debplan.Unpack("a", "1"), debplan.Unpack("b", "1"), debplan.Configure(("a", "b")),
                                         debplan.Deconfigure("q"), debplan.Remove("leaf"), debplan.Purge("left")))
        self.assertEqual([it.names for it in verdict.steps], [("a",), ("b",), ("a", "b"), ("q",), ("leaf",), ("left",)])
        self.assertEqual(verdict.counts, debplan.StepCounts(unpack=2, deconfigure=1, configure=1, remove=1, purge=1))

    def test_each_action_has_a_count_of_its_own(self) -> None:
        lines = ["unpack hello 2.10-3\n"] + ["deconfigure q\n"] * 2 + ["configure q\n"] * 3 + ["remove leaf\n"] * 4 + ["purge left\n"] * 5
        verdict = self.over().check_plan("install hello", "plan 1\n" + "".join(lines))
        self.assertEqual(verdict.counts, debplan.StepCounts(unpack=1, deconfigure=2, configure=3, remove=4, purge=5))

    def test_a_refutation_has_its_premises_and_derived_lines(self) -> None:
        refutation = self.over(status=None).solve("install exim", "install postfix")
        assert isinstance(refutation, debplan.Refutation)
        conflict = [it for it in refutation.premises if it.kind == "conflicts"][0]
        assert conflict.pair and conflict.other
        self.assertEqual({conflict.pair.name, conflict.other.name, conflict.text}, {"exim", "postfix", "mta"})
        goals = [(it.goal, it.text) for it in refutation.premises if it.kind == "goal"]
        self.assertEqual(sorted(goals), [(1, "install exim"), (2, "install postfix")])
        last = refutation.lines[-1]
        assert isinstance(last, debplan.Derived)
        self.assertEqual((last.line, last.literals, sorted(last.hints)), (4, (), [1, 2, 3]))
        self.assertEqual(refutation.request, "install exim\ninstall postfix\n")
        self.assertRegex(" ".join(refutation.reasons), "exim 4 conflicts with postfix 3|postfix 3 conflicts with exim 4")

    def test_a_premise_has_the_numbers_of_its_line(self) -> None:
        refutation = self.over(status=None).solve("install needy")
        assert isinstance(refutation, debplan.Refutation)
        depends = [it for it in refutation.premises if it.kind == "depends"][0]
        assert depends.pair
        self.assertEqual((depends.pair.name, depends.pair.version, depends.clause, depends.text), ("needy", "1", 1, "nowhere"))
        self.assertIn(f"depends {depends.pair.number} 1\n", refutation.text)

    def test_premises_on_names_and_holds(self) -> None:
        for goals, kind, name in ((["remove essential"], "essential", "essential"), (["remove leaf", "no-remove"], "keep", "leaf")):
            refutation = self.over().solve(*goals)
            assert isinstance(refutation, debplan.Refutation), goals
            self.assertEqual([it.name for it in refutation.premises if it.kind == kind], [name], goals)
        refutation = self.over().solve("remove held")
        assert isinstance(refutation, debplan.Refutation)
        self.assertEqual([it.pair.name for it in refutation.premises if it.kind == "hold" and it.pair], ["held"])

    def test_a_derived_line_has_literals(self) -> None:
        refutation = self.over(status=None).solve("install r")
        assert isinstance(refutation, debplan.Refutation)
        literals = [it for line in refutation.lines if isinstance(line, debplan.Derived) for it in line.literals]
        self.assertTrue(literals)
        self.assertTrue({it.pair.name for it in literals} <= {"r", "s", "t"})

    def test_a_request_is_undecided_at_a_limit_and_at_a_conflict_of_the_start(self) -> None:
        for status, goal, limit, why in ((None, "install r", 0, "limit"), ("clashing-status", "install hello", None, "blocked start")):
            answer = self.over(status=status).solve(goal, limit=limit)
            assert isinstance(answer, debplan.Undecided), goal
            self.assertEqual((answer.why, answer.request), (why, f"{goal}\n"))
            self.assertTrue(answer.text.startswith(f"undecided {why}"))

    def test_what_is_kept_back_is_told_and_left_out_of_the_request(self) -> None:
        resolver = self.over()
        answer = resolver.solve("install hello", "install needy", keep_back=True)
        assert isinstance(answer, debplan.Plan)
        self.assertEqual((answer.request, answer.text), ("install hello\n", PLAN))
        self.assertTrue(answer.kept_back[0].startswith("Kept back: install needy (line 2)"))
        self.assertTrue(resolver.check_plan(answer.request, answer))
        self.assertFalse(resolver.check_plan(["install hello", "install postfix"], answer))

    def test_what_is_recommended_is_asked_for_and_told(self) -> None:
        wanted = ("install mutt\ninstall exim\ninstall pager\ninstall hello\n",
                  (debplan.Recommended("mutt", "mta", ("install exim",)),
                   debplan.Recommended("mutt", "urlview | pager", ("install pager",)),
                   debplan.Recommended("pager", "hello", ("install hello",))))
        resolver = self.over()
        for archives, filename in ((False, None), (True, "pool/mutt_1.deb")):
            plan = resolver.solve("install mutt", recommends=True, archives=archives)
            assert isinstance(plan, debplan.Plan)
            self.assertEqual((plan.request, plan.came), wanted)
            self.assertEqual([(it.by, it.relation, it.goals) for it in plan.left_out], [("mutt", "needy", ())])
            self.assertIn("nowhere", str(plan.left_out[0].why))
            self.assertEqual([it.filename for it in plan.steps if isinstance(it, debplan.Unpack) and it.name == "mutt"], [filename])
            self.assertTrue(resolver.check_plan(plan.request, plan))
        self.assertIsInstance(resolver.solve("install needy", recommends=True), debplan.Refutation)
        self.assertEqual(getattr(resolver.solve("install a", recommends=True), "came"), ())
        kept = resolver.solve("install mutt", "install needy", recommends=True, keep_back=True)
        self.assertEqual((kept.request, len(kept.kept_back) > 0), (wanted[0], True))
        self.assertNotIn("recommending", sys.modules)

    def test_all_versions_stands_in_the_request(self) -> None:
        resolver = self.over()
        self.assertIsInstance(resolver.solve("install wants-old"), debplan.Refutation)
        answer = resolver.solve("install wants-old", all_versions=True)
        assert isinstance(answer, debplan.Plan)
        self.assertEqual(answer.request, "install wants-old\nall-versions\n")
        self.assertIn(debplan.Unpack("old", "1"), answer.steps)
        self.assertTrue(resolver.check_plan(answer.request, answer.text))

    def test_goals_are_texts_of_a_line_or_more(self) -> None:
        resolver = self.over()
        wanted = resolver.solve("install hello", "install a").text
        for goals in (["install hello\ninstall a"], ["install hello\n", "install a\n"], ["# a comment\ninstall hello", "", "install a"]):
            self.assertEqual(resolver.solve(*goals).text, wanted, goals)
        for request in ("install hello", "install hello\n", ["install hello"], iter(["install hello"]), ("install hello\n",)):
            self.assertTrue(resolver.check_plan(request, PLAN))
        self.assertEqual(resolver.solve().text, "plan 1\n")

    def test_many_goals_are_one_request(self) -> None:
        answer = self.over().solve(*["install hello"] * 50_000)
        self.assertEqual(answer.text, PLAN)


@unittest.skipIf(MISSING, str(MISSING))
class Verdicts(InRoom):
    """What is read of each verdict."""

    def test_a_plan_is_good_or_says_where_it_is_not(self) -> None:
        end, start, left = debplan.Rule("F11", "End"), debplan.Rule("F0", "StartConflict"), "plan 1\nunpack hello 2.10-3\n"
        rows = (("install hello", PLAN, (True, None, None, None, None)),
                ("install hello", "plan 1\n", (False, "end", None, end, debplan.EndReason("Goal", None, 1))),
                ("install hello", left, (False, "end", None, end, debplan.EndReason("Unfinished", "hello", None))),
                ("install hello", "plan 1\nconfigure hello\n", (False, "step", 1, debplan.Rule("F9", "WrongState"), None)),
                ("upgrade p", "plan 1\nunpack p 2\n", (False, "step", 1, debplan.Rule("F3", "Breaks"), None)),
                ("upgrade p", "plan 1\ndeconfigure q\nunpack p 2\nunpack q 2\nconfigure p\nconfigure q\n", (True, None, None, None, None)))
        for request, plan, wanted in rows:
            found = self.over().check_plan(request, plan)
            self.assertEqual((found.is_good, found.place, found.step, found.rule, found.reason), wanted, plan)
            self.assertEqual((bool(found), found.request), (wanted[0], f"{request}\n"), plan)
        found = self.over(status="clashing-status").check_plan("remove two", "plan 1\n")
        self.assertEqual((found.is_good, found.place, found.step, found.rule), (False, "start", None, start))

    def test_a_refutation_is_accepted_for_its_request_alone(self) -> None:
        resolver = self.over(status=None)
        refutation = resolver.solve("install exim", "install postfix")
        assert isinstance(refutation, debplan.Refutation)
        judgeds: Tuple[Union[str, debplan.Refutation], ...] = (refutation, refutation.text)
        for judged in judgeds:
            found = resolver.check_refutation(refutation.request, judged)
            self.assertEqual((found.is_accepted, bool(found), found.line, found.lines), (True, True, None, refutation.lines))
        found = resolver.check_refutation("install exim", refutation)
        self.assertEqual((found.is_accepted, bool(found)), (False, False))
        self.assertIn(found.line, (1, 2))
        self.assertEqual(found.text, f"no line {found.line}\n")

    def test_a_line_of_no_pair_and_no_clause_has_none(self) -> None:
        found = self.over(status=None).check_refutation("install hello", "refutation 1\ndepends 9999 1\nderive -1 : 1\n")
        self.assertEqual(found.lines[0], debplan.Premise(1, "depends", debplan.Pair(9999, None, None), None, 1))
        derived = found.lines[1]
        assert isinstance(derived, debplan.Derived)
        self.assertEqual([(it.pair.number, it.selected) for it in derived.literals], [(1, False)])


@unittest.skipIf(MISSING, str(MISSING))
class Names(InRoom):
    """Candidates, packages that can't be installed, and versions."""

    def test_candidates_are_in_order_and_have_names(self) -> None:
        found = self.over().candidate("hello", "nowhere", "old")
        wanted = [debplan.Candidate("hello", "2.10-3", 500), debplan.Candidate("nowhere", None, None), debplan.Candidate("old", "2", 500)]
        self.assertEqual((list(found), len(found), found["old"]), (wanted, 3, wanted[2]))
        self.assertEqual(found.text, "hello 2.10-3 500\nnowhere none\nold 2 500\n")
        with self.assertRaises(KeyError):
            found["p"]
        self.assertEqual(len(self.over().candidate()), 0)

    def test_preferences_and_a_target_choose_candidates(self) -> None:
        self.assertEqual(self.over(preferences="preferences").candidate("old")["old"], debplan.Candidate("old", "1", 1000))
        self.assertEqual(self.over(target="stable").candidate("hello")["hello"].priority, 990)

    def test_names_that_begin_with_a_hyphen_are_names(self) -> None:
        self.assertEqual(self.over().candidate("--help").text, "--help none\n")

    def test_broken_packages_come_with_their_refutations_and_last_the_counts(self) -> None:
        resolver = self.over(status=None)
        *found, counts = resolver.installable("needy", "hello", "wants-old")
        self.assertEqual(counts, debplan.PackageCounts(checked=3, broken=2, undecided=0, text="checked 3, broken 2\n"))
        for package, name, request in zip(found, ("needy", "wants-old"), ("install needy (= 1)\n", "install wants-old (= 1)\n")):
            assert isinstance(package, debplan.BrokenPackage)
            self.assertEqual((package.name, package.version, package.request, package.text), (name, "1", request, f"broken {name} 1\n"))
            self.assertTrue(package.reasons)
            self.assertTrue(resolver.check_refutation(package.request, package.refutation))
        self.assertEqual(len(found), 2)

    def test_packages_of_names_are_asked_about_by_the_process_that_answers_others(self) -> None:
        with self.over() as resolver:
            resolver.solve("install hello")
            with mock.patch.object(process, "started", side_effect=AssertionError("a call of its own")):
                counts = list(resolver.installable("hello", "needy", all_versions=True, without_essential=True, limit=10))[-1]
        assert isinstance(counts, debplan.PackageCounts)
        self.assertEqual((counts.checked, counts.text), (2, "checked 2, broken 1\n"))

    def test_all_packages_are_asked_about_and_more_versions_help(self) -> None:
        names = [getattr(it, "name", "counts") for it in self.over(status=None).installable()]
        self.assertEqual(names, ["needy", "r", "s", "t", "wants-old", "counts"])
        self.assertNotIn("wants-old", [getattr(it, "name", "") for it in self.over(status=None).installable(all_versions=True)])

    def test_a_package_is_undecided_at_a_limit(self) -> None:
        package, counts = self.over(status=None).installable("r", limit=0)
        assert isinstance(package, debplan.UndecidedPackage) and isinstance(counts, debplan.PackageCounts)
        self.assertEqual((package.name, package.version, package.text, counts.undecided), ("r", "1", "undecided r 1\n", 1))

    def test_the_base_has_no_name(self) -> None:
        base, package, _ = self.over(status=None, sources="broken-base-sources").installable()
        assert isinstance(base, debplan.BrokenPackage) and isinstance(package, debplan.BrokenPackage)
        self.assertEqual((base.name, base.version, base.request, package.name), (None, None, "install base\n", "base"))
        *found, counts = self.over(status=None, sources="broken-base-sources").installable(without_essential=True)
        self.assertEqual((len(found), counts.text), (1, "checked 1, broken 1\n"))

    def test_versions_compare(self) -> None:
        rows = (("1.0~rc1", "lt", "1.0", True), ("1.0", "eq", "1.0-0", True), ("1:0", "le", "9", False), ("2", "gt", "10", False))
        for version, relation, other, wanted in rows:
            self.assertEqual(debplan.compare(version, relation, other, program=BUILT), wanted, f"{version} {relation} {other}")


@unittest.skipIf(MISSING, str(MISSING))
class Refusals(InRoom):
    """What is refused, with its place."""

    def test_each_input_is_refused_with_its_file_code_word_and_place(self) -> None:
        rows: Tuple[Tuple[Dict[str, str], str, str, Optional[int]], ...] = (
            ({}, "install hello\nfetch x", "request: E16 BadRequest 2", 2), ({}, "install nobody", "request: E17 UnknownName 1", 1),
            ({"status": "nowhere"}, "install a", "status: E5 Read", None), ({"sources": "nowhere"}, "install a", "sources: E5 Read", None),
            ({"sources": "no-index-sources"}, "install a", "index 2: E5 Read", None),
            ({"sources": "bad-index-sources"}, "install a", "index 1: E2 BadLine 2", 2),
            ({"sources": "bad-sources"}, "install a", "sources: E9 MissingField 1 File", 1),
            ({"status": "bad-status"}, "install a", "status: E12 BadStatus 4", 4),
            ({"status": "foreign-status"}, "install a", "status: E14 ForeignArchitecture x", None),
            ({"preferences": "bad-preferences"}, "install a", "preferences: E11 BadPin 2", 2))
        for options, goals, text, number in rows:
            with self.assertRaises(debplan.Refused) as raised:
                self.over(**options).solve(goals)
            found = raised.exception
            self.assertEqual((str(found), found.number), (text, number))
            self.assertEqual(f"{found.file}: {found.code} {found.word} {found.place}".rstrip(), text)

    def test_a_refusal_has_sentences_and_ends_nothing(self) -> None:
        resolver = self.over()
        with self.assertRaises(debplan.Refused) as raised:
            resolver.solve("fetch x")
        self.assertTrue(any("fetch x" in it for it in raised.exception.reasons))
        self.assertEqual(resolver.solve("install hello").text, PLAN)

    def test_what_is_judged_is_refused(self) -> None:
        for text in ("", "plan 3\n", "plan 1\nfetch hello\n", "plan 1\nunpack hello 2.10-3"):
            with self.assertRaises(debplan.Refused) as raised:
                self.over().check_plan("install hello", text)
            self.assertEqual(str(raised.exception), f"plan: E18 BadPlan {2 if text.startswith('plan 1') else 1}", text)
        with self.assertRaises(debplan.Refused) as raised:
            self.over().check_refutation("install hello", "refutation 1\nderive : \n")
        self.assertEqual(str(raised.exception), "refutation: E19 BadRefutation 2")

    def test_a_name_of_installable_and_a_version_are_refused(self) -> None:
        with self.assertRaises(debplan.Refused) as raised:
            next(self.over(status=None).installable("hello", "nobody"))
        self.assertEqual((str(raised.exception), raised.exception.number), ("request: E17 UnknownName 2", 2))
        with self.assertRaises(debplan.Refused) as raised:
            debplan.compare("1", "lt", "1-", program=BUILT)
        self.assertEqual(raised.exception.file, "version 2")
        self.assertEqual((raised.exception.code, raised.exception.word, raised.exception.number), ("E6", "BadVersion", None))

    def test_wrong_words_of_a_call_are_a_failure(self) -> None:
        for archives, status in ((False, None), (True, 4)):
            with self.assertRaises(debplan.Failed) as raised:
                self.over().solve("install hello", limit=-1, archives=archives)
            self.assertEqual(raised.exception.status, status)
        with self.assertRaises(debplan.Failed):
            debplan.compare("1", "before", "2", program=BUILT)


@unittest.skipIf(MISSING, str(MISSING))
class Many(InRoom):
    """Many questions to one process."""

    def counted(self, begin: str = "", **options: Any) -> debplan.Resolver:
        """A Resolver whose processes write down their numbers, behind some lines of sh."""
        (self.room / "numbers").write_text("")
        return self.over(program=self.script(f'echo $$ >> numbers\n{begin}\nexec "{BUILT}" "$@"'), **options)

    def numbers(self) -> List[int]:
        return [int(it) for it in (self.room / "numbers").read_text().split()]

    def test_two_hundred_questions_are_answered_by_one_process_as_by_calls(self) -> None:
        resolver, alone = self.counted(), self.over()
        wanted = [alone.solve("install hello", archives=True).text, alone.solve("install needy", archives=True).text,
                  alone.solve("install hello", "install needy", keep_back=True, archives=True).text, "yes\n", "no step 1 F9 WrongState\n",
                  "yes\n", "hello 2.10-3 500\nnowhere none\n", alone.solve("install wants-old", all_versions=True, archives=True).text]
        refuted = resolver.solve("install needy").text
        asks: Tuple[Callable[[], str], ...] = (
            lambda: resolver.solve("install hello").text, lambda: resolver.solve("install needy").text,
            lambda: resolver.solve("install hello", "install needy", keep_back=True).text,
            lambda: resolver.check_plan("install hello", PLAN).text,
            lambda: resolver.check_plan("install hello", "plan 1\nconfigure hello\n").text,
            lambda: resolver.check_refutation("install needy", refuted).text, lambda: resolver.candidate("hello", "nowhere").text,
            lambda: resolver.solve("install wants-old", all_versions=True).text)
        for number in range(200):
            self.assertEqual(asks[number % len(asks)](), wanted[number % len(asks)], number)
        self.assertEqual(len(self.numbers()), 1)

    def test_a_refused_question_between_two_good_ones_ends_nothing(self) -> None:
        resolver = self.counted()
        for question, code in (("fetch x", "E16"), ("install nobody", "E17")):
            self.assertEqual(resolver.solve("install hello").text, PLAN)
            with self.assertRaises(debplan.Refused) as raised:
                resolver.solve("install hello", question)
            self.assertEqual((raised.exception.code, raised.exception.number), (code, 2))
            with self.assertRaises(debplan.Failed):
                resolver.solve("install hello", limit=-1)
            self.assertEqual(resolver.solve("install hello").text, PLAN)
        self.assertEqual(len(self.numbers()), 1)

    def test_a_process_that_was_killed_between_two_questions_is_started_again(self) -> None:
        resolver = self.counted()
        self.assertEqual(resolver.solve("install hello").text, PLAN)
        os.kill(self.numbers()[0], signal.SIGKILL)
        os.waitid(os.P_PID, self.numbers()[0], os.WEXITED | os.WNOWAIT)
        self.assertEqual(resolver.solve("install hello").text, PLAN)
        self.assertEqual(len(self.numbers()), 2)
        self.assert_is_gone(self.numbers()[0])

    def test_a_process_that_dies_of_a_question_fails_with_its_last_words(self) -> None:
        resolver = self.counted('if mkdir once 2> /dev/null; then echo at first >&2; read line; echo going down >&2; kill -9 $$; fi')
        with self.assertRaisesRegex(debplan.Failed, "ended with the status -9: (at first|going down)$") as raised:
            resolver.solve("install hello")
        self.assertEqual(raised.exception.status, -9)
        self.assertEqual(resolver.solve("install hello").text, PLAN)
        (self.room / "once").rmdir()

    def test_last_words_are_those_since_the_question(self) -> None:
        answer = '{"id":1,"answer":"undecided","why":"limit","text":"","reasons":[]}'
        resolver = self.over(program=self.script(f"echo at first >&2; read line; echo '{answer}'; read line; echo going down >&2; exit 7"))
        self.assertIsInstance(resolver.solve("install hello"), debplan.Undecided)
        with self.assertRaisesRegex(debplan.Failed, "ended with the status 7: going down$"):
            resolver.solve("install hello")

    def test_refused_inputs_are_refused_at_each_question_until_they_are_mended(self) -> None:
        resolver = self.counted(status="status-of-later")
        for _ in range(2):
            with self.assertRaises(debplan.Refused) as raised:
                resolver.solve("install hello")
            self.assertEqual(str(raised.exception), "status: E5 Read")
        (self.room / "status-of-later").write_text(STATUS)
        self.assertEqual(raised.exception.reasons, ())
        self.assertEqual(resolver.solve("install hello").text, PLAN)
        (self.room / "status-of-later").unlink()

    def test_long_questions_and_replies_go_through(self) -> None:
        resolver, names = self.counted(), [f"name-{number}" for number in range(50_000)]
        self.assertEqual(len(resolver.candidate(*names)), 50_000)
        verdict = resolver.check_plan("install hello", PLAN + "deconfigure leaf\n" * 100_000)
        self.assertEqual((verdict.counts.deconfigure, verdict.step), (100_000, 4))
        self.assertEqual(len(self.numbers()), 1)

    def test_what_no_line_can_have_is_a_call_of_its_own(self) -> None:
        resolver = self.counted()
        with self.assertRaises(debplan.Refused) as raised:
            resolver.solve("install hello", "install \udcff")
        self.assertEqual(str(raised.exception), "request: E16 BadRequest 2")
        with mock.patch.object(process, "QUESTION_BYTES", 1000):
            self.assertEqual(resolver.solve(*["install hello"] * 100).text, PLAN)
        self.assertEqual(resolver.solve("install hello").text, PLAN)
        self.assertEqual(len(self.numbers()), 3)

    def test_threads_get_their_own_answers(self) -> None:
        resolver, names = self.counted(), ["hello", "a", "b", "needy", "leaf"] * 20
        with concurrent.futures.ThreadPoolExecutor(4) as pool:
            found = list(pool.map(lambda name: resolver.candidate(name).candidates[0].name, names))
        self.assertEqual((found, len(self.numbers())), (names, 1))

    def test_a_resolver_that_is_closed_or_forgotten_leaves_no_process(self) -> None:
        for is_closed in (True, False):
            resolver = self.counted()
            resolver.solve("install hello")
            if is_closed:
                resolver.close()
            else:
                self.doCleanups()
                del resolver
            self.assert_is_gone(self.numbers()[0])

    def test_an_interrupted_question_leaves_no_process(self) -> None:
        def interrupt(*_: object) -> None:
            raise KeyboardInterrupt

        resolver = self.counted("if mkdir once 2> /dev/null; then read line; exec sleep 600; fi")
        before = signal.signal(signal.SIGALRM, interrupt)
        try:
            signal.setitimer(signal.ITIMER_REAL, 2)
            with self.assertRaises(KeyboardInterrupt):
                resolver.solve("install hello")
        finally:
            signal.setitimer(signal.ITIMER_REAL, 0)
            signal.signal(signal.SIGALRM, before)
        for number in self.numbers():
            self.assert_is_gone(number)
        (self.room / "once").mkdir(exist_ok=True)
        self.assertEqual(resolver.solve("install hello").text, PLAN)
        (self.room / "once").rmdir()


# A program that goes wrong, as a script of sh, and what it is asked.
WRONG = {
    "killed": ("kill -9 $$", -9), "killed in the middle": ("printf '{\"id\":1,\"answer\":\"plan\",'; kill -9 $$", -9),
    "silent": ("exit 0", 0), "no JSON": ("echo plan 1", 0), "another JSON": ("echo '[]'", 0), "no newline": ("printf '{}'", 0),
    "an answer to no question": ("echo '{\"answer\":\"undecided\",\"why\":\"limit\",\"text\":\"\"}'; exit 9", 9),
    "the answer to another question": ("echo '{\"id\":2,\"answer\":\"undecided\",\"why\":\"limit\",\"text\":\"\"}'; exit 9", 9),
    "two answers": ("printf '{\"id\":1}\\n{\"id\":1}\\n'; exit 8", 8), "a refusal of no question": ("echo '{\"refused\":\"x\"}'", 0),
}
OTHER_FORMS = ("", '"answer":"maybe","text":"x"', '"answer":"plan","text":"x","steps":[{"action":"fetch","name":"x"}],"counts":{}',
               '"answer":"plan","text":"x","steps":[{"action":"unpack"}],"counts":{}', '"answer":"refuted","text":"x","lines":[7]',
               '"answer":"plan","text":"x","steps":7,"counts":{}', '"refused":7', '"refused":"no refusal"')
NEWER = ('{"id":1,"answer":"plan","text":"plan 1\\n","steps":[{"action":"remove","name":"x","colour":"red"}],"more":{},'
         '"counts":{"unpack":0,"deconfigure":0,"configure":0,"remove":1,"purge":0,"paint":0}}')


class Calls(InRoom):
    """How the program is called, by scripts that stand for it."""

    def test_a_program_that_gives_no_answer_has_failed(self) -> None:
        for name, (script, status) in WRONG.items():
            with self.assertRaises(debplan.Failed, msg=name) as raised:
                self.over(program=self.script(script)).solve("install hello")
            self.assertEqual(raised.exception.status, status, name)

    def test_a_failure_tells_what_the_program_said_first(self) -> None:
        with self.assertRaisesRegex(debplan.Failed, "ended with the status 7: the disk is gone"):
            self.over(program=self.script("echo the disk is gone >&2; exit 7")).candidate("x")

    def test_an_answer_of_another_form_has_failed(self) -> None:
        for form in OTHER_FORMS:
            with self.assertRaises(debplan.Failed, msg=form):
                self.over(program=self.script(f"""echo '{{"id":1{form and ","}{form}}}'""")).solve("install hello")

    def test_members_that_are_not_known_are_passed_over(self) -> None:
        answer = self.over(program=self.script(f"printf '%s\\n' '{NEWER}'")).solve("remove x")
        assert isinstance(answer, debplan.Plan)
        self.assertEqual((answer.steps, answer.reasons), ((debplan.Remove("x"),), ()))

    def test_reasons_for_which_memory_was_refused_are_none(self) -> None:
        answer = '{"id":1,"answer":"undecided","why":"limit","text":"","reasons":null}'
        self.assertEqual(self.over(program=self.script(f"echo '{answer}'")).solve("remove x").reasons, ())

    def test_packages_without_counts_have_failed(self) -> None:
        line = '{"answer":"undecided","name":"x","version":"1","text":"undecided x 1\\n"}'
        found: List[debplan.PackageAnswer] = []
        with self.assertRaisesRegex(debplan.Failed, "before the counts"):
            found.extend(self.over(program=self.script(f"printf '%s\\n' '{line}'; exit 2")).installable())
        with self.assertRaises(debplan.Failed) as raised:
            found.extend(self.over(program=self.script(f"printf '%s\\n' '{line}'; kill -9 $$")).installable())
        self.assertEqual(raised.exception.status, -9)

    def test_a_call_ends_where_no_more_is_asked_for(self) -> None:
        line = '{"answer":"undecided","name":"x","version":"1","text":"undecided x 1\\n"}'
        script = self.script(f"echo $$ > pid; printf '%s\\n' '{line}'; exec sleep 600")
        packages = self.over(program=script).installable()
        self.assertIsInstance(next(packages), debplan.UndecidedPackage)
        number = int((self.room / "pid").read_text())
        os.kill(number, 0)
        packages.close()
        self.assert_is_gone(number)

    def test_the_words_of_a_call(self) -> None:
        script = self.script('printf "%s\n" "$@" > words; cat > given; echo "debplan: memory: E1 OutOfMemory" >&2; exit 5')
        resolver = self.over(program=script, preferences="-p", target="next release")
        with self.assertRaises(debplan.Refused) as raised:
            resolver.solve("install x", limit=7, keep_back=True, archives=True)
        self.assertEqual((str(raised.exception), raised.exception.place, raised.exception.reasons), ("memory: E1 OutOfMemory", "", ()))
        self.assertEqual((self.room / "words").read_text().splitlines(), [
            "solve", "--format=json", "--explain", "--arch=amd64", "--status=status", "--sources=sources", "--preferences=-p",
            "--target=next release", "--limit=7", "--keep-back", "--request=-"])
        self.assertEqual((self.room / "given").read_text(), "install x\n")

    def test_the_words_of_a_process_and_the_line_of_a_question(self) -> None:
        script = self.script('printf "%s\n" "$@" >> words; read -r line; printf "%s" "$line" >> given; '
                             'echo "debplan: memory: E1 OutOfMemory" >&2; exit 5')
        asks: Tuple[Tuple[Callable[[debplan.Resolver], object], Dict[str, Any]], ...] = (
            (lambda it: it.solve("install x", "# y", limit=7, keep_back=True),
             {"ask": "solve", "goals": ["install x\n# y"], "limit": 7, "keep_back": True}),
            (lambda it: it.solve(), {"ask": "solve", "goals": []}),
            (lambda it: it.check_plan("install x", "plan 1\n"), {"ask": "check-plan", "goals": ["install x"], "plan": "plan 1\n"}),
            (lambda it: it.check_refutation([], "\u00e9"), {"ask": "check-refutation", "goals": [], "refutation": "\u00e9"}),
            (lambda it: it.candidate("x", "--y"), {"ask": "candidate", "names": ["x", "--y"]}))
        for ask, wanted in asks:
            for name in ("words", "given"):
                (self.room / name).write_text("")
            with self.assertRaises(debplan.Refused) as raised:
                ask(self.over(program=script, preferences="-p", target="next release"))
            self.assertEqual(str(raised.exception), "memory: E1 OutOfMemory")
            self.assertEqual((self.room / "words").read_text().splitlines(), [
                "batch", "--arch=amd64", "--status=status", "--sources=sources", "--preferences=-p", "--target=next release"])
            self.assertEqual(json.loads((self.room / "given").read_text()), {"id": 1, **wanted})

    def test_a_program_that_is_missing_has_failed(self) -> None:
        with self.assertRaisesRegex(debplan.Failed, "there is no program"):
            self.over(program=self.room / "nowhere")
        with mock.patch.dict(os.environ, {"DEBPLAN": str(self.room / "nowhere")}), self.assertRaises(debplan.Failed):
            debplan.compare("1", "lt", "2")

    def test_the_program_is_that_of_the_environment(self) -> None:
        with mock.patch.dict(os.environ, {"DEBPLAN": str(self.script("echo yes"))}):
            self.assertTrue(debplan.compare("1", "lt", "2"))

    def test_a_closed_resolver_is_asked_for_nothing(self) -> None:
        with self.over(program=self.script("exit 0")) as resolver:
            pass
        resolver.close()
        asks: Tuple[Callable[[], object], ...] = (lambda: resolver.solve("install x"), lambda: resolver.check_plan("install x", PLAN),
                                                  lambda: resolver.candidate("x"), lambda: resolver.installable("x"))
        for ask in asks:
            with self.assertRaises(ValueError):
                ask()


class Machines(InRoom):
    """The inputs of a folder and of a machine; a function stands for what collects them."""

    def of_machine(self, collect: Callable[[pathlib.Path], None], **options: Any) -> debplan.Resolver:
        """A Resolver of a machine, of which the words that it was collected by are kept."""

        def collected(folder: pathlib.Path, machine: Any, arch: str, pins: bool, _: object) -> int:
            self.words = (machine.root, arch, pins, folder)
            collect(folder)
            return 0

        with mock.patch.object(resolver.collect, "collect_if_changed", collected):
            found = debplan.Resolver.of_machine(program=shutil.which("true"), **options)
        self.addCleanup(found.close)
        return found

    def test_a_temporary_folder_goes_away_with_the_resolver(self) -> None:
        def collect(folder: pathlib.Path) -> None:
            for name in ("status", "sources"):
                shutil.copy(self.room / name, folder)

        found = self.of_machine(collect, arch="amd64")
        *words, folder = self.words
        self.assertEqual(words, [pathlib.Path("/"), "amd64", True])
        self.assertTrue((folder / "status").is_file())
        found.close()
        self.assertFalse(folder.exists())

    def test_a_folder_that_is_named_stays_and_pins_that_are_left_out_are_told(self) -> None:
        def collect(folder: pathlib.Path) -> None:
            (folder / "collected").touch()
            (folder / "pins-left-out").write_text("a pin\n")
            raise Failure("not all pins", 1)

        to = self.room / "inputs"
        to.mkdir()
        found = self.of_machine(collect, folder=to, root=self.room, pins=False, arch="amd64")
        self.assertEqual(found.pins_left_out, ("a pin",))
        found.close()
        self.assertTrue(to.is_dir())
        self.assertEqual(self.words, (self.room.resolve(), "amd64", False, to))

    def test_of_another_root_the_architecture_is_that_of_its_dpkg(self) -> None:
        (self.room / "var/lib/dpkg").mkdir(parents=True)
        status = "Package: libc6\nArchitecture: amd64\n\nPackage: dpkg\nStatus: install ok installed\nArchitecture: arm64\n"
        (self.room / "var/lib/dpkg/status").write_text(status, encoding="utf-8")

        def collect(folder: pathlib.Path) -> None:
            for name in ("status", "sources"):
                (folder / name).touch()

        with mock.patch.dict(os.environ):
            os.environ.pop("ARCH", None)
            self.of_machine(collect, root=self.room)
        self.assertEqual(self.words[1], "arm64")

    def test_inputs_that_cannot_be_collected_are_a_failure(self) -> None:
        def collect(_: pathlib.Path) -> None:
            raise Failure("no lists", 69)

        with self.assertRaisesRegex(debplan.Failed, "the inputs can't be collected: no lists") as raised:
            self.of_machine(collect, arch="amd64")
        self.assertEqual(raised.exception.status, 69)

    @unittest.skipIf(MISSING, str(MISSING))
    def test_a_folder_of_inputs_is_asked_about_in_it(self) -> None:
        with debplan.Resolver.of_folder(self.room, arch="amd64", program=BUILT) as resolver:
            self.assertEqual(resolver.solve("install hello").text, PLAN)
            self.assertEqual(resolver.candidate("old")["old"].version, "1")
            self.assertEqual(resolver.pins_left_out, ())
