"""Asks debplan, the proved dependency resolver for Debian packages, from Python.

    import debplan

    with debplan.Resolver(arch="amd64", status="status", sources="sources") as resolver:
        answer = resolver.solve("install hello")
    if isinstance(answer, debplan.Plan):
        print("\\n".join(map(str, answer.steps)))        # unpack hello 2.10-3, configure hello
    else:
        print("\\n".join(answer.reasons))                # why not, in sentences

Nothing is solved or judged here: each answer is the program's own, whose JSON (docs/FORMATS.md,
section 19) is read into frozen dataclasses. A process of `debplan batch` reads the inputs at the
first question and answers it and those behind it; what it can't answer, as `installable` of a whole
archive, is a call of its own. What is proved of the program's answers is proved of the `text` of
these, for the inputs as they were read; that this module reads the JSON as it should is tested.
`reasons` are sentences, whose words aren't promised, and there are none where memory was refused
for them.

Names and versions are texts as Debian has them, sizes are bytes, and lines, steps and goals are
counted from 1. What the program refuses is `Refused`, and where it is missing or gives no answer
that is `Failed`; both are an `Error`. Needs Python 3.9, and the program: named by `program` or in
the environment as DEBPLAN, that of the repository that this file is in, or the one on PATH."""
from __future__ import annotations

import contextlib
import dataclasses
import os
import pathlib
import tempfile
from types import TracebackType
from typing import Generator, Optional, Tuple, Type, Union

from debplan.answers import (
    Answer,
    BrokenPackage,
    Candidate,
    Candidates,
    Configure,
    Deconfigure,
    Derived,
    Document,
    EndReason,
    Error,
    Failed,
    Goals,
    Line,
    Literal,
    PackageAnswer,
    PackageCounts,
    Pair,
    Path,
    Plan,
    PlanVerdict,
    Premise,
    Purge,
    Recommended,
    Refused,
    Refutation,
    RefutationVerdict,
    Remove,
    Rule,
    Step,
    StepCounts,
    Undecided,
    UndecidedPackage,
    Unpack,
    answer_of,
    candidates_of,
    package_answer_of,
    plan_verdict_of,
    read_by,
    refutation_verdict_of,
)
from debplan.machine import collect, recommending
from debplan.machine.collect import LEFT_OUT
from debplan.machine.system import Machine
from debplan.process import Batch, Question, compare
from debplan.tool import Failure

__all__ = [
    "Answer",
    "BrokenPackage",
    "Candidate",
    "Candidates",
    "Configure",
    "Deconfigure",
    "Derived",
    "EndReason",
    "Error",
    "Failed",
    "Goals",
    "Line",
    "Literal",
    "PackageAnswer",
    "PackageCounts",
    "Pair",
    "Path",
    "Plan",
    "PlanVerdict",
    "Premise",
    "Purge",
    "Recommended",
    "Refutation",
    "RefutationVerdict",
    "Refused",
    "Remove",
    "Resolver",
    "Rule",
    "Step",
    "StepCounts",
    "Undecided",
    "UndecidedPackage",
    "Unpack",
    "compare",
]


def _arch_of(root: Optional[Path]) -> str:
    """The architecture of a machine: that of the environment, or that of its dpkg."""
    try:
        return Machine(root).arch()
    except Failure as failure:
        raise Failed(str(failure), failure.status) from None


def _collect(folder: pathlib.Path, arch: str, root: Optional[Path], pins: bool) -> None:
    """Writes the inputs of a machine into a folder."""
    try:
        collect.collect_if_changed(folder, Machine(root), arch, pins, lambda line: None)
    except (Failure, OSError) as error:
        if not (folder / "collected").is_file():
            why = str(error).strip().splitlines()[-1:] or ["no reason is given"]
            raise Failed(
                f"the inputs can't be collected: {why[0]}", getattr(error, "status", 1)
            ) from None


def _request_of(goals: Goals) -> str:
    """The text of a request: the goals, each with a newline behind it where it has none."""
    lines = [goals] if isinstance(goals, str) else goals
    return "".join(line if line.endswith("\n") else f"{line}\n" for line in lines if line)


class Resolver:
    """debplan over the inputs of one system: what is installed there, what can be had, and which
    versions are preferred.

    arch         the architecture, as dpkg has it: `amd64` sources      the path of the sources
    file, which names the Packages files (docs/FORMATS.md, section 4) status       that of dpkg's
    status file; without it nothing is installed preferences  that of the pins, in the plain forms
    of apt_preferences(5); without it there are none target       a release that is preferred, as
    apt-get --target-release folder       where these paths, and those in the sources file, begin;
    without it in the folder of the process program      the program, in place of the one that is
    found (see the head of this module)

    The inputs are read at the first question, by a process that answers it and those behind it, so
    these take milliseconds. It lives as long as the Resolver, and is started anew where it has
    ended. Threads may ask one Resolver: they wait for each other.

    A Resolver is open from the beginning to `close()`, or to the end of a `with`; asked behind that
    it raises ValueError. What is answered where an input changes while it is open isn't promised:
    then open another one. Every question raises Refused where an input is refused, and Failed where
    the program gives no answer; afterwards the next one can be asked. """

    def __init__(
        self,
        *,
        arch: str,
        sources: Path,
        status: Optional[Path] = None,
        preferences: Optional[Path] = None,
        target: Optional[str] = None,
        folder: Optional[Path] = None,
        program: Optional[Path] = None,
    ) -> None:
        self._arch, self._folder = arch, pathlib.Path(folder or "")
        self._status, self._sources = os.devnull if status is None else os.fspath(
            status
        ), os.fspath(sources)
        inputs = {
            "arch": arch,
            "status": self._status,
            "sources": self._sources,
            "preferences": None if preferences is None else os.fspath(preferences),
            "target": target,
        }
        words = [f"--{name}={value}" for name, value in inputs.items() if value is not None]
        self._batch: Optional[Batch] = Batch(program, folder, words)
        self._rooms = contextlib.ExitStack()
        self._left_out: Tuple[str, ...] = ()
        self._read_world: Optional[recommending.World] = None

    @classmethod
    def of_folder(
        cls,
        folder: Path,
        *,
        arch: Optional[str] = None,
        target: Optional[str] = None,
        program: Optional[Path] = None,
    ) -> Resolver:
        """A Resolver over a folder of inputs, as collect-inputs writes it: its files `status`,
        `sources` and, where there is one, `preferences`. Without `arch` the architecture is that of
        the environment's ARCH, or of this machine's dpkg. """
        pins = pathlib.Path(folder) / "preferences"
        found = cls(
            arch=arch or _arch_of(None),
            sources="sources",
            status="status",
            preferences="preferences" if pins.is_file() else None,
            target=target,
            folder=folder,
            program=program,
        )
        left_out = pathlib.Path(folder) / LEFT_OUT
        found._left_out = (
            tuple(left_out.read_text("utf-8", "replace").splitlines()) if left_out.is_file() else ()
        )
        return found

    @classmethod
    def of_machine(
        cls,
        *,
        root: Optional[Path] = None,
        folder: Optional[Path] = None,
        pins: bool = True,
        arch: Optional[str] = None,
        target: Optional[str] = None,
        program: Optional[Path] = None,
    ) -> Resolver:
        """A Resolver over this Debian machine, or over the system in the folder `root`: apt's
        lists, the status file and the pins, which collect-inputs writes into `folder`, again only
        where they have changed, or without it into a temporary one that goes away at the end.
        `apt-get update` has to have been run. Without `pins` those of the machine don't count.
        ARCH, STATUS and APT_CONFIG of the environment count as for collect-inputs, which reads a
        `root` without apt too.

            with debplan.Resolver.of_machine() as resolver:
                for line in resolver.pins_left_out:
                    print("not counted:", line)
                answer = resolver.solve("upgrade-all", keep_back=True)

        Raises Failed where apt or dpkg is missing and no `root` is named, or the inputs can't be
        collected. """
        with contextlib.ExitStack() as stack:
            to = (
                stack.enter_context(tempfile.TemporaryDirectory(prefix="debplan-inputs-"))
                if folder is None
                else folder
            )
            of = arch or _arch_of(root)
            _collect(pathlib.Path(to), of, root, pins)
            found = cls.of_folder(to, arch=of, target=target, program=program)
            found._rooms = stack.pop_all()
        return found

    @property
    def pins_left_out(self) -> Tuple[str, ...]:
        """The pins of the machine that couldn't be written in the plain forms, and don't count:
        where each stands, and why."""
        return self._left_out

    def close(self) -> None:
        """Ends it. A second time that does nothing."""
        if self._batch:
            self._batch.close()
        self._batch = None
        self._rooms.close()

    def __enter__(self) -> Resolver:
        return self

    def __exit__(
        self,
        kind: Optional[Type[BaseException]],
        error: Optional[BaseException],
        trace: Optional[TracebackType],
    ) -> None:
        self.close()

    def solve(
        self,
        *goals: str,
        all_versions: bool = False,
        limit: Optional[int] = None,
        keep_back: bool = False,
        recommends: bool = False,
        archives: bool = False,
    ) -> Union[Plan, Refutation, Undecided]:
        """A plan that fulfils the goals, a refutation, or Undecided.

        A goal is a line of a request (docs/FORMATS.md, section 8): `install NAME`, `install NAME
        (>= VERSION)`, `remove NAME`, `purge NAME`, `upgrade NAME`, `upgrade-all` or `no-remove`;
        several lines in one text will do. With `all_versions` all versions that may become
        candidates can be chosen. The search gives up after `limit` conflicts, or 100,000. With
        `keep_back` goals that can't be fulfilled are left out one by one: the answer's `request` is
        what is left, and `kept_back` tells of the others.

            answer = resolver.solve("install hello (>= 2.10)", "no-remove")
            resolver.check_plan(answer.request, answer.text)

        With `recommends` what the new packages of a plan recommend is asked for too, clause by
        clause the first alternative with which there is a plan that removes nothing more and still
        installs what was found, and so on with what came in: the answer's `request` has the goals,
        and `came` and `left_out` tell what came and what didn't. Each try is a question to the same
        process; what is asked for next is decided by debplan.machine.recommending.

        With `archives` each unpacking of a plan has the `filename`, `size` and `sha256` of its
        archive, which are None without: then the request is solved by a call of its own, which
        reads the inputs anew.

        Refused is of a goal `request: E16 BadRequest LINE`, and of a name that no package has
        `request: E17 UnknownName LINE`. """
        request = _request_of([*goals, "all-versions"] if all_versions else goals)
        question = Question("solve", request, limit=limit, flags=_flags(keep_back=keep_back))
        answer = self._answer(question, archives and not recommends)
        if not recommends or not isinstance(answer, Plan):
            return answer
        found = self._with_recommended(answer, limit)
        if not archives:
            return found
        # The same request has the same plan.
        plan = self._answer(Question("solve", found.request, limit=limit), True)
        if plan.text != found.text or not isinstance(plan, Plan):
            raise Failed(
                "debplan answers the same request with another plan; has an input changed?"
            )
        return dataclasses.replace(found, steps=plan.steps)

    def _answer(self, question: Question, is_called: bool) -> Union[Plan, Refutation, Undecided]:
        """The answer to a request, by a call of its own or by the process that answers many."""
        document = self._open().calls.document(question) if is_called else self._document(question)
        return read_by(lambda it: answer_of(question.request or "", it), document)

    def _with_recommended(self, plan: Plan, limit: Optional[int]) -> Plan:
        """A plan of the request of this one with what new packages recommend too."""

        def ask(text: str) -> Document:
            try:
                return self._document(Question("solve", text, limit=limit))
            except Refused as refused:
                if refused.file != "request" or refused.number is None:
                    raise
                raise recommending.NoGoal(refused.number) from None

        found = recommending.Recommending(self._world(), plan.request, plan.text, ask)
        found.extend()
        came, left_out = (
            tuple(
                Recommended(it["for"], it["relation"], tuple(it.get("goals", ())), it.get("why"))
                for it in told
            )
            for told in (found.told()["came"], found.told()["left_out"])
        )
        answer = (
            plan
            if found.document is None
            else read_by(lambda it: answer_of(found.text(), it), found.document)
        )
        assert isinstance(answer, Plan)
        return dataclasses.replace(
            answer, request=found.text(), kept_back=plan.kept_back, came=came, left_out=left_out
        )

    def _world(self) -> recommending.World:
        """What the status file and the indices have, which is read once."""
        if self._read_world is None:
            try:
                self._read_world = recommending.World(
                    self._arch,
                    self._folder / self._status,
                    self._folder / self._sources,
                    self._folder,
                )
            except OSError as error:
                raise Failed(f"{error.filename}: {error.strerror}") from None
        return self._read_world

    def check_plan(self, goals: Goals, plan: Union[str, Plan]) -> PlanVerdict:
        """Whether a plan is good for these goals: each step is legal when its turn comes, and the
        end fulfils them. The goals are texts, or one with a goal a line, as the `request` of an
        answer; the plan is a text as in docs/FORMATS.md, section 9, or an answer.

            verdict = resolver.check_plan("install hello", "plan 1\\nunpack hello 2.10-3\\n")
            verdict.is_good, verdict.place, verdict.reason
                # False, "end", EndReason("Unfinished", "hello", None)

        Refused is of a text that is no plan `plan: E18 BadPlan LINE`."""
        request = _request_of(goals)
        question = Question("check-plan", request, plan if isinstance(plan, str) else plan.text)
        return read_by(lambda it: plan_verdict_of(request, it), self._document(question))

    def check_refutation(
        self, goals: Goals, refutation: Union[str, Refutation]
    ) -> RefutationVerdict:
        """Whether a refutation of these goals is accepted. The goals are as for `check_plan`; the
        refutation is a text as in docs/FORMATS.md, section 10, or an answer.

        Refused is of a text that is no refutation `refutation: E19 BadRefutation LINE`."""
        request = _request_of(goals)
        question = Question(
            "check-refutation",
            request,
            refutation if isinstance(refutation, str) else refutation.text,
        )
        return read_by(lambda it: refutation_verdict_of(request, it), self._document(question))

    def candidate(self, *names: str) -> Candidates:
        """The candidates of these names, in their order. What is no name of a package has none, and
        without names nothing is asked.

        resolver.candidate("hello")["hello"].version        # "2.10-3"
        """
        if not names:
            return Candidates((), "", ())
        return read_by(candidates_of, self._document(Question("candidate", names=names)))

    def installable(
        self,
        *names: str,
        all_versions: bool = False,
        without_essential: bool = False,
        limit: Optional[int] = None,
    ) -> Generator[PackageAnswer, None, None]:
        """Yields each package of the indices that can't be installed by itself beside the essential
        ones (`BrokenPackage`), or of which that isn't known (`UndecidedPackage`), in the order of
        names and versions, and last the counts (`PackageCounts`). First stands the base, the
        essential packages alone, where these can't be installed. With names only packages of these
        names are asked about. With `all_versions` more than candidates can be chosen, with
        `without_essential` essential packages aren't asked for, and `limit` is for each package.
        Over a whole release this takes minutes, and the lines come at the end of them.

            *broken, counts = resolver.installable("hello")
            for package in broken:
                print(package.name, package.version, *package.reasons, sep="\\n  ")

        With names it is a question to the process that answers others too. Without, a call of the
        program of its own is begun when the first of them is asked for, and ended by `close()` of
        what yields them where no more are wanted. A name that no stanza of the indices has is
        refused as `request: E17 UnknownName N`, N its number among the names."""
        flags = _flags(all_versions=all_versions, without_essential=without_essential)
        asked, question = self._open(), Question(
            "installable", names=names, limit=limit, flags=flags
        )
        return _package_answers(
            asked.packages(question) if names else asked.calls.documents(question)
        )

    def _open(self) -> Batch:
        """That by which it asks, while it is open."""
        if self._batch is None:
            raise ValueError("the Resolver is closed")
        return self._batch

    def _document(self, question: Question) -> Document:
        """The document that answers a question, by the process that answers many."""
        return self._open().document(question)


def _flags(**given: bool) -> Tuple[str, ...]:
    """The names of the options that are given."""
    return tuple(name.replace("_", "-") for name, is_given in given.items() if is_given)


def _package_answers(
    documents: Generator[Document, None, None]
) -> Generator[PackageAnswer, None, None]:
    """What documents on packages say, the last of which has the counts."""
    is_whole = False
    with contextlib.closing(documents):
        for document in documents:
            found = read_by(package_answer_of, document)
            is_whole = isinstance(found, PackageCounts)
            yield found
    if not is_whole:
        raise Failed("debplan broke off before the counts of its answer")
