"""What debplan answers, as frozen dataclasses, and how its JSON (docs/FORMATS.md, section 19) is
read into them."""
from __future__ import annotations

import os
from dataclasses import dataclass
from typing import (
    Any,
    Callable,
    ClassVar,
    Dict,
    Iterable,
    Iterator,
    Optional,
    Tuple,
    TypeVar,
    Union,
)

Path = Union[str, "os.PathLike[str]"]
# The goals of a request: each a text, or one text with a goal a line.
Goals = Union[str, Iterable[str]]
Document = Dict[str, Any]
Read = TypeVar("Read")


# Errors


class Error(Exception):
    """What is raised where there is no answer."""


class Refused(Error):
    """The program refuses an input (docs/FORMATS.md, section 14); as a text it is the line of the
    refusal, `request: E16 BadRequest 1`.

    `file` says which text: `request`, `status`, `sources`, `preferences`, `index K` (counted from
    1), `plan`, `refutation`, `version 1` or `version 2`, or `memory`. `code` is `E16`, `word` is
    `BadRequest`, and `place` is what stands behind them, which may be nothing: a line, a line and
    an offset, a name .. `number` is the number at its beginning, or None: a line, but of
    `installable` with E17 the number of the name. `reasons` are sentences on it, which may be none;
    they are asked for when they are first looked at, by a call of the program that reads the inputs
    anew, and there are none where it doesn't refuse the same by then.

        try:
            resolver.solve("install nowhere")
        except debplan.Refused as refused:
            if refused.code == "E17":
                print("no index has a package of goal", refused.number)
    """

    def __init__(
        self,
        file: str,
        code: str,
        word: str,
        place: str = "",
        reasons: Union[Iterable[str], Callable[[], Iterable[str]]] = (),
    ) -> None:
        super().__init__(file, code, word, place)
        self.file, self.code, self.word, self.place, self._reasons = (
            file,
            code,
            word,
            place,
            reasons,
        )

    @property
    def reasons(self) -> Tuple[str, ...]:
        """The sentences on it."""
        self._reasons = tuple(self._reasons() if callable(self._reasons) else self._reasons)
        return self._reasons

    @property
    def number(self) -> Optional[int]:
        """The number at the beginning of the place, if one stands there."""
        first = self.place.partition(" ")[0]
        return int(first) if first.isascii() and first.isdigit() else None

    def __str__(self) -> str:
        return f"{self.file}: {self.code} {self.word}{' ' if self.place else ''}{self.place}"


class Failed(Error):
    """There is no program, it refuses the words of its call or a question (as a limit below 0), or
    it broke off without an answer.

    `status` is its exit status, below 0 the number of the signal that ended it, and None where it
    wasn't run or didn't end. """

    def __init__(self, why: str, status: Optional[int] = None) -> None:
        super().__init__(why)
        self.status = status


# Steps of a plan


@dataclass(frozen=True)
class _OfOne:
    """A step about one package. As a text it is the line of the plan."""

    name: str
    action: ClassVar[str] = ""

    @property
    def names(self) -> Tuple[str, ...]:
        """The names of the packages that the step is about."""
        return (self.name,)

    def __str__(self) -> str:
        return f"{self.action} {self.name}"


@dataclass(frozen=True)
class Unpack(_OfOne):
    """A version is unpacked: `unpack NAME VERSION`. `filename`, `size` (in bytes) and `sha256`
    (hexadecimal digits) are what the index says of the archive, each None where it doesn't, or
    where a plan was asked for without `archives=True`. The filename is below the URI of the archive
    that the index is of."""

    version: str
    filename: Optional[str] = None
    size: Optional[int] = None
    sha256: Optional[str] = None
    action: ClassVar[str] = "unpack"

    def __str__(self) -> str:
        return f"{self.action} {self.name} {self.version}"


@dataclass(frozen=True)
class Deconfigure(_OfOne):
    """An installed package is deconfigured, so that it stands unpacked: `deconfigure NAME`."""

    action: ClassVar[str] = "deconfigure"


@dataclass(frozen=True)
class Configure:
    """Unpacked packages are configured, together where there are several: `configure NAME [NAME
    ..]`."""

    names: Tuple[str, ...]
    action: ClassVar[str] = "configure"

    def __str__(self) -> str:
        return " ".join((self.action, *self.names))


@dataclass(frozen=True)
class Remove(_OfOne):
    """A package is removed, but for its configuration files: `remove NAME`."""

    action: ClassVar[str] = "remove"


@dataclass(frozen=True)
class Purge(_OfOne):
    """The configuration files of a removed package are removed: `purge NAME`."""

    action: ClassVar[str] = "purge"


Step = Union[Unpack, Deconfigure, Configure, Remove, Purge]
_OF_ONE: Dict[str, Callable[[str], Step]] = {
    "deconfigure": Deconfigure,
    "remove": Remove,
    "purge": Purge,
}


@dataclass(frozen=True)
class StepCounts:
    """How many steps of each action a plan has."""

    unpack: int
    deconfigure: int
    configure: int
    remove: int
    purge: int


# Lines of a refutation


@dataclass(frozen=True)
class Pair:
    """A package in a version that may be chosen, with the number that it has in the text of a
    refutation. Name and version are None where there is no pair of this number, as in a refutation
    that isn't accepted."""

    number: int
    name: Optional[str]
    version: Optional[str]


@dataclass(frozen=True)
class Premise:
    """A line of a refutation that says what is true of every choice (docs/FORMATS.md, section 10).

    `kind` is `same`, `predepends`, `depends`, `conflicts`, `breaks`, `goal`, `hold`, `essential` or
    `keep`. What a kind hasn't is None: `pair` is of all but the last two, and of some goals;
    `other` is of `same`, `conflicts` and `breaks`; `clause`, the number of a clause, is of
    `predepends` and `depends`; `goal`, the number of a goal, is of `goal`; `name` is of `essential`
    and `keep`. `text` is the clause, the atom that `other` matches, or the goal."""

    line: int
    kind: str
    pair: Optional[Pair] = None
    other: Optional[Pair] = None
    clause: Optional[int] = None
    goal: Optional[int] = None
    name: Optional[str] = None
    text: Optional[str] = None


@dataclass(frozen=True)
class Literal:
    """That a pair is chosen, or that it isn't."""

    pair: Pair
    selected: bool


@dataclass(frozen=True)
class Derived:
    """A line of a refutation that follows of earlier ones: one of its literals is true. Without
    literals it is a contradiction. `hints` are the numbers of the lines that it follows of."""

    line: int
    literals: Tuple[Literal, ...]
    hints: Tuple[int, ...]


Line = Union[Premise, Derived]


# Answers


@dataclass(frozen=True)
class Answer:
    """An answer to a request: `Plan`, `Refutation` or `Undecided`.

    `request` is the text of the request that it answers, a goal a line, to be handed on to
    `check_plan` or `check_refutation`; where goals were kept back that is what is left. `text` is
    the answer as the program prints it. `kept_back` are lines that tell which goals were kept back
    and why; their words aren't promised."""

    request: str
    text: str
    reasons: Tuple[str, ...]
    kept_back: Tuple[str, ...]


@dataclass(frozen=True)
class Recommended:
    """A clause that a new package recommends (Policy 7.2). `by` is the name of the package, and
    `relation` the clause. Of one that came `goals` are the lines of the request by which it did,
    and `why` is None; of one that nothing meets there are no goals, and `why` says why it was left
    out, in words that aren't promised."""

    by: str
    relation: str
    goals: Tuple[str, ...] = ()
    why: Optional[str] = None


@dataclass(frozen=True)
class Plan(Answer):
    """A plan: steps each of which is legal by Debian Policy when its turn comes, and whose end
    fulfils the request.

    `came` and `left_out` are what new packages recommend, where that was asked for: what the
    request has goals for, and what nothing meets of what the plan leaves installed."""

    steps: Tuple[Step, ...]
    counts: StepCounts
    came: Tuple[Recommended, ...] = ()
    left_out: Tuple[Recommended, ...] = ()


@dataclass(frozen=True)
class Refutation(Answer):
    """A refutation: no choice among the admitted versions fulfils the request."""

    lines: Tuple[Line, ...]

    @property
    def premises(self) -> Tuple[Premise, ...]:
        """The lines that are premises."""
        return tuple(line for line in self.lines if isinstance(line, Premise))


@dataclass(frozen=True)
class Undecided(Answer):
    """Nothing is known. `why` is `limit` (the search ended at the limit of its conflicts), `blocked
    start` (two present packages conflict), `blocked stuck` (no order of steps was found) or
    `unchecked` (a bug: report it)."""

    why: str


# Verdicts


@dataclass(frozen=True)
class Rule:
    """A rule of a plan (docs/FORMATS.md, section 15): `F4`, `Depends`."""

    code: str
    name: str


@dataclass(frozen=True)
class EndReason:
    """What is against the end of a plan. `kind` is `Unfinished`, `Relation` or `Essential`, with a
    `name`, or `Goal`, with the number of the goal; the other one is None."""

    kind: str
    name: Optional[str]
    goal: Optional[int]


@dataclass(frozen=True)
class PlanVerdict:
    """What `check_plan` says; it counts as true where the plan is good.

    `request` is the text of the request that the plan is judged for, and `text` the verdict as the
    program prints it. Of a plan that isn't good `place` is `start`, `step` or `end`, `rule` the
    rule that isn't kept there, `step` the number of the first step that isn't legal, and `reason`
    what is against the end; each is None elsewhere. `steps` and `counts` are those of the plan. """

    request: str
    text: str
    reasons: Tuple[str, ...]
    is_good: bool
    place: Optional[str]
    step: Optional[int]
    rule: Optional[Rule]
    reason: Optional[EndReason]
    steps: Tuple[Step, ...]
    counts: StepCounts

    def __bool__(self) -> bool:
        return self.is_good


@dataclass(frozen=True)
class RefutationVerdict:
    """What `check_refutation` says; it counts as true where the refutation is accepted.

    `request` is the text of the request that is refuted, and `text` the verdict as the program
    prints it. Of a refutation that isn't accepted `line` is the first line that neither is a
    premise nor follows, or the number of lines plus one where the last one is no contradiction;
    else None. `lines` are those of the refutation, and where one names a pair that isn't admitted
    those before it. """

    request: str
    text: str
    reasons: Tuple[str, ...]
    is_accepted: bool
    line: Optional[int]
    lines: Tuple[Line, ...]

    def __bool__(self) -> bool:
        return self.is_accepted


# Candidates, and packages that can't be installed


@dataclass(frozen=True)
class Candidate:
    """The version of a name that the pins choose, with its priority (apt_preferences(5)); both are
    None where there is none."""

    name: str
    version: Optional[str]
    priority: Optional[int]


@dataclass(frozen=True)
class Candidates:
    """The candidates of names, in their order; to be iterated over, and asked for by name:
    `candidates["hello"].version`."""

    candidates: Tuple[Candidate, ...]
    text: str
    reasons: Tuple[str, ...]

    def __iter__(self) -> Iterator[Candidate]:
        return iter(self.candidates)

    def __len__(self) -> int:
        return len(self.candidates)

    def __getitem__(self, name: str) -> Candidate:
        for candidate in self.candidates:
            if candidate.name == name:
                return candidate
        raise KeyError(name)


@dataclass(frozen=True)
class BrokenPackage:
    """A package that can't be installed by itself, or the base of all, the essential packages: then
    name and version are None.

    `request` and `refutation` are the texts to be handed on to `check_refutation`, and `text` is
    the line that the program prints. """

    name: Optional[str]
    version: Optional[str]
    request: str
    refutation: str
    reasons: Tuple[str, ...]
    text: str


@dataclass(frozen=True)
class UndecidedPackage:
    """A package of which nothing is known, or the base of all: then name and version are None."""

    name: Optional[str]
    version: Optional[str]
    reasons: Tuple[str, ...]
    text: str


@dataclass(frozen=True)
class PackageCounts:
    """How many packages were asked about, and how many of these are broken and undecided. The base
    counts for none of them."""

    checked: int
    broken: int
    undecided: int
    text: str


PackageAnswer = Union[BrokenPackage, UndecidedPackage, PackageCounts]


# Reading documents


def _step_of(it: Document) -> Step:
    if it["action"] == "unpack":
        return Unpack(it["name"], it["version"], it["filename"], it["size"], it["sha256"])
    if it["action"] == "configure":
        return Configure(tuple(it["names"]))
    return _OF_ONE[it["action"]](it["name"])


def _steps_in(document: Document) -> Tuple[Step, ...]:
    return tuple(map(_step_of, document["steps"]))


def _counts_in(document: Document) -> StepCounts:
    counts = document["counts"]
    return StepCounts(
        counts["unpack"],
        counts["deconfigure"],
        counts["configure"],
        counts["remove"],
        counts["purge"],
    )


def _pair_of(it: Document) -> Pair:
    return Pair(it["number"], it["name"], it["version"])


def _line_of(it: Document) -> Line:
    if "premise" not in it:
        literals = tuple(
            Literal(_pair_of(literal), literal["selected"]) for literal in it["literals"]
        )
        return Derived(it["line"], literals, tuple(it["hints"]))
    pair, other = (_pair_of(it[key]) if key in it else None for key in ("pair", "other"))
    return Premise(
        it["line"],
        it["premise"],
        pair,
        other,
        it.get("clause"),
        it.get("goal"),
        it.get("name"),
        it.get("text"),
    )


def _lines_in(document: Document) -> Tuple[Line, ...]:
    return tuple(map(_line_of, document["lines"]))


def _reasons_in(document: Document) -> Tuple[str, ...]:
    # (null where memory was refused for them)
    return tuple(document.get("reasons") or ())


def answer_of(request: str, document: Document) -> Union[Plan, Refutation, Undecided]:
    common = (
        document.get("request", request),
        document["text"],
        _reasons_in(document),
        tuple(document.get("kept_back", ())),
    )
    if document["answer"] == "plan":
        return Plan(*common, _steps_in(document), _counts_in(document))
    if document["answer"] == "refuted":
        return Refutation(*common, _lines_in(document))
    if document["answer"] == "undecided":
        return Undecided(*common, document["why"])
    raise KeyError(document["answer"])


def plan_verdict_of(request: str, document: Document) -> PlanVerdict:
    rule, reason = document.get("rule"), document.get("reason")
    return PlanVerdict(
        request,
        document["text"],
        _reasons_in(document),
        document["answer"] == "yes",
        document.get("place"),
        document.get("step"),
        rule and Rule(rule["code"], rule["name"]),
        reason and EndReason(reason["kind"], reason.get("name"), reason.get("goal")),
        _steps_in(document),
        _counts_in(document),
    )


def refutation_verdict_of(request: str, document: Document) -> RefutationVerdict:
    return RefutationVerdict(
        request,
        document["text"],
        _reasons_in(document),
        document["answer"] == "yes",
        document.get("line"),
        _lines_in(document),
    )


def candidates_of(document: Document) -> Candidates:
    found = tuple(
        Candidate(it["name"], it["version"], it["priority"]) for it in document["candidates"]
    )
    return Candidates(found, document["text"], _reasons_in(document))


def package_answer_of(document: Document) -> PackageAnswer:
    if "counts" in document:
        counts = document["counts"]
        return PackageCounts(
            counts["checked"], counts["broken"], counts["undecided"], document["text"]
        )
    name, version, reasons, text = (
        document["name"],
        document["version"],
        _reasons_in(document),
        document["text"],
    )
    if document["answer"] == "broken":
        return BrokenPackage(
            name, version, document["request"], document["refutation"], reasons, text
        )
    return UndecidedPackage(name, version, reasons, text)


def read_by(reader: Callable[[Document], Read], document: Document) -> Read:
    """What a reader makes of a document."""
    try:
        return reader(document)
    except (KeyError, TypeError, ValueError, AttributeError) as error:
        raise Failed(
            f"debplan's answer is of another form than this module reads: {error!r}"
        ) from error
