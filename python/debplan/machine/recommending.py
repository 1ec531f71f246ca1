"""What the new packages of a plan recommend (Policy 7.2), as goals of its request. A goal is kept only where the program finds a plan
of the request with it that removes nothing more and still installs what was found, and so on with what came in. Decided here is what
is asked for next and whether a plan keeps what another one has; each plan is the program's, for the request that belongs to it. It is
asked for by `solve(.., recommends=True)` of debplan.Resolver."""
import collections
import functools
import pathlib
import re

from debplan import control
from debplan.machine import changes
from debplan.machine.database import Database
from debplan.machine.inputs import UNMATCHED

PRIORITIES = ("required", "important", "standard", "optional", "extra")
CLOSING = "This is about "
# The field Provides of a stanza, and the name of each of its items.
PROVIDES = re.compile(rb"^provides:(.*(?:\n[ \t].*)*)", re.IGNORECASE | re.MULTILINE)
PROVIDED = re.compile(rb"(?:^|,)\s*([A-Za-z0-9][A-Za-z0-9+.-]*)")
# What may be asked for so that a clause is met: a name, lines of a request with it, and the stanza that is hoped for.
Choice = collections.namedtuple("Choice", "name lines fields")
# What a request with some wishes comes to: that plan with its end, which keeps what was found; or why there is none, which wishes are
# to blame, and whether that is so of these alone, without the others.
Verdict = collections.namedtuple("Verdict", "why blamed is_alone request document end", defaults=(False, None, None, None))


class NoGoal(Exception):
    """A request is refused for one of its lines, which is counted from 1."""

    def __init__(self, line):
        super().__init__(line)
        self.line = line


# What there is


class World:
    """What the status file has, and the stanzas of the indices by the name of their package. They are read once; paths in the sources
    file begin in the folder."""

    def __init__(self, arch, status, sources, folder):
        self.arch, self.before = arch, Database(status)
        self.texts, self.known = collections.defaultdict(list), {}
        for keys in control.indices_in(sources):
            for text in control.texts_in(pathlib.Path(folder, keys["File"])):
                self.texts[control.name_in(text)].append(text)

    def of(self, name):
        """The stanzas of a name that count for the architecture, in their order."""
        if name not in self.known:
            found = map(control.fields_of, self.texts.get(name, ()))
            self.known[name] = [it for it in found if it.get("Architecture") in ("all", self.arch) and "Version" in it]
        return self.known[name]

    def stanza(self, name, version):
        """The stanza that is unpacked of a version."""
        key = control.version_key(version)
        return next(it for it in self.of(name) if control.version_key(it["Version"]) == key)

    @functools.cached_property
    def providers(self):
        """The names of the packages that provide a name in some version, by that name."""
        found = collections.defaultdict(set)
        for package, texts in self.texts.items():
            for value in (it for text in texts if b"provides:" in text.lower() for it in PROVIDES.findall(text)):
                for name in PROVIDED.findall(value):
                    found[name.decode("ascii")].add(package)
        return found

    def fitting(self, name, atom):
        """The highest version of a name that matches an atom, as its stanza, or None."""
        found = [it for it in self.of(name) if control.matches(it, atom, self.arch)]
        return max(found, key=lambda it: control.version_key(it["Version"]), default=None)

    def choices(self, atom):
        """What may be asked for so that an atom is met: the package of its name, and then those that provide it, by priority and name."""
        if any(control.meets(it["Version"], atom) for it in self.of(atom.name)) and self.fitting(atom.name, atom):
            yield Choice(atom.name, lines_for(atom), self.fitting(atom.name, atom))
        found = [(name, self.fitting(name, atom)) for name in self.providers.get(atom.name, ()) if name != atom.name]
        for name, fields in sorted((it for it in found if it[1]), key=lambda it: (priority_of(it[1]), it[0])):
            yield Choice(name, (f"install {name}",), fields)


def priority_of(fields):
    """The place of the Priority of a package among all (Policy 2.5)."""
    return PRIORITIES.index(fields["Priority"]) if fields.get("Priority") in PRIORITIES else len(PRIORITIES)


def lines_for(atom):
    """The lines of a request that ask for the package of an atom. A goal with = would admit its version, also against a pin, so such a
    restriction is asked for by two others."""
    operators = (">=", "<=") if atom.operator == "=" else (atom.operator,)
    return tuple(f"install {atom.name}" + (f" ({operator} {atom.version})" if operator else "") for operator in operators)


class Having:
    """Packages, by the names that they have or provide."""

    def __init__(self, arch, stanzas=()):
        self.arch, self.named = arch, collections.defaultdict(list)
        for fields in stanzas:
            self.add(fields)

    def add(self, fields):
        for name in dict.fromkeys(control.names_of(fields)):
            self.named[name].append(fields)

    def meets(self, clause, without=None):
        """Whether one of the packages meets a clause, and not only the one of the name that is left out."""
        return any(fields["Package"] != without and control.matches(fields, atom, self.arch)
                   for atom in clause for fields in self.named.get(atom.name, ()))


class End:
    """What a plan changes, which is a text, and what it leaves installed."""

    def __init__(self, world, plan):
        before = world.before
        self.changes = changes.Changes(before, [line.split(" ") for line in plan.splitlines()[1:] if not line.startswith("end ")])
        changed = {*self.changes.unpacked, *(it.name for it in self.changes.removed)}
        staying = [fields for name, fields in before.records.items() if before.version(name) and name not in changed]
        unpacked = [world.stanza(*pair) for pair in self.changes.unpacked.items()]
        self.having = Having(world.arch, [*staying, *unpacked])

    def lost(self, other):
        """What another plan doesn't keep of this one, in a few words; nothing where it removes nothing more and installs all that
        this one does."""
        removed = [it for it in other.changes.removed if it not in self.changes.removed]
        if removed:
            return f"{removed[0].name} {removed[0].old} would be removed"
        for name, version in self.changes.unpacked.items():
            new = other.changes.unpacked.get(name)
            if new is None:
                return f"{name} {version} wouldn't be installed"
            if control.version_key(new) != control.version_key(version):
                return f"{name} {new} would be installed in place of {version}"
        return None


# What is wished


class Wish:
    """A clause that a new package recommends, and why what was asked for so that it is met can't be had."""

    def __init__(self, by, clause, world):
        self.by, self.clause, self.world, self.whys = by, clause, world, []

    @functools.cached_property
    def choices(self):
        """What may still be asked for, the first alternative first."""
        found = []
        for atom in self.clause:
            choices = list(self.world.choices(atom))
            self.whys += [] if choices else [f"no index has {control.written([atom])}"]
            found += choices
        return found

    def lines(self):
        """The lines that are asked for."""
        return self.choices[0].lines

    def fail(self, why):
        """Notes that what was asked for can't be had, so that the next alternative is asked for."""
        self.choices.pop(0)
        self.whys.append(why)

    def members(self):
        return {"for": self.by, "relation": control.written(self.clause)}


def same_lines(wishes):
    """Whether some wishes ask for one and the same."""
    return len({wish.lines() for wish in wishes}) == 1


def last_reason(document, lines):
    """Why a request is refuted, in the last sentence, which says where the reasons end. Nobody but this tool asks for these lines."""
    sentences = [it for it in document["reasons"] if not it.startswith(CLOSING) and not UNMATCHED.fullmatch(f"{it}\n")]
    asked = [f"You ask for {line.removeprefix('install ')}, but " for line in lines]
    last = sentences[-1].rstrip(".") if sentences else "it is refuted"
    return next((last.removeprefix(it) for it in asked if last.startswith(it)), last)


class Recommending:
    """A request with its plan, which is a text; both grow by what is recommended. `ask` has the program answer the text of a request,
    and returns the document, or raises NoGoal. `document` is that of the last plan, once there is another one than at first."""

    def __init__(self, world, request, plan, ask):
        self.world, self.ask, self.document = world, ask, None
        self.request = [line for line in request.splitlines() if line.strip()]
        self.end, self.wishes, self.came = End(world, plan), {}, []

    def extend(self):
        """Asks for what new packages recommend, and for what those recommend that came by it, until nothing comes."""
        wishes = self.wished()
        while wishes:
            self.take(wishes)
            wishes = self.wished()

    def wishes_of(self, new):
        """What a new package recommends."""
        if new.name not in self.wishes:
            clauses = control.clauses_in(self.world.stanza(new.name, new.new), "Recommends")
            self.wishes[new.name] = [Wish(new.name, clause, self.world) for clause in clauses]
        return self.wishes[new.name]

    def wished(self):
        """The clauses that nothing meets of what is left installed, for which something may be asked for. A clause that is met by what
        is asked for before it can wait."""
        hoped, found = Having(self.world.arch), []
        for wish in (wish for new in self.end.changes.new for wish in self.wishes_of(new)):
            if not self.end.having.meets(wish.clause) and wish.choices and not hoped.meets(wish.clause):
                hoped.add(wish.choices[0].fields)
                found.append(wish)
        return found

    def take(self, wishes):
        """Asks for these together, and for fewer of them where that can't be, until some have come or one is known not to."""
        while wishes:
            verdict = self.verdict(wishes)
            wishes = self.refused(wishes, verdict) if verdict.why else self.taken(wishes, verdict)

    def refused(self, wishes, verdict):
        """The wishes that are asked for in place of these; none where it is known which of these can't be had."""
        if same_lines(wishes) or verdict.is_alone and same_lines(verdict.blamed):
            for wish in verdict.blamed:
                wish.fail(verdict.why)
            return []
        if len(verdict.blamed) < len(wishes):
            return [wish for wish in wishes if wish is not verdict.blamed[-1]]
        return wishes[:(len(wishes) + 1) // 2]

    def taken(self, wishes, verdict):
        """Takes the plan, where each of the wishes is needed in it; else those that are, or the first one, are asked for in their place."""
        needed = [wish for wish in wishes if not verdict.end.having.meets(wish.clause, without=wish.choices[0].name)] or wishes[:1]
        if len(needed) < len(wishes):
            return needed
        self.accept(wishes, verdict)
        return []

    def accept(self, wishes, verdict):
        """Takes the request with these wishes, and its plan."""
        self.request, self.document, self.end = verdict.request, verdict.document, verdict.end
        self.came += [{**wish.members(), "goals": list(wish.lines())} for wish in wishes]

    def verdict(self, wishes):
        """Whether the request with these wishes has a plan that keeps what was found."""
        asked = dict.fromkeys(line for wish in wishes for line in wish.lines())
        request = [*self.request, *(line for line in asked if line not in self.request)]
        try:
            document = self.ask("".join(f"{line}\n" for line in request))
        except NoGoal as refused:
            return Verdict("that is no goal", by_lines(wishes, {request[refused.line - 1]}), True)
        if document["answer"] == "refuted":
            return Verdict(last_reason(document, asked), by_lines(wishes, named_in(request, document)), True)
        if document["answer"] != "plan":
            return Verdict(document["text"].strip(), wishes)
        end = End(self.world, document["text"])
        unmet = [wish for wish in wishes if not end.having.meets(wish.clause)]
        if unmet:
            return Verdict(f"{unmet[0].choices[0].name} doesn't provide it in the version that is chosen", unmet[:1])
        return Verdict(self.end.lost(end), wishes, False, request, document, end)

    def left_out(self):
        """The clauses that nothing meets in the end."""
        return [wish for wishes in self.wishes.values() for wish in wishes if not self.end.having.meets(wish.clause)]

    def told(self):
        """What came and what was left out, as a member of a document."""
        left_out = [{**wish.members(), "why": "; ".join(dict.fromkeys(wish.whys))} for wish in self.left_out()]
        return {"came": self.came, "left_out": left_out}

    def text(self):
        return "".join(f"{line}\n" for line in self.request)


def by_lines(wishes, lines):
    """The wishes that ask for one of these lines; all where none does."""
    return [wish for wish in wishes if lines.intersection(wish.lines())] or wishes


def named_in(request, document):
    """The lines of a request that a refutation names as goals."""
    goals = [line for line in request if line != "all-versions"]
    return {goals[line["goal"] - 1] for line in document["lines"] if line.get("premise") == "goal"}


def members_of(plan):
    """What came by a plan of debplan.Resolver and what was left out, as a member of a document."""
    return {"came": [{"for": it.by, "relation": it.relation, "goals": list(it.goals)} for it in plan.came],
            "left_out": [{"for": it.by, "relation": it.relation, "why": it.why} for it in plan.left_out]}


def lines_on(told):
    """What came and what was left out, as lists."""
    yield from changes.listed("recommended, and asked for", (f"{said(it)}: {', '.join(it['goals'])}" for it in told["came"]))
    yield from changes.listed("recommended, and left out", (f"{said(it)}: {it['why']}" for it in told["left_out"]))


def said(members):
    return f"{members['for']} recommends {members['relation']}"
