"""What is asked for a machine, and what is told of the answer."""
import dataclasses
import json
import re
import sys

from debplan import control, disk, tool
from debplan.image import debs
from debplan.machine import advice, changes, recommending, suites
from debplan.machine.database import Database
from debplan.machine.inputs import document_of, program_path, without_unmatched

OF_LINE = re.compile(r" \(line \d+\), since:$")
KEPT = re.compile(r"Kept back: (\S+) (\S+)(.*) \(line \d+\), since:")


def is_lower(one, other):
    """Whether a version is lower than another one."""
    return control.version_key(one) < control.version_key(other)


# The question


class Question:
    """The request of a command line, the folder of inputs that it is asked over, and what is installed there."""

    def __init__(self, options, inputs, goals):
        self.options, self.inputs, self.goals = options, inputs, goals
        self.before = Database(inputs.path("status"))
        self.asks_all = any(goal.verb == "upgrade-all" for goal in goals)
        self.keeps_back = options.keep_back or self.asks_all and not options.strict
        self.lines = self.lines_of_goals()

    def lines_of_goals(self):
        """The goals as lines of a request, each with its goal."""
        lines = []
        for goal in self.goals:
            texts = [goal.text] if not goal.suite else suites.goals_from(
                self.inputs, goal.name, goal.suite, self.inputs.candidates_of, self.before.version)
            lines += [(text, goal) for text in texts]
        return lines

    def text(self):
        """The request."""
        return "".join(f"{line}\n" for line, _ in self.lines) + ("all-versions\n" if self.options.all_versions else "")

    def ask(self):
        """Has the program answer, as a document."""
        disk.write_text(self.inputs.path("request"), self.text())
        if self.inputs.path("plan").exists():
            self.inputs.path("plan").unlink()
        return self.inputs.asks("solve", *self.words(), *(["--keep-back"] if self.keeps_back else []))

    def words(self):
        return ["--format", "json", *([f"--limit={self.options.limit}"] if self.options.limit is not None else [])]

    def is_held(self, name):
        return self.before.records.get(name, {}).get("Status", "").startswith("hold ")

    def named_and_left_out(self, document):
        """The goals that name a package and aren't in the request that is left, though only upgrade-all may be kept back."""
        if not self.keeps_back or self.options.keep_back:
            return []
        left = document.get("request", "").splitlines()
        return [line for line, goal in self.lines if goal.name and line not in left]


# A plan


class Told:
    """What is told of a plan beside its steps: what stays, what is older than its candidate, and what is kept back."""

    def __init__(self, question, document):
        self.question, self.before = question, question.before
        self.steps = [words_of(step) for step in document["steps"]]
        self.changes = changes.Changes(self.before, self.steps)
        self.changed = {*self.changes.unpacked, *self.changes.purged, *(it.name for it in self.changes.removed)}
        self.kept_back, self.recommends = document.get("kept_back", []), document.get("recommends", {"came": [], "left_out": []})
        standing = [name for name in self.before.records if self.before.version(name)] if question.asks_all else []
        names = [goal.name for goal in question.goals if goal.name]
        self.candidates = question.inputs.candidates_of([*self.changes.unpacked, *names, *standing])

    def lines(self):
        """All of it."""
        yield from changes.listed("kept back", self.of_kept_back())
        yield from recommending.lines_on(self.recommends)
        yield from filter(None, (self.stays(goal) for goal in self.question.goals if goal.name))
        yield from self.older()

    def older(self):
        """The versions that come and are older than their candidates; of the first few the reason."""
        older = [(name, version) for name, version in sorted(self.changes.unpacked.items())
                 if name in self.candidates and is_lower(version, self.candidates[name])]
        for number, (name, version) in enumerate(older):
            why = advice.why_older(self.question, name) if number < advice.OLDER_WITH_REASON else []
            yield f"older than the candidate: {name} {version} ({self.candidates[name]}){':' if why else ''}"
            yield from (f"  {line}" for line in why)

    def stays(self, goal):
        """That a package which a goal names is left as it is; nothing where the plan changes it."""
        version, candidate = self.before.version(goal.name), self.candidates.get(goal.name)
        if goal.name in self.changed:
            return None
        if goal.verb in ("remove", "purge"):
            return None if version else f"{goal.name} isn't installed, so there is nothing to {goal.verb}"
        if not version:
            return None
        told = "it is the candidate" if candidate == version else f"the candidate is {candidate or 'none'}"
        if self.question.is_held(goal.name):
            return f"{goal.name} {version} stays, since it is held; {told}"
        if candidate and is_lower(version, candidate):
            return f"{goal.name} {version} stays; {told}: {tool.tool_name()} upgrade {goal.name}"
        return f"{goal.name} {version} stays: {told}"

    def not_upgraded(self):
        """The names that are installed below their candidate and stay so though all are to be upgraded."""
        for name, candidate in sorted(self.candidates.items()) if self.question.asks_all else ():
            version = self.before.version(name)
            if version and name not in self.changed and is_lower(version, candidate):
                yield name

    def kept(self, name):
        """A package that is kept back, with its candidate."""
        return f"{name} {self.before.version(name) or 'none'}, the candidate is {self.candidates.get(name, 'none')}"

    def of_kept_back(self):
        """Each package that isn't upgraded though all are to be, and each goal that is left out, with the reasons."""
        told = set()
        for line in self.kept_back:
            found = KEPT.fullmatch(line)
            if found:
                verb, name, more = found.groups()
                told.add(name)
                yield f"{self.kept(name)}, since:" if verb == "upgrade" else f"{verb} {name}{more}, since:"
            elif line.startswith("  "):
                yield advice.in_own_words(self.question, line)
        yield from (f"{self.kept(name)}" + (": it is held" if self.question.is_held(name) else "")
                    for name in self.not_upgraded() if name not in told)


def words_of(step):
    """A step of a document as the words of its line."""
    if step["action"] == "unpack":
        return ["unpack", step["name"], step["version"]]
    return [step["action"], *(step["names"] if step["action"] == "configure" else [step["name"]])]


def with_recommended(question, document):
    """The plan of the request that has what new packages recommend too, with what is told of that, in a document."""
    how = {"limit": question.options.limit, "archives": question.options.format == "json"}
    with question.inputs.resolver() as resolver:
        plan = resolver.solve(document.get("request", question.text()), recommends=True, **how)
    told = recommending.members_of(plan)
    for it in told["left_out"]:
        it["why"] = advice.in_own_words(question, it["why"])
    members = {"text": plan.text, "reasons": without_unmatched(plan.reasons), "counts": dataclasses.asdict(plan.counts),
               "steps": [{"action": step.action, **dataclasses.asdict(step)} for step in plan.steps]}
    return {**document, **members, "request": plan.request, "recommends": told}


def write_plan(question, document):
    """Writes the plan, and the request that it fulfils, where that isn't the whole one."""
    disk.write_text(question.inputs.path("plan"), document["text"])
    if "request" in document:
        disk.write_text(question.inputs.path("request"), document["request"])


def tell_plan(question, document):
    """Prints what the plan changes, and the plan, or the document, and returns the exit status."""
    left_out = question.named_and_left_out(document)
    if left_out:
        tell_left_out(question, document, left_out)
        return 1
    document = with_recommended(question, document) if question.options.recommends else document
    write_plan(question, document)
    told, stanzas = Told(question, document), question.inputs.located(unpacked_by(document))
    asked = {goal.name for goal in question.goals if goal.verb in ("remove", "purge")}
    if question.options.format == "json":
        tell_document(question, document, stanzas)
        print("".join(f"{line}\n" for line in told.lines()), end="", file=sys.stderr)
    else:
        print(told.changes.counts())
        print("".join(f"{line}\n" for line in [
            *told.changes.sizes({pair: fields for pair, (fields, _) in stanzas.items()}),
            *told.changes.lists(asked, document["reasons"]), *told.lines()]), end="")
        print(document["text"], end="")
        print("".join(f"{line}\n" for line in changes.one_a_line(document["reasons"] if question.options.explain else [])), end="",
              flush=True)
    how = f"; run-plan takes --target {question.inputs.target} for it" if question.inputs.target else ""
    print(f"the plan stands in {question.inputs.path('plan')}{how}", file=sys.stderr)
    return 0


def tell_left_out(question, document, left_out):
    """Says which goal that names a package was left out, and what of all was, with the reasons."""
    lines = [OF_LINE.sub(", since:", line) for line in document["kept_back"] if not line.startswith("Goals ")]
    lines = [advice.in_own_words(question, line) for line in lines]
    lines.insert(0, f"{left_out[0]}: this can't be fulfilled beside the upgrades, and it was asked for by name (--keep-back leaves it out)")
    print("\n".join(lines), file=sys.stderr if question.options.format == "json" else sys.stdout)


def unpacked_by(document):
    return {(step["name"], step["version"]) for step in document.get("steps", ()) if step["action"] == "unpack"}


def tell_document(question, document, stanzas):
    """Prints a document. Of each package that is unpacked it has the number of its index, what this is an index of, and the URI of the
    file where the sources have it."""
    numbers = {keys["File"]: number for number, keys in enumerate(question.inputs.sources(), 1)}
    for step in document.get("steps", ()):
        if step["action"] == "unpack":
            fields, keys = stanzas.get((step["name"], step["version"]), ({}, {}))
            step.update(index=numbers.get(keys.get("File")), suite=suites.name_of(keys), uri=debs.uri_of(fields, keys))
    print(json.dumps(document, ensure_ascii=False, separators=(",", ":"), sort_keys=True))


# A refusal


def tell_refuted(question, document):
    """Prints the reasons, in the words of this command line, or the refutation where there are none; or the document."""
    sentences = [advice.in_own_words(question, sentence) for sentence in document["reasons"]]
    sentences += advice.suites_that_may_help(question)
    if question.options.format == "json":
        tell_document(question, {**document, "reasons": sentences}, {})
        return
    print("".join(f"{line}\n" for line in sentences or document["text"].splitlines()), end="")


def refused(question, run):
    """Says in one line why the request is refused, and returns the exit status; else what the program says of another text."""
    found = re.search(r"request: (E16|E17) \w+ (\d+)", run.stderr)
    if not found:
        print(run.stderr or f"{tool.tool_name()}: {program_path()} ended without an answer\n", end="", file=sys.stderr)
        return run.returncode if run.returncode > 0 else 69
    line, goal = question.lines[int(found.group(2)) - 1]
    why = advice.near(question.inputs, goal.name) if found.group(1) == "E17" else "that is no goal"
    print(f"{tool.tool_name()}: {line}: {why}", file=sys.stderr)
    return run.returncode


def answered(question):
    """Asks, prints the answer and returns the exit status."""
    run = question.ask()
    document = document_of(run)
    if document is None:
        return refused(question, run)
    if document["answer"] == "plan":
        return tell_plan(question, document)
    if document["answer"] == "refuted":
        tell_refuted(question, document)
    elif question.options.format == "json":
        tell_document(question, document, {})
    else:
        print("".join([document["text"], *(f"{it}\n" for it in document["reasons"])]), end="")
    return run.returncode
