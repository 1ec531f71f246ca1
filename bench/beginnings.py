#!/usr/bin/python3
"""beginnings.py PROGRAM: has every proper beginning of a plan and of two refutations judged, byte by byte, once as it stands and
once with a newline behind it. PROGRAM is debplan. What each answer has to be is worked out here by docs/FORMATS.md, sections 9, 10
and 15, and by nothing of the program: the refusal of the first line that is none, or the verdict on the lines that are there. Of a
plan `apply` is asked too, which has to answer the same and to write nothing.

A row is printed for each text with how many beginnings have which kind of answer, and before it each answer that is another one.
Exit status: 0, 1 where an answer is another one, 2 for wrong words."""

import collections
import concurrent.futures
import os
import pathlib
import re
import subprocess
import sys
import tempfile

NAME = r"[A-Za-z0-9][A-Za-z0-9+.-]*"
NUMBER = r"[1-9][0-9]*"
MOST_PAIR, MOST_NUMBER, MOST_EPOCH = 2**31 - 1, 2**32 - 1, 2**31 - 1
# A text, the inputs, how its lines are read, and what is said of them where each is one.
Subject = collections.namedtuple("Subject", "name text index request commands refusal read judge")


class Bad(Exception):
    """A line that is none, or a rule that a step breaks."""


def need(holds, why=None):
    if not holds:
        raise Bad(why)


# Versions (docs/FORMATS.md, section 2)


def is_version(text):
    epoch, colon, rest = text.rpartition(":") if text.count(":") == 1 else ("", "", text)
    if ":" in rest:
        epoch, colon, rest = rest.partition(":")
    upstream, hyphen, revision = rest.rpartition("-")
    upstream, revision = (upstream, revision) if hyphen else (rest, "0")
    is_epoch = not colon or re.fullmatch(r"[0-9]+", epoch) and int(epoch) <= MOST_EPOCH
    return bool(is_epoch and re.fullmatch(r"[A-Za-z0-9.+:~-]+", upstream) and re.fullmatch(r"[A-Za-z0-9.+~]+", revision))


def pieces(text):
    """A version without an epoch and a revision as what is compared of it."""
    found = [(front, int(digits or 0)) for front, digits in re.findall(r"([^0-9]*)([0-9]*)", text)]
    while found and found[-1] == ("", 0):
        found.pop()
    return found


# Plans (docs/FORMATS.md, sections 9 and 15)


def step_of(line):
    """The step of a line."""
    action, *words = line.split(" ")
    need(all(words))
    if action == "unpack":
        need(len(words) == 2 and re.fullmatch(NAME, words[0]) and is_version(words[1]))
    elif action == "configure":
        need(words and all(re.fullmatch(NAME, name) for name in words) and words == sorted(set(words)))
    else:
        need(action in ("deconfigure", "remove", "purge") and len(words) == 1 and re.fullmatch(NAME, words[0]))
    return action, *words


# What the index has: of each package its version and what it depends on.
OFFERED = {"bar": ("1.0", None), "foo": ("1.0", "bar")}


def take(states, action, name, version=None):
    """Takes a step where nothing is installed at the start, or says which rule it breaks."""
    if action == "unpack":
        need(name in OFFERED and pieces(OFFERED[name][0]) == pieces(version), "F10 NotAdmitted")
        need(name not in states, "F9 WrongState")
        states[name] = "unpacked"
    else:
        need(action == "configure" and states.get(name) == "unpacked", "F9 WrongState")
        need(OFFERED[name][1] is None or states.get(OFFERED[name][1]) == "installed", "F4 Depends")
        states[name] = "installed"


def verdict_on_plan(steps):
    """The verdict on a plan for `foo`, which needs `bar`."""
    states = {}
    for number, step in enumerate(steps, 1):
        try:
            take(states, *step)
        except Bad as broken:
            return f"no step {number} {broken}"
    unfinished = sorted(name for name, state in states.items() if state == "unpacked")
    if unfinished:
        return f"no end F11 Unfinished {unfinished[0]}"
    return "yes" if states.get("foo") == "installed" else "no end F11 Goal 1"


# Refutations (docs/FORMATS.md, section 10)

# What stands behind the word of a premise: pairs (p), other numbers (n) or a name (N).
FORMS = {"same": "pp", "predepends": "pn", "depends": "pn", "conflicts": "pp", "breaks": "pp", "hold": "p", "essential": "N", "keep": "N"}


def number_of(text, most):
    need(re.fullmatch(NUMBER, text) and int(text) <= most)
    return int(text)


def refutation_line_of(line):
    """A premise as its words, or a derived line as its literals and its hints."""
    word, *words = line.split(" ")
    need(all(words))
    if word == "derive":
        need(":" in words)
        at = words.index(":")
        literals, hints = words[:at], words[at + 1:]
        need(hints and len(set(literals)) == len(literals))
        signs = [-1 if literal.startswith("-") else 1 for literal in literals]
        values = [number_of(literal.removeprefix("-"), MOST_PAIR) for literal in literals]
        return [sign * value for sign, value in zip(signs, values)], [number_of(hint, MOST_NUMBER) for hint in hints]
    form = ("n" if len(words) == 1 else "np") if word == "goal" else FORMS.get(word, "")
    need(form and len(words) == len(form))
    for kind, it in zip(form, words):
        need(re.fullmatch(NAME, it)) if kind == "N" else number_of(it, MOST_PAIR if kind == "p" else MOST_NUMBER)
    return line


def follows(literals, hints, clauses):
    """Whether a derived line follows from these clauses of the lines before it."""
    false, left = set(literals), [None]
    for hint in hints:
        if hint > len(clauses):
            return False
        left = [literal for literal in clauses[hint - 1] if literal not in false]
        if len(left) > 1:
            return False
        false |= {-literal for literal in left}
    return not left


def verdict_on_refutation(premises):
    """The verdict on lines where these are the premises, each with its clause."""
    def verdict(lines):
        clauses = []
        for number, line in enumerate(lines, 1):
            if premises.get(line) is None if isinstance(line, str) else not follows(*line, clauses):
                return f"no line {number}"
            clauses.append(premises[line] if isinstance(line, str) else set(line[0]))
        return "yes" if clauses and not clauses[-1] else f"no line {len(lines) + 1}"
    return verdict


# What is judged


def stanza(name, version, *fields):
    return "\n".join([f"Package: {name}", f"Version: {version}", "Architecture: all", *fields]) + "\n\n"


AGAINST = {"goal 1": {1}, "goal 2": {2}, "conflicts 1 2": {-1, -2}, "conflicts 2 1": {-1, -2}}
NEEDING = {"goal 1": {1}, "depends 1 1": {-1, 2, 3}, "depends 2 1": {-2, 3}, "depends 3 1": {-3, 2}, "conflicts 2 3": {-2, -3}}
SUBJECTS = [
    Subject("a plan of four steps", "plan 1\nunpack bar 1.0\nunpack foo 1.0\nconfigure bar\nconfigure foo\n",
            stanza("bar", "1.0") + stanza("foo", "1.0", "Depends: bar"), "install foo\n", ("check-plan", "apply"), "plan: E18 BadPlan",
            step_of, verdict_on_plan),
    Subject("a refutation of four lines", "refutation 1\ngoal 1\ngoal 2\nconflicts 1 2\nderive : 1 2 3\n",
            stanza("a", "1", "Provides: v", "Conflicts: v") + stanza("b", "1", "Provides: v", "Conflicts: v"),
            "install a\ninstall b\n", ("check-refutation",), "refutation: E19 BadRefutation", refutation_line_of,
            verdict_on_refutation(AGAINST)),
    Subject("a refutation of seven lines",
            "refutation 1\ngoal 1\ndepends 1 1\ndepends 2 1\nconflicts 2 3\ndepends 3 1\nderive -2 : 3 4\nderive : 1 6 2 5\n",
            stanza("a", "1", "Depends: p | q") + stanza("p", "1", "Depends: q", "Conflicts: q") + stanza("q", "1", "Depends: p"),
            "install a\n", ("check-refutation",), "refutation: E19 BadRefutation", refutation_line_of,
            verdict_on_refutation(NEEDING)),
]


def answer_to(subject, text):
    """The exit status, standard output and standard error that are wanted of a text."""
    *lines, rest = text.split("\n")
    head, read = subject.text.partition("\n")[0], []
    try:
        for line in lines:
            read.append(need(line == head) if not read else subject.read(line))
        need(read and not rest)
    except Bad:
        return 3, "", f"debplan: {subject.refusal} {len(read) + 1}\n"
    verdict = subject.judge(read[1:])
    return int(verdict != "yes"), f"{verdict}\n", ""


# Runs


class Judging:
    def __init__(self, program, subject, folder):
        self.program, self.subject, self.folder = os.path.abspath(program), subject, pathlib.Path(folder)
        for name, text in {"status": "", "sources": "File: index\n", "index": subject.index, "request": subject.request}.items():
            (self.folder / name).write_text(text, encoding="utf-8")

    def run(self, command, text, number):
        """How the program ends over a text."""
        (self.folder / f"text{number}").write_text(text, encoding="utf-8")
        options = [it for name in ("status", "sources", "request") for it in (f"--{name}", name)]
        rest = ["--journal", f"journal{number}", "--output", f"output{number}"] if command == "apply" else []
        ended = subprocess.run([self.program, command, "--arch", "amd64", *options, *rest, f"text{number}"], cwd=self.folder,
                               stdin=subprocess.DEVNULL, capture_output=True, encoding="utf-8", timeout=300, check=False)
        return ended.returncode, ended.stdout, ended.stderr

    def faults_of(self, number, text):
        """The answers that aren't the wanted ones, and what is wanted."""
        wanted, found = answer_to(self.subject, text), []
        for command in self.subject.commands:
            ended = self.run(command, text, number)
            is_written = any((self.folder / f"{name}{number}").exists() for name in ("journal", "output"))
            if command == "apply" and wanted[1] == "yes\n":
                continue
            if ended != wanted or is_written:
                found.append(f"{command} of {text!r}: wanted {wanted}, got {ended}{' and files' if is_written else ''}")
        return found, wanted[1].strip() or wanted[2].strip()


def kind_of(answer):
    return re.sub(r" [0-9]+$| [a-z]+$", "", answer.removeprefix("debplan: ").partition(": ")[2] or answer)


def judged(program, subject):
    """What isn't as wanted of a subject, and its row."""
    beginnings = [subject.text[:end] + ending for end in range(len(subject.text)) for ending in ("", "\n")]
    texts = [text for text in dict.fromkeys(beginnings) if text != subject.text]
    with tempfile.TemporaryDirectory() as folder, concurrent.futures.ThreadPoolExecutor(os.cpu_count()) as pool:
        it = Judging(program, subject, folder)
        answers = list(pool.map(it.faults_of, *zip(*enumerate(texts))))
    kinds = collections.Counter(kind_of(answer) for _, answer in answers)
    told = ", ".join(f"{count} `{kind}`" for kind, count in sorted(kinds.items()))
    return [fault for faults, _ in answers for fault in faults], f"| {subject.name}, {len(subject.text)} bytes | {len(texts)} | {told} |"


def main(words):
    if len(words) != 1 or words[0].startswith("-"):
        print(__doc__, file=sys.stderr)
        return 2
    print("| Text | Beginnings, as they stand and with a newline | Answers |\n|---|---|---|")
    failed = False
    for subject in SUBJECTS:
        faults, row = judged(words[0], subject)
        failed |= bool(faults)
        print("".join(fault + "\n" for fault in faults) + row, flush=True)
    return int(failed)


if __name__ == "__main__":
    sys.exit(main(sys.argv[1:]))
