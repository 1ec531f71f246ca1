"""Commands as questions of `debplan batch`: `question_of(words, text_at)` is the question that asks what a command line asks, and the
options of the `batch` that may be asked so; `faults(asked, ended)` is what is wrong with what such a `batch` printed, beside what the
commands printed (docs/FORMATS.md, "Many questions"). It runs nothing."""
import collections
import getopt
import json
import re

import documents

# The options of what is read before a request, which `batch` has too; those of a question; and those that change no reply.
READ = ("arch", "status", "sources", "preferences", "target")
OPTIONS = [*(f"{name}=" for name in (*READ, "request", "goal", "limit", "refutation-format", "format", "request-out")), "explain", "keep-back",
           "all-versions", "without-essential"]
JUDGED = {"check-plan": "plan", "check-refutation": "refutation"}
KINDS = ("candidate", "installable", "solve", *JUDGED)
# The status file of `installable` where none is named.
NO_STATUS = "/dev/null"
# A refusal of what is read before a request, which ends `batch` before its first reply.
BEFORE = re.compile(rb"debplan: (status|sources|index [0-9]+|preferences): ")
# What is asked of `batch`: the question, what its command printed, and its answer as a document.
Asked = collections.namedtuple("Asked", "question printed document")


def question_of(words, text_at):
    """The options of `batch` and the question without its `id`; nothing where it can't be asked, as where a text that it needs isn't
    there. `text_at` gives the text of a file, if it is UTF-8."""
    try:
        given, others = getopt.gnu_getopt(words[1:], "", OPTIONS)
    except getopt.GetoptError:
        return None
    options = {**({"status": NO_STATUS} if words[0] == "installable" else {}), **{name[2:]: value for name, value in given}}
    question = {"ask": words[0], **asked(words[0], options, [value for name, value in given if name == "--goal"], others, text_at)}
    if None in question.values():
        return None
    return [word for name in READ if name in options for word in (f"--{name}", options[name])], question


def asked(kind, options, goals, others, text_at):
    """The members of a question, of which one is None where it can't be asked."""
    if kind == "candidate":
        return {"names": others}
    if kind == "installable":
        flags = {name.replace("-", "_"): True for name in ("all-versions", "without-essential") if name in options}
        return {**flags, **({"names": others} if others else {}), **({"limit": int(options["limit"])} if "limit" in options else {})}
    members = request_of(goals if goals else lines_of(text_at(options["request"])))
    if kind in JUDGED:
        text = text_at(others[0])
        # A document in the place of a text is for files alone.
        return {**members, JUDGED[kind]: None if text is None or text.lstrip().startswith("{") else text}
    if "keep-back" in options:
        members["keep_back"] = True
    numbers = {"limit": "limit", "refutation_format": "refutation-format"}
    return {**members, **{member: int(options[name]) for member, name in numbers.items() if name in options}}


def lines_of(text):
    """The lines of a text, if it is one."""
    return None if text is None else text.removesuffix("\n").split("\n") if text else []


def request_of(lines):
    """The members that make a request of these lines."""
    if lines and lines[-1] == "all-versions":
        return {"goals": lines[:-1], "all_versions": True}
    return {"goals": lines}


def without_archives(found):
    """The members of a document, in which the archives are unknown: no text is opened a second time."""
    steps = [{**step, **dict.fromkeys(documents.ARCHIVE)} if step["action"] == "unpack" else step for step in found.get("steps", [])]
    return {**found, "steps": steps} if "steps" in found else found


def answer_in(ask):
    """The members of the document of a command. Of `installable`, which writes one for each line, they are those of the last one, with all
    lines as text, and the objects of the others."""
    *others, last = map(json.loads, ask.document[1].splitlines())
    return {**last, "packages": others, "text": ask.printed[1].decode("utf-8", "replace")} if ask.question["ask"] == "installable" else last


def wanted_reply(name, ask):
    """The members of the reply to a question that has this `id`."""
    if not ask.printed[1]:
        return {"id": name, "refused": ask.printed[2].partition(b"\n")[0].decode("utf-8", "replace").removeprefix("debplan: ")}
    return {**without_archives(answer_in(ask)), "id": name}


def reply_faults(name, ask, line):
    """What is wrong with a reply beside what the command printed."""
    found, wrong = documents.read(line)
    yield from wrong
    if found is not None:
        wanted = wanted_reply(name, ask)
        if ask.printed[1] != ask.document[1] and ask.question["ask"] == "candidate" and b"\n" in ask.printed[2]:
            # Its document has the table of `--explain`, which isn't asked of `batch`.
            wanted["reasons"] = found.get("reasons")
        for key in sorted({**wanted, **found}):
            if (key in found, found.get(key)) != (key in wanted, wanted.get(key)):
                yield f"its {key} isn't that of the command"


def turns(asks):
    """What is asked of one `batch`, each with its `id`: the questions in their order and then in the other one, and a line between
    them that is no question."""
    forward = list(enumerate(asks, 1))
    return [*forward, (None, None), *(({"again": [name]}, ask) for name, ask in reversed(forward))]


def text_of(asks):
    """The standard input of the `batch` that is asked these questions."""
    lines = [json.dumps({"id": name, **(ask.question if ask else {})}, ensure_ascii=False) for name, ask in turns(asks)]
    return ("\n".join(lines) + "\n").encode()


def faults(asks, ended):
    """What is wrong with what a `batch` of these questions printed, by its exit status, standard output and standard error."""
    before = next((ask.printed for ask in asks if BEFORE.match(ask.printed[2]) and not ask.printed[1]), None)
    if before:
        if (ended[0], ended[1], ended[2]) != (before[0], b"", before[2].partition(b"\n")[0] + b"\n"):
            yield "it doesn't end as the commands do"
        return
    if (ended[0], ended[2]) != (0, b""):
        yield "its exit status isn't 0, or something stands on standard error"
    lines, wanted = ended[1].splitlines(keepends=True), turns(asks)
    if len(lines) != len(wanted):
        yield "there isn't one reply for each question"
    for number, (line, (name, ask)) in enumerate(zip(lines, wanted), 1):
        if ask:
            for fault in reply_faults(name, ask, line):
                yield f"reply {number}: {fault}"
        elif not line.startswith(b'{"id":null,"refused":"line %d: ' % number):
            yield f"reply {number}: it doesn't refuse what is no question"
