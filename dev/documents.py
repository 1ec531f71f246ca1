"""What is wrong with an answer of debplan that is written by `--format json`, beside the same answer in lines: `faults(kind, judged,
plain, document)`. The document is read by Python's `json`, and its objects are compared with the lines that they stand for."""
import json

ACTIONS = ("unpack", "deconfigure", "configure", "remove", "purge")
ARCHIVE = ("filename", "size", "sha256")
# The numbers of a premise, in the order of its line; of a goal the pair may be missing.
NUMBERS = {"same": ("pair", "other"), "predepends": ("pair", "clause"), "depends": ("pair", "clause"), "conflicts": ("pair", "other"),
           "breaks": ("pair", "other"), "goal": ("goal", "pair"), "hold": ("pair",), "essential": ("name",), "keep": ("name",)}


def step_line(step):
    """The line of a plan that the object of a step stands for."""
    if step["action"] == "unpack":
        return f"unpack {step['name']} {step['version']}"
    return " ".join([step["action"], *(step["names"] if step["action"] == "configure" else [step["name"]])])


def number_of(pair):
    """A pair as version 1 of a refutation has it."""
    return str(pair["number"])


def name_of(pair):
    """A pair as version 2 has it."""
    return f"{pair['name']} {pair['version']}"


def refutation_line(line, word_of):
    """The line of a refutation that an object stands for, with this word for each pair."""
    if "premise" in line:
        kind = line["premise"]
        values = [line[key] for key in NUMBERS[kind] if key in line]
        return " ".join([kind, *(word_of(value) if isinstance(value, dict) else str(value) for value in values)])
    literals = [("" if literal["selected"] else "-") + word_of(literal) for literal in line["literals"]]
    return " ".join(["derive", *literals, ":", *map(str, line["hints"])])


def verdict_line(found):
    """The line of the verdict on a plan that the members stand for."""
    if found["answer"] == "yes":
        return "yes\n"
    rule = f"{found['rule']['code']} {found['rule']['name']}"
    if found["place"] == "end":
        reason = found["reason"]
        return f"no end F11 {reason['kind']} {reason.get('name', reason.get('goal'))}\n"
    return f"no start {rule}\n" if found["place"] == "start" else f"no step {found['step']} {rule}\n"


def candidate_line(found):
    """The line of the candidate of a name that an object stands for."""
    return f"{found['name']} none\n" if found["version"] is None else f"{found['name']} {found['version']} {found['priority']}\n"


def lines_of(text):
    """The lines of a plan or a refutation behind its first one, but for the last of version 2, which counts them, and for indices."""
    return [line for line in text.decode("utf-8", "replace").splitlines()[1:] if not line.startswith(("end ", "index "))]


def of_steps(found, plan):
    """What is wrong with the steps of this plan, and with their counts."""
    if [step_line(step) for step in found["steps"]] != lines_of(plan):
        yield "the steps aren't those of the plan"
    if any(set(ARCHIVE) - set(step) for step in found["steps"] if step["action"] == "unpack"):
        yield "a step that unpacks lacks a member"
    if found["counts"] != {action: sum(step["action"] == action for step in found["steps"]) for action in ACTIONS}:
        yield "the counts aren't those of the steps"


def of_lines(found, refutation):
    """What is wrong with the lines of this refutation, and with their counts. Lines are missing where one names a pair that isn't admitted."""
    word_of = name_of if refutation.startswith(b"refutation 2\n") else number_of
    lines, told = lines_of(refutation), [refutation_line(line, word_of) for line in found["lines"]]
    if told != lines and (word_of is number_of or found["answer"] != "no" or told != lines[:len(told)]):
        yield "the lines aren't those of the refutation"
    if [line["line"] for line in found["lines"]] != list(range(1, len(found["lines"]) + 1)):
        yield "the lines aren't numbered"
    premises = sum("premise" in line for line in found["lines"])
    if found["counts"] != {"premises": premises, "derived": len(found["lines"]) - premises}:
        yield "the counts aren't those of the lines"


def of_answer(kind, judged, text, found):
    """What is wrong with the members of an answer of this kind beside its text."""
    if kind == "candidate":
        if "".join(map(candidate_line, found["candidates"])) != text.decode():
            yield "the candidates aren't those of the lines"
    elif kind == "check-plan":
        yield from of_steps(found, judged)
        if verdict_line(found) != text.decode():
            yield "the verdict isn't that of the line"
    elif kind == "check-refutation":
        yield from of_lines(found, judged)
        if (f"no line {found['line']}\n" if found["answer"] == "no" else "yes\n") != text.decode():
            yield "the verdict isn't that of the line"
    elif found["answer"] == "undecided":
        if not text.decode().startswith(f"undecided {found['why']}"):
            yield "the reason isn't that of the line"
    else:
        yield from of_steps(found, text) if found["answer"] == "plan" else of_lines(found, text)


def survey_line(found):
    """The line of `installable` that the object of a package, of the base or of the counts stands for."""
    if "counts" in found:
        counts = found["counts"]
        undecided = f", undecided {counts['undecided']}" if counts["undecided"] else ""
        return f"checked {counts['checked']}, broken {counts['broken']}{undecided}\n"
    return " ".join([found["answer"], *(["base"] if found["name"] is None else [found["name"], found["version"]])]) + "\n"


def of_survey_line(line):
    """What is wrong with a line of `installable` as JSON, and its object, if it is one."""
    found, wrong = read(line)
    if found is not None:
        if survey_line(found) != found.get("text"):
            wrong.append("the members aren't those of the line")
        if found["answer"] == "broken" and not ("request" in found and found["refutation"].startswith("refutation 2\n")):
            wrong.append("a refutation or its request is missing")
    return found, wrong


def survey_faults(plain, document):
    """What is wrong with the lines of `installable` as JSON texts, beside those that it printed."""
    told = [of_survey_line(line) for line in document.splitlines(keepends=True)]
    for _, wrong in told:
        yield from wrong
    if "".join(found.get("text", "") for found, _ in told if found) != plain.decode("utf-8", "replace"):
        yield "its texts aren't what is printed in lines"


def read(line):
    """The object of a document, if it is JSON, and what is wrong with how it is written."""
    try:
        found = json.loads(line)
    except ValueError as error:
        return None, [f"it is no JSON: {error}"]
    if (json.dumps(found, ensure_ascii=False, separators=(",", ":"), sort_keys=True) + "\n").encode() != line:
        return found, ["it isn't one line, has spaces or another order of members, or a member twice"]
    return found, []


def faults(kind, judged, plain, document):
    """What is wrong with what a command of this kind printed as a document, by its exit status, standard output and standard error,
    beside what it printed in lines. What it judges is this text."""
    if (document[0], document[2]) != (plain[0], plain[2]):
        yield "the exit status or standard error is another one"
    if not plain[1]:
        if document[1]:
            yield "a document stands beside no answer"
        return
    if kind == "installable":
        yield from survey_faults(plain[1], document[1])
        return
    found, wrong = read(document[1])
    yield from wrong
    if found is None:
        return
    if found.get("text") != plain[1].decode("utf-8", "replace"):
        yield "its text isn't what is printed in lines"
    try:
        yield from of_answer(kind, judged, plain[1], found)
    except (KeyError, TypeError) as error:
        yield f"a member is missing or of another kind: {error}"
