"""The sentences of the program in the words of tools/ask: what they advise is said as words of its command line, with what rules a
version out, who provides a name that none which may be chosen provides, which release may help, and why a version is older than its
candidate."""
import json
import re

from debplan import control, disk, tool
from debplan.machine import reasons
from debplan.machine.inputs import UNMATCHED

# What the sentences of the program advise, and what they end with, which are words of a request and not of a command line.
ADVICE = re.compile(r" is not admitted: its priority is [^()]* "
                    r"\((?:a line all-versions, or )?the goal install (\S+) \(= ([^)\s]+)\),? may admit it\)")
NAMED = re.compile(r"\(the goal install (\S+) \(= ([^)\s]+)\) may admit it\)")
NOWHERE = re.compile(r"there is no package (\S+) in any index")
UPGRADED = re.compile(r"(\s*)You ask to upgrade (\S+) \(that is (\S+ \S+)\)\.")
WITHOUT_CANDIDATE = re.compile(r"(You ask to upgrade (\S+), but \S+ has no candidate)(?:: .*)?\.")
CLOSING = re.compile(r"This is about the admitted versions: of each package the installed one(.*)\.")
# How many versions that are older than their candidates are told with the reason, each of which costs an answer.
OLDER_WITH_REASON = 3


def ruled_out(question, name, version):
    """Why a version isn't among those that are chosen from, and whether --all-versions admits it."""
    inputs = question.inputs
    preferences, candidate = reasons.Preferences(inputs), inputs.candidates_of([name]).get(name)
    places = [keys for keys in inputs.sources() for fields in control.stanzas_named(inputs.folder / keys["File"], {name})
              if fields.get("Version") == version]
    if not places:
        return "its priority or the candidate rules it out", True
    priority, record = preferences.priority(name, version, places), preferences.record_on(name, version, places)
    by = f" by {record.place}" if record and record.place else ""
    standing = question.before.version(name)
    if standing and control.version_key(version) < control.version_key(standing) and priority < 1000:
        return f"its priority is {priority}{by}, and it is lower than the installed {standing}", False
    return f"its priority is {priority}{by}, and the candidate is {candidate or 'none'}", priority > 0


def may_admit(question, name, version):
    """Why a version isn't admitted, and by which words it may be."""
    why, is_choosable = ruled_out(question, name, version)
    how = "" if question.options.all_versions or not is_choosable else "--all-versions, or "
    return f"is not admitted: {why} ({how}install {name}={version} may admit it)"


def without_candidate(question, name):
    """Why the highest version of a name in the indices isn't its candidate, behind that it has none."""
    version = max((it["Version"] for it in question.inputs.of_index_named(name)), key=control.version_key, default=None)
    return f": {name} {version} {may_admit(question, name, version)}." if version else ", and no index has it."


def provided_elsewhere(question, name):
    """Which versions provide a name that no version does which may be chosen, and why the last of them isn't admitted; nothing where
    none does."""
    pairs = sorted({(it["Package"], it["Version"]) for it in question.inputs.providing(name)},
                   key=lambda it: (it[0], control.version_key(it[1])))
    if not pairs:
        return None
    some = " or ".join(" ".join(pair) for pair in pairs[:3]) + (f", or {len(pairs) - 3} more" if len(pairs) > 3 else "")
    which = "which" if len(pairs) == 1 else f"and {' '.join(pairs[-1])}"
    return f"{name} is provided by {some} alone, {which} {may_admit(question, *pairs[-1])}"


def in_own_words(question, sentence):
    """A sentence of the program, with what it advises in the words of this command line."""
    advice = ADVICE.search(sentence)
    if advice:
        sentence = sentence.replace(advice.group(0), f" {may_admit(question, *advice.groups())}")
    upgraded = UPGRADED.fullmatch(sentence)
    if upgraded and question.asks_all and not any(goal[:2] == ("upgrade", upgraded.group(2)) for goal in question.goals):
        return f"{upgraded.group(1)}upgrade-all asks for {upgraded.group(3)}."
    lacking = WITHOUT_CANDIDATE.fullmatch(sentence)
    if lacking:
        sentence = lacking.group(1) + without_candidate(question, lacking.group(2))
    sentence = NAMED.sub(r"(install \1=\2 may admit it)", sentence)
    nowhere = NOWHERE.search(sentence)
    if nowhere:
        sentence = sentence.replace(nowhere.group(0), provided_elsewhere(question, nowhere.group(1)) or nowhere.group(0))
    if CLOSING.fullmatch(sentence):
        return "This is about all versions that may be chosen." if question.options.all_versions else \
            "This is about the installed version of each package, its candidate, and what NAME=VERSION names; --all-versions admits more."
    return sentence


def why_older(question, name):
    """Why a version that was chosen is older than its candidate, as lines behind that: the sentences on the same request with the
    candidate. Nothing where the version was asked for."""
    inputs, other = question.inputs, question.inputs.path("request.candidate")
    if any(line.startswith(f"install {name} (=") for line, _ in question.lines):
        return []
    disk.write_text(other, f"{inputs.path('request').read_text(encoding='utf-8')}upgrade {name}\n")
    run = inputs.asks("solve", "--format", "json", request=other.name)
    other.unlink()
    document = json.loads(run.stdout) if run.stdout else {}
    if document.get("answer") == "plan":
        return [f"with `upgrade {name}` there is a plan with the candidate"]
    sentences = [it for it in document.get("reasons", ()) if not UNMATCHED.fullmatch(f"{it}\n") and not CLOSING.fullmatch(it)]
    return [in_own_words(question, it) for it in sentences if not it.startswith(f"You ask to upgrade {name} ")]


def suites_that_may_help(question):
    """Of each version that is asked for by = the release that has it, by which what it depends on comes too."""
    wanted = {}
    for goal in question.goals:
        found = re.fullmatch(r"install \S+ \(= (\S+)\)", goal.text)
        wanted.update({(goal.name, found.group(1)): None} if found else {})
    for (name, _), (_, keys) in question.inputs.located(set(wanted)).items():
        suite = keys.get("Codename") or keys.get("Suite")
        if suite:
            yield f"{tool.tool_name()} install {name}/{suite} takes what {name} depends on from {suite} too."


def near(inputs, name):
    """What is known of a name that no package has."""
    providers = sorted({fields["Package"] for fields in inputs.providing(name)})
    return f"no package has the name {name}; it is provided by {' '.join(providers[:12])}" if providers else \
        f"no list of apt has a package {name}"
