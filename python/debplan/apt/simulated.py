"""What apt would do, as a plan that debplan judges."""
import pathlib
import re
import sys

from debplan import disk, tool
from debplan.apt.simulation import ILLEGAL, simulation_of
from debplan.tool import Failure

LINE = re.compile(r"(Inst|Conf|Remv|Purg) (\S+)(?: \[([^\]]*)\])?(?: \((\S+)[^)]*\[(\S+)\]\))?")
TARGET = re.compile(r"(?:-t|--target-release=|--default-release=)(.+)")
COUNTS = re.compile(r"^\d+ [^\d\n]+ \d+ [^\d\n]+ \d+ [^\d\n]+ \d+ [^\d\n]+$", re.MULTILINE)
UNMET = re.compile(r"^The following packages have unmet dependencies:\n(?: .*\n)*", re.MULTILINE)


# What apt says


def said_by_apt(machine, inputs, command, limit):
    """What `apt-get -s` prints. It is to go by the status file of the folder, and to keep its caches in memory."""
    over = ["-o", f"Dir::State::status={inputs.path('status').resolve()}", "-o", "Dir::Cache::pkgcache=", "-o", "Dir::Cache::srcpkgcache="]
    run = tool.run_of(["apt-get", "-s", *over, *command], limit, machine.env)
    if run.returncode:
        unmet = UNMET.search(run.stdout)
        raise Failure(f"apt-get {' '.join(command)}:\n{unmet.group(0) if unmet else ''}{tool.last_words(run)}")
    print("".join(f"{line}\n" for line in run.stderr.splitlines() if line.startswith("W: ")), end="", file=sys.stderr)
    return run.stdout


def said_before(path):
    """What `apt-get -s` printed into a file. What has neither a step nor the counts at its end is of a command that apt refused."""
    try:
        said = sys.stdin.read() if path == "-" else pathlib.Path(path).read_text(encoding="utf-8", errors="surrogateescape")
    except UnicodeDecodeError:
        said = ""
    if not COUNTS.search(said) and not any(map(LINE.match, said.splitlines())):
        what = "standard input" if path == "-" else path
        raise Failure(f"{what} isn't what apt-get -s prints of a command that it would carry out")
    return said


def lines_of(said, arch):
    """Yields the kind, the name and the new version of each line of a simulation."""
    for line in said.splitlines():
        found = LINE.match(line)
        if found:
            kind, name, _, version, of = found.groups()
            name, _, foreign = name.partition(":")
            foreign = foreign or (of if of not in (None, "all") else arch)
            if foreign != arch:
                raise Failure(f"{name} is of the architecture {foreign}: debplan judges packages of {arch} alone")
            yield kind, name, version


# The request


def words_of(command):
    """The target release that the command gives, if it gives one, and its words that are no options."""
    target, plain, words = None, [], iter(command)
    for word in words:
        found = TARGET.fullmatch(word)
        if word in ("-t", "--target-release", "--default-release"):
            target = next(words, None)
        elif found:
            target = found.group(1)
        elif word in ("-o", "-c", "--option", "--config-file"):
            next(words, None)
        elif not word.startswith("-"):
            plain.append(word)
    return target, plain


def goal_of(verb, word):
    """The goal that a word behind the verb of apt-get is."""
    if verb == "install" and word.endswith("-"):
        return f"remove {word[:-1]}"
    if verb != "install" and word.endswith("+"):
        verb, word = "install", word[:-1]
    name, _, version = word.rstrip("+").split("/")[0].partition("=") if verb == "install" and not word.endswith("++") else (word, "", "")
    return f"{verb} {name} (= {version})" if version else f"{verb} {name}"


def request_of(command, plain):
    """The text of the request: a goal for each package that the command names."""
    verb, names = (plain[0], plain[1:]) if plain else ("", [])
    goals = [goal_of(verb, name) for name in names] if verb in ("install", "remove", "purge") else []
    return "".join(f"{line}\n" for line in [f"# apt-get {' '.join(command)}", *goals])


# The verdict


def write_plan(inputs, name, simulation):
    disk.write_text(inputs.path(name), "".join(f"{line}\n" for line in ["plan 1", *simulation.steps]))


def verdict_on(inputs, name, simulation):
    """Prints the verdict on a plan and the line of the step that it names, and returns the exit status and the rule."""
    run = inputs.asks("check-plan", name)
    print(run.stdout, end="", flush=True)
    print(run.stderr if run.returncode else "", end="", file=sys.stderr)
    print("".join(f"{line}\n" for line in inputs.pins_against(run, name)), end="")
    found = ILLEGAL.match(run.stdout)
    if found:
        step = simulation.steps[int(found.group(1)) - 1]
        print(f"step {found.group(1)} of {inputs.path(name)} isn't legal in this order: {step}")
    return run.returncode, found and found.group(2)


def tell_forced(inputs, lines, offered, simulation):
    """Says which removals apt has dpkg force, and has the plan judged with what needs them deconfigured."""
    for name, needing in simulation.removals[:10]:
        who = f"{needing[0]} and {len(needing) - 1} more need" if len(needing) > 1 else f"{needing[0]} needs"
        print(f"apt has dpkg force this removal (--force-depends): {name}, which {who}")
    forced = simulation_of(inputs, lines, offered, forced=True)
    write_plan(inputs, "plan.forced", forced)
    count = len(simulation.removals)
    told = "1 removal is forced; with what needs it" if count == 1 else f"{count} removals are forced; with what needs them"
    print(f"{told} deconfigured before, as in {inputs.path('plan.forced')}:")
    verdict_on(inputs, "plan.forced", forced)
