"""Asks debplan for a plan for this machine, in one command, and changes nothing on it.

  ask install cowsay                  what `install`, `upgrade`, `remove` and `purge` name stands in a row
  ask install gcc=4:12.2.0-3 'libc6>=2.36' remove cowsay
  ask install cockpit/bookworm-backports    the version of this release, and of what it depends on too where no candidate will do
  ask upgrade-all                     `no-remove` is a goal like this one, without names

`install NAME` is content with a NAME that is installed in some version; `upgrade NAME` asks for its candidate, and installs it
where it is missing. NAME=VERSION asks for a version, and NAME with << <= >= >> for one that fits. Recommends count for nothing
without --recommends.
`upgrade-all` keeps back what can't be upgraded, as apt does, and names it with the reason; what is asked for by name isn't kept
back. With --strict it is refuted where one package can't be upgraded.

The inputs are collected into a cache folder, again only where apt's lists, sources, pins or settings or the status file have
changed (see collect-inputs, which also says which pins it had to leave out). Printed are the counts of the plan; how much there is
to download and to store; what is new, upgraded, downgraded, removed as asked for, removed though not asked for, and purged, one
name a line; what of the names that were asked for stays as it is, and what is older than its candidate, the first few with what
stands against the candidate; and the plan. Where the request is refuted, the reasons are printed, each a premise of the refutation,
with names and versions, and which other version or release may help. The folder, which is named at the end, has the files `request`
and `plan` for run-plan.
Where a pin of the machine had to be left out, a line behind each answer says so; another one where a pin matches nothing in the
lists that matched something before, or is new.
With --recommends each clause of Recommends is met by the first alternative with which there is a plan that removes nothing more
and still installs what was found, and so on with what came in. What came and what was left out, and why, is said; the file
`request` has the goals.

Environment: ARCH, STATUS, APT_CONFIG, as for collect-inputs; DEBPLAN, the program.
Exit status: that of `debplan solve` (0 a plan, 1 refuted, 2 undecided, 3 an input is refused), 1 too where apt's lists have no such
package or a name that was asked for would be kept back, 6 for a plan where pins are left out and --pins-left-out isn't given, 64 for
wrong words, 69 where a program is missing."""
import collections
import hashlib
import os
import pathlib
import re
import sys

from debplan import tool
from debplan.machine import collect as collecting, suites
from debplan.machine.collect import TOLD_LEFT_OUT, TOLD_UNMATCHED
from debplan.machine.inputs import Inputs, WITHOUT_PINS
from debplan.machine.question import Question, answered
from debplan.machine.system import Machine
from debplan.tool import Failure

VERBS = ("install", "upgrade", "remove", "purge")
ALONE = ("upgrade-all", "no-remove")
NAME = re.compile(r"([A-Za-z0-9][A-Za-z0-9+.-]*)(?::([A-Za-z0-9-]+))?")
RESTRICTED = re.compile(rf"{NAME.pattern}\s*(?:(<<|<=|=|>=|>>)\s*(\S+)|\(\s*(<<|<=|=|>=|>>)\s*([^\s)]+)\s*\))")
FROM_SUITE = re.compile(rf"{NAME.pattern}/(\S+)")
Goal = collections.namedtuple("Goal", "verb name text suite")


# The words


def goal_of(verb, word, arch):
    """The goal that a word behind a verb is."""
    plain, restricted, of = NAME.fullmatch(word), RESTRICTED.fullmatch(word), FROM_SUITE.fullmatch(word)
    found = plain or restricted or of
    if not found:
        raise Failure(f"{verb} {word}: '{word}' is none of NAME, NAME=VERSION, 'NAME>=VERSION' and NAME/SUITE", 64)
    if not plain and verb != "install":
        raise Failure(f"{verb} {word}: only install takes a version or a suite", 64)
    name, qualifier = found.group(1, 2)
    if qualifier not in (None, arch, "native", "any"):
        raise Failure(f"{verb} {word}: debplan chooses packages of one architecture, here {arch}", 64)
    if restricted:
        operator, version = (it for it in restricted.groups()[2:] if it)
        return Goal(verb, name, f"{verb} {name} ({operator} {version})", None)
    return Goal(verb, name, f"{verb} {name}", of and of.group(3))


def request_of(words, arch):
    """The goals of a command line."""
    goals, verb, named = [], None, True
    for word in words:
        if word in VERBS or word in ALONE:
            if not named:
                break
            verb, named = (word, False) if word in VERBS else (None, True)
            goals += [Goal(word, None, word, None)] if word in ALONE else []
        elif verb:
            goals.append(goal_of(verb, word, arch))
            named = True
        else:
            how = "; all versions are asked for by --all-versions" if word == "all-versions" else ""
            raise Failure(f"'{word}' is none of {', '.join([*VERBS, *ALONE])}{how}", 64)
    if not named or not goals:
        how = ": upgrade-all asks for all" if verb == "upgrade" else ""
        raise Failure(f"{verb or 'the request'} names no package{how}", 64)
    return goals


# The options without a value.
FLAGS = {
    "--explain": "behind the plan the sentences on it, as why each package is removed, one name a line",
    "--keep-back": "leave out and name what can't be fulfilled, also of what is asked for by name",
    "--strict": "keep nothing back by upgrade-all",
    "--recommends": "ask for what new packages recommend too",
    "--all-versions": "choose among all versions that may be chosen, and not among candidates alone",
    "--pins-left-out": "accept a plan without the pins that were left out",
}


def parser():
    """The words of the command."""
    options = tool.Words(__doc__)
    options.add_argument("-t", "--target", metavar="RELEASE", help="a release to prefer, of which apt has a list (default: "
                         "that of apt's setting APT::Default-Release)")
    options.add_argument("--limit", type=int, metavar="N", help="how many conflicts the search may meet")
    options.add_argument("--root", metavar="ROOT", help="ask for another system in the folder ROOT")
    options.add_argument("--folder", metavar="DIR", help="where the inputs are collected, in place of the cache folder "
                         "$XDG_CACHE_HOME/debplan/inputs or ~/.cache/debplan/inputs, of which each ROOT has its own")
    options.add_argument("--inputs", metavar="DIR", help="collect nothing, and ask about the folder of inputs DIR as it is")
    options.add_argument("--format", choices=("text", "json"), default="text", help="json: the answer as one line of JSON, "
                         "with the URI of each package (docs/FORMATS.md, section 19)")
    for name, what in FLAGS.items():
        options.add_argument(name, action="store_true", help=what)
    options.add_argument("goals", nargs="*", metavar="GOAL", help="install, upgrade, remove or purge and names of packages; "
                         "upgrade-all; no-remove")
    return options


def options_in(words):
    options = parser().read(words, mixed=True)
    if options.strict and options.keep_back:
        raise Failure("--strict and --keep-back are the opposite of each other", 64)
    if options.inputs and (options.root or options.folder):
        raise Failure("--inputs names what was collected, so it stands without --root and --folder", 64)
    return options


# The inputs


def cache_folder(root):
    """The folder of the inputs: one for each root and each configuration of apt."""
    cache = os.environ.get("XDG_CACHE_HOME") or os.path.join(os.path.expanduser("~"), ".cache")
    of = "\n".join([str(root), *(os.environ.get(it, "") for it in ("APT_CONFIG", "STATUS", "ARCH"))])
    plain = of == "/\n\n\n"
    return pathlib.Path(cache) / "debplan" / ("inputs" if plain else f"inputs-{hashlib.sha256(of.encode()).hexdigest()[:12]}")


def collect(folder, root):
    """Collects the inputs where they have changed. What is said of it goes to standard error, but for what is said of pins behind
    the answer."""
    machine = Machine(root)
    try:
        collecting.collect_if_changed(folder, machine, machine.arch(), True, tell_of_collecting)
    except (Failure, OSError) as error:
        print(f"collect-inputs: {error}", file=sys.stderr)
        if not (folder / "collected").is_file():
            raise Failure("the inputs can't be collected", getattr(error, "status", 1)) from None


def tell_of_collecting(line):
    if not line.startswith((TOLD_LEFT_OUT, TOLD_UNMATCHED)):
        print(line, file=sys.stderr, flush=True)


def main(words):
    options = options_in(words)
    machine = Machine(options.root)
    arch = machine.arch()
    goals = request_of(options.goals, arch)
    folder = pathlib.Path(options.inputs or options.folder or cache_folder(pathlib.Path(options.root or "/").resolve()))
    if not options.inputs:
        collect(folder, options.root)
    inputs = Inputs(folder, arch, options.target)
    if options.target:
        suites.check_target(inputs, options.target)
    else:
        suites.set_default_target(inputs, machine)
    status = answered(Question(options, inputs, goals))
    inputs.tell_unmatched_pins()
    lacks_pins = inputs.lacks_pins(options.pins_left_out)
    return WITHOUT_PINS if lacks_pins and status == 0 else status


def start():
    """Runs the command."""
    tool.ends(main)
