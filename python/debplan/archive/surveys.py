"""What `debplan installable` prints (docs/FORMATS.md, section 13): a text of it is read and tested, those of all shards are merged to
that of the whole, and two are compared. Beside the file of a shard may stand another one, which says over which inputs it is."""
import collections
import hashlib
import heapq
import os
import re

from debplan import control
from debplan.machine.inputs import without_unmatched
from debplan.tool import Failure

BASE = re.compile(r"(broken|undecided) base")
PACKAGE = re.compile(r"(broken|undecided) ([A-Za-z0-9][A-Za-z0-9+.-]*) ((?:[0-9]+:)?[A-Za-z0-9.+~:-]+)")
COUNTS = re.compile(r"checked ([0-9]{1,9}), broken ([0-9]{1,9})(?:, undecided ([1-9][0-9]{0,8}))?")
# How many bytes the name and the version of a package have at most as its files are called.
STEM_BYTES = 200
# The end of the name of a file that says over which inputs the output beside it is.
INPUTS = ".inputs"
# The kinds of its lines but for those of files, which have a sum and a path.
WORDS = ("shard", "option", "name", "output")
# A package that is told, with its state; the base has the name `base` and no version.
Line = collections.namedtuple("Line", "state name version")


def key_of(line):
    """By what lines are in order: the name, byte by byte, and then the version. The base is before all packages."""
    return ("",) if line.version is None else (line.name, control.version_key(line.version))


def written(line):
    """The package of a line, as it is printed."""
    return line.name if line.version is None else f"{line.name} {line.version}"


def file_name(line):
    """The package of a line, as the files on it are called: a long one by its sum."""
    name = written(line).replace(" ", "_")
    return name if len(name) <= STEM_BYTES else f"sha256-{hashlib.sha256(name.encode('ascii')).hexdigest()}"


class Survey:
    """What is said of the packages that were asked about: the state of the base, where it isn't installable, the lines of packages,
    and how many packages were asked about; and, where that was asked for, why they are broken, in sentences, by their lines."""

    def __init__(self, base, lines, count, sentences=None):
        self.base, self.lines, self.count, self.sentences = base, lines, count, sentences or {}

    def told(self):
        """The lines, that on the base first."""
        return ([Line(self.base, "base", None)] if self.base else []) + self.lines

    def number(self, state):
        return sum(line.state == state for line in self.lines)

    def text(self):
        undecided = self.number("undecided")
        counts = f"checked {self.count}, broken {self.number('broken')}" + (f", undecided {undecided}" if undecided else "")
        return "".join(f"{line.state} {written(line)}\n" for line in self.told()) + f"{counts}\n"

    def status(self):
        """The exit status of the program that prints this."""
        states = {line.state for line in self.told()}
        return 2 if "undecided" in states else 1 if "broken" in states else 0


def survey_of(text, place):
    """The survey that a text is; one that isn't whole, or that the program doesn't print, is refused by the place that it comes from."""
    lines = text.split("\n")
    counts = COUNTS.fullmatch(lines[-2]) if len(lines) > 1 and not lines[-1] else None
    if not counts:
        raise Failure(f"{place}: is cut short: its last line isn't `checked ..`")
    base = BASE.fullmatch(lines[0])
    told = [line_of(lines[number], number + 1, place) for number in range(1 if base else 0, len(lines) - 2)]
    found = Survey(base.group(1) if base else None, told, int(counts.group(1)))
    check_order(told, place)
    if found.text() != text or len(told) > found.count:
        raise Failure(f"{place}: its last line doesn't count its lines, `{lines[-2]}`")
    return found


def line_of(text, number, place):
    """The line of a package."""
    found = PACKAGE.fullmatch(text)
    if not found:
        raise Failure(f"{place}: line {number} is none that `debplan installable` prints")
    return Line(*found.groups())


def check_order(lines, place):
    for one, other in zip(lines, lines[1:]):
        if key_of(one) >= key_of(other):
            raise Failure(f"{place}: {written(other)} stands behind {written(one)}, so the lines aren't in order")


def survey_in(path):
    """The survey that a file has."""
    return survey_of(text_in(path), path)


def sentences_in(said, survey):
    """The sentences that `--explain` has on standard error, beside what was printed, by the lines of the packages that they are on."""
    headings = {f"{written(line)}:": line for line in survey.told()}
    found, told = {}, []
    for sentence in without_unmatched(said.splitlines()):
        if sentence in headings:
            told = found[headings[sentence]] = []
        else:
            told.append(sentence)
    return found


# All shards


def merged(shards, places):
    """The survey of the whole from those of all its shards, in their order. What can't be all shards of one list is refused by the
    place of the first shard that doesn't fit."""
    for shard, place in zip(shards, places):
        if shard.base != shards[0].base:
            raise Failure(f"{place}: says of the base `{shard.base or 'nothing'}`, and {places[0]} `{shards[0].base or 'nothing'}`")
    check_sizes(shards, places)
    numbered = [[(key_of(line), number, line) for line in shard.lines] for number, shard in enumerate(shards)]
    lines = list(heapq.merge(*numbered))
    total = sum(shard.count for shard in shards)
    check_places(lines, total, places)
    sentences = {line: told for shard in shards for line, told in shard.sentences.items()}
    return Survey(shards[0].base, [line for _, _, line in lines], total, sentences)


def check_sizes(shards, places):
    """Of a list of so many packages each shard has the same number, and of those that are left over the first shards one each."""
    each, left = divmod(sum(shard.count for shard in shards), len(shards))
    for number, shard in enumerate(shards):
        wanted = each + (number < left)
        if shard.count != wanted:
            raise Failure(f"{places[number]}: asked about {shard.count} packages, and shard {number + 1}/{len(shards)} of all these "
                          f"has {wanted}: they aren't all shards of one list, in order")


def check_places(lines, total, places):
    """Some list of so many packages has to have the lines in their order, each at a place of its shard. Where there is one, each line
    can stand at the first such place behind the line before it."""
    place, before = -1, None
    for key, number, line in lines:
        place += 1 + (number - place - 1) % len(places)
        if place >= total or key == before:
            raise Failure(f"{places[number]}: {written(line)} can't be of shard {number + 1}/{len(places)} of {total} packages: they "
                          "aren't all shards of one list, in order")
        before = key


# The inputs of shards


def inputs_text(lines, shard, text):
    """The text of the file beside the output of a shard, from the lines on what it was asked with: values are separated by tabs."""
    return "".join(f"{line}\n" for line in (f"shard\t{shard}", *lines, f"output\t{sum_of(text)}"))


def sum_of(text):
    return hashlib.sha256(text.encode("utf-8", "surrogateescape")).hexdigest()


def text_in(path):
    with open(path, encoding="utf-8", errors="surrogateescape", newline="") as file:
        return file.read()


def inputs_in(path):
    """The lines of the file beside an output, each as its values; None where there is no such file."""
    if not os.path.exists(path + INPUTS):
        return None
    found = [line.split("\t") for line in text_in(path + INPUTS).removesuffix("\n").split("\n")]
    for number, values in enumerate(found, 1):
        if len(values) < 2 or values[0] not in WORDS and len(values) != 3:
            raise Failure(f"{path}{INPUTS}: line {number} doesn't say what a shard was asked with")
    return found


def check_inputs(places):
    """Ends where the files beside the outputs of all shards, in their order, say that these aren't over the same inputs. Returns the
    outputs beside which there is none."""
    found = {place: inputs_in(place) for place in places}
    known = {place: lines for place, lines in found.items() if lines is not None}
    for number, place in enumerate(places, 1):
        if place in known:
            check_own(place, known[place], f"{number}/{len(places)}")
    for place, lines in known.items():
        first = next(iter(known))
        check_same(place, asked_with(lines), first, asked_with(known[first]))
    return [place for place in places if place not in known]


def check_own(place, lines, shard):
    """Ends where what stands beside an output is about another one, or where that isn't this shard."""
    wanted = ["output", sum_of(text_in(place))]
    if lines[-1:] != [wanted]:
        raise Failure(f"{place}{INPUTS}: isn't about {place}, whose SHA256 is {wanted[1]}")
    if lines[:1] != [["shard", shard]]:
        raise Failure(f"{place}: is shard {lines[0][-1]}, by {place}{INPUTS}, and stands in the place of {shard}")


def asked_with(lines):
    """What a shard was asked with, each with the path of the file, or nothing."""
    return {tuple(line if line[0] in WORDS else line[:2]): line[2:] for line in lines[1:-1]}


def check_same(place, has, first, had):
    """Ends where a shard was asked with something else than the first one."""
    more, less = [it for it in has if it not in had], [it for it in had if it not in has]
    files = [(new, old) for new in more for old in less if new[0] == old[0] not in WORDS]
    if files:
        (kind, new), (_, old) = files[0]
        raise Failure(f"{place}: its {kind}, {has[kind, new][0]}, is another one than that of {first}, {had[kind, old][0]}: its SHA256 "
                      f"is {new} and not {old}")
    for where, those, other in ((place, more, first), (first, less, place)):
        if those:
            raise Failure(f"{where}: was asked with {' '.join(those[0])}, and {other} wasn't")


# Two surveys


def compared(old, new, had=None, has=None):
    """What two surveys say differently: of each kind of difference its lines, and how many packages are broken, or undecided, in both.
    `had` and `has` are the packages of the old and the new indices by name and version key, where they are known: a package that
    wasn't there before came, and one that isn't there any more is gone."""
    before, after = ({key_of(line): line for line in it.told()} for it in (old, new))
    found = {kind: [] for kind in ("newly broken", "came broken", "newly undecided", "mended", "gone")}
    still = collections.Counter(broken=0)
    for key in sorted({*before, *after}):
        was, now = (lines[key].state if key in lines else None for lines in (before, after))
        if was == now:
            still[now] += 1
        elif now == "broken":
            came = had is not None and key not in had and key != ("",)
            found["came broken" if came else "newly broken"].append(after[key])
        elif now:
            found["newly undecided"].append(after[key])
        elif was == "broken":
            gone = has is not None and key not in has and key != ("",)
            found["gone" if gone else "mended"].append(before[key])
    return found, still
