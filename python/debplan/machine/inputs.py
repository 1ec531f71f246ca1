"""A folder of inputs, and how debplan is asked about it: what collect-inputs writes, the files `status`, `sources`, the indices that it names,
`preferences` and perhaps `pins-left-out`, and beside them a `request` and a `plan`."""
import contextlib
import functools
import json
import os
import pathlib
import re
import shutil
import subprocess
import sys

import debplan
from debplan.control import NAME, fields_of, indices_in, provided_by, stanzas_in, stanzas_named, texts_in
from debplan.machine.collect import AS_BEFORE, LEFT_OUT, UNMATCHED_PINS
from debplan.machine.system import native_architecture
from debplan.process import of_repository
from debplan.tool import Failure, last_words, tool_name

# The exit status of an answer without pins of the machine, where that wasn't accepted.
WITHOUT_PINS = 6
# The codes of refusals that are about memory or a device, and no text.
OF_DEVICES = ("E1", "E5")
# A sentence of the program on an input that changes no answer: a record of the preferences, or an index.
UNMATCHED = re.compile(r"^(?:Record \d+ of the preferences matches nothing|Index \d+ adds no version): .*\n", re.MULTILINE)


def program_path():
    """The program: named in DEBPLAN, that of this repository, or the one on PATH."""
    found = os.environ.get("DEBPLAN") or of_repository() or shutil.which("debplan")
    if not found or not shutil.which(found):
        raise Failure(f"debplan is missing{f', {found} is no program' if found else ''}: name the program in DEBPLAN", 69)
    return found


@functools.lru_cache(maxsize=None)
def explains(command):
    """Whether a command of the program takes --explain, by its help. This is the first call of the program, so what it says of
    itself on standard error is shown: in a repository it may have to be built before."""
    run = subprocess.run([program_path(), command, "--help"], stdin=subprocess.DEVNULL, stdout=subprocess.PIPE, encoding="utf-8",
                         errors="replace", check=False)
    if run.returncode:
        raise Failure(f"{program_path()} can't be run", 69)
    return "--explain" in run.stdout


@contextlib.contextmanager
def ending(place=""):
    """Ends the tool where the module of Python raises an error, with what it is about, and the exit status that the program would have
    (docs/FORMATS.md, sections 13 and 14)."""
    try:
        yield
    except debplan.Refused as refused:
        raise Failure("\n".join([f"{place}debplan: {refused}", *refused.reasons]), 5 if refused.code in OF_DEVICES else 3) from None
    except debplan.Failed as failed:
        raise Failure(f"{place}{failed}", failed.status if failed.status in (3, 4, 5) else 5) from None


def document_of(run):
    """The document that a call of the program with --format json printed, without the sentences on an input that changes no answer;
    None where it printed nothing."""
    if not run.stdout:
        return None
    try:
        document = json.loads(run.stdout)
    except ValueError:
        raise Failure(f"{program_path()} ended with the status {run.returncode} in the middle of its answer") from None
    document["reasons"] = without_unmatched(document["reasons"] or [])
    return document


def without_unmatched(sentences):
    """Sentences on an answer, without those on an input that changes no answer."""
    return [it for it in sentences if not UNMATCHED.fullmatch(f"{it}\n")]


class Inputs:
    """A folder of inputs."""

    def __init__(self, folder, arch=None, target=None, needed=("status", "sources")):
        self.folder, self.target, self.other_pins = pathlib.Path(folder), target, []
        missing = [name for name in needed if not (self.folder / name).is_file()]
        if missing:
            written = f": collect-inputs {folder} writes it" if missing[0] in ("status", "sources") else ""
            raise Failure(f"{folder} has no file {missing[0]}{written}", 64)
        self.arch = arch or native_architecture()

    def path(self, name):
        return self.folder / name

    def request(self):
        """The text of the request."""
        return self.path("request").read_text(encoding="utf-8", errors="surrogateescape")

    def sources(self):
        """The stanzas of the sources file."""
        return indices_in(self.folder / "sources")

    def indices(self):
        """The paths of the indices. One that isn't whole is taken from the folder, as the program is run there."""
        return [self.folder / stanza["File"] for stanza in self.sources()]

    def of_index(self):
        """Yields the stanzas of the indices that count for the architecture, in their order."""
        for path in self.indices():
            for fields in stanzas_in(path):
                if fields.get("Architecture") in ("all", self.arch) and "Package" in fields and "Version" in fields:
                    yield fields

    def of_index_named(self, name):
        """Yields those of one name."""
        for path in self.indices():
            yield from (fields for fields in stanzas_named(path, {name}) if fields.get("Architecture") in ("all", self.arch))

    def located(self, wanted):
        """Of each of these pairs of a name and a version the first stanza in the indices, and the stanza of the sources file that
        names this index."""
        found, names = {}, {name for name, _ in wanted}
        for keys in self.sources() if names else ():
            for fields in stanzas_named(self.folder / keys["File"], names):
                pair = fields["Package"], fields.get("Version")
                if pair in wanted and fields.get("Architecture") in ("all", self.arch):
                    found.setdefault(pair, (fields, keys))
        return found

    def providing(self, name):
        """The stanzas of the indices that provide a name, as their Provides says."""
        text = name.encode("utf-8", "surrogateescape")
        for path in self.indices():
            for stanza in texts_in(path):
                fields = fields_of(stanza, path) if text in stanza else {}
                if fields.get("Architecture") in ("all", self.arch) and any(atom.name == name for atom in provided_by(fields)):
                    yield fields

    def stanzas_for(self, wanted):
        """Of each of these pairs of a name and a version the first stanza in the indices."""
        return {pair: fields for pair, (fields, _) in self.located(wanted).items()}

    def asks(self, command, *words, status="status", request="request", text=None):
        """Runs the program on the folder, in it, and returns how it ended. With a text, which is a request, it is asked about that one
        and no file. Where it can explain an answer it does, on standard error. What it says there of records that match nothing and of
        indices that add nothing is left out: the numbers are of files that were written, and of pins collect-inputs says it."""
        options = ["--explain"] if explains(command) else []
        options += ["--arch", self.arch, "--status", str(status), "--sources", "sources"]
        options += ["--preferences", "preferences"] if self.path("preferences").is_file() else []
        options += ["--target", self.target] if self.target else []
        options += ["--request", request if text is None else "-"] if request else []
        run = subprocess.run([program_path(), command, *options, *words], cwd=self.folder, input=text or "", stdout=subprocess.PIPE,
                             stderr=subprocess.PIPE, encoding="utf-8", errors="surrogateescape", check=False)
        run.stderr = UNMATCHED.sub("", run.stderr)
        return run

    @contextlib.contextmanager
    def resolver(self):
        """By which many questions are asked about the folder over one reading. That it refuses one, or fails, ends the tool."""
        pins = "preferences" if self.path("preferences").is_file() else None
        how = {"arch": self.arch, "status": "status", "sources": "sources", "preferences": pins, "target": self.target}
        with ending(), debplan.Resolver(folder=self.folder, program=program_path(), **how) as resolver:
            yield resolver

    def candidates_of(self, names):
        """The candidate of each of these names that has one."""
        names = list(filter(NAME.fullmatch, dict.fromkeys(names)))
        run = self.asks("candidate", *names, request=None) if names else None
        if run and run.returncode not in (0, 1):
            raise Failure(f"the candidates weren't told: {last_words(run)}", run.returncode)
        words = [line.split(" ") for line in run.stdout.splitlines()] if run else []
        return {it[0]: it[1] for it in words if len(it) == 3}

    def pins_on(self, name):
        """The records of the preferences that name a package, each as the place of the pin that it was made of, and what it says; where
        none does, those for all packages."""
        path, found = self.path("preferences"), {name: [], "*": []}
        for fields in stanzas_in(path) if path.is_file() else ():
            place = fields.get("Explanation") or str(path)
            for named in {name, "*"} & set(fields.get("Package", "").split()):
                found[named].append(f"{place}: {' '.join(fields.get('Pin', '').split())}, {fields.get('Pin-Priority')}")
        return list(dict.fromkeys(found[name] or found["*"]))

    def pins_against(self, run, plan="plan"):
        """Of a plan that check-plan found to unpack what isn't admitted the lines that name the pins of that package."""
        found = re.match(r"no step (\d+) F10 ", run.stdout)
        if not found:
            return []
        name = self.steps(plan)[int(found.group(1)) - 1][1]
        return [f"a pin is about {name}: {pin}" for pin in self.pins_on(name)]

    def verdict(self, run, plan="plan"):
        """What check-plan says of a plan: yes, or a no with what stands against it."""
        said = [] if run.returncode == 0 else [*run.stderr.splitlines(), *self.pins_against(run, plan)]
        return "\n".join([f"debplan check-plan: {run.stdout.strip()}", *said])

    def pins_left_out(self):
        """The pins of the machine that aren't among the preferences of the folder, each with the reason."""
        path = self.path(LEFT_OUT)
        return [*self.other_pins, *(path.read_text(encoding="utf-8", errors="replace").splitlines() if path.is_file() else [])]

    def lacks_pins(self, is_accepted):
        """Whether pins of the machine are left out and that isn't accepted. Where some are, that is said in a line."""
        left_out = self.pins_left_out()
        if left_out:
            how = "" if is_accepted else " (--pins-left-out accepts that)"
            more = f", and {len(left_out) - 1} more, in {self.path(LEFT_OUT)}" if len(left_out) > 1 else ""
            print(f"{tool_name()}: a pin of the machine is left out{how}: {left_out[0]}{more}", file=sys.stderr)
        return bool(left_out) and not is_accepted

    def tell_unmatched_pins(self):
        """Says in a line which pins match nothing in the lists, but for those of which that was so before."""
        path = self.path(UNMATCHED_PINS)
        lines = path.read_text(encoding="utf-8", errors="replace").splitlines() if path.is_file() else []
        found = [line for line in lines if not line.endswith(AS_BEFORE)]
        if found:
            more = f", and {len(found) - 1} more, in {path}" if len(found) > 1 else ""
            print(f"{tool_name()}: a pin matches nothing in the lists: {found[0]}{more}", file=sys.stderr)

    def steps(self, name="plan"):
        """The steps of a plan of the folder, each as its words."""
        lines = self.path(name).read_text(encoding="utf-8", errors="surrogateescape").splitlines()
        if not lines or lines[0] not in ("plan 1", "plan 2"):
            raise Failure(f"{self.path(name)} is no plan")
        return [line.split(" ") for line in lines[1:] if not line.startswith("end ")]
