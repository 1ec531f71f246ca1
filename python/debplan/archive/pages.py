"""Pages on the packages of an archive that can't be installed, of the reports of some runs (debplan.archive.reports): by Jinja2, from the
templates beside this file, with a plot by matplotlib. They need no script to be read, and are whole in their folder."""
import collections
import datetime
import itertools
import os
import pathlib
import re
import shutil
import sys
import tempfile
import urllib.parse

from debplan import control, disk
from debplan.archive import exchange, failing, reports, surveys
from debplan.tool import Failure

TEMPLATES = pathlib.Path(__file__).resolve().parent / "templates"
DATE = re.compile(r"([0-9]{4}-[0-9]{2}-[0-9]{2})T[0-9]{2}:[0-9]{2}:[0-9]{2}Z\n")
# What pages consist of, in their folder.
INDEX, PLOT, PACKAGES = "index.html", "counts.svg", "packages"
# What the files of a package are.
WHAT = {"request": "what is asked for, in the words of debplan", "refutation": "the proof that there is no choice of packages for it",
        "sentences": "the proof in sentences", "relations": "the relations at which it fails", reports.STANZA: "the package, as its index has it",
        "indices": "the indices that the proof is about"}
File = collections.namedtuple("File", "name what")
Group = collections.namedtuple("Group", "name packages")
PageIndex = collections.namedtuple("PageIndex", "name sum")


def modules():
    """The modules that aren't Python's own."""
    for name, package in (("jinja2", "python3-jinja2"), ("matplotlib", "python3-matplotlib")):
        try:
            __import__(name)
        except ImportError:
            raise Failure(f"pages needs {name}, which {sys.executable} doesn't have: install Debian's {package}", 69) from None
    return sys.modules["jinja2"], sys.modules["matplotlib"]


def read(path):
    """A text that is shown: what isn't UTF-8 has the sign for that."""
    return path.read_text(encoding="utf-8", errors="replace") if path.is_file() else ""


# What is told


class Run:
    """The report of a run, with its date and what was said."""

    def __init__(self, folder):
        self.folder = pathlib.Path(folder)
        for name in (reports.SURVEY, reports.WHEN, reports.INDICES):
            if not (self.folder / name).is_file():
                raise Failure(f"{folder}: has no file {name}, so it's no whole report of a run")
        self.survey, self.when = surveys.survey_in(self.folder / reports.SURVEY), read(self.folder / reports.WHEN)
        if not DATE.fullmatch(self.when):
            raise Failure(f"{self.folder / reports.WHEN}: is no date as of 2026-01-31T06:00:00Z")
        self.day, self.count, self.number = DATE.fullmatch(self.when).group(1), self.survey.count, self.survey.number
        self.broken = [line for line in self.survey.told() if line.state == "broken"]
        self.names = {line.name for line in self.broken}
        self.indices = [PageIndex(reports.written(it), it.sum) for it in reports.indices_in(self.folder / reports.INDICES)]


class Package:
    """A broken package of a run."""

    def __init__(self, line, folder, since):
        self.name, self.version, self.since = line.name, line.version, since
        self.heading = f"{line.name} {line.version}" if line.version else "The essential packages together"
        self.file_name, self.folder = surveys.file_name(line), folder
        self.page = f"{PACKAGES}/{urllib.parse.quote(self.file_name)}/{INDEX}"
        self.sentences = read(folder / "sentences").splitlines()
        self.failing = [failing.Relation(*it.split("\t")) for it in read(folder / "relations").splitlines() if it.count("\t") == 2]
        self.relations = [failing.written(it, surveys.written(line)) for it in self.failing]
        fields = control.fields_of(read(folder / reports.STANZA).encode(), folder / reports.STANZA)
        self.maintainer, self.source = fields.get("Maintainer"), " ".join(exchange.source_version_of(fields)) if fields else None
        self.files = [File(name, what) for name, what in WHAT.items() if (folder / name).is_file()]

    def group(self):
        """At which names it fails."""
        return "; ".join(dict.fromkeys(map(failing.names_in, self.failing))) or "other reasons"


def since(name, runs):
    """The day of the first of the runs from which on a package of this name was broken in each."""
    broken = list(itertools.takewhile(lambda run: name in run.names, reversed(runs)))
    return f"{broken[-1].day}{', or longer' if len(broken) == len(runs) else ''}"


def packages_of(runs):
    """The broken packages of the last run."""
    last = runs[-1]
    return [Package(line, last.folder / surveys.file_name(line), since(line.name, runs)) for line in last.broken]


def groups_of(packages):
    """The packages by the names at which they fail, those of most packages first."""
    found = collections.defaultdict(list)
    for package in packages:
        found[package.group()].append(package)
    return [Group(*it) for it in sorted(found.items(), key=lambda it: (-len(it[1]), it[0]))]


# What is written


def write(output, folders, title):
    """Writes the pages into a folder, which is replaced whole where it has pages already."""
    jinja2, matplotlib = modules()
    runs = sorted(map(Run, folders), key=lambda run: run.when)
    check_output(output)
    output.parent.mkdir(parents=True, exist_ok=True)
    with tempfile.TemporaryDirectory(prefix=f".{output.name}-", dir=output.parent) as room:
        new = pathlib.Path(room, "new")
        new.mkdir()
        new.chmod(0o755)
        write_pages(new, jinja2, runs, title)
        plot(matplotlib, new / PLOT, runs)
        if output.exists():
            output.rename(pathlib.Path(room, "old"))
        new.rename(output)


def check_output(output):
    """Refuses a folder that has other files than pages."""
    others = sorted(set(os.listdir(output)) - {INDEX, PLOT, PACKAGES}) if output.exists() else []
    if others:
        raise Failure(f"{output}: has {others[0]}, which is none of the pages")


def write_pages(folder, jinja2, runs, title):
    templates = jinja2.Environment(loader=jinja2.FileSystemLoader(TEMPLATES), autoescape=True, undefined=jinja2.StrictUndefined,
                                   trim_blocks=True, lstrip_blocks=True, keep_trailing_newline=True)
    last, found = runs[-1], packages_of(runs)
    packages, base = [it for it in found if it.version], [it for it in found if not it.version]
    undecided = [line for line in last.survey.lines if line.state == "undecided"]
    known = {"title": title, "runs": runs, "last": last, "undecided": undecided, "base": base[0] if base else None,
             "base_is_undecided": last.survey.base == "undecided", "groups": groups_of(packages)}
    disk.write_text(folder / INDEX, templates.get_template("archive.html").render(known))
    for package in found:
        place = folder / PACKAGES / package.file_name
        place.mkdir(parents=True)
        for file in package.files:
            shutil.copyfile(package.folder / file.name, place / file.name)
        disk.write_text(place / INDEX, templates.get_template("package.html").render({**known, "package": package}))


def plot(matplotlib, path, runs):
    """Draws how many packages were broken and undecided in each run, as SVG."""
    matplotlib.use("svg")
    import matplotlib.pyplot
    matplotlib.rcParams.update({"svg.hashsalt": "pages", "svg.fonttype": "none", "font.size": 11})
    figure, axes = matplotlib.pyplot.subplots(figsize=(6.4, 2.6), layout="constrained")
    dates = [datetime.datetime.strptime(run.when, "%Y-%m-%dT%H:%M:%SZ\n") for run in runs]
    for state in ("broken", "undecided"):
        numbers = [run.number(state) for run in runs]
        if state == "broken" or any(numbers):
            axes.plot(dates, numbers, marker="o", markersize=4, label=state)
    ticks = spread(dates)
    axes.set_xticks(ticks, [f"{tick:%Y-%m-%d}" for tick in ticks])
    axes.yaxis.set_major_locator(matplotlib.ticker.MaxNLocator(integer=True, nbins=5))
    axes.set_ylim(bottom=0)
    axes.spines[["top", "right"]].set_visible(False)
    axes.legend(loc="lower left", bbox_to_anchor=(0, 1), ncol=2, frameon=False)
    figure.savefig(path, metadata={"Date": None})
    matplotlib.pyplot.close(figure)


def spread(dates):
    """Those of the dates whose names have room beside one another."""
    found = dates[:1]
    for date in dates:
        if date - found[-1] >= max((dates[-1] - dates[0]) / 5, datetime.timedelta(seconds=1)):
            found.append(date)
    return found
