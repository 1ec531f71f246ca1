"""Runs of `debplan installable`, each of one shard, whose outputs are merged to that of the whole: processes here, or what stands for
them elsewhere (debplan.archive.cluster); and what they read, by what is in it."""
import hashlib
import os
import pathlib
import re
import subprocess
import sys
import tempfile
import time
from collections import namedtuple

from debplan import disk, tool
from debplan.archive import surveys
from debplan.machine.inputs import program_path
from debplan.tool import Failure

# The exit statuses with which the program refuses an input or the command line, or can't read or write; above them it isn't the
# program that ended.
REFUSED, LAST = 3, 5
SECONDS = 0.05
# How many words of a run are the program, the command and the shard: behind them stand options.
HEAD = 4
# How a run of the program ended: its status, and the texts of its two outputs.
Ended = namedtuple("Ended", "status printed said")
# The options that name a file, and the line of a sources file that does (docs/FORMATS.md, section 4). Where it is continued it names
# no file.
NAMING = ("--status", "--sources", "--preferences")
FILE = re.compile(rb"^(file:[ \t]*)([^ \t\n][^\n]*?)([ \t]*)$(?!\n[ \t]+[^ \t\n])", re.IGNORECASE | re.MULTILINE)
# What stands for the sum of a file that can't be read. It names no file, so the program says of it what it says of any such file.
UNREADABLE = "unreadable"
# A file that is read: what it is (an option, or `index N`), the SHA256 of what is in it, its path, and its bytes where these aren't
# those of the file.
Input = namedtuple("Input", "kind sum path data", defaults=[None])


class Refused(Failure):
    """That the program refuses what it is asked, in its own words."""


class Inputs:
    """The files that a run reads. In the text of the sources file each index has its sum for its path, so texts that differ in paths
    alone have the same sum."""

    def __init__(self, asking):
        self.asking, self.files = asking, []
        for name, value in asking.options:
            if name in NAMING:
                self.files.append(self.sources(value) if name == "--sources" else self.file(name, value))

    def file(self, kind, path):
        try:
            return Input(kind, disk.sha256_of(path), path)
        except (OSError, ValueError):
            return Input(kind, UNREADABLE, path)

    def sources(self, path):
        """The sources file, behind whose indices it stands."""
        try:
            text = pathlib.Path(path).read_bytes()
        except OSError:
            return Input("--sources", UNREADABLE, path)
        count = len(self.files)
        data = FILE.sub(lambda found: found.group(1) + self.index(os.fsdecode(found.group(2)), count) + found.group(3), text)
        return Input("--sources", hashlib.sha256(data).hexdigest(), path, data)

    def index(self, path, count):
        """The sum of the next index, which is kept. So many files were kept before the first index."""
        self.files.append(self.file(f"index {len(self.files) - count + 1}", path))
        return self.files[-1].sum.encode()

    def check_same(self):
        """Ends where a file isn't any more what it was."""
        for old, new in zip(self.files, Inputs(self.asking).files):
            if old.sum != new.sum:
                raise Failure(f"{old.path}: has changed meanwhile", LAST)

    def lines(self):
        """What counts for the answer, as lines of a file beside it: the options and NAMEs, and each file with its sum and its path."""
        options = [(name, value) for name, value in self.asking.options if name not in (*NAMING, "--refutations")]
        words = sorted("\t".join(("option", name, *([] if value is None else [value]))) for name, value in options)
        names = [f"name\t{name}" for name in sorted(set(self.asking.names))]
        return [*words, *names, *(f"{it.kind}\t{it.sum}\t{it.path}" for it in self.files)]

    def words(self):
        """The words that ask about the files by their sums."""
        found, sums = self.asking.without_refutations(), iter([it.sum for it in self.files if it.kind in NAMING])
        found.options = [(name, next(sums) if name in NAMING else value) for name, value in found.options]
        return found.words()


def processors():
    """How many processors this process may use."""
    return len(os.sched_getaffinity(0))


def words_of(words, folder):
    """The words of the program, with those that have the refutations written into a folder, where there is one."""
    return [*words[:HEAD], *(["--refutations", folder] if folder else []), *words[HEAD:]]


class Process:
    """A run on this machine."""

    def __init__(self, words, folder):
        self.printed, self.said = tempfile.TemporaryFile(), tempfile.TemporaryFile()
        self.process = subprocess.Popen(words_of(words, folder), stdin=subprocess.DEVNULL, stdout=self.printed, stderr=self.said)

    def has_ended(self):
        return self.process.poll() is not None

    def ended(self):
        return Ended(self.process.returncode, text_in(self.printed), text_in(self.said))

    def stop(self):
        """Ends the process, where it still runs, and gives back its files."""
        self.process.kill()
        self.process.wait()
        self.printed.close()
        self.said.close()


class Here:
    """This machine, as the place where shards are run."""

    def begin(self, words, folder):
        return Process(words, folder)

    def news(self):
        """What has happened to the place."""
        return []


class Shard:
    """A shard of so many, and its run at a place."""

    def __init__(self, number, count, words, folder, place):
        self.name, self.folder, self.place = f"shard {number}/{count}", folder, place
        self.words = [program_path(), "installable", "--shard", f"{number}/{count}", *words]
        self.run = self.survey = None
        self.runs = 0

    def start(self):
        self.stop()
        self.runs += 1
        self.run = self.place.begin(self.words, self.folder)

    def stop(self):
        if self.run:
            self.run.stop()
        self.run = None

    def take(self):
        """Takes the output of the run that has ended. Where it isn't whole the shard is run again, once, and why is returned."""
        status, printed, said = self.run.ended()
        if REFUSED <= status <= LAST:
            raise Refused(said, status)
        try:
            self.survey = survey_by(status, printed, self.name)
            self.survey.sentences = surveys.sentences_in(said, self.survey)
        except Failure as failure:
            if self.runs > 1:
                raise Failure("\n".join([f"{failure}, for the second time", *said.splitlines()]), LAST) from None
            self.start()
            return f"{failure}, and it is run again"
        return None


def text_of(data):
    return data.decode("utf-8", "surrogateescape")


def text_in(file):
    """What a process has written to a file."""
    file.seek(0)
    return text_of(file.read())


def survey_by(status, text, place):
    """The survey that a run has printed, which ended with this status."""
    if status < 0:
        raise Failure(f"{place}: was killed by signal {-status}")
    if status > LAST:
        raise Failure(f"{place}: ended with the status {status}")
    found = surveys.survey_of(text, place)
    if found.status() != status:
        raise Failure(f"{place}: ended with the status {status}, which isn't that of its output")
    return found


class Progress:
    """A line on standard error that says how many shards are done, where that is a terminal."""

    def __init__(self, count):
        self.count, self.began, self.shown = count, time.monotonic(), None

    def show(self, done):
        line = f"{done} of {self.count} shards, {time.monotonic() - self.began:.0f} s"
        if line != self.shown and sys.stderr.isatty():
            print(f"\r{line}", end="", file=sys.stderr, flush=True)
            self.shown = line

    def tell(self, line):
        """Says something on a line of its own."""
        self.end()
        print(f"{tool.tool_name()}: {line}", file=sys.stderr)

    def end(self):
        if self.shown:
            print(file=sys.stderr)
        self.shown = None


def asked(words, count, folder=None, place=None):
    """The survey of the whole that `installable` prints with these words, from so many shards, with the refutations in a folder, where
    one is named. They are run on this machine, or at another place. What one of them refuses is refused, and the others are ended. It has
    the sentences where the words ask for them by `--explain`."""
    place = place or Here()
    shards = [Shard(number, count, words, folder, place) for number in range(1, count + 1)]
    run_all(shards, place)
    try:
        return surveys.merged([shard.survey for shard in shards], [shard.name for shard in shards])
    except Failure as failure:
        raise Failure(f"{failure}; has a file changed meanwhile?", LAST) from None


def asked_one(words, number, count, folder=None):
    """The survey of one shard of so many, which is run on this machine."""
    shard = Shard(number, count, words, folder, Here())
    run_all([shard], shard.place)
    return shard.survey


def run_all(shards, place):
    """Has these shards run at a place, all at once. Where one is refused, or fails twice, the others are ended."""
    progress = Progress(len(shards))
    try:
        for shard in shards:
            shard.start()
        wait_for(shards, place, progress)
    finally:
        progress.end()
        for shard in shards:
            shard.stop()


def wait_for(shards, place, progress):
    """Waits until each shard has its survey."""
    while True:
        for shard in shards:
            if shard.survey is None and shard.run.has_ended():
                told = shard.take()
                if told:
                    progress.tell(told)
        for told in place.news():
            progress.tell(told)
        waiting = [shard for shard in shards if shard.survey is None]
        progress.show(len(shards) - len(waiting))
        if not waiting:
            return
        time.sleep(SECONDS)
