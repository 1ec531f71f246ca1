"""What a run of `rt ci` costs: minutes of one processor for each crate, by kind, as the process table tells them.

Each second the processes below a process are looked at. Those of the prover name their crate behind `--crate-name`: with the
option `--test` they prove its tests, in a folder `rt-edit..` they try a must-fail edit, and else they prove the crate. What a
process takes in its last second isn't seen."""
import collections
import json
import os
import pathlib
import re
import threading

KINDS = ("proofs", "edits", "tests")
# Where the last whole gate of a checkout keeps its prices, where that of any checkout of this machine does, and those of the run
# that docs/ARCHITECTURE.md tells of.
KEPT, MEASURED = pathlib.Path("out/gate.json"), pathlib.Path("dev/minutes.json")
OF_MACHINE = pathlib.Path(os.environ.get("XDG_CACHE_HOME") or pathlib.Path.home() / ".cache", "debplan", "gate.json")
TICKS = os.sysconf("SC_CLK_TCK")
EDIT = re.compile(r"/rt-edits?-")
Process = collections.namedtuple("Process", "parent own reaped")


def processes():
    """Each process by its number: its parent, and the seconds that it and the children that it has waited for took."""
    table = {}
    for entry in os.scandir("/proc"):
        if entry.name.isdigit():
            try:
                text = pathlib.Path(entry.path, "stat").read_text(encoding="utf-8", errors="replace")
            except OSError:
                continue
            words = text.rpartition(")")[2].split()
            times = [int(word) / TICKS for word in words[11:15]]
            table[int(entry.name)] = Process(int(words[1]), sum(times[:2]), sum(times[2:]))
    return table


def work_of(number):
    """The crate and the kind of what a process of the prover does, or None for another process."""
    try:
        words = pathlib.Path(f"/proc/{number}/cmdline").read_bytes().split(b"\0")
        folder = os.readlink(f"/proc/{number}/cwd")
    except OSError:
        return None
    if b"--crate-name" not in words:
        return None
    crate = os.fsdecode(words[words.index(b"--crate-name") + 1])
    return crate, "edits" if EDIT.search(folder) else "tests" if b"--test" in words else "proofs"


class Prices:
    """The seconds of one processor that the processes below `root` take, by crate and kind, while the `with` block runs."""

    def __init__(self, root):
        self.root, self.seen, self.over = root, {}, threading.Event()
        self.watcher = threading.Thread(target=self.watch, daemon=True)

    def __enter__(self):
        self.watcher.start()
        return self

    def __exit__(self, *_):
        self.over.set()
        self.watcher.join()

    def watch(self):
        while not self.over.wait(1):
            self.look()

    def look(self):
        table = processes()
        children = collections.defaultdict(list)
        for number, process in table.items():
            children[process.parent].append(number)

        def seconds(number):
            return table[number].own + table[number].reaped + sum(map(seconds, children[number]))

        left = list(children[self.root])
        while left:
            number = left.pop()
            work = work_of(number)
            if work is None:
                left += children[number]
            else:
                self.seen[number, work] = max(self.seen.get((number, work), 0), seconds(number))

    def minutes(self):
        """For each crate its minutes, by kind."""
        table = collections.defaultdict(lambda: dict.fromkeys(KINDS, 0.0))
        for (_, (crate, kind)), seconds in self.seen.items():
            table[crate][kind] += seconds / 60
        return table


def crates_of(top):
    """For each crate of crates.txt, in its order, what it uses."""
    lines = [line.partition("#")[0] for line in (top / "crates.txt").read_text(encoding="utf-8").splitlines()]
    return {line.partition(":")[0].split()[0]: line.partition(":")[2].split() for line in lines if line.strip()}


def kept(top):
    """The minutes of each crate, by kind, of this checkout's last whole gate, or else of this machine's, or of the measured one;
    empty without any."""
    for path in (top / KEPT, OF_MACHINE, top / MEASURED):
        try:
            return json.loads(path.read_text(encoding="utf-8"))["crates"]
        except (OSError, ValueError, KeyError):
            continue
    return {}
