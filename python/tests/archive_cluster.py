"""The part of the self-test of tools/archive-check that needs Dask: a scheduler on this machine, with four workers, of which two die.
It goes on in the folder of the other part, and wants the same outputs."""
import base64
import contextlib
import importlib.util
import json
import subprocess
import sys
import time

from debplan.archive import cluster
from debplan.tool import Failure
from tests.trials import ASKING, WHOLE, fails

COMMANDS = {
    "scheduler": ("distributed.cli.dask_scheduler", "--host", "127.0.0.1", "--port", "0", "--no-dashboard"),
    "worker": ("distributed.cli.dask_worker", "--nthreads", "1", "--no-nanny", "--no-dashboard", "--local-directory", "spaces"),
}
WORKERS, SECONDS = 4, 60
# How many workers die, and the folders that two runs write in which one dies, with some of their files.
DEAD, WRITTEN, FILES = 2, ("killed", "handed"), ("other_1.request", "other_1.refutation")
RUN = f"run {ASKING} --scheduler ADDRESS"
HANDED = f"{RUN} --hand-over"
# Programs of sh: of eight shards the output of the second is cut short once; the worker that takes it is killed, once; the interpreter is
# missing; all but what judges refutations here runs in the folder of a worker alone, or leaves nothing there, once, or kills its worker there, once.
WRONG = {
    "cut-once-of-eight": '#!/bin/sh\nif [ "$3" = 2/8 ] && mkdir once; then echo broken b 1; exit 1; fi; exec ./debplan "$@"\n',
    "worker-killed": '#!/bin/sh\nif [ "$3" = 2/8 ] && mkdir once; then kill -9 $PPID; fi; exec ./debplan "$@"\n',
    "unfit": "#!/nowhere\n",
    "far": '#!/bin/sh\ncase $1,$PWD in batch,*|*/debplan) ;; *) exit 9;; esac\nexec ROOM/debplan "$@"\n',
    "forgetting": '#!/bin/sh\nROOM/debplan "$@"\nstatus=$?\nif mkdir ROOM/once; then rm ./*; fi\nexit $status\n',
    "far-killed": '#!/bin/sh\nif [ "$3" = 2/8 ] && mkdir ROOM/once; then kill -9 $PPID; fi\nexec ROOM/debplan "$@"\n',
}
# As those of archive_tests, with ADDRESS for the address of the scheduler.
CALLS = [
    (RUN, 1, WHOLE, ""),
    (f"{RUN} --shards 5 -- tool app", 0, "checked 2, broken 0\n", ""),
    (f"{RUN} --shards 3 --report cluster-report", 1, WHOLE, ""),
    (f"verify cluster-report -- {ASKING}", 0, "cluster-report/other_1: yes\ncluster-report/tool-data_1:1: yes\n", ""),
    (f"PROGRAM=cut-once-of-eight {RUN} --shards 8", 1, WHOLE, "shard 2/8: is cut short: .., and it is run again\n"),
    (f"PROGRAM=unfit {RUN} --shards 3", 5, "", "the worker ..: ..unfit: No such file or directory\n"),
    ("PROGRAM=changing run --arch amd64 --sources changing-sources --scheduler ADDRESS --shards 3", 5, "",
     "the worker ..: changing-index is another file than here\n"),
    (f"{RUN} --shards 3 nobody", 3, "", "debplan: request: E17 UnknownName 1\narchive-check: so says the worker ..\n"),
    (f"{RUN} --shards 3 --refutations nowhere", 5, "", "nowhere/..: No such file or directory\n"),
    (f"PROGRAM=far {HANDED} --shards 3 --report handed-report", 1, WHOLE, ""),
    (f"verify handed-report -- {ASKING}", 0, "handed-report/other_1: yes\nhanded-report/tool-data_1:1: yes\n", ""),
    (f"PROGRAM=far {HANDED} --status kept/empty --shards 3 -- tool app", 0, "checked 2, broken 0\n", ""),
    (f"PROGRAM=far {RUN} --shards 3", 5, "", "..: ended with the status 9, for the second time\n"),
    (f"PROGRAM=forgetting {HANDED} --shards 16", 1, WHOLE, ""),
    (f"PROGRAM=unfit {HANDED} --shards 3", 5, "", "the worker ..: ..: No such file or directory\n"),
    (f"PROGRAM=far {HANDED} --shards 3 nobody", 3, "", "debplan: request: E17 UnknownName 1\narchive-check: so says the worker ..\n"),
    (f"{RUN} --tls-ca index --tls-cert index --tls-key index", 69, "", "the scheduler tcp://.. can't be reached: ..\n"),
    (f"run {ASKING} --scheduler tls://127.0.0.1:1", 69, "", "..: neither options nor Dask's configuration name certificates\n"),
    (f"run {ASKING} --scheduler 127.0.0.1", 69, "", "the scheduler 127.0.0.1 can't be reached: ..port..\n"),
    (f"run {ASKING} --scheduler tcp://127.0.0.1:1", 69, "", "the scheduler tcp://127.0.0.1:1 can't be reached: ..\n"),
    (f"PROGRAM=worker-killed {RUN} --shards 8 --refutations killed", 1, WHOLE, ".."),
    (f"PROGRAM=far-killed {HANDED} --shards 8 --refutations handed", 1, WHOLE, ".."),
    (f"PROGRAM=far {HANDED} --shards 8", 1, WHOLE, ""),
]


# The names of files that a worker hands back, and whether they are kept.
NAMES = {"a_1.request": True, "a_1:2~rc1+b.refutation": True, "base.request": True, "../a_1.request": False, "/a_1.request": False,
         "a/b.request": False, "..request": False, ".request": False, "a_1": False, "a_1.request.new": False, "a\0.request": False, "": False}


def is_there():
    return importlib.util.find_spec("distributed") is not None


def left_out():
    """What isn't tried."""
    return [] if is_there() else ["run --scheduler with workers, for python3-distributed is missing"]


def tried_in(room):
    """Yields of what a worker may hand back, of each call, and of what is to be left by the last one, why it isn't as it is wanted, or
    None."""
    (room / "returned/here").mkdir(parents=True)
    yield from (fails_to_keep(room / "returned/here", *it) for it in NAMES.items())
    yield from (None if is_refused(cluster.read, it, "of a test") else f"{it} is read as data" for it in ({}, None, b"\x80", b"{"))
    if not is_there():
        return
    for name in WRITTEN:
        (room / name).mkdir()
    for name, text in WRONG.items():
        (room / name).write_text(text.replace("ROOM", str(room)), encoding="utf-8")
        (room / name).chmod(0o755)
    with cluster_in(room) as (address, workers):
        for words, *wanted in CALLS:
            yield fails(room, (words.replace("ADDRESS", address), *wanted), options=())
        dead = sum(worker.poll() is not None for worker in workers)
        yield None if dead == DEAD else f"{dead} workers are dead, and not {DEAD}"
        left = len(list(room.glob("spaces/*/worker-*/debplan")))
        yield None if left == WORKERS - DEAD else f"{left} folders of workers are there, and not {WORKERS - DEAD}"
    others = [f"{folder}/{name}" for folder in WRITTEN for name in FILES if not is_same(room, folder, name)]
    yield f"{others[0]} isn't that of kept" if others else None


def is_refused(function, *arguments):
    """Whether a function ends the tool."""
    try:
        function(*arguments)
    except Failure:
        return True
    return False


def fails_to_keep(folder, name, is_kept):
    """Why a file that a worker hands back isn't kept, or is kept though it has no name of its kind; None where it is as wanted."""
    task = cluster.Task.__new__(cluster.Task)
    task.folder, task.found = folder, {"worker": "of a test"}
    refused = is_refused(task.keep, {name: base64.b64encode(b"text").decode()})
    left = [str(it.relative_to(folder.parent)) for it in folder.parent.glob("**/*") if it.is_file()]
    for path in left:
        (folder.parent / path).unlink()
    right = (refused, left) == (not is_kept, [f"here/{name}"] if is_kept else [])
    return None if right else f"the file {name!r} of a worker: {'refused' if refused else 'kept'}, left are {left}"


def is_same(room, folder, name):
    """Whether a file that workers wrote is that of a process of this machine."""
    return (room / folder / name).read_bytes() == (room / "kept" / name).read_bytes()


@contextlib.contextmanager
def cluster_in(room):
    """The address of a scheduler, and the processes of its workers."""
    started = []
    try:
        started.append(begun(room, "scheduler"))
        address = address_in(room / "address")
        started += [begun(room, "worker") for _ in range(WORKERS)]
        yield address, started[1:]
    finally:
        for process in started:
            process.kill()
            process.wait()


def begun(room, name):
    words = [sys.executable, "-m", *COMMANDS[name], "--scheduler-file", "address"]
    return subprocess.Popen(words, cwd=room, stdin=subprocess.DEVNULL, stdout=subprocess.DEVNULL, stderr=subprocess.DEVNULL)


def address_in(path):
    """The address that the scheduler writes once it can be reached."""
    end = time.monotonic() + SECONDS
    while time.monotonic() < end:
        with contextlib.suppress(OSError, ValueError):
            return json.loads(path.read_text(encoding="utf-8"))["address"]
        time.sleep(0.1)
    raise TimeoutError(f"no scheduler of Dask in {SECONDS} seconds")
