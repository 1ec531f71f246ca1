"""The workers of a Dask scheduler (https://distributed.dask.org), as the place where shards are run. A worker has Debian's
python3-distributed, but none of these tools. It has the program and the inputs at the same path as this machine, or is handed them: each
once, into a folder of its own, in which it is called by its SHA256. The files of refutations come back with the answer, so the folder
that they are written into is one of this machine."""
import base64
import concurrent.futures
import contextlib
import fcntl
import hashlib
import json
import logging
import os
import pathlib
import re
import shutil
import socket
import subprocess
import sys
import tempfile
import threading
import time

from debplan import disk, tool
from debplan.archive import shards
from debplan.process import of_repository
from debplan.tool import Failure

# How many shards there are for each thread of a worker: what a lost worker has begun is a small part of the whole.
SHARDS = 4
# The seconds for reaching the scheduler, or a worker of it, and those that a run waits while there is no worker.
REACHING, WAITING = 10, 60
# The seconds between two looks at the workers, and those in which an answer that is there has to come.
LOOKING, COMING = 1, 120
# The folder of a worker, in that of Dask's for it, and the file beside it that is locked while the worker lives.
ROOM, LOCK = "debplan", "debplan.lock"
# The seconds for which a worker keeps what it was handed and doesn't use.
KEEPING = 86400
# How what workers hand back may be written: as bytes and messages, and not as objects that are made by running what these say.
DATA = ("dask", "msgpack", "error")
# What the file of a refutation is called.
WRITTEN = re.compile(r"[A-Za-z0-9][^/\0]*\.(?:request|refutation)", re.DOTALL)


# What a worker does. These functions are sent to it, so they call one another and Python's own modules alone


def run_program(head, options, folder, has_refutations, inputs, handed):
    """Runs the program and returns, as JSON, its exit status, its two outputs, the files of refutations by name, the sums of the
    inputs, which worker this is, and its address. The program and the inputs stand in a folder at the paths of these words; or, where
    something is handed over, in the worker's own folder, each called by its sum, the program first. Of that `lacking` has what isn't
    there. Without an exit status the program couldn't be run, and the second output says why."""
    import distributed
    worker = distributed.get_worker()
    found = {"status": None, "printed": b"", "said": "", "files": {}, "sums": {}, "lacking": [], "worker": name_of_worker(),
             "address": worker.address}
    try:
        room = room_of(worker)
        found["lacking"] = lacking_in(room, handed)
        if not found["lacking"]:
            words = (head, options, room if handed else folder, str(room / handed[0]) if handed else None)
            found.update(ended_in(worker, room, words, has_refutations), sums=sums_of(inputs, folder))
    except OSError as error:
        found["said"] = said_of(error)
    return data_of(found)


def data_of(found):
    """What a worker hands back, as the bytes of a JSON text; bytes in it are in base 64."""
    return json.dumps(found, default=lambda data: base64.b64encode(data).decode("ascii")).encode("ascii")


def ended_in(worker, room, words, has_refutations):
    """How a run of the program ended, by names."""
    head, options, folder, program = words
    with tempfile.TemporaryDirectory(prefix="refutations-", dir=room) as files:
        more = ["--refutations", files] if has_refutations else []
        with mutex_of(worker):
            process = subprocess.Popen([*head, *more, *options], executable=program, cwd=folder, stdin=subprocess.DEVNULL,
                                       stdout=subprocess.PIPE, stderr=subprocess.PIPE)
        printed, said = process.communicate()
        written = {path.name: path.read_bytes() for path in pathlib.Path(files).iterdir()}
    return {"status": process.returncode, "printed": printed, "said": said.decode("utf-8", "surrogateescape"), "files": written}


def name_of_worker():
    return f"{socket.gethostname()}, process {os.getpid()}"


def said_of(error):
    """What an error of the system says, with the file that it is about."""
    return ": ".join(str(it) for it in (error.filename, error.strerror or error) if it)


def mutex_of(worker):
    """What a thread of a worker holds while it writes a file, or starts a program: one that is open for writing can't be run."""
    return vars(worker).setdefault("debplan_mutex", threading.Lock())


def room_of(worker):
    """The folder of a worker, in that of Dask's for it, which goes away with the worker. A file beside it is locked while the process
    lives: so the folders of workers that were killed are found, and removed."""
    here = pathlib.Path(worker.local_directory)
    with mutex_of(worker):
        if not hasattr(worker, "debplan_lock"):
            worker.debplan_lock = open(here / LOCK, "wb")
            fcntl.flock(worker.debplan_lock, fcntl.LOCK_EX)
        (here / ROOM).mkdir(mode=0o700, exist_ok=True)
        for path in here.parent.glob(f"*/{LOCK}"):
            if path.parent != here:
                remove_left(path)
    return here / ROOM


def remove_left(path):
    """Removes the folder of a worker, where nothing locks the file beside it any more."""
    with contextlib.suppress(OSError), open(path, "r+b") as lock:
        fcntl.flock(lock, fcntl.LOCK_EX | fcntl.LOCK_NB)
        shutil.rmtree(path.with_name(ROOM), ignore_errors=True)


def lacking_in(room, handed):
    """Of what is handed over what isn't in the folder of a worker. The rest is marked as used."""
    found = []
    for name in handed:
        try:
            os.utime(room / name)
        except FileNotFoundError:
            found.append(name)
    return found


def lacking(handed, dask_worker):
    """Which worker this is, and what it lacks; or why that can't be said."""
    try:
        return data_of([name_of_worker(), lacking_in(room_of(dask_worker), handed), None])
    except OSError as error:
        return data_of([name_of_worker(), [], said_of(error)])


def kept(name, data, dask_worker):
    """Keeps a file in the folder of a worker, and returns why that can't be done, or nothing. What wasn't used for long is removed."""
    try:
        room = room_of(dask_worker)
        with mutex_of(dask_worker):
            for path in room.iterdir():
                if path.is_file() and path.stat().st_mtime < time.time() - KEEPING:
                    path.unlink()
            new = room / f"{name}.new"
            new.write_bytes(data)
            new.chmod(0o700)
            new.replace(room / name)
    except (OSError, MemoryError) as error:
        return data_of(said_of(error) if isinstance(error, OSError) else "has no memory for it")
    return data_of(None)


def sums_of(inputs, folder):
    """The SHA256 of each of these files; None of one that can't be read, which the program says itself."""
    found = {}
    for path in inputs:
        try:
            found[path] = hashlib.sha256(pathlib.Path(folder, path).read_bytes()).hexdigest()
        except OSError:
            found[path] = None
    return found


# What is handed over


class Parcel:
    """The program and the inputs, as they are handed to workers: the bytes of each by their SHA256."""

    def __init__(self, program, inputs):
        first = inputs.file("program", shutil.which(program))
        self.files = {it.sum: it for it in (first, *inputs.files) if it.sum != shards.UNREADABLE}
        if first.sum not in self.files:
            raise Failure(f"{program}: can't be read, so it can't be handed over", 69)
        if os.path.realpath(program) == of_repository() and self.data(first.sum).startswith(b"#!"):
            raise Failure(f"{program}: calls other files, so it can't be handed over: name the built program in DEBPLAN", 69)

    def data(self, name):
        """The bytes of a file."""
        it = self.files[name]
        data = pathlib.Path(it.path).read_bytes() if it.data is None else it.data
        if hashlib.sha256(data).hexdigest() != name:
            raise Failure(f"{it.path}: has changed meanwhile", shards.LAST)
        return data


# The scheduler


def modules():
    """The modules of Dask that are used."""
    try:
        import cloudpickle
        import distributed
    except ImportError:
        raise Failure(f"--scheduler needs Dask, which {sys.executable} doesn't have: install Debian's python3-distributed", 69) from None
    return cloudpickle, distributed


def security_by(distributed, files):
    """How the scheduler is reached: with these files of a certificate authority, a certificate and its key, where they are named, or
    else as Dask's configuration says."""
    if not files:
        return None
    authority, certificate, key = files
    return distributed.Security(tls_ca_file=authority, tls_client_cert=certificate, tls_client_key=key, require_encryption=True)


def client_of(distributed):
    """The class of a client that is closed by who made it: one that never reached the scheduler would wait for it once more."""
    return type("Client", (distributed.Client,), {"__del__": lambda client: None})


@contextlib.contextmanager
def connected(address, inputs, parcel=None, certificates=()):
    """The workers of the scheduler at an address, which read these files, or are handed a parcel."""
    cloudpickle, distributed = modules()
    # what goes wrong is told by this tool, and not by the logs of Dask too
    logging.disable(logging.CRITICAL)
    cloudpickle.register_pickle_by_value(sys.modules[__name__])
    try:
        distributed.comm.resolve_address(address)
        client = client_of(distributed)(address, timeout=REACHING, set_as_default=False, deserializers=DATA,
                                        security=security_by(distributed, certificates))
    except TypeError:
        raise Failure(f"the scheduler {address} can't be reached: neither options nor Dask's configuration name certificates", 69) from None
    except (OSError, ValueError, RuntimeError) as error:
        raise Failure(f"the scheduler {address} can't be reached: {one_line(error)}", 69) from None
    try:
        yield Workers(client, address, {} if parcel else sums_of(inputs, os.getcwd()), parcel)
    finally:
        client.close(timeout=REACHING)


def one_line(error):
    """What an error says, on a line."""
    return " ".join(str(error).split()) or type(error).__name__


def read(answer, worker):
    """What a worker has handed back, which has to be data."""
    try:
        return json.loads(answer)
    except (TypeError, ValueError):
        raise Failure(f"the worker {worker}: hands back what is no data", shards.LAST) from None


class Workers:
    """The workers of a scheduler, whose inputs have to have the sums of those here, or are handed to them."""

    def __init__(self, client, address, sums, parcel):
        self.client, self.address, self.sums, self.parcel = client, address, sums, parcel
        self.seen = self.looked = time.monotonic()
        self.known = self.present()
        while not self.known:
            if time.monotonic() > self.seen + REACHING:
                raise Failure(f"the scheduler {address} has no worker", 69)
            time.sleep(LOOKING)
            self.known = self.present()
        self.hand_to(sorted(self.known))

    def present(self):
        """The addresses of the workers that there are."""
        return set(self.client.scheduler_info().get("workers", ()))

    def count(self):
        """How many shards there are to be."""
        return SHARDS * sum(self.client.nthreads().values())

    def handed(self):
        """The names of what is handed over, the program first."""
        return list(self.parcel.files) if self.parcel else []

    def hand_to(self, workers):
        """Hands these workers what they lack of the parcel. One that is gone by now is passed over, as others take its shards."""
        answers = self.answers(workers, lacking, self.handed()) if self.parcel else {}
        for worker, (_, _, why) in answers.items():
            self.check_kept(answers, worker, why)
        for name in self.handed():
            those = [worker for worker, (_, lacks, _) in answers.items() if name in lacks]
            for worker, why in (self.answers(those, kept, name, self.parcel.data(name)) if those else {}).items():
                self.check_kept(answers, worker, why)

    def check_kept(self, answers, worker, why):
        if why:
            raise Failure(f"the worker {answers[worker][0]}: {why}", shards.LAST)

    def answers(self, workers, function, *arguments):
        """What a function answers on each of these workers that answers, beside its tasks."""
        try:
            found = self.client.run(function, *arguments, workers=workers, on_error="ignore")
        except Exception as error:
            raise Failure(f"the scheduler {self.address}: {one_line(error)}", shards.LAST) from None
        return {worker: read(answer, worker) for worker, answer in found.items()}

    def begin(self, words, folder):
        return Task(self, words, folder)

    def news(self):
        """Which workers are gone. Where there is none for some time, nothing more can come."""
        now = time.monotonic()
        if now < self.looked + LOOKING:
            return []
        self.looked, present = now, self.present()
        gone, self.known = sorted(self.known - present), present
        self.seen = now if present else self.seen
        if now > self.seen + WAITING:
            raise Failure(f"the scheduler {self.address} has had no worker for {WAITING} seconds", shards.LAST)
        return [f"the worker {worker} is gone, and others take its shards" for worker in gone]


class Task:
    """A run by a worker, as a task of the scheduler, which gives it to another worker where this one dies."""

    def __init__(self, workers, words, folder):
        self.workers, self.words, self.folder = workers, words, folder
        self.found, self.lacked = None, set()
        self.begin()

    def begin(self):
        head, options = self.words[:shards.HEAD], self.words[shards.HEAD:]
        self.future = self.workers.client.submit(run_program, head, options, os.getcwd(), bool(self.folder), list(self.workers.sums),
                                                 self.workers.handed(), pure=False)

    def has_ended(self):
        """Whether there is an answer. A worker that lacks something, as one that came later, is handed it, and the task is begun again."""
        if not self.future.done():
            return False
        self.found = self.answer()
        if self.found["lacking"]:
            self.begin_handed(self.found["address"])
        return not self.found["lacking"]

    def begin_handed(self, address):
        """Hands a worker what it lacks, and begins the task again."""
        if address in self.lacked:
            raise Failure(f"the worker {self.found['worker']}: doesn't keep what it is handed", shards.LAST)
        self.lacked.add(address)
        self.workers.hand_to([address])
        self.begin()

    def ended(self):
        found, worker = self.found, f"the worker {self.found['worker']}"
        if found["status"] is None:
            raise Failure(f"{worker}: {found['said']}", shards.LAST)
        if shards.REFUSED <= found["status"] <= shards.LAST:
            return shards.Ended(found["status"], "", f"{found['said']}{tool.tool_name()}: so says {worker}\n")
        others = [path for path, known in self.workers.sums.items() if found["sums"][path] != known]
        if others:
            raise Failure(f"{worker}: {others[0]} is another file than here", shards.LAST)
        self.keep(found["files"])
        return shards.Ended(found["status"], shards.text_of(base64.b64decode(found["printed"])), found["said"])

    def keep(self, files):
        """Writes the files of refutations into their folder."""
        others = [name for name in files if not WRITTEN.fullmatch(name)]
        if others or files and not self.folder:
            raise Failure(f"the worker {self.found['worker']}: hands back a file {(others or list(files))[0]}", shards.LAST)
        try:
            for name, data in files.items():
                disk.write_bytes(pathlib.Path(self.folder, name), base64.b64decode(data))
        except OSError as error:
            raise Failure(f"{error.filename}: {error.strerror}", shards.LAST) from None

    def answer(self):
        """What the worker has returned."""
        try:
            return read(self.future.result(timeout=COMING), self.workers.address)
        except Failure:
            raise
        except (Exception, concurrent.futures.CancelledError) as error:
            why = {"KilledWorker": "each worker that took a shard died", "CancelledError": "it is gone",
                   "TimeoutError": f"an answer didn't come within {COMING} seconds"}.get(type(error).__name__) or one_line(error)
            raise Failure(f"the scheduler {self.workers.address}: {why}", shards.LAST) from None

    def stop(self):
        """Has the task given up, where it waits. What a worker has begun it ends."""
        if not self.future.done():
            self.future.cancel()
