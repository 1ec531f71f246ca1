"""The edges where files meet, for stops.py: two runs at once, one file under two names, what standard output leads to, links, and
inputs that can be read only once. Each has a name, and a function that has `apply` or `solve` meet it."""

import contextlib
import json
import os
import subprocess
import time

from stop_ends import DISK, OLD, SECONDS, Ended

WAITED = 30
# How long a run is held, and one that is killed meanwhile.
HELD, SHORTLY = 12, 3


# Two runs at once


@contextlib.contextmanager
def held(stops, words, place, seconds=HELD):
    """A run that is held as it is about to put its text at this place: it has written it beside, and waits so many seconds."""
    before = set(beside(place))
    calls = "rename,renameat,renameat2"
    watched = ["strace", "-D", "-q", "-o", os.devnull, "-e", f"trace={calls}", "-e", f"inject={calls}:delay_enter={seconds * 1000000}"]
    process = subprocess.Popen([*watched, *words], cwd=stops.world.folder, stdin=subprocess.DEVNULL, stdout=subprocess.PIPE,
                               stderr=subprocess.PIPE)
    try:
        wait_for(lambda: set(beside(place)) - before or process.poll() is not None)
        time.sleep(0.5)
        yield process
    finally:
        # (strace holds it till its time is over, and both streams with it)
        process.kill()
        process.wait()
        process.stdout.close()
        process.stderr.close()


def beside(place):
    return sorted(place.parent.glob(f"{place.name}.debplan-*"))


def wait_for(holds):
    end = time.monotonic() + SECONDS
    while not holds() and time.monotonic() < end:
        time.sleep(0.01)


def ended(process):
    """How a run ends that was held."""
    out, err = process.communicate(timeout=SECONDS)
    return Ended(process.returncode, out, err)


def two_with_one_journal(stops, _, what):
    """The journal is held until the output stands, so a second run is refused."""
    stops.begin(old=OLD)
    with held(stops, stops.world.apply_words(), stops.output) as first:
        stops.see_answer(stops.run(), DISK, f"{what} the second")
        stops.need(first.poll() is None and stops.output.read_bytes() == OLD, what, "the first wasn't held, or the output was changed")
        stops.see_answer(ended(first), stops.done, f"{what} the first")
    stops.need(stops.output.read_bytes() == stops.whole, what, "the output isn't whole")
    stops.see_end(what)


def two_with_two_journals(stops, room, what):
    """Each run puts a whole text, whichever is first."""
    stops.begin(old=OLD)
    with held(stops, stops.world.apply_words(), stops.output) as first:
        stops.see_answer(stops.run(journal=room / "journal"), stops.done, f"{what} the second")
        stops.need(first.poll() is None, what, "the first wasn't held")
        stops.need(stops.output.read_bytes() == stops.whole, what, "the output of the second isn't whole")
        stops.see_answer(ended(first), stops.done, f"{what} the first")
    stops.need(stops.output.read_bytes() == stops.whole, what, "the output isn't whole")
    stops.see_no_rest(what)


def one_of_two_killed(stops, room, what):
    """A run that is killed before it puts its text leaves that of the other alone."""
    stops.begin(old=OLD)
    with held(stops, stops.world.apply_words(), stops.output) as first:
        with held(stops, stops.world.apply_words(journal=room / "journal"), stops.output, SHORTLY):
            pass
        stops.need(first.poll() is None and stops.output.read_bytes() == OLD, what, "the first wasn't held, or the output was changed")
        stops.see_answer(ended(first), stops.done, f"{what} the first")
    stops.need(stops.output.read_bytes() == stops.whole, what, "the output isn't whole")
    stops.need(len(beside(stops.output)) == 1, what, "it left", *beside(stops.output))
    stops.see_answer(stops.run(journal=room / "journal"), stops.done, f"{what} the second again")
    for path in beside(stops.output):
        path.unlink()


def two_requests(stops, room, what):
    """Two runs that put what is left of a request at one place."""
    place = room / "left"
    words = stops.world.words("solve", "--keep-back", "--request-out", str(place))
    request = (stops.world.folder / "request").read_bytes()
    with held(stops, words, place) as first:
        second = run(stops, words)
        stops.need(second.status == 0 and first.poll() is None and place.read_bytes() == request, what, "the second ended with", second)
        stops.see_answer(ended(first), second, f"{what} the first")
    stops.need(place.read_bytes() == request and not beside(place), what, "the request isn't whole, or something is beside it")


def run(stops, words, **how):
    """What these words do, to their end; status None where they don't end."""
    try:
        done = subprocess.run(words, cwd=stops.world.folder, check=False, timeout=WAITED,
                              **{"stdin": subprocess.DEVNULL, "stdout": subprocess.PIPE, "stderr": subprocess.PIPE, **how})
    except subprocess.TimeoutExpired:
        return Ended(None, b"", b"it doesn't end")
    return Ended(done.returncode, done.stdout or b"", done.stderr)


# One file under two names


def files_in(folder):
    """What each file of a folder has, and where each link leads."""
    return {path: os.readlink(path) if path.is_symlink() else path.read_bytes() for path in folder.rglob("*") if not path.is_dir()}


def one_file(first, second, journal="journal", output="output", make=None):
    """Words that name one file in two places are refused, and nothing is written."""
    def tried(stops, room, what):
        if make:
            make(stops.world.folder, room)
        before = files_in(stops.world.folder)
        place = {"journal": journal.format(room=room), "output": output.format(room=room)}
        stops.see_answer(stops.run(**place), Ended(4, b"", f"debplan: {first} and {second} are one file\n".encode()), what)
        stops.need(files_in(stops.world.folder) == before, what, "something was written")
    return tried


def link_to(name):
    return lambda folder, room: (room / "link").symlink_to(folder / name)


def hard_link_to(name):
    return lambda folder, room: os.link(folder / name, room / "link")


# What standard output leads to


def at_stream(path, **opened):
    """A text that is put at what standard output is stands there behind what was there, and before the answer."""
    def tried(stops, room, what):
        link = room / "stream"
        link.symlink_to("/dev/stdout")
        log = room / "log"
        log.write_bytes(b"before\n")
        with open(log, **opened) as stream:
            answer = run(stops, stops.world.apply_words(output=path.format(link=link)), stdout=stream)
        begin = b"before\n" if opened["mode"] == "ab" else b""
        stops.see_answer(answer, Ended(0, b"", b""), what)
        stops.need(log.read_bytes() == begin + stops.whole + stops.done.out, what, "the file has", log.read_bytes())
    return tried


def at_pipe(stops, _, what):
    answer = stops.run(output="/dev/stdout")
    stops.see_answer(answer, Ended(0, stops.whole + stops.done.out, b""), what)


def at_descriptor(stops, room, what):
    """A file that another descriptor has open is written at its end."""
    log = room / "log"
    log.write_bytes(b"before\n")
    with open(log, "r+b") as stream:
        answer = run(stops, stops.world.apply_words(output=f"/dev/fd/{stream.fileno()}"), pass_fds=[stream.fileno()])
    stops.see_answer(answer, stops.done, what)
    stops.need(log.read_bytes() == b"before\n" + stops.whole, what, "the file has", log.read_bytes())


def request_at_stream(stops, room, what):
    log = room / "log"
    log.write_bytes(b"before\n")
    words = stops.world.words("solve", "--keep-back", "--request-out", "/dev/stdout")
    with open(log, "ab") as stream:
        answer = run(stops, words, stdout=stream)
    stops.need(answer.status == 0, what, "ended with", answer)
    request = (stops.world.folder / "request").read_bytes()
    stops.need(log.read_bytes().startswith(b"before\n" + request + b"plan 1\n"), what, "the file has", log.read_bytes())


# Links that lead to nothing


def dangling(which, target):
    """A link stays, and the file that it leads to is made."""
    def tried(stops, room, what):
        (room / "below").mkdir()
        link = room / which
        link.symlink_to(target.format(room=room))
        stops.see_answer(stops.run(**{which: link}), stops.done, what)
        made = room / "below" / "made"
        stops.need(link.is_symlink() and made.is_file() and not made.is_symlink(), what, "the link is gone, or its file isn't there")
        if which == "output" and made.is_file():
            stops.need(made.read_bytes() == stops.whole, what, "the output isn't whole")
        stops.see_answer(stops.run(**{which: link}), stops.done, f"{what} again")
    return tried


# Inputs that can be read only once


@contextlib.contextmanager
def fed(path, file):
    """A named pipe that gives the text of a file once."""
    os.mkfifo(path)
    feeder = subprocess.Popen(["sh", "-c", 'exec cat "$1" >"$2"', "sh", str(file), str(path)], stdin=subprocess.DEVNULL)
    try:
        yield
    finally:
        feeder.kill()
        feeder.wait()


def with_sources(words, path):
    return [str(path) if word == "sources" else word for word in words]


def index_of_pipe(stops, room, words):
    """What these words do where the index is a named pipe."""
    (room / "sources").write_text(f"File: {room}/index\n", encoding="utf-8")
    with fed(room / "index", stops.world.folder / "index"):
        return run(stops, with_sources(words, room / "sources"))


def index_once(stops, room, what):
    answer = index_of_pipe(stops, room, stops.world.apply_words())
    stops.see_answer(answer, Ended(5, b"", b"debplan: index 1: E5 Read\n"), what)
    stops.need(not stops.journal.exists() and not stops.output.exists(), what, "a journal or an output was made")


def index_once_by_descriptor(stops, room, what):
    number, other = os.pipe()
    feeder = subprocess.Popen(["cat", "index"], cwd=stops.world.folder, stdout=other)
    os.close(other)
    (room / "sources").write_text(f"File: /dev/fd/{number}\n", encoding="utf-8")
    answer = run(stops, with_sources(stops.world.apply_words(), room / "sources"), pass_fds=[number])
    os.close(number)
    feeder.wait()
    stops.see_answer(answer, Ended(5, b"", b"debplan: index 1: E5 Read\n"), what)


def see_document(stops, answer, what):
    """An answer is printed, with nothing of what can't be read again."""
    stops.need(answer.status == 0 and not answer.err, what, "ended with", answer)
    plan = json.loads(answer.out or b"{}")
    files = [step.get("filename") for step in plan.get("steps", []) if step.get("action") == "unpack"]
    stops.need(bool(plan.get("steps")) and not any(files), what, "it says", plan)


def index_once_as_json(stops, room, what):
    see_document(stops, index_of_pipe(stops, room, stops.world.words("solve", "--format", "json")), what)


def sources_once_as_json(stops, room, what):
    with fed(room / "sources", stops.world.folder / "sources"):
        see_document(stops, run(stops, with_sources(stops.world.words("solve", "--format", "json"), room / "sources")), what)


EDGES = [
    ("two runs with one journal and one output", two_with_one_journal),
    ("two runs with two journals and one output", two_with_two_journals),
    ("two runs with two journals and one output, one of them killed", one_of_two_killed),
    ("two runs with one --request-out", two_requests),
    ("the journal is the output", one_file("--journal", "--output", journal="output")),
    ("the journal is the output, a file", one_file("--journal", "--output", journal="output",
                                                   make=lambda folder, _: (folder / "output").write_bytes(OLD))),
    ("the journal is a link to the output that is to be made", one_file("--journal", "--output", journal="{room}/link", make=link_to("output"))),
    ("the journal is the empty status file", one_file("--journal", "--status", journal="status")),
    ("the journal is a link to the request", one_file("--journal", "--request", journal="{room}/link", make=link_to("request"))),
    ("the journal is the sources file", one_file("--journal", "--sources", journal="sources")),
    ("the journal is the plan", one_file("--journal", "PLAN", journal="./plan")),
    ("the journal is the index", one_file("--journal", "index 1", journal="index")),
    ("the output is the status file", one_file("--output", "--status", output="status")),
    ("the output is a hard link of the status file", one_file("--output", "--status", output="{room}/link", make=hard_link_to("status"))),
    ("the output is a link to the index", one_file("--output", "index 1", output="{room}/link", make=link_to("index"))),
    ("/dev/stdout as output, where >>log", at_stream("/dev/stdout", mode="ab")),
    ("/dev/stdout as output, where >log", at_stream("/dev/stdout", mode="wb")),
    ("/dev/fd/1 as output, where >>log", at_stream("/dev/fd/1", mode="ab")),
    ("/proc/self/fd/1 as output, where >>log", at_stream("/proc/self/fd/1", mode="ab")),
    ("a link to /dev/stdout as output, where >>log", at_stream("{link}", mode="ab")),
    ("/dev/stdout as output, a pipe", at_pipe),
    ("/dev/fd/N as output, a file", at_descriptor),
    ("/dev/stdout as --request-out, where >>log", request_at_stream),
    ("a dangling link as journal", dangling("journal", "below/made")),
    ("a dangling link as output", dangling("output", "below/made")),
    ("a dangling link with a whole path as output", dangling("output", "{room}/below/made")),
    ("an index that is a named pipe", index_once),
    ("an index that is a pipe, as /dev/fd/N", index_once_by_descriptor),
    ("an index that is a named pipe, as JSON", index_once_as_json),
    ("sources that are a named pipe, as JSON", sources_once_as_json),
]
